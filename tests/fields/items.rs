//! The items of refusal 31, one by one: which of them a record breaks, and ways to break each alone.

use oracle::field::{waiting, Field};
use oracle::fields::drawn;
use oracle::frame::Message;
use oracle::plan::{Link, Plan, NONE};
use oracle::plans::{self, Readings};
use oracle::rng::Rng;
use oracle::rules::{Module, ASLEEP};

pub const PLAN: [&str; 5] = ["plan 14", "plan 15", "plan 16", "plan 17", "plan 18"];

/// Every item that does not hold, each looked at by itself, in document 01's order, request 05's beside them.
pub fn broken(field: &Field, words: &[u64]) -> Vec<&'static str> {
    let mut out = Vec::new();
    if let Err(number) = field.plan.check() {
        out.push(PLAN[number as usize - 14]);
    }
    of_words(field, words, &mut out);
    of_modules(field, &mut out);
    if waiting(words) > field.sent as usize {
        out.push("waiting above sent");
    }
    if field.sent > field.plan.ceiling() {
        out.push("sent above M");
    }
    out
}

fn of_words(field: &Field, words: &[u64], out: &mut Vec<&'static str>) {
    let (l, top) = (field.plan.links.len(), field.plan.top_level());
    let (front, rest) = words.split_at(waiting(words));
    let header = |w: u64| w as u8;
    let carried = |w: u64| (w >> 8) as u16;
    // of carried numbers only whether one is there: how large it may be is an item of its own
    let laid_out = |w: u64| w >> 41 == 1 && Message::listed(header(w), carried(w), NONE).is_some();
    let mut item = |name, holds: bool| {
        if !holds {
            out.push(name);
        }
    };
    item("words fewer than M", words.len() >= field.plan.ceiling() as usize);
    item("words with a gap", rest.iter().all(|w| *w == 0));
    item("word not as laid out", front.iter().all(|w| laid_out(*w)));
    item("carried link", front.iter().all(|w| carried(*w) == NONE || (carried(*w) as usize) < l));
    item("directed link", front.iter().all(|w| ((w >> 24) as u16 as usize) < 2 * l));
    item("word's level", front.iter().all(|w| (header(*w) >> 3 & 7) as u16 <= top));
}

fn of_modules(field: &Field, out: &mut Vec<&'static str>) {
    let (l, top) = (field.plan.links.len(), field.plan.top_level());
    let link = |x: u16| x == NONE || (x as usize) < l;
    let own = |v: usize, x: u16| {
        x == NONE || field.plan.links.get(x as usize).is_some_and(|k| k.lower == v as u16 || k.higher == v as u16)
    };
    let degree = |v: usize| field.plan.own_links(v as u16).len();
    let modules = || field.modules.iter().enumerate();
    let mut item = |name, holds: bool| {
        if !holds {
            out.push(name);
        }
    };
    item("status", modules().all(|(_, m)| m.status <= 2));
    item("identity", modules().all(|(_, m)| link(m.identity)));
    item("best weight", modules().all(|(_, m)| link(m.best_weight)));
    item("best edge", modules().all(|(v, m)| own(v, m.best_edge)));
    item("test edge", modules().all(|(v, m)| own(v, m.test_edge)));
    item("in-branch", modules().all(|(v, m)| own(v, m.in_branch)));
    item("halted", modules().all(|(_, m)| m.halted <= 1));
    item("waking link", modules().all(|(v, m)| own(v, m.waking)));
    item("mark", field.marks.iter().flatten().all(|mark| *mark <= 2));
    item("level", modules().all(|(_, m)| m.level <= top));
    item("find-count", modules().all(|(v, m)| m.find_count as usize <= degree(v)));
    item("no identity above level 0", modules().all(|(_, m)| m.level == 0 || m.identity != NONE));
    item("identity at level 0", modules().all(|(_, m)| m.level > 0 || m.identity == NONE));
    item("sleeper's waking link", modules().all(|(_, m)| m.status != ASLEEP || m.waking == NONE));
}

pub type Damage = fn(&mut Rng, &mut Field, &mut Vec<u64>);

/// Item, way to break it, damage (of a generator r, a field f and its words w). Some damages do nothing to some fields,
/// or break more than their item: the caller looks at what is broken.
#[rustfmt::skip]
pub const WAYS: [(&str, &str, Damage); 48] = [
    ("plan 14", "N above 192", |r, f, w| replanned(r, f, w, |r, p| p.modules = r.range(193, 255) as u16)),
    ("plan 15", "L above 600", many_links),
    ("plan 15", "L above 600, N is 0", many_of_nobody),
    ("plan 16", "N is 0", no_modules),
    ("plan 16", "lower is higher", |r, f, w| relinked(r, f, w, |_, _, k| k.lower = k.higher)),
    ("plan 16", "lower above higher", |r, f, w| relinked(r, f, w, |_, _, k| (k.lower, k.higher) = (k.higher, k.lower))),
    ("plan 16", "higher not below N", |r, f, w| relinked(r, f, w, |r, n, k| k.higher = past(r, n))),
    ("plan 17", "a link twice", |r, f, w| replanned(r, f, w, twice)),
    ("plan 17", "two links exchanged", |r, f, w| replanned(r, f, w, exchanged)),
    ("plan 18", "reading at the lower", |r, f, w| relinked(r, f, w, |r, _, k| k.at_lower = past(r, 2001))),
    ("plan 18", "reading at the higher", |r, f, w| relinked(r, f, w, |r, _, k| k.at_higher = past(r, 2001))),
    ("words fewer than M", "cut", cut),
    ("words with a gap", "a zero among them", |r, _, w| changed(r, w, |_, _| 0)),
    ("words with a gap", "one behind the zeros", apart),
    ("word not as laid out", "bit 41 clear", |r, _, w| changed(r, w, |_, x| x & !(1 << 41))),
    ("word not as laid out", "a bit above 41", |r, _, w| changed(r, w, |r, x| x | 1 << r.range(42, 63))),
    ("word not as laid out", "header bit 7", |r, _, w| changed(r, w, |_, x| x | 1 << 7)),
    ("word not as laid out", "kind 0", |r, _, w| changed(r, w, |_, x| x & !7)),
    ("word not as laid out", "Initiate of level 0", |r, f, w| message(r, f, w, &[0x02, 0x42], true)),
    ("word not as laid out", "Test of level 0", |r, f, w| message(r, f, w, &[0x03], true)),
    ("word not as laid out", "Initiate, Test with none", |r, f, w| message(r, f, w, &[0x0a, 0x4a, 0x0b], false)),
    ("word not as laid out", "unused level", |r, f, w| message(r, f, w, &[0x0c, 0x0d, 0x0e, 0x0f], false)),
    ("word not as laid out", "unused Find", |r, f, w| message(r, f, w, &[0x41, 0x44, 0x45, 0x46, 0x47], false)),
    ("word not as laid out", "Find in a Test", |r, f, w| message(r, f, w, &[0x4b], true)),
    ("word not as laid out", "unused carried number", |r, f, w| message(r, f, w, &[0x01, 0x04, 0x05, 0x07], true)),
    ("carried link", "not below L", carry),
    ("directed link", "not below 2 × L", direct),
    ("word's level", "above log2 N", raise),
    ("status", "above 2", |r, f, _| some_module(r, f, |r, _, m| m.status = past(r, 3))),
    ("identity", "not below L", |r, f, _| some_module(r, f, |r, p, m| m.identity = past_links(r, p))),
    ("best weight", "not below L", |r, f, _| some_module(r, f, |r, p, m| m.best_weight = past_links(r, p))),
    ("best edge", "not below L", |r, f, _| some_module(r, f, |r, p, m| m.best_edge = past_links(r, p))),
    ("best edge", "another module's", |r, f, _| some_module(r, f, |r, p, m| m.best_edge = some_link(r, p))),
    ("test edge", "not below L", |r, f, _| some_module(r, f, |r, p, m| m.test_edge = past_links(r, p))),
    ("test edge", "another module's", |r, f, _| some_module(r, f, |r, p, m| m.test_edge = some_link(r, p))),
    ("in-branch", "not below L", |r, f, _| some_module(r, f, |r, p, m| m.in_branch = past_links(r, p))),
    ("in-branch", "another module's", |r, f, _| some_module(r, f, |r, p, m| m.in_branch = some_link(r, p))),
    ("halted", "above 1", |r, f, _| some_module(r, f, |r, _, m| m.halted = past(r, 2))),
    ("waking link", "not below L", |r, f, _| some_module(r, f, |r, p, m| m.waking = past_links(r, p))),
    ("waking link", "another module's", |r, f, _| some_module(r, f, |r, p, m| m.waking = some_link(r, p))),
    ("mark", "above 2", mark),
    ("level", "above log2 N", |r, f, _| some_module(r, f, |r, p, m| m.level = past(r, p.top_level() + 1))),
    ("find-count", "above the links", find_count),
    ("no identity above level 0", "none", |r, f, _| some_module(r, f, |_, _, m| m.identity = NONE)),
    ("identity at level 0", "a link", |r, f, _| some_module(r, f, |r, p, m| m.identity = some_link(r, p))),
    ("sleeper's waking link", "a link", |r, f, _| some_module(r, f, |r, p, m| m.waking = some_link(r, p))),
    ("waiting above sent", "sent lowered", |r, f, w| f.sent = r.below(waiting(w).max(1)) as u32),
    ("sent above M", "sent raised", |r, f, _| f.sent = f.plan.ceiling() + r.pick(&[1, 1, 2, 65536, u32::MAX / 2])),
];

/// A number from `bound` on, most of them near it; never 65535.
fn past(rng: &mut Rng, bound: u16) -> u16 {
    let any = rng.range(bound as usize, 65534) as u16;
    rng.pick(&[bound, bound, bound + 1, 65534, any])
}

fn past_links(rng: &mut Rng, plan: &Plan) -> u16 {
    past(rng, plan.links.len() as u16)
}

fn some_link(rng: &mut Rng, plan: &Plan) -> u16 {
    rng.below(plan.links.len().max(1)) as u16
}

/// Changes some module's values, if there is a module.
fn some_module(rng: &mut Rng, field: &mut Field, change: fn(&mut Rng, &Plan, &mut Module)) {
    if !field.modules.is_empty() {
        let v = rng.below(field.modules.len());
        change(rng, &field.plan, &mut field.modules[v]);
    }
}

/// A field over a changed plan, sound but for that.
fn replanned(rng: &mut Rng, field: &mut Field, words: &mut Vec<u64>, change: fn(&mut Rng, &mut Plan)) {
    let mut plan = field.plan.clone();
    if !plan.links.is_empty() {
        change(rng, &mut plan);
        (*field, *words) = drawn(rng, &plan);
    }
}

fn relinked(rng: &mut Rng, field: &mut Field, words: &mut Vec<u64>, change: fn(&mut Rng, u16, &mut Link)) {
    let mut plan = field.plan.clone();
    if !plan.links.is_empty() {
        let k = rng.below(plan.links.len());
        change(rng, plan.modules, &mut plan.links[k]);
        (*field, *words) = drawn(rng, &plan);
    }
}

/// Nobody at the links. Where there are none, the field is that of a blank plan, and nothing is broken.
fn no_modules(rng: &mut Rng, field: &mut Field, words: &mut Vec<u64>) {
    field.plan.modules = 0;
    field.modules.clear();
    field.sent = rng.range(0, field.plan.ceiling() as usize) as u32;
    words.fill(0);
}

fn many_links(rng: &mut Rng, field: &mut Field, words: &mut Vec<u64>) {
    let mut pairs = plans::complete(rng.range(37, 60) as u16);
    pairs.truncate(rng.pick(&[601, 602, 666]));
    let n = 1 + pairs.iter().map(|p| p.1).max().unwrap();
    let plan = plans::plan(rng, n, pairs, Readings::Wide);
    (*field, *words) = drawn(rng, &plan);
}

fn many_of_nobody(rng: &mut Rng, field: &mut Field, words: &mut Vec<u64>) {
    many_links(rng, field, words);
    no_modules(rng, field, words);
}

fn twice(rng: &mut Rng, plan: &mut Plan) {
    let k = rng.below(plan.links.len());
    plan.links.insert(k, plan.links[k]);
    plan.links.truncate(600);
}

fn exchanged(rng: &mut Rng, plan: &mut Plan) {
    let (a, b) = (rng.below(plan.links.len()), rng.below(plan.links.len()));
    plan.links.swap(a, b);
}

fn cut(rng: &mut Rng, field: &mut Field, words: &mut Vec<u64>) {
    let most = field.plan.ceiling() as usize;
    words.truncate(most.saturating_sub(rng.pick(&[1, 1, 2, 9])));
}

fn some_word<'a>(rng: &mut Rng, words: &'a mut [u64]) -> Option<&'a mut u64> {
    match waiting(words) {
        0 => None,
        n => Some(&mut words[rng.below(n)]),
    }
}

fn changed(rng: &mut Rng, words: &mut [u64], change: fn(&mut Rng, u64) -> u64) {
    if let Some(word) = some_word(rng, words) {
        *word = change(rng, *word);
    }
}

/// A sound word behind zeros.
fn apart(rng: &mut Rng, _: &mut Field, words: &mut Vec<u64>) {
    let n = waiting(words);
    if n > 0 && n + 1 < words.len() {
        let at = rng.range(n + 1, words.len() - 1);
        words[at] = words[rng.below(n)];
    }
}

/// The word with other bits from `at` on, as many as `ones` has.
fn with(word: u64, at: u32, ones: u64, bits: u64) -> u64 {
    word & !(ones << at) | bits << at
}

/// One of these headers in a waiting word, with a link or with none.
fn message(rng: &mut Rng, field: &Field, words: &mut [u64], headers: &[u8], link: bool) {
    if let Some(word) = some_word(rng, words) {
        let carried = if link { some_link(rng, &field.plan) } else { NONE };
        *word = with(with(*word, 0, 0xff, rng.pick(headers) as u64), 8, 0xffff, carried as u64);
    }
}

fn carry(rng: &mut Rng, field: &mut Field, words: &mut Vec<u64>) {
    if let Some(word) = some_word(rng, words) {
        *word = with(*word, 8, 0xffff, past_links(rng, &field.plan) as u64);
    }
}

fn direct(rng: &mut Rng, field: &mut Field, words: &mut Vec<u64>) {
    if let Some(word) = some_word(rng, words) {
        let first = past(rng, 2 * field.plan.links.len() as u16);
        *word = with(*word, 24, 0xffff, rng.pick(&[first, first, 65535]) as u64);
    }
}

fn raise(rng: &mut Rng, field: &mut Field, words: &mut Vec<u64>) {
    let top = field.plan.top_level() as usize;
    if let Some(word) = some_word(rng, words).filter(|_| top < 7) {
        *word = with(*word, 3, 7, rng.range(top + 1, 7) as u64);
    }
}

fn mark(rng: &mut Rng, field: &mut Field, _: &mut Vec<u64>) {
    if !field.marks.is_empty() {
        let k = rng.below(field.marks.len());
        field.marks[k][rng.below(2)] = rng.pick(&[3, 3, 4, 128, 255]);
    }
}

fn find_count(rng: &mut Rng, field: &mut Field, _: &mut Vec<u64>) {
    if field.modules.is_empty() {
        return;
    }
    let v = rng.below(field.modules.len());
    let links = field.plan.own_links(v as u16).len() as u16;
    field.modules[v].find_count = if rng.once_in(8) { 65535 } else { past(rng, links + 1) };
}
