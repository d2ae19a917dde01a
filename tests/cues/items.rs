//! The items of 73, one by one: which of them a list of records breaks, and ways to break each alone.

use oracle::cue::{other_end, Cue};
use oracle::field::Field;
use oracle::plan::NONE;
use oracle::rng::Rng;

/// Every item that does not hold of the first N records, each looked at by itself.
pub fn broken(field: &Field, tree: &[u8], records: &[Cue]) -> Vec<&'static str> {
    let heard: Vec<&Cue> = records.iter().filter(|r| r.heard == 1).collect();
    let unheard = || records.iter().filter(|r| r.heard == 0);
    let senders = || heard.iter().filter(|r| r.link == NONE);
    // module, its record, the record at the other end of an own link
    let others = (0..records.len()).filter(|v| records[*v].heard == 1 && records[*v].link != NONE);
    let by: Vec<(Cue, Option<Cue>)> = others
        .map(|v| (records[v], other_end(field, v as u16, records[v].link).map(|near| records[near as usize])))
        .collect();
    let own = || by.iter().filter_map(|(r, near)| near.map(|near| (*r, near)));
    let mut out = Vec::new();
    let mut item = |name, holds: bool| {
        if !holds {
            out.push(name);
        }
    };
    item("heard above 1", records.iter().all(|r| r.heard <= 1));
    item("not heard, a cue", unheard().all(|r| r.cue == 0));
    item("not heard, a link", unheard().all(|r| r.link == NONE));
    item("not heard, hops", unheard().all(|r| r.hops == 0));
    item("another cue", heard.iter().all(|r| r.cue == heard[0].cue));
    item("nobody heard", !heard.is_empty());
    item("no sender", heard.is_empty() || senders().count() > 0);
    item("second sender", senders().count() < 2);
    item("sender with hops", senders().all(|r| r.hops == 0));
    item("no own link", by.iter().all(|(_, near)| near.is_some()));
    item("no tree link", own().all(|(r, _)| tree[r.link as usize] == 1));
    item("near end not heard", own().all(|(_, near)| near.heard == 1));
    item("hops", own().all(|(r, near)| r.hops as u32 == near.hops as u32 + 1));
    out
}

/// A field with its tree and the records that a damage is for.
pub struct Marked<'a> {
    pub field: &'a Field,
    pub tree: &'a [u8],
}

pub type Damage = fn(&mut Rng, &Marked, &mut [Cue]);

/// Item, way to break it, damage (of a generator r, a field m and its records c). Some damages do nothing to some records,
/// or break more than their item: the caller looks at what is broken.
#[rustfmt::skip]
pub const WAYS: [(&str, &str, Damage); 27] = [
    ("heard above 1", "one that heard", |r, _, c| some(r, c, 1, |r, x| x.heard = r.pick(&[2, 3, 128, 129, 255]))),
    ("heard above 1", "one that did not", |r, _, c| some(r, c, 0, |r, x| x.heard = r.pick(&[2, 3, 128, 129, 255]))),
    ("not heard, a cue", "any", |r, _, c| some(r, c, 0, |r, x| x.cue = r.range(1, 65535) as u16)),
    ("not heard, a cue", "the others'", their_cue),
    ("not heard, a link", "0", |r, _, c| some(r, c, 0, |_, x| x.link = 0)),
    ("not heard, a link", "any", |r, _, c| some(r, c, 0, |r, x| x.link = r.range(0, 65534) as u16)),
    ("not heard, hops", "any", |r, _, c| some(r, c, 0, |r, x| x.hops = r.pick(&[1, 2, 256, 65534, 65535]))),
    ("another cue", "of one", |r, _, c| some(r, c, 1, |r, x| x.cue ^= r.pick(&[1, 2, 255, 256, 0x8000]))),
    ("another cue", "of all but the sender", |r, _, c| each(r, c, |_, x| x.cue ^= (x.link != NONE) as u16)),
    ("nobody heard", "never started", |_, _, c| c.fill(Cue::UNHEARD)),
    ("second sender", "that had not heard", |r, _, c| second_sender(r, c, 0)),
    ("second sender", "that had heard", |r, _, c| second_sender(r, c, 1)),
    ("sender with hops", "alone", |r, _, c| some(r, c, 1, |r, x| x.hops = r.pick(&[1, 256, 65535]))),
    ("sender with hops", "as all others", |r, _, c| shift(r, c)),
    ("no own link", "another module's", |r, m, c| relink(r, c, |r, _| r.below(m.tree.len().max(1)) as u16)),
    ("no own link", "not below L", |r, m, c| relink(r, c, |r, _| m.tree.len() as u16 + r.pick(&[0, 0, 1, 600]))),
    ("no own link", "the largest", |r, _, c| relink(r, c, |_, _| 65534)),
    ("no tree link", "fitting else", off_the_tree),
    ("near end not heard", "one hop", |r, m, c| ahead(r, m, c)),
    ("hops", "one more", |r, _, c| some(r, c, 1, |_, x| x.hops += 1)),
    ("hops", "one fewer", |r, _, c| some(r, c, 1, |_, x| x.hops = x.hops.saturating_sub(1))),
    ("hops", "0", |r, _, c| some(r, c, 1, |_, x| x.hops = 0)),
    ("hops", "256 more", |r, _, c| some(r, c, 1, |_, x| x.hops += 256)),
    ("hops", "any", |r, _, c| some(r, c, 1, |r, x| x.hops = r.next() as u16)),
    ("hops", "65534 or 65535", |r, _, c| some(r, c, 1, |r, x| x.hops = r.pick(&[65534, 65535]))),
    ("hops", "past 65535", |r, m, c| pair(r, m, c, 65535, 0)),
    ("hops", "up to 65535", |r, m, c| pair(r, m, c, 65534, 65535)),
];

/// One of the modules whose record has this `heard`.
fn pick(rng: &mut Rng, records: &[Cue], heard: u8) -> Option<usize> {
    let all: Vec<usize> = (0..records.len()).filter(|v| records[*v].heard == heard).collect();
    if all.is_empty() {
        None
    } else {
        Some(rng.pick(&all))
    }
}

fn some(rng: &mut Rng, records: &mut [Cue], heard: u8, change: fn(&mut Rng, &mut Cue)) {
    if let Some(v) = pick(rng, records, heard) {
        change(rng, &mut records[v]);
    }
}

fn each(rng: &mut Rng, records: &mut [Cue], change: fn(&mut Rng, &mut Cue)) {
    records.iter_mut().filter(|r| r.heard == 1).for_each(|r| change(rng, r));
}

fn their_cue(rng: &mut Rng, _: &Marked, records: &mut [Cue]) {
    let cue = records.iter().find(|r| r.heard == 1).map_or(0, |r| r.cue);
    if let Some(v) = pick(rng, records, 0) {
        records[v].cue = cue;
    }
}

fn second_sender(rng: &mut Rng, records: &mut [Cue], heard: u8) {
    let cue = records.iter().find(|r| r.heard == 1).map_or(0, |r| r.cue);
    if let Some(v) = pick(rng, records, heard) {
        records[v] = Cue::of_sender(cue);
    }
}

/// All hops more by the same number.
fn shift(rng: &mut Rng, records: &mut [Cue]) {
    let most = records.iter().map(|r| r.hops).max().unwrap_or(0);
    let by = rng.pick(&[1, 2, 65535 - most, 65534 - most]);
    records.iter_mut().filter(|r| r.heard == 1).for_each(|r| r.hops += by);
}

fn relink(rng: &mut Rng, records: &mut [Cue], link: impl Fn(&mut Rng, Cue) -> u16) {
    if let Some(v) = pick(rng, records, 1) {
        records[v].link = link(rng, records[v]);
    }
}

/// A module that heard over an own link that is not in the tree, from a module that has heard, a hop further.
fn off_the_tree(rng: &mut Rng, m: &Marked, records: &mut [Cue]) {
    let v = rng.below(records.len());
    let own: Vec<u16> = m.field.plan.own_links(v as u16).into_iter().filter(|k| m.tree[*k as usize] == 0).collect();
    if own.is_empty() {
        return;
    }
    let link = rng.pick(&own);
    let near = records[other_end(m.field, v as u16, link).expect("an own link") as usize];
    records[v] = Cue { heard: 1, cue: near.cue, link, hops: near.hops + 1 };
}

/// A module that heard from one that has not heard.
fn ahead(rng: &mut Rng, m: &Marked, records: &mut [Cue]) {
    let own = |v: usize| m.field.plan.own_links(v as u16).into_iter().filter(|k| m.tree[*k as usize] == 1);
    let cue = records.iter().find(|r| r.heard == 1).map_or(0, |r| r.cue);
    if let Some(v) = pick(rng, records, 0) {
        let links: Vec<u16> = own(v).collect();
        if !links.is_empty() {
            records[v] = Cue { heard: 1, cue, link: rng.pick(&links), hops: 1 };
        }
    }
}

/// These hops for a module and one that heard from it.
fn pair(rng: &mut Rng, m: &Marked, records: &mut [Cue], near: u16, far: u16) {
    if let Some(v) = pick(rng, records, 1).filter(|v| records[*v].link != NONE) {
        let from = other_end(m.field, v as u16, records[v].link).expect("an own link") as usize;
        if records[from].link != NONE {
            (records[from].hops, records[v].hops) = (near, far);
        }
    }
}
