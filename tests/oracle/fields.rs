//! Generators of field records as a host may supply them: valid in the sense of 31, though most of them no run from
//! setup can reach, and spoilt ones; and of steps on a field.

use crate::field::{waiting, Field, Word, HAND_OVER, SERVE, WAKE};
use crate::frame::{Message, CONNECT, INITIATE, REPORT, TEST};
use crate::kruskal;
use crate::plan::{Link, Plan, NONE};
use crate::plans;
use crate::rng::Rng;
use crate::rules::{Module, ASLEEP, BASIC, BRANCH, REJECTED};
use crate::schedule::Step;

/// What a step of each kind meets on a field of the blank plan, and kinds that there are not.
pub const BLANK_STEPS: [(u8, u32); 6] = [(WAKE, 41), (HAND_OVER, 42), (SERVE, 41), (0, 54), (4, 54), (255, 54)];

/// Numbers of steps, of which there is nothing in the blank plan: the first, the next, about the bounds, the last.
pub const BLANK_NUMBERS: [u16; 5] = [0, 1, 192, 1199, 65535];

/// One of the numbers, or none.
fn or_none(rng: &mut Rng, numbers: &[u16]) -> u16 {
    if numbers.is_empty() || rng.once_in(3) {
        NONE
    } else {
        rng.pick(numbers)
    }
}

fn module(rng: &mut Rng, plan: &Plan, v: u16) -> Module {
    let links: Vec<u16> = (0..plan.links.len() as u16).collect();
    let own = plan.own_links(v);
    let some = rng.range(0, own.len());
    // an identity is a link's number, so where there is none no level is above 0
    let top = if links.is_empty() { 0 } else { plan.top_level() };
    let (status, level) = (rng.below(3) as u16, rng.range(0, top as usize) as u16);
    Module {
        status,
        level,
        identity: if level == 0 { NONE } else { rng.pick(&links) },
        best_weight: or_none(rng, &links),
        best_edge: or_none(rng, &own),
        test_edge: or_none(rng, &own),
        in_branch: or_none(rng, &own),
        find_count: rng.pick(&[0, some, own.len()]) as u16,
        halted: rng.below(2) as u16,
        waking: if status == ASLEEP { NONE } else { or_none(rng, &own) },
    }
}

/// A listed message with a level up to the top one and carried numbers below L, on some directed link.
fn word(rng: &mut Rng, plan: &Plan) -> Word {
    let (links, top) = (plan.links.len(), plan.top_level() as usize);
    let kind = rng.range(1, 7) as u8;
    let carried = rng.below(links) as u16;
    let message = match kind {
        CONNECT => Message::connect(rng.range(0, top) as u16),
        INITIATE => Message::initiate(rng.range(1, top) as u16, carried, rng.once_in(2)),
        TEST => Message::test(rng.range(1, top) as u16, carried),
        REPORT => Message::report(if rng.once_in(3) { NONE } else { carried }),
        _ => Message::bare(kind),
    };
    Word { message, directed: rng.below(2 * links) as u16, handed: !rng.once_in(3) }
}

/// Lets a message meet what it rarely meets at random: a Test its own fragment and the module's own Test, a Report the
/// in-branch, or the last one due no in-branch.
fn meet(rng: &mut Rng, field: &mut Field, word: &mut Word) {
    let (v, j) = (field.target(word.directed), word.directed / 2);
    let Some(module) = field.modules.get_mut(v as usize) else { return };
    let due = rng.pick(&[module.find_count, 0]);
    match word.message.kind {
        TEST if module.identity != NONE => {
            word.message = Message::test(module.level, module.identity);
            *module = Module { test_edge: j, find_count: due, ..*module };
        }
        REPORT if rng.once_in(2) => module.in_branch = j,
        REPORT => *module = Module { in_branch: NONE, test_edge: NONE, find_count: 1, ..*module },
        _ => {}
    }
}

/// A valid field over a good plan, with its words; of a small plan now and then with a full store.
pub fn drawn(rng: &mut Rng, plan: &Plan) -> (Field, Vec<u64>) {
    let most = plan.ceiling() as usize;
    let full = most <= 100 && rng.once_in(8);
    let waiting = match plan.links.len() {
        0 => 0,
        _ if full => most,
        _ => rng.below(most.min(12) + 1),
    };
    // a sent count near M brings 33
    let sent = if rng.once_in(4) { most - rng.below(3.min(most - waiting + 1)) } else { rng.range(waiting, most) };
    let marks = plan.links.iter().map(|_| [rng.below(3) as u8, rng.below(3) as u8]).collect();
    let modules = (0..plan.modules).map(|v| module(rng, plan, v)).collect();
    let mut field = Field { plan: plan.clone(), modules, marks, sent: sent as u32 };
    let mut words: Vec<Word> = (0..waiting).map(|_| word(rng, plan)).collect();
    for word in &mut words {
        if rng.once_in(2) {
            meet(rng, &mut field, word);
        }
    }
    let mut words: Vec<u64> = words.iter().map(Word::pack).collect();
    words.resize(most + if full { 0 } else { rng.pick(&[0, 0, 1, 5]) }, 0);
    (field, words)
}

/// The same over a drawn plan, small most of the time.
pub fn some_field(rng: &mut Rng) -> (Field, Vec<u64>) {
    let kind = rng.pick(&[
        "blank", "single", "path", "star", "ring", "complete", "small", "small", "small", "small", "medium", "full",
        "banks", "banks", "forest", "islands", "islands", "unlinked", "wide",
    ]);
    let plan = plans::good(rng, kind);
    drawn(rng, &plan)
}

/// A valid field that is marked with the plan's tree, though most of the rest fits no finished field: sleepers, waiting
/// messages. An end of another link is Basic or Rejected.
pub fn marked(rng: &mut Rng, plan: &Plan) -> (Field, Vec<u64>) {
    let (mut field, words) = drawn(rng, plan);
    for (marks, in_tree) in field.marks.iter_mut().zip(kruskal::tree(plan)) {
        let other = [BASIC, REJECTED];
        *marks = if in_tree == 1 { [BRANCH; 2] } else { [rng.pick(&other), rng.pick(&other)] };
    }
    (field, words)
}

/// Changes a field of a blank plan or its words: there are only the plan, the sent count and the words to change.
fn spoil_blank(rng: &mut Rng, field: &mut Field, words: &mut Vec<u64>) {
    let connect = Word { message: Message::connect(0), directed: 0, handed: rng.once_in(2) };
    match rng.below(6) {
        0 => field.sent = rng.pick(&[1, 2, 65536, u32::MAX]),
        1 => words.push(rng.pick(&[1, 1 << 41, connect.pack()])),
        // as one that was sent
        2 => {
            words.insert(0, connect.pack());
            field.sent = 1;
        }
        // a link, and as many words as its ceiling asks for
        3 => {
            field.plan.links.push(Link { lower: 0, higher: 1, at_lower: 3, at_higher: 4 });
            field.marks.push([BASIC; 2]);
            words.resize(words.len().max(2), 0);
        }
        4 => field.plan.modules = rng.pick(&[193, 194, NONE]),
        _ => words.push(0),
    }
}

/// Changes one value of a field or its words. Most changes bring 31, some leave the field valid.
pub fn spoil(rng: &mut Rng, field: &mut Field, words: &mut Vec<u64>) {
    if field.modules.is_empty() {
        return spoil_blank(rng, field, words);
    }
    let v = rng.below(field.modules.len());
    let odd = rng.pick(&[0, 1, 2, 3, 8, field.plan.links.len() as u16, 600, NONE]);
    let module = &mut field.modules[v];
    match rng.below(16) {
        0 => module.status = odd,
        1 => module.level = odd,
        2 => module.identity = odd,
        3 => module.best_weight = odd,
        4 => module.best_edge = odd,
        5 => module.test_edge = odd,
        6 => module.in_branch = odd,
        7 => module.find_count = odd,
        8 => module.halted = odd,
        9 => module.waking = odd,
        10 if !field.marks.is_empty() => {
            let k = rng.below(field.marks.len());
            field.marks[k][rng.below(2)] = odd as u8;
        }
        11 => field.sent = odd as u32 + rng.pick(&[0, field.plan.ceiling()]),
        12 => words.truncate(words.len().saturating_sub(rng.range(1, 3))),
        13 if !words.is_empty() => {
            let at = rng.below(words.len());
            words[at] ^= 1 << rng.below(64);
        }
        14 if words.len() > 1 => {
            let (a, b) = (rng.below(words.len()), rng.below(words.len()));
            words.swap(a, b);
        }
        _ if !field.plan.links.is_empty() => {
            let k = rng.below(field.plan.links.len());
            field.plan.links[k].at_lower = rng.pick(&[2001, NONE]);
        }
        _ => field.plan.modules = rng.pick(&[193, 194, NONE]),
    }
}

/// A step; most of the time one for which there is a word or a module.
pub fn some_step(rng: &mut Rng, field: &Field, words: &[u64]) -> Step {
    let (n, l) = (field.plan.modules as usize, field.plan.links.len());
    let word = match waiting(words) {
        0 => None,
        waiting => Word::unpack(words[rng.below(waiting)], 600).filter(|w| (w.directed as usize) < 2 * l),
    };
    let kind =
        if rng.once_in(30) { rng.pick(&[0, 4, 5, 128, 255]) } else { rng.pick(&[WAKE, HAND_OVER, SERVE, SERVE]) };
    let number = match (word, kind) {
        _ if rng.once_in(20) => rng.pick(&[n, 2 * l, 192, 1200, 65535]) as u16,
        (Some(word), HAND_OVER) if !rng.once_in(4) => word.directed,
        (Some(word), SERVE) if !rng.once_in(4) => field.target(word.directed),
        (_, HAND_OVER) => rng.below((2 * l).max(1)) as u16,
        _ => rng.below(n.max(1)) as u16,
    };
    Step { kind, number }
}

/// A step that the field takes, if one of a few tries is.
pub fn good_step(rng: &mut Rng, field: &Field, words: &[u64]) -> Step {
    let takes = |step: &Step| field.clone().take(&mut words.to_vec(), step.kind, step.number).is_ok();
    let tries: Vec<Step> = (0..8).map(|_| some_step(rng, field, words)).collect();
    tries.iter().copied().find(takes).unwrap_or(tries[0])
}
