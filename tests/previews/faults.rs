//! Previews that are refused: each item of 31 alone, sent counts about the ceiling, and every set of faults at once, for the
//! order of the numbers.

use crate::calls::{compare, Site};
use crate::items::{broken, WAYS};
use crate::tally::Tally;
use oracle::fields::{good_step, some_field, some_step};
use oracle::rng::Rng;
use oracle::schedule::Step;

pub const ALONE: usize = 12;
pub const CEILINGS: usize = 300;
pub const ORDERS: usize = 4;

/// Each way to break an item of 31: fields in which this item alone is broken, each with a step that the sound field took
/// where it takes any.
pub fn items_alone(rng: &mut Rng, tally: &mut Tally) {
    for (item, way, damage) in WAYS {
        let (mut cases, mut tries) = (0, 0);
        while cases < ALONE {
            tries += 1;
            assert!(tries < 400 * ALONE, "{item}, {way}: alone only {cases} times");
            let mut site = Site::of(some_field(rng));
            let step = good_step(rng, &site.field, &site.words);
            damage(rng, &mut site.field, &mut site.words);
            if broken(&site.field, &site.words) == [item] {
                assert_eq!(compare(rng, tally, &mut site, step), 31, "{item}, {way}");
                tally.count(format!("31 alone: {item}"));
                cases += 1;
            }
        }
    }
}

/// A site and a step of which the oracle says so; with how many messages it would send.
fn drawn(rng: &mut Rng, wanted: impl Fn(Result<usize, u32>) -> bool) -> (Site, Step, usize) {
    for _ in 0..100_000 {
        let site = Site::of(some_field(rng));
        let step = some_step(rng, &site.field, &site.words);
        let outcome = site.after(step).0.map(|done| done.sends);
        if wanted(outcome) {
            return (site, step, outcome.unwrap_or(0));
        }
    }
    panic!("no such step is drawn");
}

/// A step that would send something, with a sent count that just reaches the ceiling by it, or passes it: 33.
pub fn ceilings(rng: &mut Rng, tally: &mut Tally) {
    let mut cases = 0;
    while cases < CEILINGS {
        let (site, step, sends) = drawn(rng, |outcome| matches!(outcome, Ok(1..)));
        let most = site.field.plan.ceiling();
        let with = |sent: u32| {
            let mut site = site.clone();
            site.field.sent = sent;
            site
        };
        let (just, beyond, full) = (most - sends as u32, most - sends as u32 + 1, most);
        if with(just).field.check(&site.words).is_err() {
            continue; // more words wait than were sent
        }
        for (sent, refusal, name) in
            [(just, 0, "just the ceiling"), (beyond, 33, "one beyond"), (full, 33, "at the ceiling before")]
        {
            assert_eq!(compare(rng, tally, &mut with(sent), step), refusal, "{name}");
            tally.count(format!("sent count: {name}"));
        }
        cases += 1;
    }
}

/// What a step is refused by where its field, kind and number are right, with one message or more to send, or none.
const OWN: [(&str, fn(Result<usize, u32>) -> bool); 6] = [
    ("43", |o| o == Err(43)),
    ("44", |o| o == Err(44)),
    ("45", |o| o == Err(45)),
    ("32", |o| o == Err(32)),
    ("sends", |o| matches!(o, Ok(1..))),
    ("sends none", |o| o == Ok(0)),
];

/// Breaks the field and nothing that its plan or the step looks at.
fn break_field(rng: &mut Rng, site: &mut Site) {
    let v = rng.below(site.field.modules.len());
    match rng.below(4) {
        0 => site.field.modules[v].halted = 2,
        1 => site.field.modules[v].find_count = 65535,
        2 => site.field.modules[v].waking = rng.pick(&[600, 65534]),
        _ => site.words.push(1),
    }
}

/// A call with all of these faults is refused by the first one's number: a spoilt field, a wrong kind, a wrong number, what
/// the step is refused by itself, a full sent count, too few places.
fn faulty(rng: &mut Rng, tally: &mut Tally, set: usize, own: usize) {
    let [field, kind, number, full] = [0, 1, 2, 3].map(|i| set >> i & 1 == 1);
    let (mut site, step, sends) = drawn(rng, OWN[own].1);
    let mut asked = step;
    let mut refusal = site.after(step).0.err().unwrap_or(0);
    if full {
        site.field.sent = site.field.plan.ceiling();
        refusal = if refusal == 0 && sends > 0 { 33 } else { refusal };
    }
    if number {
        let hands_over = step.kind == 2;
        let bound = if hands_over { 2 * site.field.plan.links.len() } else { site.field.modules.len() };
        asked.number = rng.pick(&[bound, bound + 1, bound.max(256), 65535]) as u16;
        refusal = if hands_over { 42 } else { 41 };
    }
    if kind {
        asked.kind = rng.pick(&[0, 4, 5, 131, 255]);
        refusal = 54;
    }
    if field {
        break_field(rng, &mut site);
        refusal = 31;
    }
    assert_eq!(compare(rng, tally, &mut site, asked), refusal, "set {set}, own {}", OWN[own].0);
    tally.count(format!("faults: with {}", OWN[own].0));
}

/// Every set of faults; each call is made with too few places too where it would send something.
pub fn orders(rng: &mut Rng, tally: &mut Tally) -> usize {
    let sets = (0..16).flat_map(|set| (0..OWN.len()).map(move |own| (set, own)));
    sets.flat_map(|case| [case; ORDERS]).map(|(set, own)| faulty(rng, tally, set, own)).count()
}
