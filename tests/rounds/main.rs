//! Compares the rounds of the benchmark's other side (tests/bench/rounds.rs, plain Rust on a field's record) with the
//! oracle's: on fields from a woken module on, to rest, and on fields that a host may make up, valid and spoilt, those of
//! the blank plan among them. Rounds completed, refusal, the whole record and all words must be the same. Prints counts, or
//! panics at the first difference.

#[path = "../muruapy.rs"]
mod muruapy;
#[path = "../bench/plain.rs"]
#[allow(dead_code)]
mod plain;
#[path = "../bench/rounds.rs"]
mod rounds;

use muruapy::Record;
use oracle::field::{setup_value, Field, WAKE};
use oracle::fields::{drawn, spoil};
use oracle::plans;
use oracle::rng::Rng;
use std::collections::BTreeMap;

const WOKEN: usize = 140;
const MADE_UP: usize = 1800;

/// How each run must end, and how often at least: about half as often as with the seed of main.
const LEAST: [(u32, usize); 4] = [(0, 330), (31, 160), (32, 350), (33, 48)];
/// The same of the blank plan's.
const BLANK: [(u32, usize); 2] = [(0, 48), (31, 11)];

/// One run on both sides: its rounds and its refusal, or 0.
fn compare(rng: &mut Rng, field: &Field, words: &[u64], limit: u16) -> (usize, u32) {
    let before = Record::of(field, rng);
    let (mut record, mut words_there) = (before.clone(), words.to_vec());
    let got = rounds::run(&mut record, &mut words_there, limit);
    let (mut field_after, mut words_after) = (field.clone(), words.to_vec());
    let answer = oracle::rounds::run(&mut field_after, &mut words_after, limit);
    assert_eq!(got, (answer.done as usize, answer.refusal.unwrap_or(0)), "the answer, for {field:?}");
    let mut expected = before;
    expected.put(&field_after);
    assert!(record == expected, "the record after {field:?} and words {words:x?}");
    assert_eq!(words_there, words_after, "the words after {field:?}");
    got
}

/// Runs to rest from a woken module, or from one in each of some parts, on good plans of every kind that has one.
fn woken(rng: &mut Rng) -> usize {
    let mut completed = 0;
    let kinds = plans::kinds_without(&["blank"]);
    for i in 0..WOKEN {
        let plan = plans::good(rng, kinds[i % kinds.len()]);
        let mut words = vec![7; plan.ceiling() as usize + rng.below(3)];
        let mut field = setup_value(plan, &mut words).expect("a good plan");
        for v in field.plan.lowest_modules() {
            if v == 0 || rng.once_in(2) {
                field.step(&mut words, WAKE, rng.pick(&field.plan.part_of(v))).expect("a sleeper");
            }
        }
        let (done, refusal) = compare(rng, &field, &words, 65535);
        assert_eq!(refusal, 0, "a run from a woken module is not refused");
        completed += done;
    }
    completed
}

/// How often runs end by each refusal, or by 0.
type Ends = BTreeMap<u32, usize>;

/// Runs of a few rounds on fields that a host may make up; how they end, all of them and those of the blank plan.
fn made_up(rng: &mut Rng) -> (Ends, Ends) {
    let (mut ends, mut blank) = (Ends::new(), Ends::new());
    for _ in 0..MADE_UP {
        let kind = rng.pick(&plans::KINDS);
        let plan = plans::good(rng, kind);
        let (mut field, mut words) = drawn(rng, &plan);
        if rng.once_in(4) {
            spoil(rng, &mut field, &mut words);
        }
        let limit = rng.pick(&[0, 1, 2, 3, 10, 65535]);
        let end = compare(rng, &field, &words, limit).1;
        *ends.entry(end).or_default() += 1;
        if plan == plans::blank() {
            *blank.entry(end).or_default() += 1;
        }
    }
    (ends, blank)
}

/// Says how runs end, each as often as wanted.
fn report(what: &str, ends: &Ends, wanted: &[(u32, usize)]) {
    let each: Vec<String> = ends.iter().map(|(refusal, times)| format!("{refusal} {times}")).collect();
    println!("rounds: {what}, by refusal: {}", each.join("; "));
    for (refusal, least) in wanted {
        let times = ends.get(refusal).copied().unwrap_or(0);
        assert!(times >= *least, "{what}: {refusal} came {times} times, {least} wanted");
    }
}

fn main() {
    let mut rng = Rng::new(44);
    let completed = woken(&mut rng);
    let (ends, blank) = made_up(&mut rng);
    println!("rounds: {WOKEN} runs to rest, {completed} rounds, and {MADE_UP} on made-up fields agree");
    report("made-up fields", &ends, &LEAST);
    report("those of the blank plan", &blank, &BLANK);
}
