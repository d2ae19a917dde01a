//! Compares the compiled steps and runs, 31 by itself and the report with the oracle on fields that a host may make up:
//! valid ones, most of which no run from setup reaches, spoilt ones, for each item of 31 some in which this item alone is
//! broken, and those of the blank plan. Answer, cells, marks, sent count and all words must be the same. Prints counts, or
//! panics at the first difference.

mod blank;
#[path = "../counts.rs"]
mod counts;
mod items;
#[path = "../muruapy.rs"]
mod muruapy;
mod tally;

use counts::list;
use items::{broken, WAYS};
use muruapy::Record;
use oracle::field::{waiting, Field};
use oracle::fields::{good_step, some_field, some_step, spoil};
use oracle::rng::Rng;
use oracle::schedule::{encode, Answer, Step};
use oracle::{report, rounds, schedule};
use std::collections::BTreeMap;
use tally::Tally;

const VALID: usize = 8000;
const STEPS: usize = 5;
const SPOILT: usize = 6000;
const RUNS: usize = 2000;
const ALONE: usize = 60;

/// A field and its words before and after a call of the oracle.
struct Case<'a> {
    field: &'a Field,
    words: &'a [u64],
    field_after: &'a Field,
    words_after: &'a [u64],
}

const GUARD: usize = 8;

/// Makes the compiled call on the field's record, with other words beside the lent ones and anything in the record's
/// unused parts. It must answer and leave what the oracle did.
fn same<T: PartialEq + std::fmt::Debug>(
    rng: &mut Rng,
    case: Case,
    answer: T,
    call: impl Fn(&mut Record, &mut [u64]) -> T,
) {
    let before = Record::of(case.field, rng);
    let mut record = before.clone();
    let beside: Vec<u64> = (0..2 * GUARD).map(|_| rng.next()).collect();
    let around = |words: &[u64]| [&beside[..GUARD], words, &beside[GUARD..]].concat();
    let mut lent = around(case.words);
    let got = call(&mut record, &mut lent[GUARD..GUARD + case.words.len()]);
    assert_eq!(got, answer, "the answer, for {:?} and words {:x?}", case.field, case.words);
    let mut expected = before;
    expected.put(case.field_after);
    assert!(record == expected, "the record after {:?} and words {:x?}", case.field, case.words);
    assert_eq!(lent, around(case.words_after), "the words, or those beside them, after {:?}", case.field);
}

/// The calls that alter nothing of a field: 31 by itself, how many words wait, the report, also in a text that is too short.
fn looked_at(rng: &mut Rng, tally: &mut Tally, field: &Field, words: &[u64]) {
    let record = Record::of(field, rng);
    let answer = field.check(words).err().unwrap_or(0);
    assert_eq!(record.check(words), answer, "31 by itself, for {field:?}");
    tally.ends(field, "31 by itself", answer);
    assert_eq!(muruapy::waiting(words), waiting(words), "how many words wait");
    if rng.once_in(8) {
        let rounds = rng.next() as u16;
        let text = report::text(field, rounds as u32).into_bytes();
        for room in [text.len(), text.len() + rng.range(1, 50), rng.below(text.len())] {
            let mut out = vec![b'~'; room];
            let put = text.len().min(room);
            assert_eq!(record.report(rounds, &mut out), put, "the length of the report");
            assert_eq!(out[..put], text[..put], "the report");
            assert!(out[put..].iter().all(|byte| *byte == b'~'), "behind the report");
        }
        tally.ends(field, "report", 0);
        tally.cores(field);
    }
}

/// One step on both sides; the oracle's outcome goes on.
fn compare_step(rng: &mut Rng, tally: &mut Tally, field: &mut Field, words: &mut Vec<u64>, step: Step) -> u32 {
    let (mut field_after, mut words_after) = (field.clone(), words.clone());
    let outcome = field_after.step(&mut words_after, step.kind, step.number);
    let answer = outcome.err().unwrap_or(0);
    assert_eq!(answer == 31, !broken(field, words).is_empty(), "31 as its items say: {:?}", broken(field, words));
    assert!(answer == 0 || field_after == *field && words_after == *words, "a refusal changes nothing");
    let case = Case { field, words, field_after: &field_after, words_after: &words_after };
    same(rng, case, answer, |record, words| record.step(words, step.kind, step.number));
    looked_at(rng, tally, field, words);
    tally.step(field, words, step, outcome);
    (*field, *words) = (field_after, words_after);
    answer
}

/// A run of a schedule, or of rounds with a limit.
enum Run {
    Schedule(Vec<u8>),
    Rounds(u16),
}

/// One run on both sides; its refusal, or 0.
fn compare_run(rng: &mut Rng, tally: &mut Tally, field: &Field, words: &[u64], run: Run) -> u32 {
    let (mut field_after, mut words_after) = (field.clone(), words.to_vec());
    let (name, Answer { done, refusal }) = match &run {
        Run::Schedule(bytes) => ("schedule", schedule::run(&mut field_after, &mut words_after, bytes)),
        Run::Rounds(limit) => ("rounds", rounds::run(&mut field_after, &mut words_after, *limit)),
    };
    let refusal = refusal.unwrap_or(0);
    let case = Case { field, words, field_after: &field_after, words_after: &words_after };
    same(rng, case, (done as usize, refusal), |record, words| match &run {
        Run::Schedule(bytes) => record.run(words, bytes),
        Run::Rounds(limit) => record.rounds(words, *limit),
    });
    tally.ends(field, name, refusal);
    refusal
}

/// Valid fields, each with steps one after the other.
fn valid_fields(rng: &mut Rng, tally: &mut Tally) {
    for _ in 0..VALID {
        let (mut field, mut words) = some_field(rng);
        for _ in 0..STEPS {
            let step = some_step(rng, &field, &words);
            assert_ne!(compare_step(rng, tally, &mut field, &mut words, step), 31, "a drawn field is valid");
        }
    }
}

/// Fields with one value changed at random; how many of them are refused by 31.
fn spoilt_fields(rng: &mut Rng, tally: &mut Tally) -> usize {
    let mut refused = 0;
    for _ in 0..SPOILT {
        let (mut field, mut words) = some_field(rng);
        let step = some_step(rng, &field, &words);
        spoil(rng, &mut field, &mut words);
        refused += (compare_step(rng, tally, &mut field, &mut words, step) == 31) as usize;
    }
    refused
}

/// Each way to break an item of 31: records in which this item alone is broken, each with a step that the sound field
/// took where it takes any, given alone and as a schedule, and with a round. All are refused by 31 and left as they were.
fn items_alone(rng: &mut Rng, tally: &mut Tally) -> BTreeMap<&'static str, usize> {
    let mut counts = BTreeMap::new();
    for (item, way, damage) in WAYS {
        let (mut cases, mut tries) = (0, 0);
        while cases < ALONE {
            tries += 1;
            assert!(tries < 200 * ALONE, "{item}, {way}: alone only {cases} times");
            let (mut field, mut words) = some_field(rng);
            let step = good_step(rng, &field, &words);
            damage(rng, &mut field, &mut words);
            if broken(&field, &words) == [item] {
                let of_schedule = compare_run(rng, tally, &field, &words, Run::Schedule(encode(&[step])));
                let of_rounds = compare_run(rng, tally, &field, &words, Run::Rounds(1));
                let of_step = compare_step(rng, tally, &mut field, &mut words, step);
                assert_eq!([of_step, of_schedule, of_rounds], [31; 3], "{item}, {way}");
                cases += 1;
            }
        }
        *counts.entry(item).or_default() += cases;
    }
    counts
}

/// A schedule of some steps, now and then damaged.
fn some_schedule(rng: &mut Rng, field: &Field, words: &[u64]) -> Vec<u8> {
    let steps: Vec<Step> = (0..rng.below(8)).map(|_| some_step(rng, field, words)).collect();
    let mut bytes = encode(&steps);
    match rng.below(12) {
        0 => bytes.truncate(rng.below(bytes.len())),
        1 => bytes[rng.below(3)] ^= 1 << rng.below(8),
        _ => {}
    }
    bytes
}

/// Runs of a schedule and runs of rounds, on valid and on spoilt fields.
fn runs(rng: &mut Rng, tally: &mut Tally) {
    for i in 0..RUNS {
        let (mut field, mut words) = some_field(rng);
        let run = match i % 2 {
            0 => Run::Rounds(rng.pick(&[0, 1, 2, 3, 20])),
            _ => Run::Schedule(some_schedule(rng, &field, &words)),
        };
        if rng.once_in(6) {
            spoil(rng, &mut field, &mut words);
        }
        compare_run(rng, tally, &field, &words, run);
    }
}

fn main() {
    let mut rng = Rng::new(31);
    let mut tally = Tally::default();
    valid_fields(&mut rng, &mut tally);
    let refused = spoilt_fields(&mut rng, &mut tally);
    let alone = items_alone(&mut rng, &mut tally);
    runs(&mut rng, &mut tally);
    blank::fields(&mut rng, &mut tally);
    let zeros = blank::zeros();
    println!(
        "fields: {VALID} valid with {STEPS} steps each, {SPOILT} spoilt ({refused} refused by 31), {RUNS} runs agree"
    );
    println!("fields: 31 by one item alone, each in a step, a schedule and a round: {}", list(&alone));
    println!("fields: {} of the blank plan with every call, {zeros} calls on memory full of zeros", blank::FIELDS);
    tally.report();
}
