//! Compares the compiled setup, whole job, schedule check and schedule reader with the oracle. Setup and job: on plan
//! values good and damaged, in words that hold anything, fewer than M, M and more; the answer, every word, every number of
//! the field, which lay full of other numbers before. Blank plans are counted by themselves, and one is memory that is all
//! zeros.
//! The reader: on schedules good and damaged, opened, at every place and past the end. Prints counts, or panics at the first
//! difference.

#[path = "../counts.rs"]
mod counts;
#[path = "../muruapy.rs"]
mod muruapy;

use counts::{Counts, Wanted};
use muruapy::{numbers, schedule_check, schedule_read, schedule_steps, Record};
use oracle::field::{setup_value, HAND_OVER, SERVE, WAKE};
use oracle::plan::{Link, Plan};
use oracle::plans;
use oracle::report::job;
use oracle::rng::Rng;
use oracle::schedule::{encode, read, Reader, Step};
use std::collections::BTreeMap;

const GOOD: usize = 600;
const DAMAGED: usize = 3000;
const SCHEDULES: usize = 3000;
const LONG: usize = 12;
const JOBS: usize = 750;

/// How often each answer must come, about half as often as with the seed of main.
type Least = [(u32, usize)];

#[rustfmt::skip]
const SETUPS: &Least =
    &[(0, 3400), (14, 720), (15, 240), (16, 1900), (17, 530), (18, 270), (21, 1800)];
const DONE: &Least = &[(0, 380), (14, 35), (15, 12), (16, 100), (17, 24), (18, 16), (21, 170)];
const CHECKS: &Least = &[(0, 550), (51, 150), (52, 200), (53, 470), (54, 95)];

/// The same of plans with N = 0, and of those in several parts.
#[rustfmt::skip]
const SETUPS_BY_PLAN: &Wanted = &[
    ("in parts:", &[("taken", 1300), ("taken, a part of one", 1000), ("21", 910)]),
    ("N = 0:", &[("taken, no words", 220), ("taken, some words", 140), ("15", 100), ("16", 640)]),
];
#[rustfmt::skip]
const JOBS_BY_PLAN: &Wanted = &[
    ("in parts:", &[("taken", 120), ("taken, a part of one", 86), ("21", 87)]),
    ("N = 0:", &[("taken, no words", 12), ("taken, some words", 26), ("15", 5), ("16", 28)]),
];

/// How often each answer came, and what came of plans with N = 0 and of those in several parts.
#[derive(Default)]
struct Tally {
    answers: BTreeMap<u32, usize>,
    by_plan: Counts,
}

impl Tally {
    fn count(&mut self, answer: u32) {
        *self.answers.entry(answer).or_default() += 1;
    }

    /// A call on a plan and so many words.
    fn of_plan(&mut self, plan: &Plan, len: usize, answer: u32) {
        self.count(answer);
        if plan.modules == 0 {
            self.by_plan.count(match (answer, len) {
                (0, 0) => "N = 0: taken, no words".to_string(),
                (0, _) => "N = 0: taken, some words".to_string(),
                _ => format!("N = 0: {answer}"),
            });
        }
        let lowest = if [0, 21].contains(&answer) { plan.lowest_modules() } else { Vec::new() };
        if lowest.len() > 1 {
            self.by_plan
                .count(format!("in parts: {}", if answer == 0 { "taken".to_string() } else { answer.to_string() }));
            if answer == 0 && lowest.iter().any(|v| plan.own_links(*v).is_empty()) {
                self.by_plan.count("in parts: taken, a part of one");
            }
        }
    }

    fn report(&self, what: &str, least: &Least, by_plan: &Wanted) {
        let each: Vec<String> = self.answers.iter().map(|(answer, times)| format!("{answer} {times}")).collect();
        println!("setup: {what}, by answer: {}", each.join("; "));
        for (answer, least) in least {
            let times = self.answers.get(answer).copied().unwrap_or(0);
            assert!(times >= *least, "{what}: {answer} came {times} times, {least} wanted");
        }
        assert_eq!(self.answers.len(), least.len(), "{what}: no other answer");
        self.by_plan.report(&format!("setup: {what}"), by_plan);
    }
}

const GUARD: usize = 8;

/// Setup of a plan value in `len` words on both sides, with other words beside the lent ones; some are zero before.
fn compare_setup(rng: &mut Rng, tally: &mut Tally, plan: &Plan, len: usize) {
    let given = numbers(plan, rng);
    let mut words: Vec<u64> = (0..len + 2 * GUARD).map(|_| if rng.once_in(9) { 0 } else { rng.next() }).collect();
    let mut expected = words.clone();
    let field = setup_value(plan.clone(), &mut expected[GUARD..GUARD + len]);
    let answer = field.as_ref().err().copied().unwrap_or(0);
    let (mut record, before) = (Record::any(rng), given);
    let expected_record = if answer == 0 { Record::at_setup(&given) } else { record.clone() };
    assert_eq!(record.setup(&given, &mut words[GUARD..GUARD + len]), answer, "the answer, {len} words, for {plan:?}");
    assert!(given == before, "the lent plan stays");
    assert_eq!(words, expected, "the words, or those beside them, {len} of them, for {plan:?}");
    assert!(record == expected_record, "the field, or the one that lay there, {len} words, for {plan:?}");
    tally.of_plan(plan, len, answer);
}

/// Setup of a plan value in words of several numbers: M, one more or fewer, many more, none.
fn setups(rng: &mut Rng, tally: &mut Tally, plan: &Plan) {
    let m = plan.ceiling().min(8000) as usize;
    let some = rng.below(m + 1);
    for len in [m.saturating_sub(1), m, m + 1, m + rng.range(2, 3000), some] {
        compare_setup(rng, tally, plan, len);
    }
}

/// The whole job on a plan value in `len` words, on both sides: rounds, answer, field and words.
fn compare_job(rng: &mut Rng, tally: &mut Tally, plan: &Plan, len: usize) {
    let given = numbers(plan, rng);
    let mut words: Vec<u64> = (0..len).map(|_| rng.next()).collect();
    let mut expected_words = words.clone();
    let mut record = Record::any(rng);
    let mut expected = record.clone();
    let (mut done, mut refusal) = (0, 0);
    match job(plan.clone(), &mut expected_words) {
        Err(number) => refusal = number,
        Ok((field, rounds)) => {
            done = rounds as usize;
            expected = Record::at_setup(&given);
            expected.put(&field);
        }
    }
    assert_eq!(record.job(&given, &mut words), (done, refusal), "the job in {len} words, for {plan:?}");
    assert!(record == expected, "the field after the job in {len} words, for {plan:?}");
    assert!(words == expected_words, "the words after the job in {len} words, for {plan:?}");
    tally.of_plan(plan, len, refusal);
}

/// Jobs on good plans in M words, more and fewer, and on damaged ones.
fn jobs(rng: &mut Rng, tally: &mut Tally) {
    for i in 0..JOBS {
        let plan = plans::good(rng, plans::KINDS[i % plans::KINDS.len()]);
        let m = plan.ceiling() as usize;
        let len = if rng.once_in(4) { rng.below(m + 1) } else { m + rng.below(3) };
        compare_job(rng, tally, &plan, len);
        let damaged = plans::some_value(rng, i);
        compare_job(rng, tally, &damaged, m);
    }
}

/// A plan of zeros is blank: setup and the job take it, whatever record and words held.
fn zeros(rng: &mut Rng) {
    let plan = Record::ZEROS.plan;
    for len in [0, 1, 9] {
        let any: Vec<u64> = (0..len).map(|_| rng.next()).collect();
        let (mut set_up, mut words) = (Record::any(rng), any.clone());
        assert_eq!(set_up.setup(&plan, &mut words), 0, "setup of zeros");
        assert!(set_up == Record::at_setup(&plan) && words == vec![0; len], "setup of zeros leaves something else");
        let (mut done, mut words) = (Record::any(rng), any);
        assert_eq!(done.job(&plan, &mut words), (0, 0), "the job on zeros");
        assert!(done == set_up && words == vec![0; len], "the job on zeros leaves something else");
    }
}

/// The documents' refusals at their bounds, as values.
fn samples(rng: &mut Rng, tally: &mut Tally) {
    let link = |lower, higher, at_lower, at_higher| Link { lower, higher, at_lower, at_higher };
    let path = |n: u16| Plan { modules: n, links: (1..n).map(|v| link(v - 1, v, 2, 3)).collect() };
    let pair = |near, far| Plan { modules: 2, links: vec![link(0, 1, near, far)] };
    let none = |n| Plan { modules: n, links: vec![] };
    let nobody = |l: usize| Plan { modules: 0, links: vec![link(0, 1, 3, 4); l] };
    for plan in [none(0), none(1), none(2), path(192), path(193), pair(2000, 0), pair(2001, 0), pair(0, 2001)] {
        setups(rng, tally, &plan);
    }
    for l in [1, 2, 600, 601] {
        setups(rng, tally, &nobody(l));
    }
}

/// What the reader finds at a place, on both sides.
fn compare_place(bytes: &[u8], place: usize) {
    let mut reader = Reader::at(bytes, place);
    let left = reader.left();
    let step = reader.next().unwrap_or(Step { kind: 0, number: 0 });
    assert_eq!(schedule_read(bytes, place), (left, step, reader.place), "place {place} of {bytes:02x?}");
}

/// A schedule's bytes, taken or refused: the check, the reader opened and at every place, and all its steps read one after
/// the other.
fn compare_schedule(tally: &mut Tally, bytes: &[u8]) {
    let steps = read(bytes);
    let answer = steps.as_ref().err().copied().unwrap_or(0);
    assert_eq!(schedule_check(bytes), answer, "the check of {bytes:02x?}");
    tally.count(answer);
    assert_eq!(schedule_steps(bytes), Reader::at(bytes, 0).left(), "a reader opened on {bytes:02x?}");
    for place in (0..bytes.len() / 3 + 3).chain([usize::MAX / 3, usize::MAX / 3 + 1, usize::MAX - 1, usize::MAX]) {
        compare_place(bytes, place);
    }
    if let Ok(steps) = steps {
        let mut place = 0;
        for (i, expected) in steps.iter().enumerate() {
            let (left, step, next) = schedule_read(bytes, place);
            assert_eq!((left, step), (steps.len() - i, *expected), "read {i} of {bytes:02x?}");
            place = next;
        }
        assert_eq!(schedule_read(bytes, place).0, 0, "all of {bytes:02x?} is read");
    }
}

fn some_steps(rng: &mut Rng, many: usize) -> Vec<Step> {
    let step = |_| {
        let any = rng.next() as u16;
        Step { kind: rng.pick(&[WAKE, HAND_OVER, SERVE]), number: rng.pick(&[0, 1, 255, 256, 1199, 65535, any]) }
    };
    (0..many).map(step).collect()
}

/// Damages a schedule: a byte, its version or length, a kind; cut short, or with bytes behind it.
fn damage(rng: &mut Rng, bytes: &mut Vec<u8>) {
    let (at, steps) = (rng.below(bytes.len()), bytes.len() / 3 - 1);
    match rng.below(7) {
        0 => bytes[at] ^= 1 << rng.below(8),
        1 => bytes[0] = rng.pick(&[0, 2, 128, 255]),
        2 => bytes[1 + rng.below(2)] = rng.byte(),
        3 if steps > 0 => bytes[3 + 3 * rng.below(steps)] = rng.pick(&[0, 4, 5, 255]),
        4 => bytes.truncate(at),
        5 => bytes.truncate(rng.below(5)),
        _ => bytes.extend((0..rng.range(1, 7)).map(|_| 2)),
    }
}

/// A schedule's bytes: good, damaged, or a few of any kind.
fn some_schedule(rng: &mut Rng) -> Vec<u8> {
    if rng.once_in(20) {
        return (0..rng.below(20)).map(|_| rng.byte() & 3).collect();
    }
    let most = rng.pick(&[0, 1, 3, 20, 200]);
    let many = rng.range(0, most);
    let mut bytes = encode(&some_steps(rng, many));
    if !rng.once_in(3) {
        damage(rng, &mut bytes);
    }
    bytes
}

/// Schedules of as many steps as a length can tell of, and longer.
fn long_schedule(rng: &mut Rng, i: usize) -> Vec<u8> {
    let many = rng.pick(&[21_845, 21_844, 10_000]);
    let mut bytes = encode(&some_steps(rng, many));
    if i % 2 == 1 {
        bytes.extend((0..rng.range(1, 9_000)).map(|_| 3));
    }
    bytes
}

fn main() {
    let mut rng = Rng::new(21);
    let (mut answers, mut checks) = (Tally::default(), Tally::default());
    samples(&mut rng, &mut answers);
    zeros(&mut rng);
    for i in 0..GOOD {
        let plan = plans::good(&mut rng, plans::KINDS[i % plans::KINDS.len()]);
        setups(&mut rng, &mut answers, &plan);
    }
    for i in 0..DAMAGED {
        let plan = plans::some_value(&mut rng, i);
        setups(&mut rng, &mut answers, &plan);
    }
    for _ in 0..SCHEDULES {
        compare_schedule(&mut checks, &some_schedule(&mut rng));
    }
    for i in 0..LONG {
        compare_schedule(&mut checks, &long_schedule(&mut rng, i));
    }
    println!("setup: {GOOD} good and {DAMAGED} damaged plan values agree, each in five numbers of words");
    println!("setup: {SCHEDULES} schedules and {LONG} long ones agree, at every place");
    let mut ends = Tally::default();
    jobs(&mut rng, &mut ends);
    answers.report("setups", SETUPS, SETUPS_BY_PLAN);
    ends.report("jobs", DONE, JOBS_BY_PLAN);
    checks.report("schedules", CHECKS, &[]);
}
