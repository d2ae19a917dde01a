//! `save`, `find` and `restore`: the store that is written, the lines on it, and what is told of a run that goes on, worked
//! out once more by the oracle.

use crate::rehearsals::{agree, drawn_steps};
use crate::told::{go_on, messages};
use crate::tool::Tool;
use oracle::field::{setup_value, waiting, Field};
use oracle::plan::Plan;
use oracle::points::{points, record, restore, save, Point, LONGEST_RECORD};
use oracle::rng::Rng;
use oracle::schedule::{encode, Step};
use std::collections::BTreeMap;

const NAMES: [&str; 4] = ["a", "go", "gone", "abcdefghijkl"];
const STORE: &str = "points.store";

/// How often each answer came, by subcommand.
#[derive(Default)]
pub struct Tally(pub BTreeMap<(&'static str, u32), usize>);

impl Tally {
    fn count(&mut self, what: &'static str, answer: u32) {
        *self.0.entry((what, answer)).or_default() += 1;
    }
}

/// The line on a point.
fn line(p: &Point) -> String {
    let (n, l) = (p.field.plan.modules, p.field.plan.links.len());
    let name = String::from_utf8_lossy(&p.name);
    format!("{name}: at byte {}, {} bytes; {n} modules, {l} links; {}", p.at, p.size, messages(&p.field, &p.words))
}

fn used(store: &[u8]) -> usize {
    points(store).expect("a store").last().map_or(0, |p| p.at + p.size)
}

/// Refused by a number, with a message alone.
fn refused(tool: &Tool, args: &[&str], input: &[u8], number: u32) {
    let ran = tool.run(args, input);
    assert_eq!((ran.code, ran.out.len()), (1, 0), "{args:?}: {}", ran.err);
    assert!(ran.err.starts_with(&format!("muruapy: {STORE}: {number}: ")), "{args:?}: {}", ran.err);
}

/// The store as the command lends it: grown by a point, or of the size that is asked for.
fn lent(file: &[u8], size: Option<usize>) -> Vec<u8> {
    let mut store = file.to_vec();
    store.resize(size.unwrap_or(file.len() + LONGEST_RECORD), 0);
    store
}

/// The field that so many steps of a schedule lead to.
fn after(plan: &Plan, steps: &[Step]) -> (Field, Vec<u64>) {
    let mut words = vec![0; plan.ceiling() as usize];
    let mut field = setup_value(plan.clone(), &mut words).expect("a good plan");
    for step in steps {
        field.take(&mut words, step.kind, step.number).expect("a step that was taken");
    }
    (field, words)
}

/// Some steps saved under a name; the file is then what the oracle's store is, or as it was.
fn saved(tool: &Tool, rng: &mut Rng, tally: &mut Tally, plan: &Plan, steps: &[Step], file: &mut Vec<u8>) {
    let (name, most) = (rng.pick(&NAMES), rng.below(steps.len() + 5));
    let (field, words) = after(plan, &steps[..most.min(steps.len())]);
    let (first, second) = steps.split_at(rng.below(steps.len() + 1));
    tool.write("first", &encode(first));
    tool.write("second", &encode(second));
    let needed = used(file) + record(name.as_bytes(), &field, &words).len();
    let size = rng.once_in(3).then(|| rng.pick(&[used(file), needed - 1, needed, needed + 90]).max(file.len()));
    let (most, bytes) = (most.to_string(), size.map(|size| size.to_string()));
    let mut args = vec!["save", STORE, name, "-", "first", "second", "--steps", &most];
    args.extend(bytes.iter().flat_map(|bytes| ["--size", bytes]));
    let mut store = lent(file, size);
    match save(&mut store, name.as_bytes(), &field, &words) {
        Err(refusal) => {
            refused(tool, &args, &plan.encode(), refusal);
            tally.count("save", refusal);
        }
        Ok(()) => {
            let end = used(&store);
            store.truncate(size.unwrap_or(end.max(file.len())));
            let point = points(&store).unwrap().pop().unwrap();
            let lines = format!("{}written: {STORE}, {end} of {} bytes\n", line(&point), store.len());
            assert_eq!(tool.text(&args, &plan.encode()), lines);
            *file = store;
            tally.count("save", 0);
        }
    }
    assert!(tool.read(STORE).unwrap_or_default() == *file, "the file is not the oracle's store");
}

/// All points told, and each by its name; a name that is not held.
fn found(tool: &Tool, tally: &mut Tally, file: &[u8]) {
    let all = points(file).unwrap();
    let lines: String = all.iter().map(line).collect();
    let s = if all.len() == 1 { "" } else { "s" };
    let sum = format!("{} point{s}, {} of {} bytes\n", all.len(), used(file), file.len());
    assert_eq!(tool.text(&["find", STORE], b""), lines + &sum);
    for name in NAMES.into_iter().chain(["Go", "b", ""]) {
        match all.iter().find(|p| p.name == name.as_bytes()) {
            Some(point) => assert_eq!(tool.text(&["find", STORE, name], b""), line(point)),
            None => refused(tool, &["find", STORE, name], b"", 77),
        }
        tally.count("find", if all.iter().any(|p| p.name == name.as_bytes()) { 0 } else { 77 });
    }
}

/// A point restored, with steps that go on from it, told as `replay` does.
fn restored(tool: &Tool, rng: &mut Rng, tally: &mut Tally, file: &[u8]) {
    let name = rng.pick(&NAMES);
    let mut words = vec![0; 7920];
    let Ok(field) = restore(file, name.as_bytes(), &mut words) else {
        refused(tool, &["restore", STORE, name, "first"], b"", 77);
        return tally.count("restore", 77);
    };
    words.truncate(field.plan.ceiling() as usize);
    let (mut on, mut lent, mut steps) = (field.clone(), words.clone(), Vec::new());
    for _ in 0..rng.below(25) {
        let step = oracle::fields::good_step(rng, &on, &lent);
        if (1..=3).contains(&step.kind) {
            steps.push(step);
            if on.take(&mut lent, step.kind, step.number).is_err() {
                break;
            }
        }
    }
    tool.write("since", &encode(&steps));
    let told = go_on(field, words, &[("since".into(), steps)]);
    agree(tool.run(&["restore", STORE, name, "since"], b""), &told);
    agree(tool.run(&["restore", "-", name, "since"], file), &told);
    tally.count("restore", told.refusal.unwrap_or(0).min(1));
}

/// One byte of the store changed: each call says 76, or takes what it then holds.
fn damaged(tool: &Tool, rng: &mut Rng, tally: &mut Tally, plan: &Plan, file: &[u8]) {
    let mut bytes = file.to_vec();
    let at = rng.below(bytes.len());
    bytes[at] ^= 1 << rng.below(8);
    tool.write(STORE, &bytes);
    if points(&bytes).is_ok() {
        return found(tool, tally, &bytes);
    }
    refused(tool, &["find", STORE], b"", 76);
    refused(tool, &["find", STORE, "Go"], b"", 76);
    refused(tool, &["restore", STORE, "zz"], b"", 76);
    refused(tool, &["save", STORE, "", "-"], &plan.encode(), 76);
    assert!(tool.read(STORE).unwrap() == bytes, "a refused save writes nothing");
    tally.count("find", 76);
}

/// Points of a plan and of another in one store.
pub fn told(tool: &Tool, rng: &mut Rng, plans: &[&Plan], tally: &mut Tally) {
    tool.remove(STORE);
    let mut file = Vec::new();
    for plan in plans.iter().cycle().take(5) {
        let steps = drawn_steps(rng, plan, 40);
        let taken = &steps[..rng.below(steps.len().max(1))];
        saved(tool, rng, tally, plan, taken, &mut file);
    }
    if tool.read(STORE).is_some() {
        found(tool, tally, &file);
        (0..3).for_each(|_| restored(tool, rng, tally, &file));
        damaged(tool, rng, tally, plans[0], &file);
        tool.remove(STORE);
    }
}

/// Where a store is wrong, told in words: two modules, module 0 awake and its Connect handed over, saved as "go".
pub fn places(tool: &Tool) -> usize {
    let plan = oracle::plan::read(&[1, 0, 12, 0, 2, 0, 1, 0, 0, 0, 1, 0, 3, 0, 4]).unwrap();
    let (field, words) = after(&plan, &[Step { kind: 1, number: 0 }, Step { kind: 2, number: 0 }]);
    assert_eq!(waiting(&words), 1);
    let good = record(b"go", &field, &words);
    let at = |place: usize, byte: u8| {
        let mut bytes = [good.clone(), vec![0; 9]].concat();
        bytes[place] = byte;
        bytes
    };
    let cases = [
        (good[..4].to_vec(), "record 1 at byte 0, 4 bytes of 5"),
        (good[..76].to_vec(), "record 1 at byte 0, length 72, 71 bytes behind it"),
        (at(0, 2), "record 1 at byte 0, version byte 2"),
        (at(4, 0), "record 1 at byte 0, its name"),
        (at(4, 71), "record 1 at byte 0, 53 bytes behind its plan: 46 of the field, 8 a message"),
        (at(5, 200), "record 1 at byte 0, its name"),
        (at(6, b'G'), "record 1 at byte 0, its name"),
        (at(8, 2), "record 1 at byte 0, its plan is refused by 12"),
        (at(9, 255), "record 1 at byte 0, its plan is refused by 13"),
        (at(12, 1), "record 1 at byte 0, its plan is refused by 16"),
        (at(25, 1), "record 1 at byte 0, its field or what waits"),
        (at(80, 7), "byte 80 is 7, behind the last record"),
        (at(77, 1), "record 2 at byte 77, its name"),
        ([&good[..], &good[..]].concat(), "record 2 at byte 77, a second go"),
    ];
    for (bytes, place) in &cases {
        assert!(points(bytes).is_err(), "{place}");
        tool.write(STORE, bytes);
        let ran = tool.run(&["find", STORE], b"");
        assert!(ran.code == 1 && ran.err.ends_with(&format!(": {place}\n")), "{} is not: {place}", ran.err);
    }
    tool.remove(STORE);
    cases.len()
}
