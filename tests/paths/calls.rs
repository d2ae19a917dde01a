//! The two calls, each made by the compiled library and by the oracle.

use crate::muruapy::{self, Numbers, PathFound};
use crate::tally::Tally;
use oracle::path::{between, near};
use oracle::plan::{Plan, NONE};
use oracle::rng::Rng;
use std::fmt::Debug;

const GUARD: usize = 8;

/// Makes the compiled call, with other numbers beside the lent ones and anything in the plan past its links. It must answer
/// and leave what the oracle did, and the plan as it was.
fn same<T: Copy + Debug + PartialEq, A: Debug + PartialEq>(
    plan: &Numbers,
    beside: &[T],
    [before, after]: [&[T]; 2],
    answer: A,
    call: impl Fn(&Numbers, &mut [T]) -> A,
) {
    let around = |lent: &[T]| [&beside[..GUARD], lent, &beside[GUARD..]].concat();
    let (shown, mut lent) = (*plan, around(before));
    let got = call(&shown, &mut lent[GUARD..GUARD + before.len()]);
    let links = (4 * plan[1] as usize).min(plan.len() - 2);
    assert_eq!(got, answer, "the answer, for {:?}", &plan[..2 + links]);
    assert_eq!(lent, around(after), "the buffer, or what lies beside it, for {:?}", &plan[..2 + links]);
    assert!(shown == *plan, "the plan is written");
}

/// One path on both sides, with so many numbers lent: the answer, and the numbers after it.
pub fn compare_path(
    rng: &mut Rng,
    tally: &mut Tally,
    plan: &Plan,
    [from, to]: [u16; 2],
    room: usize,
) -> (PathFound, Vec<u16>) {
    let beside: Vec<u16> = (0..2 * GUARD).map(|_| rng.next() as u16).collect();
    let before: Vec<u16> = (0..room).map(|_| rng.next() as u16).collect();
    let mut after = before.clone();
    let nothing = PathFound { refusal: 0, way: 0, length: 0, worst: NONE };
    let answer = match between(plan, from, to, &mut after) {
        Ok(Some(path)) => PathFound { refusal: 0, way: 1, length: path.length, worst: path.worst },
        Ok(None) => nothing,
        Err(refusal) => PathFound { refusal, ..nothing },
    };
    assert!(answer.way == 1 || after == before, "a refusal, or no way, changes nothing");
    let behind = answer.length as usize..;
    assert!(answer.refusal != 0 || after[behind.clone()] == before[behind], "the rest keeps");
    let numbers = muruapy::numbers(plan, rng);
    same(&numbers, &beside, [&before, &after], answer, |plan, links| muruapy::path(plan, from, to, links));
    tally.path(plan, [from, to], &after, answer);
    (answer, after)
}

/// The marks of the modules near one on both sides, with so many bytes lent: the answer, and the bytes after it.
pub fn compare_near(
    rng: &mut Rng,
    tally: &mut Tally,
    plan: &Plan,
    (from, h): (u16, u32),
    room: usize,
) -> (u32, Vec<u8>) {
    let beside: Vec<u8> = (0..2 * GUARD).map(|_| rng.byte()).collect();
    let before: Vec<u8> = (0..room).map(|_| rng.byte()).collect();
    let mut after = before.clone();
    let answer = near(plan, from, h, &mut after).err().unwrap_or(0);
    assert!(answer == 0 || after == before, "a refusal changes nothing");
    let behind = plan.modules as usize..;
    assert!(answer != 0 || after[behind.clone()] == before[behind], "the rest keeps");
    let numbers = muruapy::numbers(plan, rng);
    same(&numbers, &beside, [&before, &after], answer, |plan, marks| muruapy::near(plan, from, h, marks));
    tally.near(plan, (from, h), &after, answer);
    (answer, after)
}
