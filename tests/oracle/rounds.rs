//! Rounds: each hands over all that waits in the air, then lets each module serve what its queue then held.

use crate::field::{waiting, Done, Field, HAND_OVER, SERVE};
use crate::schedule::{Answer, Step};

/// One round, or the refusal of the step that ended it.
pub fn round(field: &mut Field, words: &mut [u64]) -> Result<(), u32> {
    round_seen(field, words, &mut |_, _| {})
}

/// The same, where `see` is told each step that was taken and what it did.
pub fn round_seen(field: &mut Field, words: &mut [u64], see: &mut impl FnMut(Step, &Done)) -> Result<(), u32> {
    for d in 0..2 * field.plan.links.len() as u16 {
        loop {
            match field.take(words, HAND_OVER, d) {
                Ok(done) => see(Step { kind: HAND_OVER, number: d }, &done),
                Err(44) => break,
                Err(refusal) => return Err(refusal),
            }
        }
    }
    for v in 0..field.plan.modules {
        for _ in 0..field.queue_length(words, v) {
            let done = field.take(words, SERVE, v)?;
            see(Step { kind: SERVE, number: v }, &done);
        }
    }
    Ok(())
}

/// A run of rounds stops at rest, at the limit or at a refused step. Rest ends it only between rounds.
pub fn run(field: &mut Field, words: &mut [u64], limit: u16) -> Answer {
    run_seen(field, words, limit, &mut |_, _| {})
}

/// The same, where `see` is told each step that was taken and what it did.
pub fn run_seen(field: &mut Field, words: &mut [u64], limit: u16, see: &mut impl FnMut(Step, &Done)) -> Answer {
    if let Err(refusal) = field.check(words) {
        return Answer::refused(refusal);
    }
    let mut completed = 0;
    while completed < limit as u32 && waiting(words) > 0 {
        if let Err(refusal) = round_seen(field, words, see) {
            return Answer { done: completed, refusal: Some(refusal) };
        }
        completed += 1;
    }
    Answer { done: completed, refusal: None }
}
