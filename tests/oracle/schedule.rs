//! Schedules: version byte 1, the length of what follows, and 3 bytes a step.

use crate::field::{Done, Field};
use crate::plan::be16;

#[derive(Clone, Copy, Debug, PartialEq, Eq)]
pub struct Step {
    pub kind: u8,
    pub number: u16,
}

/// What a run answers: steps done (or rounds completed) and the refusal that ended it, or none.
#[derive(Clone, Copy, Debug, PartialEq, Eq)]
pub struct Answer {
    pub done: u32,
    pub refusal: Option<u32>,
}

impl Answer {
    pub fn refused(refusal: u32) -> Answer {
        Answer { done: 0, refusal: Some(refusal) }
    }
}

/// Reads a schedule: 51 to 54, or its steps. Every kind is checked before any step is taken.
pub fn read(bytes: &[u8]) -> Result<Vec<Step>, u32> {
    if bytes.len() < 3 {
        return Err(51);
    }
    if bytes[0] != 1 {
        return Err(52);
    }
    let length = be16(bytes, 1) as usize;
    if length != bytes.len() - 3 || length % 3 != 0 {
        return Err(53);
    }
    let steps: Vec<Step> = bytes[3..].chunks_exact(3).map(|b| Step { kind: b[0], number: be16(b, 1) }).collect();
    if steps.iter().any(|s| s.kind < 1 || s.kind > 3) {
        return Err(54);
    }
    Ok(steps)
}

/// "The schedule reader keeps the lent bytes and its place in them": the number of the step that it reads next. It does
/// not check: what follows the first three bytes is steps, as many as are whole.
pub struct Reader<'a> {
    steps: &'a [u8],
    pub place: usize,
}

impl<'a> Reader<'a> {
    /// The reader of these bytes at a place.
    pub fn at(bytes: &'a [u8], place: usize) -> Reader<'a> {
        Reader { steps: bytes.get(3..).unwrap_or(&[]), place }
    }

    /// How many steps it has not read.
    pub fn left(&self) -> usize {
        self.steps.chunks_exact(3).skip(self.place).count()
    }

    /// Reads a step and moves on; behind the last there is none, and it stays.
    pub fn next(&mut self) -> Option<Step> {
        let b = self.steps.chunks_exact(3).nth(self.place)?;
        self.place += 1;
        Some(Step { kind: b[0], number: be16(b, 1) })
    }
}

pub fn encode(steps: &[Step]) -> Vec<u8> {
    let mut out = vec![1];
    out.extend_from_slice(&((3 * steps.len()) as u16).to_be_bytes());
    for step in steps {
        out.push(step.kind);
        out.extend_from_slice(&step.number.to_be_bytes());
    }
    out
}

/// A run of a schedule: 31, then 51 to 54, then the steps up to the first refused one.
pub fn run(field: &mut Field, words: &mut [u64], bytes: &[u8]) -> Answer {
    run_seen(field, words, bytes, &mut |_, _| {})
}

/// The same, where `see` is told each step that was taken and what it did.
pub fn run_seen(field: &mut Field, words: &mut [u64], bytes: &[u8], see: &mut impl FnMut(Step, &Done)) -> Answer {
    let steps = match field.check(words).and_then(|_| read(bytes)) {
        Ok(steps) => steps,
        Err(refusal) => return Answer::refused(refusal),
    };
    for (i, step) in steps.iter().enumerate() {
        match field.take(words, step.kind, step.number) {
            Ok(done) => see(*step, &done),
            Err(refusal) => return Answer { done: i as u32, refusal: Some(refusal) },
        }
    }
    Answer { done: steps.len() as u32, refusal: None }
}
