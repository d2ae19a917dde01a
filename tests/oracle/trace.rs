//! What the program `trace` prints: a plan is set up, a schedule is run on it, and the whole field is shown.

use crate::field::{setup, waiting, Field};
use crate::plan::{self, be16, NONE};
use crate::schedule::{self, Answer};
use std::fmt::Write;

/// The input is a plan's bytes followed at once by a schedule's. The plan's part is its first 3 bytes and as many more
/// as its length says, all there is if that is less.
pub fn split(input: &[u8]) -> (&[u8], &[u8]) {
    let end = if input.len() < 3 { input.len() } else { 3 + be16(input, 1) as usize };
    input.split_at(end.min(input.len()))
}

pub fn trace(input: &[u8]) -> String {
    let (plan_bytes, schedule_bytes) = split(input);
    let plan = match plan::read(plan_bytes) {
        Ok(plan) => plan,
        Err(refusal) => return format!("refused {refusal}\n"),
    };
    let mut words = vec![0; plan.ceiling() as usize];
    let mut field = setup(plan_bytes, &mut words).expect("the plan was taken");
    let answer = schedule::run(&mut field, &mut words, schedule_bytes);
    show(&field, &words, answer)
}

fn show(field: &Field, words: &[u64], answer: Answer) -> String {
    let mut out = String::new();
    writeln!(out, "steps {}", answer.done).unwrap();
    match answer.refusal {
        Some(refusal) => writeln!(out, "refusal {refusal}").unwrap(),
        None => writeln!(out, "refusal none").unwrap(),
    }
    writeln!(out, "sent {}", field.sent).unwrap();
    writeln!(out, "waiting {}", waiting(words)).unwrap();
    for (v, module) in field.modules.iter().enumerate() {
        write!(out, "module {v}").unwrap();
        for value in module.values() {
            match value {
                NONE => write!(out, " -").unwrap(),
                _ => write!(out, " {value}").unwrap(),
            }
        }
        for (k, mark) in field.own_marks(v as u16) {
            write!(out, " {k}:{mark}").unwrap();
        }
        writeln!(out).unwrap();
    }
    for word in &words[..waiting(words)] {
        writeln!(out, "word {word}").unwrap();
    }
    out
}
