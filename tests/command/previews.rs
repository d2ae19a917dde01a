//! `preview`, worked out once more by the oracle's.

use crate::rehearsals::drawn_steps;
use crate::told::{message, word, STEPS};
use crate::tool::Tool;
use oracle::field::{setup_value, Field};
use oracle::fields::some_step;
use oracle::plan::Plan;
use oracle::preview::{preview, MOST_SENDS};
use oracle::rng::Rng;
use oracle::schedule::{encode, Step};
use std::collections::BTreeMap;

/// How often each answer came, and how often each number of messages.
#[derive(Default)]
pub struct Tally {
    pub answers: BTreeMap<u32, usize>,
    pub messages: BTreeMap<usize, usize>,
}

/// What it prints at some places of a run: of the step that comes there, or of another. What comes before is two schedules.
pub fn told(tool: &Tool, rng: &mut Rng, plan: &Plan, tally: &mut Tally) {
    let steps = drawn_steps(rng, plan, 60);
    for _ in 0..6 {
        let mut words = vec![0; plan.ceiling() as usize];
        let mut field = setup_value(plan.clone(), &mut words).expect("a good plan");
        let before = &steps[..rng.below(steps.len().max(1))];
        for step in before {
            field.take(&mut words, step.kind, step.number).expect("only the last of all may be refused");
        }
        let (first, second) = before.split_at(rng.below(before.len() + 1));
        tool.write("first", &encode(first));
        tool.write("second", &encode(second));
        let next = steps.get(before.len()).copied().filter(|_| rng.once_in(2));
        let step = next.unwrap_or_else(|| some_step(rng, &field, &words));
        if (1..=3).contains(&step.kind) {
            compare(tool, &field, &words, step, tally);
        }
    }
}

fn compare(tool: &Tool, field: &Field, words: &[u64], step: Step, tally: &mut Tally) {
    let mut buffer = [0; MOST_SENDS];
    let answer = preview(field, words, step.kind, step.number, &mut buffer);
    let (kind, number) = (["", "wake", "hand", "serve"][step.kind as usize], step.number.to_string());
    let ran = tool.run(&["preview", "-", "first", "second", kind, &number], &field.plan.encode());
    let out = String::from_utf8(ran.out).unwrap();
    let name = STEPS[step.kind as usize];
    assert_eq!(ran.err, "");
    match answer {
        Err(refusal) => {
            let begin = format!("{name} {number}: refused {refusal}: ");
            assert!(ran.code == 1 && out.starts_with(&begin) && out.lines().count() == 1, "{out} is not {begin}");
        }
        Ok(count) => {
            let mut lines = format!("{name} {number}: taken, {count} message{}\n", if count == 1 { "" } else { "s" });
            for w in buffer[..count].iter().map(|w| word(field, *w)) {
                let (from, to) = (field.source(w.directed), field.target(w.directed));
                lines += &format!("sends {} from module {from} to module {to}\n", message(&w));
            }
            assert_eq!((ran.code, out), (0, lines));
            *tally.messages.entry(count).or_default() += 1;
        }
    }
    *tally.answers.entry(answer.err().unwrap_or(0)).or_default() += 1;
}
