//! The whole job, and what the reporting program prints of it for a plan.

use crate::field::{setup_value, Field, WAKE};
use crate::plan::{self, Plan, MOST_LINKS};
use crate::rounds;
use crate::rules::BRANCH;
use std::fmt::Write;

/// Setup, a wake of "the lowest module of each part", rounds with limit 65535. In a blank plan nobody can be woken: "the
/// program skips the wake". Setup's refusals, or the field and how many rounds were completed.
pub fn job(plan: Plan, words: &mut [u64]) -> Result<(Field, u32), u32> {
    let mut field = setup_value(plan, words)?;
    for v in field.plan.lowest_modules() {
        field.step(words, WAKE, v).expect("nobody of its part was woken");
    }
    let answer = rounds::run(&mut field, words, 65535);
    assert_eq!(answer.refusal, None, "rounds from setup are not refused");
    Ok((field, answer.done))
}

pub fn report(bytes: &[u8]) -> String {
    let plan = match plan::read(bytes) {
        Ok(plan) => plan,
        Err(refusal) => return format!("refused {refusal}\n"),
    };
    let mut words = vec![0; plan.ceiling() as usize];
    let (field, rounds) = job(plan, &mut words).expect("the plan was taken");
    assert!(field.marks.iter().all(|[a, b]| a == b), "both ends say the same");
    text(&field, rounds)
}

/// The lines of any field: a branch by the lower end's mark, for each part its modules that have halted. Of a plan that would
/// be refused the parts are not asked for.
pub fn text(field: &Field, rounds: u32) -> String {
    let plan = &field.plan;
    let mut out = String::new();
    writeln!(out, "modules {}", plan.modules).unwrap();
    writeln!(out, "links {}", plan.links.len()).unwrap();
    let mut total = 0;
    for (k, link) in plan.links.iter().take(MOST_LINKS).enumerate() {
        if field.marks[k][0] == BRANCH {
            let cost = plan.cost(k as u16);
            writeln!(out, "branch {} {} {}", link.lower, link.higher, cost).unwrap();
            total += cost;
        }
    }
    writeln!(out, "total {total}").unwrap();
    for line in core_lines(field) {
        writeln!(out, "core{line}").unwrap();
    }
    writeln!(out, "messages {} of {}", field.sent, plan.ceiling()).unwrap();
    writeln!(out, "rounds {rounds}").unwrap();
    out
}

/// "A core line for each" part, in the order of their lowest modules, ""core none" for a part of one; the blank plan keeps
/// its single line".
fn core_lines(field: &Field) -> Vec<String> {
    let of_part = |lowest: u16| {
        let part = field.plan.part_of(lowest);
        let halted = part.iter().filter(|v| field.modules[**v as usize].halted == 1);
        if part.len() == 1 {
            " none".to_string()
        } else {
            halted.map(|v| format!(" {v}")).collect()
        }
    };
    if field.plan.modules == 0 || field.plan.check().is_err() {
        return vec![" none".to_string()];
    }
    field.plan.lowest_modules().into_iter().map(of_part).collect()
}
