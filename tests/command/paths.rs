//! `path` and `near`, worked out once more by the oracle.

use crate::tool::Tool;
use oracle::path::{across, between, hops};
use oracle::plan::{Plan, NONE};
use oracle::rng::Rng;
use std::collections::BTreeMap;

/// How often each answer came, by subcommand; of a path by its length too, and those between parts.
#[derive(Default)]
pub struct Tally {
    pub answers: BTreeMap<(&'static str, u32), usize>,
    pub lengths: BTreeMap<usize, usize>,
    pub no_way: usize,
}

/// What is said of a module that there is not.
fn refused(tool: &Tool, plan: &Plan, args: &[&str], module: &str) {
    let ran = tool.run(args, &plan.encode());
    let last = match plan.modules {
        0 => "there is no module".to_string(),
        n => format!("the last module is {}", n - 1),
    };
    let said = format!("muruapy: {}: 41: there is no module of this number: module {module}, {last}\n", args[0]);
    assert_eq!((ran.code, ran.out.len(), ran.err), (1, 0, said), "{args:?}");
}

fn path(tool: &Tool, plan: &Plan, from: u16, to: u16, tally: &mut Tally) {
    let (first, second) = (from.to_string(), to.to_string());
    let args = ["path", "-", &first, &second];
    let mut links = [NONE; 191];
    let answer = between(plan, from, to, &mut links);
    *tally.answers.entry(("path", answer.err().unwrap_or(0))).or_default() += 1;
    let Ok(found) = answer else {
        return refused(tool, plan, &args, if from >= plan.modules { &first } else { &second });
    };
    let Some(found) = found else {
        assert_eq!(tool.text(&args, &plan.encode()), "no way\n", "{from} to {to}");
        tally.no_way += 1;
        return;
    };
    let (mut lines, mut at) = (String::new(), from);
    for k in &links[..found.length as usize] {
        let next = across(plan, *k, at);
        lines += &format!("link {k} from module {at} to module {next} cost {}\n", plan.cost(*k));
        at = next;
    }
    lines += &match found.worst {
        NONE => "worst none\n".to_string(),
        k => format!("worst link {k} cost {}\n", plan.cost(k)),
    };
    assert_eq!(tool.text(&args, &plan.encode()), lines, "{from} to {to}");
    *tally.lengths.entry(found.length as usize).or_default() += 1;
}

fn near(tool: &Tool, plan: &Plan, from: u16, h: u64, tally: &mut Tally) {
    let (module, branches) = (from.to_string(), h.to_string());
    let args = ["near", "-", &module, &branches];
    let there = from < plan.modules;
    *tally.answers.entry(("near", if there { 0 } else { 41 })).or_default() += 1;
    if !there {
        return refused(tool, plan, &args, &module);
    }
    let within = (0..).zip(hops(plan, from)).filter(|(_, hops)| hops.is_some_and(|n| n as u64 <= h));
    let lines: String = within.map(|(v, _): (u16, _)| format!("module {v}\n")).collect();
    assert_eq!(tool.text(&args, &plan.encode()), lines, "within {h} of {from}");
}

/// What is printed of a good plan, for modules that are there and that are not.
pub fn told(tool: &Tool, rng: &mut Rng, plan: &Plan, tally: &mut Tally) {
    let n = plan.modules as usize;
    let any = |rng: &mut Rng| if n == 0 || rng.once_in(6) { rng.pick(&[n, n + 1, 65535]) } else { rng.below(n) } as u16;
    for _ in 0..3 {
        let (from, to) = (any(rng), any(rng));
        path(tool, plan, from, to, tally);
        let h =
            rng.pick(&[0, 1, 2, n as u64 / 4, n as u64, 1 << 16, u32::MAX as u64, 1 << 32, (1 << 32) + 1, u64::MAX]);
        near(tool, plan, from, h, tally);
    }
}
