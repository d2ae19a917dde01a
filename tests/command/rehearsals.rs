//! `rehearse` and `replay`: the schedules that are written, run by the oracle, and each line that is told of them.

use crate::told::{self, Replayed};
use crate::tool::{Ran, Tool};
use oracle::field::{setup_value, waiting, HAND_OVER, SERVE, WAKE};
use oracle::plan::Plan;
use oracle::rest::at_rest;
use oracle::rng::Rng;
use oracle::rounds;
use oracle::schedule::{self, Step};
use std::collections::BTreeMap;

/// Steps, and how often a replay ended at each refusal; put-backs by their reason; rehearsals of several parts that were
/// woken, and of some that were not.
#[derive(Default)]
pub struct Tally {
    pub steps: usize,
    pub refused: BTreeMap<u32, usize>,
    pub held: BTreeMap<String, usize>,
    pub in_parts: usize,
    pub asleep: usize,
}

/// Compares what `replay` prints of some schedules with the oracle's telling.
pub fn replayed(tool: &Tool, plan: &Plan, schedules: &[Vec<Step>], tally: &mut Tally) -> Replayed {
    let named = |(i, steps): (usize, &Vec<Step>)| (format!("schedule-{i}"), steps.clone());
    let named: Vec<(String, Vec<Step>)> = schedules.iter().enumerate().map(named).collect();
    for (name, steps) in &named {
        tool.write(name, &schedule::encode(steps));
    }
    let args: Vec<&str> = ["replay", "-"].into_iter().chain(named.iter().map(|(name, _)| name.as_str())).collect();
    let ran = tool.run(&args, &plan.encode());
    let told = told::replay(plan, &named);
    agree(ran, &told);
    tally.steps += told.steps.lines().count();
    if let Some(number) = told.refusal {
        *tally.refused.entry(number).or_default() += 1;
    }
    for why in ["link still basic", ": own level", "still finding", "; it wakes"] {
        *tally.held.entry(why.into()).or_default() += told.steps.lines().filter(|l| l.contains(why)).count();
    }
    told
}

/// What ran printed what is told, and exited by it.
pub fn agree(ran: Ran, told: &Replayed) {
    let out = String::from_utf8(ran.out).unwrap();
    assert!(out.starts_with(&told.steps), "first different line: {:?}", different(&out, &told.steps));
    let rest = &out[told.steps.len()..];
    // a refused step has its sentence, then comes the field
    let lines = if told.refusal.is_some() { rest.split_once('\n').expect("a sentence").1 } else { rest };
    assert_eq!(lines, told.lines);
    assert_eq!((ran.code, ran.err.as_str()), (told.refusal.is_some() as i32, ""));
}

fn different<'a>(a: &'a str, b: &'a str) -> Option<(&'a str, &'a str)> {
    a.lines().zip(b.lines()).find(|(a, b)| a != b)
}

/// The schedules that `rehearse` wrote, in order; they are removed.
fn written(tool: &Tool) -> Vec<Vec<Step>> {
    let name = |i: usize| if i == 0 { "show".into() } else { format!("show.{}", i + 1) };
    let mut read = Vec::new();
    while let Some(bytes) = tool.read(&name(read.len())) {
        tool.remove(&name(read.len()));
        read.push(schedule::read(&bytes).expect("a schedule"));
    }
    read
}

/// Rehearses a plan and replays it. Without a seed the steps lead where rounds do.
pub fn rehearsed(tool: &Tool, plan: &Plan, wakes: &[u16], seed: Option<u64>, tally: &mut Tally) -> Vec<Vec<Step>> {
    let number = seed.map(|s| s.to_string());
    let names: Vec<String> = wakes.iter().map(u16::to_string).collect();
    let mut args = vec!["rehearse", "-", "-o", "show"];
    args.extend(number.iter().flat_map(|n| ["--seed", n.as_str()]));
    args.extend(names.iter().map(String::as_str));
    let said = tool.text(&args, &plan.encode());
    let schedules = written(tool);
    let (last, full) = schedules.split_last().expect("a schedule");
    assert!(full.iter().all(|s| s.len() == 21845) && last.is_empty() == (plan.modules == 0));
    let told = replayed(tool, plan, &schedules, tally);
    // where none is named, the lowest of each part
    let woken = if wakes.is_empty() { plan.lowest_modules() } else { wakes.to_vec() };
    let rest = at_rest(&told.field, &told.words, &woken);
    let end = if rest.asleep == 0 { "the plan\n" } else { "each part that was woken\n" };
    assert!(said.contains(&format!("; at rest with the tree of {end}")), "{said}");
    tally.asleep += (rest.asleep > 0) as usize;
    tally.in_parts += (rest.agreed + rest.alone > 1) as usize;

    let all = schedules.concat();
    let first: Vec<Step> = woken.iter().map(|v| Step { kind: WAKE, number: *v }).collect();
    assert_eq!(all[..first.len()], first, "the wakes come first");
    assert!(all[first.len()..].iter().all(|s| s.kind != WAKE));
    let mut summary = format!("{} steps, ", all.len());
    if seed.is_none() {
        summary += &format!("{} rounds, ", by_rounds(plan, &woken, &told));
    }
    summary += &format!("{} messages of {} at most;", told.field.sent, plan.ceiling());
    assert!(said.contains(&summary), "{said} does not say {summary}");
    schedules
}

/// Rounds from the same wakes leave the same; how many they were.
fn by_rounds(plan: &Plan, woken: &[u16], told: &Replayed) -> u32 {
    let mut words = vec![0; plan.ceiling() as usize];
    let mut field = setup_value(plan.clone(), &mut words).unwrap();
    for v in woken {
        field.take(&mut words, WAKE, *v).unwrap();
    }
    let answer = rounds::run(&mut field, &mut words, 65535);
    assert!(field == told.field && words == told.words, "rounds leave something else");
    answer.done
}

/// Modules to wake, each at most once, in any order.
pub fn some_modules(rng: &mut Rng, n: u16) -> Vec<u16> {
    let mut all: Vec<u16> = (0..n).collect();
    rng.shuffle(&mut all);
    let count = rng.below(n as usize + 1);
    all.truncate(count);
    all
}

/// Steps of which most can be taken: wakes, and hand-overs and services of what waits; sometimes any number.
pub fn drawn_steps(rng: &mut Rng, plan: &Plan, count: usize) -> Vec<Step> {
    let mut words = vec![0; plan.ceiling() as usize];
    let mut field = setup_value(plan.clone(), &mut words).unwrap();
    let mut steps = Vec::new();
    for _ in 0..count {
        let all = waiting(&words);
        let odd = rng.once_in(100);
        let step = match rng.below(6) {
            _ if odd => {
                let bounds = [plan.modules, 2 * plan.links.len() as u16, 65535, 0];
                Step { kind: rng.range(1, 3) as u8, number: rng.pick(&bounds) }
            }
            k if k == 0 || all == 0 => Step { kind: WAKE, number: rng.below(plan.modules.max(1) as usize) as u16 },
            _ => {
                let word = words[rng.below(all)];
                let directed = (word >> 24) as u16;
                match word >> 40 & 1 {
                    0 => Step { kind: HAND_OVER, number: directed },
                    _ => Step { kind: SERVE, number: field.target(directed) },
                }
            }
        };
        let taken = field.take(&mut words, step.kind, step.number).is_ok();
        // a refused step ends the replay: most wakes of those awake are left out
        if taken || odd || rng.once_in(200) {
            steps.push(step);
            if !taken {
                break;
            }
        }
    }
    steps
}
