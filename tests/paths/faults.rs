//! Calls that are refused: damaged plan values, the blank plan, and every set of faults at once, for the order of the
//! numbers.

use crate::calls::{compare_near, compare_path};
use crate::draws::{needed, no_module, some_branches, some_module};
use crate::tally::Tally;
use oracle::plan::{Plan, NONE};
use oracle::plans;
use oracle::rng::Rng;

pub const DAMAGED: usize = 1200;
pub const BLANK: usize = 60;
pub const ORDERS: usize = 25;
pub const APART: usize = 300;

/// A number that may be a module's.
fn any_module(rng: &mut Rng, plan: &Plan) -> u16 {
    if plan.modules == 0 || rng.once_in(4) {
        no_module(rng, plan)
    } else {
        some_module(rng, plan)
    }
}

/// Plan values with damages, some whole: both calls, with any modules and any room.
pub fn damaged_plans(rng: &mut Rng, tally: &mut Tally) {
    for i in 0..DAMAGED {
        let plan = plans::some_value(rng, i);
        let modules = [any_module(rng, &plan), any_module(rng, &plan)];
        let room = rng.pick(&[0, 1, 5, 191, 192, 600]);
        compare_path(rng, tally, &plan, modules, room);
        let h = some_branches(rng, &plan);
        compare_near(rng, tally, &plan, (modules[0], h), room);
    }
}

/// The blank plan has no module: 41 for both calls, whatever is asked and lent.
pub fn blank(rng: &mut Rng, tally: &mut Tally) {
    let plan = plans::blank();
    for _ in 0..BLANK {
        let modules = [no_module(rng, &plan), no_module(rng, &plan)];
        let (room, h) = (rng.pick(&[0, 1, 7, 192]), some_branches(rng, &plan));
        assert_eq!(compare_path(rng, tally, &plan, modules, room).0.refusal, 41, "between {modules:?}");
        assert_eq!(compare_near(rng, tally, &plan, (modules[0], h), room).0, 41, "near {}", modules[0]);
    }
}

/// What can be wrong with a call, in the order of the numbers; `To` in a path alone.
#[derive(Clone, Copy, Debug, PartialEq)]
enum Fault {
    Plan,
    From,
    To,
    Room,
}

/// A good plan of two modules or more in one part, so that a path may need room, and with room for one more module and link.
fn plan_of_two(rng: &mut Rng) -> Plan {
    let kind = rng.pick(&["path", "star", "ring", "complete", "tree", "small", "medium"]);
    let plan = plans::good(rng, kind);
    if plan.modules < 192 && plan.links.len() < 600 {
        plan
    } else {
        plan_of_two(rng)
    }
}

/// Damages a plan so that it is refused by one of 14 to 18: the number. Its modules stay below N.
fn break_plan(rng: &mut Rng, plan: &mut Plan) -> u32 {
    let number = rng.range(14, 18) as u32;
    let last = plan.links.len() - 1;
    match number {
        14 => plan.modules = rng.pick(&[193, 600, 65535]),
        15 => plan.links = vec![plan.links[0]; 601],
        16 => plan.links[last].higher = plan.modules,
        17 => plan.links.push(plan.links[last]),
        _ => plan.links[last].at_higher = 2001,
    }
    assert_eq!(plan.check(), Err(number), "{plan:?}");
    number
}

/// A call with all of these faults is refused by the first one's number.
fn faulty(rng: &mut Rng, tally: &mut Tally, faults: &[Fault], path: bool) {
    let mut plan = plan_of_two(rng);
    let from = some_module(rng, &plan);
    let to = (from + 1 + rng.below(plan.modules as usize - 1) as u16) % plan.modules;
    let needed = if path { needed(&plan, from, to) } else { plan.modules as usize };
    let (mut modules, mut room, mut broken) = ([from, to], needed + rng.below(3), 0);
    for fault in faults {
        match fault {
            Fault::Plan => broken = break_plan(rng, &mut plan),
            Fault::From => modules[0] = NONE,
            Fault::To => modules[1] = NONE,
            Fault::Room => room = rng.pick(&[0, needed - 1]),
        }
    }
    let answer = match path {
        true => compare_path(rng, tally, &plan, modules, room).0.refusal,
        false => {
            let h = some_branches(rng, &plan);
            compare_near(rng, tally, &plan, (modules[0], h), room).0
        }
    };
    let first = match faults.first() {
        None => 0,
        Some(Fault::Plan) => broken,
        Some(Fault::From | Fault::To) => 41,
        Some(Fault::Room) => 79,
    };
    assert_eq!(answer, first, "path {path}, {faults:?}");
    let name = if (14..=18).contains(&first) { "14 to 18".to_string() } else { first.to_string() };
    tally.count(format!("faults: {}, {name} first", if path { "path" } else { "near" }));
}

/// Between parts: "no way" comes behind the plan's refusals and 41, and before 79, so that no room is needed.
pub fn apart(rng: &mut Rng, tally: &mut Tally) {
    for i in 0..APART {
        let mut plan = plans::good(rng, plans::IN_PARTS[i % plans::IN_PARTS.len()]);
        let (from, to) = (some_module(rng, &plan), some_module(rng, &plan));
        if plan.part_of(from).contains(&to) {
            continue;
        }
        for room in [0, 1, 191] {
            let found = compare_path(rng, tally, &plan, [from, to], room).0;
            assert_eq!((found.refusal, found.way), (0, 0), "from {from} to {to}");
        }
        for modules in [[from, NONE], [NONE, to]] {
            assert_eq!(compare_path(rng, tally, &plan, modules, 0).0.refusal, 41, "{modules:?}");
        }
        if !plan.links.is_empty() && plan.links.len() < 600 {
            let number = break_plan(rng, &mut plan);
            assert_eq!(compare_path(rng, tally, &plan, [from, to], 0).0.refusal, number);
            tally.count("faults: no way, 14 to 18 first");
        }
    }
}

/// Every set of faults of either call: how many calls.
pub fn orders(rng: &mut Rng, tally: &mut Tally) -> usize {
    let of_path = [Fault::Plan, Fault::From, Fault::To, Fault::Room];
    let of_near = [Fault::Plan, Fault::From, Fault::Room];
    let mut calls = 0;
    for (all, path) in [(&of_path[..], true), (&of_near, false)] {
        for set in 0..1 << all.len() {
            let faults: Vec<Fault> = (0..all.len()).filter(|i| set >> i & 1 == 1).map(|i| all[i]).collect();
            for _ in 0..ORDERS {
                faulty(rng, tally, &faults, path);
                calls += 1;
            }
        }
    }
    calls
}
