//! Compares the compiled paths in the tree, and the marks of the modules near one, with the oracle: drawn plans of all kinds
//! with drawn modules, all modules of small plans, the longest path, each with buffers that are just long enough, longer,
//! too short and empty; damaged plan values, every set of faults at once, the blank plan, and the request's own samples. The
//! answer and the whole buffer must be the same, and what lies beside it. Then what the request says of the library's own
//! answers: no links before the worst one join the two modules, back it is the same path turned round, "no way" exactly
//! where no links join them, the marks go by the paths' lengths, and so do the hops of the library's own cues. Prints counts, or panics at the first difference.

mod calls;
mod claims;
#[path = "../counts.rs"]
mod counts;
mod draws;
mod faults;
#[path = "../muruapy.rs"]
mod muruapy;
mod samples;
mod tally;

use calls::{compare_near, compare_path};
use draws::{needed, no_module, rooms, some_branches, some_module};
use oracle::plan::Plan;
use oracle::plans;
use oracle::rng::Rng;
use tally::Tally;

const DRAWN: usize = 1100;
const SMALL: usize = 100;
const LONGEST: usize = 6;

/// Paths between modules of a plan and marks near them, with all sizes of buffers, and modules that are not there.
fn asked(rng: &mut Rng, tally: &mut Tally, plan: &Plan) {
    for _ in 0..3 {
        let modules @ [from, to] = [some_module(rng, plan), some_module(rng, plan)];
        for room in rooms(rng, needed(plan, from, to)) {
            compare_path(rng, tally, plan, modules, room);
        }
        for room in rooms(rng, plan.modules as usize) {
            let h = some_branches(rng, plan);
            compare_near(rng, tally, plan, (from, h), room);
        }
        let absent = no_module(rng, plan);
        let h = some_branches(rng, plan);
        let either = rng.pick(&[[from, absent], [absent, from], [absent, absent]]);
        compare_path(rng, tally, plan, either, 191);
        compare_near(rng, tally, plan, (absent, h), 192);
    }
}

fn drawn(rng: &mut Rng, tally: &mut Tally) {
    let kinds = plans::kinds_without(&["blank"]);
    for i in 0..DRAWN {
        let plan = plans::good(rng, kinds[i % kinds.len()]);
        asked(rng, tally, &plan);
        claims::of_path(rng, &plan, tally);
    }
}

/// Every two modules, and every number of branches.
fn small(rng: &mut Rng, tally: &mut Tally) {
    for _ in 0..SMALL {
        let kind = rng.pick(&["small", "small", "islands", "banks"]);
        let plan = plans::good(rng, kind);
        if plan.modules > 12 {
            continue;
        }
        for from in 0..plan.modules {
            for to in 0..plan.modules {
                compare_path(rng, tally, &plan, [from, to], needed(&plan, from, to));
            }
            for h in 0..=plan.modules as u32 {
                compare_near(rng, tally, &plan, (from, h), plan.modules as usize);
            }
        }
        claims::of_marks(&plan, rng, tally);
    }
}

/// From end to end of 192 modules in a row.
fn longest(rng: &mut Rng, tally: &mut Tally) {
    for i in 0..LONGEST {
        let plan = plans::plan(rng, 192, plans::path(192), plans::READINGS[i % plans::READINGS.len()]);
        for modules in [[0, 191], [191, 0]] {
            for room in [191, 190, 192, 0] {
                compare_path(rng, tally, &plan, modules, room);
            }
            for h in [0, 1, 189, 190, 191, 192, 255, 256, u32::MAX] {
                compare_near(rng, tally, &plan, (modules[0], h), 192);
            }
        }
    }
}

fn main() {
    let mut rng = Rng::new(79);
    let mut tally = Tally::default();
    samples::samples();
    drawn(&mut rng, &mut tally);
    small(&mut rng, &mut tally);
    longest(&mut rng, &mut tally);
    let cues = claims::of_cues(&mut rng, &mut tally);
    faults::damaged_plans(&mut rng, &mut tally);
    faults::blank(&mut rng, &mut tally);
    faults::apart(&mut rng, &mut tally);
    let faulty = faults::orders(&mut rng, &mut tally);
    println!(
        "paths: {} calls agree, on {} good plans and {} damaged plan values, {faulty} of them with faults drawn together; \
         {cues} cues have the same hops",
        tally.calls,
        DRAWN + SMALL + LONGEST,
        faults::DAMAGED,
    );
    tally.report();
}
