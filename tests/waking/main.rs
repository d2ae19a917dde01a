//! Compares who woke whom by the compiled library with the oracle and with a diary. Drawn plans, each with a drawn list of
//! calls from setup, steps given alone, runs of schedules and of rounds, refused ones among them: after each call the
//! answer, the whole record and all words must be the oracle's; the waking links must be those that the steps' own outcomes
//! tell; and in the library's record every chain of them must end at a module that a wake step woke; at rest each part must
//! be as demand 3 and request 08 say. Then fields that a host may make up (hosts.rs). Prints counts, or panics at the first difference.

#[path = "../counts.rs"]
mod counts;
mod hosts;
#[path = "../muruapy.rs"]
mod muruapy;
mod site;
mod tally;

use oracle::field::{waiting, WAKE};
use oracle::fields::{good_step, some_step};
use oracle::plan::Plan;
use oracle::rest::at_rest;
use oracle::rng::Rng;
use oracle::rules::ASLEEP;
use oracle::schedule::{encode, Step};
use oracle::{kruskal, plans};
use site::{Call, Site};
use tally::Tally;

const LISTS: usize = 3600;
const LARGE: usize = 8;

/// A plan, small most of the time; long chains need paths, rings and trees.
fn some_plan(rng: &mut Rng) -> Plan {
    let kind = rng.pick(&[
        "blank", "single", "path", "path", "ring", "ring", "tree", "tree", "star", "complete", "small", "small",
        "small", "medium", "banks", "banks", "banks", "forest", "islands", "islands", "unlinked",
    ]);
    loop {
        let plan = plans::good(rng, kind);
        if plan.ceiling() <= 700 {
            return plan;
        }
    }
}

/// A step, most of the time one that is taken. While messages wait, one in `wakes` of the wakes that are drawn stays.
fn next_step(rng: &mut Rng, site: &Site, wakes: usize) -> Step {
    let draw = if rng.once_in(12) { some_step } else { good_step };
    for _ in 0..20 {
        let step = draw(rng, &site.field, &site.words);
        if step.kind != WAKE || waiting(&site.words) == 0 || rng.once_in(wakes) {
            return step;
        }
    }
    draw(rng, &site.field, &site.words)
}

/// A schedule of some steps, drawn beside a copy of the field; now and then damaged.
fn some_schedule(rng: &mut Rng, site: &Site, wakes: usize) -> Vec<u8> {
    let mut copy = site.clone();
    let mut steps = Vec::new();
    for _ in 0..rng.range(0, 16) {
        let step = next_step(rng, &copy, wakes);
        let _ = copy.field.take(&mut copy.words, step.kind, step.number);
        steps.push(step);
    }
    let mut bytes = encode(&steps);
    match rng.below(30) {
        0 => bytes.truncate(rng.below(bytes.len())),
        1 => bytes[rng.below(3)] ^= 1 << rng.below(8),
        2 if !steps.is_empty() => bytes[3 + 3 * rng.below(steps.len())] = rng.pick(&[0, 4, 255]),
        _ => {}
    }
    bytes
}

fn some_call(rng: &mut Rng, site: &Site, wakes: usize) -> Call {
    match rng.below(8) {
        0 => Call::Rounds(rng.pick(&[0, 1, 1, 2, 5])),
        1..=3 => Call::Schedule(some_schedule(rng, site, wakes)),
        _ => Call::Step(next_step(rng, site, wakes)),
    }
}

/// A list of calls from setup, every other one with rounds to rest at its end.
fn list(rng: &mut Rng, tally: &mut Tally, plan: Plan) {
    let mut site = Site::set_up(rng, plan);
    let n = site.field.plan.modules as usize;
    if n > 0 && !rng.once_in(25) {
        let wake = Step { kind: WAKE, number: rng.below(n) as u16 };
        let call = if rng.once_in(2) { Call::Step(wake) } else { Call::Schedule(encode(&[wake])) };
        site.call(tally, &call);
    }
    let wakes = rng.pick(&[1, 5, 1000]);
    for _ in 0..rng.range(3, 24) {
        let call = some_call(rng, &site, wakes);
        site.call(tally, &call);
    }
    if rng.once_in(2) {
        site.call(tally, &Call::Rounds(65535));
        assert_eq!(waiting(&site.words), 0, "rounds without a limit end at rest");
    }
    ends(tally, &site);
}

/// What the list came to: how many were woken by steps, the chains, the waking links.
fn ends(tally: &mut Tally, site: &Site) {
    for links in site.follow() {
        tally.count(match links {
            0 => "chain of no link",
            1 => "chain of 1 link",
            2 => "chain of 2 links",
            3..=5 => "chain of 3 to 5 links",
            _ => "chain of 6 links or more",
        });
    }
    let tree = kruskal::tree(&site.field.plan);
    for link in site.waking_links() {
        let place = tree.get(link as usize).map_or("none", |t| if *t == 1 { "in the tree" } else { "not in the tree" });
        tally.count(format!("waking link: {place}"));
    }
    let awake = site.field.modules.iter().any(|m| m.status != ASLEEP);
    tally.count(match site.woken.len() {
        0 => "list: no wake step taken",
        1 => "list: one wake step taken",
        _ => "list: several wake steps taken",
    });
    if waiting(&site.words) == 0 {
        if awake {
            tally.count("list: to rest");
        }
        parts(tally, site);
    }
}

/// At rest: each part with a woken module has its tree and its core, the others are as at setup.
fn parts(tally: &mut Tally, site: &Site) {
    let rest = at_rest(&site.field, &site.words, &site.woken);
    let count = rest.agreed + rest.alone + rest.asleep;
    tally.count_times("part at rest: with its tree", rest.agreed);
    tally.count_times("part at rest: a module alone", rest.alone);
    tally.count_times("part at rest: asleep", rest.asleep);
    if count > 1 {
        tally.count(match rest.asleep {
            0 => "plan in parts: all woken",
            all if all == count => "plan in parts: nobody woken",
            _ => "plan in parts: some woken",
        });
    }
}

fn main() {
    let mut rng = Rng::new(5);
    let mut tally = Tally::default();
    for _ in 0..LISTS {
        let plan = some_plan(&mut rng);
        list(&mut rng, &mut tally, plan);
    }
    for _ in 0..LARGE {
        let kind = rng.pick(&["full", "full", "path", "wide"]);
        let plan = plans::good(&mut rng, kind);
        list(&mut rng, &mut tally, plan);
    }
    hosts::services(&mut rng, &mut tally);
    hosts::circles(&mut rng, &mut tally);
    hosts::refused_values(&mut rng, &mut tally);
    println!("waking: {} lists of calls from setup agree, every chain followed after each call", LISTS + LARGE);
    println!("waking: {} made-up fields agree", hosts::FIELDS);
    tally.report();
}
