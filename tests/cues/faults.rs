//! Marks, fields and calls that are refused: each damage by itself, then every set of faults at once, for the order of the
//! numbers.

use crate::calls::{compare_delivery, compare_start};
use crate::site::{any_records, left, past, run_site, some_link, some_site, Site};
use crate::tally::Tally;
use oracle::field::waiting;
use oracle::fields::spoil;
use oracle::rng::Rng;
use oracle::rules::{ASLEEP, BASIC, BRANCH, REJECTED};

pub const UNFINISHED: usize = 400;
pub const MARKS: usize = 60;
pub const SPOILT: usize = 800;
pub const ORDERS: usize = 12;

/// A way to damage marks: of a link in the tree or not, at which end, to which mark.
type Way = (&'static str, bool, usize, u8);

pub const DAMAGED: [Way; 6] = [
    ("tree link, lower end Basic", true, 0, BASIC),
    ("tree link, lower end Rejected", true, 0, REJECTED),
    ("tree link, higher end Basic", true, 1, BASIC),
    ("tree link, higher end Rejected", true, 1, REJECTED),
    ("other link, lower end Branch", false, 0, BRANCH),
    ("other link, higher end Branch", false, 1, BRANCH),
];

/// One mark changed so that 71 applies; false where the plan has no such link.
fn mark(rng: &mut Rng, site: &mut Site, (_, in_tree, end, mark): Way) -> bool {
    let links: Vec<usize> = (0..site.tree.len()).filter(|k| (site.tree[*k] == 1) == in_tree).collect();
    if links.is_empty() {
        return false;
    }
    site.field.marks[rng.pick(&links)][end] = mark;
    true
}

/// One mark that is not the tree's: both calls are refused by 71.
pub fn damaged_marks(rng: &mut Rng, tally: &mut Tally) {
    for way in DAMAGED {
        let mut cases = 0;
        while cases < MARKS {
            let mut site = some_site(rng);
            let mut cues = left(rng, &site);
            let link = some_link(rng, &site, &cues);
            if mark(rng, &mut site, way) {
                let sender = rng.below(site.modules()) as u16;
                assert_eq!(compare_start(rng, tally, &site, &mut cues, sender, 1), 71, "{way:?}");
                assert_eq!(compare_delivery(rng, tally, &site, &mut cues, link).refusal, 71, "{way:?}");
                tally.count(format!("71 alone: {}", way.0));
                cases += 1;
            }
        }
    }
}

/// Fields on the way to their tree: 71 until both ends of each tree link are marked, with messages waiting or none.
pub fn unfinished_fields(rng: &mut Rng, tally: &mut Tally) {
    for _ in 0..UNFINISHED {
        let kind = rng.pick(&["path", "star", "ring", "small", "small", "banks", "islands", "forest"]);
        let limit = rng.below(14) as u16;
        let site = run_site(rng, kind, limit, false);
        let mut cues = any_records(rng, site.modules());
        let sender = rng.below(site.modules()) as u16;
        let answer = compare_start(rng, tally, &site, &mut cues, sender, 4);
        let rest = if waiting(&site.words) > 0 { ", messages wait" } else { "" };
        tally.count(format!("unfinished: {answer}{rest}"));
        let asleep =
            |v: &u16| site.field.plan.part_of(*v).iter().all(|u| site.field.modules[*u as usize].status == ASLEEP);
        if site.field.plan.lowest_modules().iter().any(asleep) {
            tally.count(format!("a part asleep: {answer}"));
        }
        let link = some_link(rng, &site, &cues);
        compare_delivery(rng, tally, &site, &mut cues, link);
    }
}

/// Fields with one value changed at random: 31, 71, or still a marked field.
pub fn spoilt_fields(rng: &mut Rng, tally: &mut Tally) {
    for _ in 0..SPOILT {
        let mut site = some_site(rng);
        let mut cues = left(rng, &site);
        let (link, sender) = (some_link(rng, &site, &cues), rng.below(site.modules()) as u16);
        spoil(rng, &mut site.field, &mut site.words);
        compare_delivery(rng, tally, &site, &mut cues, link);
        compare_start(rng, tally, &site, &mut cues, sender, 3);
    }
}

/// Any of these ways that the plan has a link for.
fn break_marks(rng: &mut Rng, site: &mut Site) {
    let way = rng.pick(&DAMAGED);
    if !mark(rng, site, way) {
        break_marks(rng, site);
    }
}

/// What can be wrong with a call, in the order of the numbers. `Records` at a delivery alone.
#[derive(Clone, Copy, Debug, PartialEq)]
enum Fault {
    Field,
    Marks,
    Sender,
    Few,
    Records,
    Link,
}

impl Fault {
    fn number(self) -> u32 {
        match self {
            Fault::Field => 31,
            Fault::Marks => 71,
            Fault::Sender => 72,
            Fault::Few | Fault::Records => 73,
            Fault::Link => 42,
        }
    }
}

fn break_field(rng: &mut Rng, site: &mut Site) {
    let v = rng.below(site.modules());
    match rng.below(5) {
        0 => site.field.sent = site.field.plan.ceiling() + 1,
        1 => site.field.modules[v].status = 3,
        2 => site.field.modules[v].halted = 2,
        3 => site.field.modules[v].waking = rng.pick(&[600, 65534]),
        _ => site.words.push(1),
    }
}

/// A call with all of these faults is refused by the first one's number.
fn faulty(rng: &mut Rng, tally: &mut Tally, faults: &[Fault], starts: bool) {
    let mut site = some_site(rng);
    while site.directed() == 0 {
        site = some_site(rng);
    }
    let n = site.modules();
    let mut cues = left(rng, &site);
    let (mut sender, mut link) = (rng.below(n) as u16, some_link(rng, &site, &cues) % site.directed() as u16);
    for fault in faults {
        match fault {
            Fault::Field => break_field(rng, &mut site),
            Fault::Marks => break_marks(rng, &mut site),
            Fault::Sender => sender = past(rng, n),
            Fault::Few => cues.truncate(rng.pick(&[0, n - 1, n / 2])),
            Fault::Records => cues[sender as usize].heard = 2,
            Fault::Link => link = past(rng, site.directed()),
        }
    }
    let answer = match starts {
        true => compare_start(rng, tally, &site, &mut cues, sender, 2),
        false => compare_delivery(rng, tally, &site, &mut cues, link).refusal,
    };
    assert_eq!(answer, faults.first().map_or(0, |fault| fault.number()), "start {starts}, {faults:?}");
}

/// Every set of faults of either call.
pub fn orders(rng: &mut Rng, tally: &mut Tally) -> usize {
    let of_start = [Fault::Field, Fault::Marks, Fault::Sender, Fault::Few];
    let of_delivery = [Fault::Field, Fault::Marks, Fault::Few, Fault::Link];
    let with_records = [Fault::Field, Fault::Marks, Fault::Records, Fault::Link];
    let mut sets = 0;
    for (all, starts) in [(of_start, true), (of_delivery, false), (with_records, false)] {
        for set in 0..16 {
            let faults: Vec<Fault> = (0..4).filter(|i| set >> i & 1 == 1).map(|i| all[i]).collect();
            for _ in 0..ORDERS {
                faulty(rng, tally, &faults, starts);
            }
            sets += 1;
        }
    }
    sets
}
