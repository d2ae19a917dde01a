//! Fields that are marked with their tree, and records to lend beside them.

use crate::items::broken;
use oracle::cue::{deliver, start, waits, Cue};
use oracle::field::{setup_value, Field, WAKE};
use oracle::fields::marked;
use oracle::rng::Rng;
use oracle::{kruskal, plans, rounds};

/// A field with its words and the plan's tree.
pub struct Site {
    pub field: Field,
    pub words: Vec<u64>,
    pub tree: Vec<u8>,
}

impl Site {
    pub fn of((field, words): (Field, Vec<u64>)) -> Site {
        let tree = kruskal::tree(&field.plan);
        Site { field, words, tree }
    }

    pub fn modules(&self) -> usize {
        self.field.plan.modules as usize
    }

    /// How many directed links there are.
    pub fn directed(&self) -> usize {
        2 * self.field.plan.links.len()
    }

    /// How many modules the part of v has.
    pub fn part(&self, v: u16) -> usize {
        self.field.plan.part_of(v).len()
    }

    pub fn waiting(&self, cues: &[Cue]) -> Vec<u16> {
        (0..self.directed() as u16).filter(|d| waits(&self.field, &self.tree, cues, *d)).collect()
    }

    pub fn broken(&self, cues: &[Cue]) -> Vec<&'static str> {
        broken(&self.field, &self.tree, &cues[..self.modules()])
    }
}

/// Marked by hand on a drawn plan, small most of the time, with a module or more.
pub fn some_site(rng: &mut Rng) -> Site {
    let kind = rng.pick(&[
        "single", "path", "star", "ring", "complete", "tree", "small", "small", "small", "medium", "banks", "banks",
        "forest", "islands", "islands", "unlinked",
    ]);
    let plan = plans::good(rng, kind);
    Site::of(marked(rng, &plan))
}

/// From a woken module of each part, or of some, after so many rounds at most.
pub fn run_site(rng: &mut Rng, kind: &str, limit: u16, each: bool) -> Site {
    let plan = plans::good(rng, kind);
    let mut words = vec![7; plan.ceiling() as usize + rng.below(3)];
    let mut field = setup_value(plan, &mut words).expect("a good plan");
    for lowest in field.plan.lowest_modules() {
        if each || !rng.once_in(4) {
            let v = rng.pick(&field.plan.part_of(lowest));
            field.step(&mut words, WAKE, v).expect("a sleeper");
        }
    }
    rounds::run(&mut field, &mut words, limit);
    Site::of((field, words))
}

pub fn any_record(rng: &mut Rng) -> Cue {
    Cue { heard: rng.byte(), cue: rng.next() as u16, link: rng.next() as u16, hops: rng.next() as u16 }
}

/// So many records, of anything.
pub fn any_records(rng: &mut Rng, count: usize) -> Vec<Cue> {
    (0..count).map(|_| any_record(rng)).collect()
}

/// Records that a start and some deliveries leave, and some behind them.
pub fn left(rng: &mut Rng, site: &Site) -> Vec<Cue> {
    let n = site.modules();
    let behind = rng.below(3);
    let mut cues = any_records(rng, n + behind);
    start(&site.field, &site.words, &mut cues, rng.below(n) as u16, rng.next() as u16).expect("a marked field");
    for _ in 0..rng.below(n + 1) {
        let waiting = site.waiting(&cues);
        if !waiting.is_empty() {
            deliver(&site.field, &site.words, &mut cues, rng.pick(&waiting)).expect("its records");
        }
    }
    cues
}

/// A directed link: one that a copy waits on most of the time, any of the plan, or none of it.
pub fn some_link(rng: &mut Rng, site: &Site, cues: &[Cue]) -> u16 {
    let (waiting, all) = (site.waiting(cues), site.directed());
    match rng.below(16) {
        0 => past(rng, all),
        1..=4 if all > 0 => rng.below(all) as u16,
        _ if !waiting.is_empty() => rng.pick(&waiting),
        _ => rng.below(all.max(1)) as u16,
    }
}

/// A number from `bound` on.
pub fn past(rng: &mut Rng, bound: usize) -> u16 {
    let any = rng.range(bound, 65535);
    rng.pick(&[bound, bound, bound + 1, bound + 2, 1200, 65535, any]).max(bound) as u16
}
