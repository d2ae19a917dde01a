//! Paths in the tree and the modules near one: the same work in plain safe Rust, on a plan's value, and both sides' rows.

use crate::muruapy::{self, Numbers, PathFound};
use crate::{head, micros, plain, row, PLANS, REPETITIONS};
use oracle::plan::NONE;
use oracle::plans;
use oracle::rng::Rng;
use std::collections::BTreeSet;
use std::hint::black_box;

const FAR: u8 = 255;

/// The tree's links by the modules that they end at: for each module its first entry, for each entry the next one, the link
/// and the module at its other end.
struct Tree {
    first: [u16; 192],
    entries: Vec<(u16, u16, u8)>,
}

fn link(plan: &Numbers, k: usize) -> [u16; 4] {
    plan[2 + 4 * k..][..4].try_into().unwrap()
}

impl Tree {
    fn of(plan: &Numbers) -> Tree {
        let mut bytes = [0; 600];
        let marks = &mut bytes[..plan[1] as usize];
        plain::kruskal(marks, |k| link(plan, k));
        let mut tree = Tree { first: [NONE; 192], entries: Vec::with_capacity(382) };
        for k in (0..marks.len()).filter(|k| marks[*k] == 1) {
            let [lower, higher, ..] = link(plan, k);
            for (v, w) in [(lower, higher), (higher, lower)] {
                let at = std::mem::replace(&mut tree.first[v as usize], tree.entries.len() as u16);
                tree.entries.push((at, k as u16, w as u8));
            }
        }
        tree
    }

    /// Breadth first from a module, up to so many hops or until `goal` is reached: the hops of each module, and the link and
    /// the module by which it is reached.
    fn spread(&self, from: u16, most: u8, goal: Option<u16>) -> ([u8; 192], [(u16, u8); 192]) {
        let (mut hops, mut by) = ([FAR; 192], [(NONE, 0); 192]);
        let (mut queue, mut ahead, mut behind) = ([0u8; 192], 0, 1);
        hops[from as usize] = 0;
        queue[0] = from as u8;
        while ahead < behind && goal.is_none_or(|goal| hops[goal as usize] == FAR) {
            let v = queue[ahead] as usize;
            ahead += 1;
            if hops[v] == most {
                break;
            }
            let mut at = self.first[v];
            while at != NONE {
                let (next, k, w) = self.entries[at as usize];
                if hops[w as usize] == FAR {
                    hops[w as usize] = hops[v] + 1;
                    by[w as usize] = (k, v as u8);
                    queue[behind] = w;
                    behind += 1;
                }
                at = next;
            }
        }
        (hops, by)
    }
}

/// 14 to 18, 41, "no way", 79; else the path from the first module on, at the front of `out`, and its latest link.
fn path(plan: &Numbers, from: u16, to: u16, out: &mut [u16]) -> PathFound {
    let refused = |refusal| PathFound { refusal, way: 0, length: 0, worst: NONE };
    match plain::check_numbers(plan) {
        0 if from.max(to) >= plan[0] => return refused(41),
        0 => {}
        refusal => return refused(refusal),
    }
    let (hops, by) = Tree::of(plan).spread(to, FAR, Some(from));
    if hops[from as usize] == FAR {
        return refused(0);
    }
    let length = hops[from as usize] as usize;
    let Some(front) = out.get_mut(..length) else {
        return refused(79);
    };
    let key = |k: u16| {
        let [.., near, far] = link(plan, k as usize);
        (near.max(far), near + far, k)
    };
    let (mut at, mut worst) = (from, None);
    for place in front {
        let (k, next) = by[at as usize];
        (*place, at) = (k, next as u16);
        worst = worst.max(Some(key(k)));
    }
    PathFound { refusal: 0, way: 1, length: length as u16, worst: worst.map_or(NONE, |(.., k)| k) }
}

/// 14 to 18, 41, 79; else a byte for each module, 1 within h branches.
fn near(plan: &Numbers, from: u16, h: u32, out: &mut [u8]) -> u32 {
    match plain::check_numbers(plan) {
        0 if from >= plan[0] => return 41,
        0 => {}
        refusal => return refusal,
    }
    let Some(front) = out.get_mut(..plan[0] as usize) else {
        return 79;
    };
    let (hops, _) = Tree::of(plan).spread(from, h.min(FAR as u32 - 1) as u8, None);
    for (mark, hops) in front.iter_mut().zip(hops) {
        *mark = (hops != FAR) as u8;
    }
    0
}

/// Both sides answer and leave the same of a plan, whatever it is.
fn same(rng: &mut Rng, plan: &Numbers, answers: &mut BTreeSet<u32>) {
    let modules: [u16; 2] = std::array::from_fn(|_| rng.below(plan[0].clamp(1, 192) as usize + 1) as u16);
    let (room, h) = (rng.pick(&[0, 4, 30, 191, 192]), rng.pick(&[0, 1, 8, 20, 191, 192, 255, 256, u32::MAX]));
    let (mut a, mut b) = (vec![9; room], vec![9; room]);
    let found = muruapy::path(plan, modules[0], modules[1], &mut a);
    assert_eq!(found, path(plan, modules[0], modules[1], &mut b), "both sides find the same path");
    assert_eq!(a, b, "both sides write the same path");
    let (mut a, mut b) = (vec![9; room], vec![9; room]);
    let refusal = muruapy::near(plan, modules[0], h, &mut a);
    assert_eq!(refusal, near(plan, modules[0], h, &mut b), "both sides answer the same of marks");
    assert_eq!(a, b, "both sides mark the same");
    answers.extend([found.refusal, refusal]);
}

/// On the plans that are timed, and on drawn ones, damaged among them.
fn agree(values: &[Numbers]) {
    let (rng, mut answers) = (&mut Rng::new(79), BTreeSet::new());
    for plan in values {
        for _ in 0..50 {
            same(rng, plan, &mut answers);
        }
    }
    for i in 0..2000 {
        let plan = plans::some_value(rng, i);
        same(rng, &muruapy::numbers(&plan, &mut Rng::new(i as u64)), &mut answers);
    }
    assert_eq!(Vec::from_iter(answers), [0, 14, 15, 16, 17, 18, 41, 79]);
}

type Paths = fn(&Numbers, u16, u16, &mut [u16]) -> PathFound;
type Marks = fn(&Numbers, u16, u32, &mut [u8]) -> u32;

/// The modules that the next call is about, the same for both sides.
fn drawn(rng: &mut Rng) -> [u16; 2] {
    std::array::from_fn(|_| rng.below(192) as u16)
}

/// A side that finds paths between drawn modules.
fn on_paths(values: &[Numbers], find: Paths) -> impl FnMut(usize) -> f64 + '_ {
    let (mut rng, mut links) = (Rng::new(7), [0; 191]);
    move |i| {
        let [from, to] = drawn(&mut rng);
        let (time, found) = micros(|| find(black_box(&values[i]), from, to, &mut links));
        assert_eq!(found.refusal, 0);
        time
    }
}

/// A side that marks the modules within h branches of a drawn one.
fn on_marks(values: &[Numbers], h: u32, mark: Marks) -> impl FnMut(usize) -> f64 + '_ {
    let (mut rng, mut marks) = (Rng::new(7), [0; 192]);
    move |i| {
        let [from, _] = drawn(&mut rng);
        let (time, refusal) = micros(|| mark(black_box(&values[i]), from, h, &mut marks));
        assert_eq!(refusal, 0);
        time
    }
}

/// A side that builds the tree alone.
fn on_trees(values: &[Numbers]) -> impl FnMut(usize) -> f64 + '_ {
    let mut tree = [0; 600];
    move |i| {
        let (time, refusal) = micros(|| muruapy::tree(black_box(&values[i]), &mut tree));
        assert_eq!(refusal, 0);
        time
    }
}

pub fn rows(values: &[Numbers]) {
    agree(values);
    let rattle = &mut on_paths(values, muruapy::path);
    row("a path, with its worst link", REPETITIONS, rattle, &mut on_paths(values, path));
    for h in [8, 191] {
        let rattle = &mut on_marks(values, h, muruapy::near);
        row(&format!("the modules within {h} branches"), REPETITIONS, rattle, &mut on_marks(values, h, near));
    }
}

/// The links of the paths that are timed: in the mean, and at most.
fn lengths(values: &[Numbers]) -> (f64, u16) {
    let (mut rng, mut links, mut total, mut longest) = (Rng::new(7), [0; 191], 0, 0);
    for i in 0..REPETITIONS * PLANS {
        let [from, to] = drawn(&mut rng);
        let length = muruapy::path(&values[i % PLANS], from, to, &mut links).length;
        total += length as usize;
        longest = longest.max(length);
    }
    (total as f64 / (REPETITIONS * PLANS) as f64, longest)
}

/// A path beside the tree alone: what is left is a pass over the branches for each link. What a pass takes is told by marks
/// too, within 8 branches and within none.
pub fn beside_the_tree(values: &[Numbers]) {
    println!("\n| work, Rattle | with passes | without | ratio | ratio by first quartiles |");
    println!("|---|---|---|---|---|");
    let (path, tree) = (&mut on_paths(values, muruapy::path), &mut on_trees(values));
    let (path, tree) = row("a path, and the tree alone", REPETITIONS, path, tree);
    let (all, none) = (&mut on_marks(values, 8, muruapy::near), &mut on_marks(values, 0, muruapy::near));
    let (all, none) = row("the modules within 8 branches, and within none", REPETITIONS, all, none);
    let (mean, longest) = lengths(values);
    let passes = [(path - tree) / mean, (all - none) / 8.0].map(|micros| format!("{micros:.2}"));
    println!("\nThe paths that are timed have {mean:.1} links in the mean, {longest} at most. A pass over the");
    println!("191 branches takes {} microseconds by these two rows.", passes.join(" and "));
}

/// The rows on paths alone.
pub fn alone(values: &[Numbers]) {
    head();
    rows(values);
    beside_the_tree(values);
}
