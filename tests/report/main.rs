//! The oracle's reporting program, and its comparison with another program that prints the same.
//!
//!   report                             prints what the reporting program prints for its standard input
//!   report compare SEED COUNT CMD ..   runs CMD on the plans of samples/, a plan of each number of modules, COUNT drawn
//!                                      plans of all kinds, COUNT damaged ones and long inputs, and compares what it prints

use oracle::compare::same_output;
use oracle::kruskal;
use oracle::plan::{self, Plan, MOST_MODULES};
use oracle::plans::{self, KINDS, READINGS};
use oracle::report::report;
use oracle::rng::Rng;
use std::collections::{BTreeMap, BTreeSet};
use std::io::Read;

struct Input {
    name: String,
    bytes: Vec<u8>,
}

fn input(name: impl Into<String>, bytes: Vec<u8>) -> Input {
    Input { name: name.into(), bytes }
}

fn samples() -> Vec<Input> {
    let files = std::fs::read_dir("samples").expect("run at the top of the repository");
    let paths = files.map(|file| file.unwrap().path()).filter(|path| path.extension().is_some_and(|e| e == "plan"));
    paths.map(|path| input(path.display().to_string(), std::fs::read(&path).unwrap())).collect()
}

/// A connected plan of each number of modules, from 0 on, the readings drawn in each way in turn.
fn each_size(rng: &mut Rng) -> Vec<Input> {
    let one = |n: u16| {
        let pairs = plans::connected(rng, n, n as usize + n as usize % 7 * 30);
        let readings = READINGS[n as usize % READINGS.len()];
        input(format!("{n} modules"), plans::plan(rng, n, pairs, readings).encode())
    };
    (0..=MOST_MODULES).map(one).collect()
}

/// A plan of each number of modules from 2 on, in a drawn number of parts.
fn each_in_parts(rng: &mut Rng) -> Vec<Input> {
    let one = |n: u16| {
        let count = rng.range(2, n as usize);
        let pairs = plans::in_parts(rng, n, count, n as usize % 5 * 40);
        let readings = READINGS[n as usize % READINGS.len()];
        input(format!("{n} modules, {count} parts"), plans::plan(rng, n, pairs, readings).encode())
    };
    (2..=MOST_MODULES).map(one).collect()
}

/// Inputs about as long as the longest plan, as long as a length can tell, and longer.
fn long(rng: &mut Rng) -> Vec<Input> {
    let head = |version: u8, n: u8, size: usize| {
        let mut bytes = vec![version, 255, 255, 0, n, 0, 0];
        bytes.resize(size, 0);
        bytes
    };
    let full = plans::good(rng, "full").encode();
    let behind = |count: usize| [full.clone(), vec![0; count]].concat();
    vec![
        input("the longest plan and a byte", behind(1)),
        input("the longest plan and a link", behind(8)),
        input("the longest plan and 100,000 bytes", behind(100_000)),
        input("length 65535, no links", head(1, 1, 65538)),
        input("length 65535, nobody", head(1, 0, 65538)),
        input("65538 zeros", vec![0; 65538]),
        input("length 65535, 193 modules", head(1, 193, 65538)),
        input("length 65535 and a byte missing", head(1, 1, 65537)),
        input("length 65535 and a byte behind", head(1, 1, 65539)),
        input("length 65535 and many behind", head(1, 1, 300_000)),
        input("version 2, long", head(2, 1, 300_000)),
    ]
}

fn drawn(rng: &mut Rng, count: usize) -> Vec<Input> {
    let mut inputs = Vec::new();
    for i in 0..count {
        let kind = KINDS[i % KINDS.len()];
        inputs.push(input(format!("plan {i}, {kind}"), plans::good(rng, kind).encode()));
        inputs.push(input(format!("damaged plan {i}"), plans::damaged(rng)));
    }
    inputs
}

/// The branch lines and the total are those of the tree that Kruskal's method finds.
fn check_tree(plan: &Plan, printed: &str) {
    let tree = kruskal::tree(plan);
    let chosen = || (0..plan.links.len()).filter(|k| tree[*k] == 1);
    let line = |k: usize| format!("branch {} {} {}", plan.links[k].lower, plan.links[k].higher, plan.cost(k as u16));
    let total: u32 = chosen().map(|k| plan.cost(k as u16)).sum();
    let mut lines: Vec<String> = chosen().map(line).collect();
    lines.push(format!("total {total}"));
    assert!(printed.lines().skip(2).take(lines.len()).eq(lines.iter()), "the tree is not Kruskal's");
}

/// There is a core line for each part, in the order of the lowest modules: none for a part of one, else the ends of a link of
/// the tree in this part. How many parts have several modules, and how many one.
fn check_cores(plan: &Plan, printed: &str) -> (usize, usize) {
    let tree = kruskal::tree(plan);
    let lines: Vec<&str> = printed.lines().filter_map(|line| line.strip_prefix("core ")).collect();
    if plan.modules == 0 {
        assert_eq!(lines, ["none"], "the blank plan's single line");
        return (0, 0);
    }
    let lowest = plan.lowest_modules();
    assert_eq!(lines.len(), lowest.len(), "a core line for each part");
    let mut alone = 0;
    for (line, v) in lines.iter().zip(&lowest) {
        let part = plan.part_of(*v);
        let core = |k: &usize| *line == format!("{} {}", plan.links[*k].lower, plan.links[*k].higher);
        let of_part = |k: &usize| tree[*k] == 1 && part.contains(&plan.links[*k].lower);
        let links = (0..plan.links.len()).filter(of_part).filter(core).count();
        assert!(if part.len() == 1 { *line == "none" } else { links == 1 }, "core {line} of the part of {v}");
        alone += (part.len() == 1) as usize;
    }
    (lowest.len() - alone, alone)
}

/// Whether two links cost the same, and whether two such have different sums.
fn equal_costs(plan: &Plan) -> (bool, bool) {
    let links = 0..plan.links.len() as u16;
    let costs: BTreeSet<u32> = links.clone().map(|k| plan.cost(k)).collect();
    let sums: BTreeSet<(u32, u32)> = links.map(|k| (plan.cost(k), plan.sum(k))).collect();
    (costs.len() < plan.links.len(), costs.len() < sums.len())
}

/// How many plans must be in several parts, have several parts of two modules or more, and have a part of one beside others:
/// about half as many as with seed 7.
const PARTS: [usize; 3] = [310, 210, 200];

/// How often plans with N = 0 must be taken, refused by 15 and by 16: about half as often as with seed 7.
const NOBODY: [(u32, usize); 3] = [(0, 47), (15, 18), (16, 22)];

fn compare(inputs: &[Input], command: &[String]) {
    let (mut taken, mut ties, mut by_sum) = (0, 0, 0);
    let (mut in_parts, mut larger, mut with_alone) = (0, 0, 0);
    let mut refused: BTreeMap<u32, usize> = BTreeMap::new();
    let mut nobody: BTreeMap<u32, usize> = BTreeMap::new();
    for Input { name, bytes } in inputs {
        let expected = report(bytes);
        same_output(command, bytes, &expected, name);
        let read = plan::read(bytes);
        let answer = read.as_ref().err().copied().unwrap_or(0);
        if (answer == 0 || answer > 13) && plan::be16(bytes, 3) == 0 {
            *nobody.entry(answer).or_default() += 1;
        }
        match read {
            Ok(plan) => {
                check_tree(&plan, &expected);
                let (several, alone) = check_cores(&plan, &expected);
                in_parts += (several + alone > 1) as usize;
                larger += (several > 1) as usize;
                with_alone += (several + alone > 1 && alone > 0) as usize;
                taken += 1;
                let (equal, different_sums) = equal_costs(&plan);
                ties += equal as usize;
                by_sum += different_sums as usize;
            }
            Err(number) => *refused.entry(number).or_default() += 1,
        }
    }
    assert!(refused.keys().copied().eq(11..=18), "some refusal never came: {refused:?}");
    assert!(ties >= 520 && by_sum >= 340, "only {ties} plans have equal costs, {by_sum} of them different sums");
    println!(
        "report: {} inputs, the same output; {taken} plans taken, {ties} with equal costs, {by_sum} of them with \
         different sums",
        inputs.len()
    );
    println!(
        "report: {in_parts} plans in several parts, {larger} with several larger ones, {with_alone} with a part of one"
    );
    assert!(in_parts >= PARTS[0] && larger >= PARTS[1] && with_alone >= PARTS[2], "too few plans in several parts");
    println!("report: refusals and how often: {refused:?}; with N = 0: {nobody:?}");
    for (answer, least) in NOBODY {
        let times = nobody.get(&answer).copied().unwrap_or(0);
        assert!(times >= least, "N = 0 was answered by {answer} {times} times, {least} wanted");
    }
}

fn main() {
    let args: Vec<String> = std::env::args().skip(1).collect();
    if args.is_empty() {
        let mut input = Vec::new();
        std::io::stdin().read_to_end(&mut input).expect("standard input can be read");
        print!("{}", report(&input));
        return;
    }
    let number = |i: usize| args[i].parse::<u64>().expect("a number");
    let mut rng = Rng::new(number(1));
    let mut inputs = samples();
    inputs.extend(each_size(&mut rng));
    inputs.extend(each_in_parts(&mut rng));
    inputs.extend(long(&mut rng));
    inputs.extend(drawn(&mut rng, number(2) as usize));
    compare(&inputs, &args[3..]);
}
