//! Writes the plans and the store of samples/. `make_samples FOLDER`, by samples/make.

use oracle::field::{setup_value, WAKE};
use oracle::plan::{Link, Plan};
use oracle::plans::{blank, complete, connected, path, plan, ring, star, two_banks, unlinked, worse_reading, Readings};
use oracle::points::{points, save};
use oracle::report::report;
use oracle::rng::Rng;
use oracle::rounds;
use oracle::schedule::Step;

fn two_modules() -> Plan {
    Plan { modules: 2, links: vec![Link { lower: 0, higher: 1, at_lower: 3, at_higher: 4 }] }
}

fn triangle() -> Plan {
    let link = |lower, higher| Link { lower, higher, at_lower: 2, at_higher: 3 };
    Plan { modules: 3, links: vec![link(0, 1), link(0, 2), link(1, 2)] }
}

fn mesh(rng: &mut Rng, n: u16, l: usize) -> Plan {
    let pairs = connected(rng, n, l);
    plan(rng, n, pairs, Readings::Wide)
}

/// The steps from a wake of module 0 to rest, by rounds, as `muruapy rehearse` takes them.
fn rehearsed(plan: &Plan) -> Vec<Step> {
    let mut words = vec![0; plan.ceiling() as usize];
    let mut field = setup_value(plan.clone(), &mut words).expect("a good plan");
    let mut steps = vec![Step { kind: WAKE, number: 0 }];
    field.step(&mut words, WAKE, 0).expect("module 0 sleeps");
    rounds::run_seen(&mut field, &mut words, 65535, &mut |step, _| steps.push(step));
    steps
}

/// A store of three moments of the rehearsal of a plan.
fn moments(plan: &Plan) -> Vec<u8> {
    let (steps, mut store) = (rehearsed(plan), vec![0; 10_000]);
    for (name, count) in [("woken", 1), ("half", 120), ("rest", steps.len())] {
        let mut words = vec![0; plan.ceiling() as usize];
        let mut field = setup_value(plan.clone(), &mut words).expect("a good plan");
        for step in &steps[..count] {
            field.step(&mut words, step.kind, step.number).expect("a step of the rehearsal");
        }
        save(&mut store, name.as_bytes(), &field, &words).expect("a small field");
    }
    let all = points(&store).expect("what was saved");
    let end = all.last().map_or(0, |point| point.at + point.size);
    store.truncate(end);
    println!("mesh-9.store: {} steps, {} points, {end} bytes", steps.len(), all.len());
    store
}

fn main() {
    let folder = std::env::args().nth(1).expect("a folder to write to");
    let rng = &mut Rng::new(1983);
    let full = connected(rng, 192, 600);
    let mut not_ascending = plan(rng, 5, ring(5), Readings::Wide);
    not_ascending.links.swap(1, 2);
    let mut reading_2001 = two_modules();
    reading_2001.links[0].at_higher = 2001;
    let plans = [
        ("blank", blank()),
        ("single", Plan { modules: 1, links: vec![] }),
        ("two-modules", two_modules()),
        ("triangle", triangle()),
        ("worse-reading", worse_reading()),
        ("two-banks", two_banks()),
        ("two-apart", unlinked(2)),
        ("path-8", plan(rng, 8, path(8), Readings::Wide)),
        ("star-16", plan(rng, 16, star(16, 5), Readings::Few)),
        ("ring-12", plan(rng, 12, ring(12), Readings::Same)),
        ("complete-10", plan(rng, 10, complete(10), Readings::SameCost)),
        ("full-192", plan(rng, 192, full, Readings::Wide)),
        ("mesh-9", mesh(rng, 9, 16)),
        ("refused-17-not-ascending", not_ascending),
        ("refused-18-reading-2001", reading_2001),
    ];
    let mesh = &plans.iter().find(|(name, _)| *name == "mesh-9").expect("a sample").1;
    std::fs::write(format!("{folder}/mesh-9.store"), moments(mesh)).expect("the folder can be written to");
    for (name, plan) in plans {
        let bytes = plan.encode();
        std::fs::write(format!("{folder}/{name}.plan"), &bytes).expect("the folder can be written to");
        let lines = report(&bytes);
        let branches = lines.lines().filter(|line| line.starts_with("branch")).count();
        let rest: Vec<&str> = lines.lines().filter(|line| !line.starts_with("branch")).collect();
        println!("{name}: {}; branches {branches}", rest.join("; "));
    }
}
