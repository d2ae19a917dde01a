//! Inputs at the program's limits: 192 modules and 600 links (7,920 words), schedules as long as a length can tell,
//! input that is longer than what the program reads.

use crate::schedules::blocked;
use oracle::field::{setup, waiting, HAND_OVER, SERVE, WAKE};
use oracle::plan::{Plan, MOST_LINKS, MOST_MODULES};
use oracle::plans::{self, READINGS};
use oracle::rng::Rng;
use oracle::schedule::{encode, Step};

/// As many steps as 65535 bytes have.
const MOST_STEPS: usize = 21845;

pub struct Large {
    pub name: &'static str,
    pub bytes: Vec<u8>,
    /// How the expected output begins.
    pub begins: String,
}

fn full(rng: &mut Rng) -> Plan {
    let pairs = plans::connected(rng, MOST_MODULES, MOST_LINKS);
    let readings = rng.pick(&READINGS);
    plans::plan(rng, MOST_MODULES, pairs, readings)
}

/// A number of modules woken, then random hand-overs and services to rest, few of them put-backs. After `handed` steps
/// services alone: in the end all are put-backs, as many as there is room for.
fn steps(rng: &mut Rng, plan: &Plan, woken: u16, handed: usize) -> Vec<Step> {
    let mut words = vec![0; plan.ceiling() as usize];
    let mut field = setup(&plan.encode(), &mut words).expect("a good plan");
    let mut out: Vec<Step> = (0..woken).map(|number| Step { kind: WAKE, number }).collect();
    for step in &out {
        field.take(&mut words, step.kind, step.number).expect("a sleeper");
    }
    while out.len() < MOST_STEPS && waiting(&words) > 0 {
        let early = out.len() < handed;
        let step = if early && rng.once_in(2) {
            Step { kind: HAND_OVER, number: rng.below(2 * plan.links.len()) as u16 }
        } else {
            Step { kind: SERVE, number: rng.below(plan.modules as usize) as u16 }
        };
        let next = if step.kind == SERVE { field.next_in_queue(&words, step.number) } else { None };
        if early && next.is_some_and(|word| blocked(&field, step.number, word)) && !rng.once_in(50) {
            continue;
        }
        if field.take(&mut words, step.kind, step.number).is_ok() {
            out.push(step);
        }
    }
    out
}

fn joined(plan: &Plan, schedule: &[u8], behind: usize) -> Vec<u8> {
    [plan.encode(), schedule.to_vec(), vec![1; behind]].concat()
}

pub fn inputs(rng: &mut Rng) -> Vec<Large> {
    let mut out = Vec::new();
    let mut add = |name, bytes, begins: String| out.push(Large { name, bytes, begins });
    let plan = full(rng);
    for (name, woken) in [("one woken, to rest", 1), ("all woken, to rest", MOST_MODULES)] {
        let steps = steps(rng, &plan, woken, MOST_STEPS);
        assert!(steps.len() < MOST_STEPS, "{name}: {} steps", steps.len());
        add(name, joined(&plan, &encode(&steps), 0), format!("steps {}\nrefusal none\n", steps.len()));
    }
    let mut long = steps(rng, &plan, MOST_MODULES, 3000);
    let done = |count: usize, refusal: &str| format!("steps {count}\nrefusal {refusal}\n");
    add("21,845 steps", joined(&plan, &encode(&long), 0), done(MOST_STEPS, "none"));
    add("21,845 steps and a byte behind", joined(&plan, &encode(&long), 1), done(0, "53"));
    add("21,845 steps and 100,000 bytes behind", joined(&plan, &encode(&long), 100_000), done(0, "53"));
    long[MOST_STEPS - 1] = Step { kind: WAKE, number: 0 };
    add("21,845 steps, the last refused", joined(&plan, &encode(&long), 0), done(MOST_STEPS - 1, "43"));
    long[MOST_STEPS - 1].kind = 4;
    add("21,845 steps, the last not listed", joined(&plan, &encode(&long), 0), done(0, "54"));
    let mut empty = vec![1, 255, 255, 0, 1, 0, 0];
    empty.resize(65538, 0);
    add("a plan of length 65535", [empty, encode(&long)].concat(), "refused 15\n".to_string());
    out
}
