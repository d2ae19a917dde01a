//! Counts what the calls come to: how each ends, what a step took, put back or met on a full store, and why 32 refused.

use crate::counts::{Counts, Wanted};
use oracle::field::{waiting, Done, Field, HAND_OVER};
use oracle::frame::{ACCEPT, CONNECT, INITIATE, NAMES, REJECT, REPORT, TEST};
use oracle::plans;
use oracle::rules::{ASLEEP, BASIC};
use oracle::schedule::Step;

#[derive(Default)]
pub struct Tally(Counts);

/// What must come up: about half as often as with the seed of main.rs.
#[rustfmt::skip]
const WANTED: &Wanted = &[
    ("step ends with", &[
        ("0", 4900), ("31", 3400), ("32", 1900), ("33", 650), ("41", 700), ("42", 800), ("43", 3100), ("44", 2500),
        ("45", 4300), ("54", 640),
    ]),
    ("schedule ends with", &[
        ("0", 68), ("31", 1500), ("32", 35), ("33", 10), ("41", 12), ("42", 9), ("43", 51), ("44", 40), ("45", 69),
        ("51", 10), ("52", 14), ("53", 48), ("54", 45),
    ]),
    ("31 by itself ends with", &[("0", 19000), ("31", 3400)]),
    ("report ends with", &[("0", 2900)]),
    ("cores:", &[
        ("of the blank plan", 220), ("of a plan that would be refused", 66), ("of one part", 1700), ("none of several", 230),
        ("of several parts", 860),
    ]),
    ("rounds ends with", &[("0", 180), ("31", 1400), ("32", 190), ("33", 35)]),
    ("32:", &[
        ("Initiate, asleep", 220), ("Accept, asleep", 210), ("Reject, asleep", 240), ("Report, asleep", 230),
        ("Change-root, asleep", 250), ("Connect, level", 40), ("Connect, find-count", 42),
        ("Initiate, find-count", 45), ("Test, in-branch none", 27), ("Accept, in-branch none", 71),
        ("Reject, in-branch none", 47), ("Reject, Test at level 0", 61), ("Report, find-count", 100),
        ("Report, in-branch none", 130), ("Report, best edge none", 12), ("Change-root, best edge none", 180),
    ]),
    ("taken:", &[
        ("woken", 1100), ("handed over", 1400), ("served Connect", 220), ("served Initiate", 330), ("served Test", 200),
        ("served Accept", 320), ("served Reject", 260), ("served Report", 140), ("served Change-root", 210),
        ("served Connect at a sleeper", 98), ("put back Connect", 100), ("put back Test", 220),
        ("put back Report", 86), ("put back Connect at a sleeper", 26), ("put back Test at a sleeper", 140),
    ]),
    ("full store:", &[
        ("handed over", 140), ("put back Connect", 6), ("put back Test", 11), ("put back Report", 4),
        ("served Accept", 17), ("served Initiate", 13), ("served Reject", 8), ("served Report", 7),
        ("refused 33", 180),
    ]),
    ("blank plan:", &[
        ("31 by itself 0", 1700), ("31 by itself 31", 84), ("report 0", 220), ("step 31", 84), ("step 41", 990),
        ("step 42", 380), ("step 54", 320), ("schedule 0", 100), ("schedule 31", 4), ("schedule 41", 210),
        ("schedule 42", 100), ("schedule 54", 300), ("rounds 0", 120), ("rounds 31", 4),
    ]),
];

impl Tally {
    fn count(&mut self, event: impl Into<String>) {
        self.0.count(event);
    }

    /// What a call answered; on a field of the blank plan it is counted by itself.
    pub fn ends(&mut self, field: &Field, call: &str, answer: u32) {
        if field.plan == plans::blank() {
            self.count(format!("blank plan: {call} {answer}"));
        } else {
            self.count(format!("{call} ends with {answer}"));
        }
    }

    /// A report, by the core lines that it has.
    pub fn cores(&mut self, field: &Field) {
        let parts = if field.plan.check().is_ok() { field.plan.lowest_modules() } else { Vec::new() };
        self.count(match parts.len() {
            0 if field.plan == plans::blank() => "cores: of the blank plan",
            0 => "cores: of a plan that would be refused",
            1 => "cores: of one part",
            n if n == field.modules.len() => "cores: none of several",
            _ => "cores: of several parts",
        });
    }

    /// A step given alone, by the field and the words before it.
    pub fn step(&mut self, field: &Field, words: &[u64], step: Step, outcome: Result<Done, u32>) {
        self.ends(field, "step", outcome.err().unwrap_or(0));
        let full = !words.is_empty() && waiting(words) == words.len();
        match outcome {
            Err(32) => self.count(format!("32: {}", cause(field, words, step.number))),
            Err(33) if full => self.count("full store: refused 33"),
            Ok(done) => self.taken(field, step, done, full),
            _ => {}
        }
    }

    fn taken(&mut self, field: &Field, step: Step, done: Done, full: bool) {
        let what = match done.served {
            None if step.kind == HAND_OVER => "handed over".to_string(),
            None => "woken".to_string(),
            Some(word) => {
                let asleep = field.modules[step.number as usize].status == ASLEEP;
                let fate = if done.put_back { "put back" } else { "served" };
                let at = if asleep { " at a sleeper" } else { "" };
                format!("{fate} {}{at}", NAMES[word.message.kind as usize])
            }
        };
        if full {
            self.count(format!("full store: {what}"));
        }
        self.count(format!("taken: {what}"));
    }

    pub fn report(&self) {
        self.0.report("fields", WANTED);
    }
}

/// Which of document 01's causes of 32 holds, for a service of module v that it refused.
fn cause(field: &Field, words: &[u64], v: u16) -> String {
    let word = field.next_in_queue(words, v).expect("32 refuses services");
    let (module, message, j) = (field.modules[v as usize], word.message, word.directed / 2);
    let basic_left = || field.own_marks(v).iter().any(|m| m.1 == BASIC && m.0 != j);
    let why = match message.kind {
        _ if module.status == ASLEEP => "asleep",
        CONNECT if message.level >= module.level => "level",
        CONNECT | INITIATE => "find-count",
        REJECT if basic_left() => "Test at level 0",
        REPORT if j != module.in_branch && module.find_count == 0 => "find-count",
        REPORT if j != module.in_branch => "in-branch none",
        TEST | ACCEPT | REJECT => "in-branch none",
        _ => "best edge none",
    };
    format!("{}, {why}", NAMES[message.kind as usize])
}
