//! Counts what the calls come to: how each ends, and why a delivery was idle.

use crate::counts::{Counts, Wanted};
use oracle::cue::{Cue, Delivery};
use oracle::field::Field;
use oracle::plans;

#[derive(Default)]
pub struct Tally(Counts);

/// What must come up: about half as often as with the seed of main.rs. (What is broken alone comes as often as asked for.)
#[rustfmt::skip]
const WANTED: &Wanted = &[
    ("journey:", &[
        ("on 1 module", 28), ("on 2 modules", 30), ("on 3 to 191 modules", 380), ("on 192 modules", 9),
        ("to the end", 820), ("left under way", 68),
    ]),
    ("sender's part:", &[("all modules", 560), ("some modules", 200), ("the sender alone", 130)]),
    ("a part asleep:", &[("0", 11), ("71", 67)]),
    ("start ends with", &[("0", 1700), ("31", 350), ("71", 350), ("72", 440), ("73", 430)]),
    ("delivery ends with", &[
        ("heard", 13000), ("31", 400), ("71", 370), ("73", 1800), ("73, too few", 440), ("42", 1800),
    ]),
    ("delivery idle:", &[
        ("no tree link", 1900), ("the near end has not heard", 2000), ("the far end has heard", 2500),
    ]),
    ("changed records, delivery ends with", &[("0", 95), ("73", 450), ("42", 54)]),
    ("unfinished:", &[("0", 35), ("0, messages wait", 20), ("71, messages wait", 100)]),
    ("blank plan:", &[("start 31", 50), ("start 72", 110), ("delivery 31", 50), ("delivery 73", 110)]),
    ("71 alone:", &[]),
    ("73 alone:", &[]),
];

impl Tally {
    pub fn count(&mut self, event: impl Into<String>) {
        self.0.count(event);
    }

    /// A start; on a field of the blank plan it is counted by itself.
    pub fn start(&mut self, field: &Field, answer: u32) {
        if field.plan == plans::blank() {
            self.count(format!("blank plan: start {answer}"));
        } else {
            self.count(format!("start ends with {answer}"));
        }
    }

    /// A delivery, by the records before it.
    pub fn delivery(&mut self, field: &Field, tree: &[u8], cues: &[Cue], link: u16, outcome: Result<Delivery, u32>) {
        let how = match outcome {
            Err(number) if field.plan == plans::blank() => return self.count(format!("blank plan: delivery {number}")),
            Err(73) if cues.len() < field.plan.modules as usize => "ends with 73, too few".to_string(),
            Err(refusal) => format!("ends with {refusal}"),
            Ok(Delivery::Heard) => "ends with heard".to_string(),
            Ok(Delivery::Idle) => format!("idle: {}", idle(field, tree, cues, link)),
        };
        self.count(format!("delivery {how}"));
    }

    pub fn report(&self) {
        self.0.report("cues", WANTED);
    }
}

/// Why no copy waits on a directed link.
fn idle(field: &Field, tree: &[u8], cues: &[Cue], link: u16) -> &'static str {
    match link {
        _ if tree[link as usize / 2] == 0 => "no tree link",
        _ if cues[field.source(link) as usize].heard == 0 => "the near end has not heard",
        _ => "the far end has heard",
    }
}
