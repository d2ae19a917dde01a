//! Counts what the lists and the made-up fields come to.

use crate::counts::{Counts, Wanted};
use oracle::field::Done;
use oracle::frame::NAMES;

#[derive(Default)]
pub struct Tally(Counts);

/// What must come up: about two thirds as often as with the seed of main.rs. (What is made comes as often as asked for.)
#[rustfmt::skip]
const WANTED: &Wanted = &[
    ("list:", &[
        ("no wake step taken", 100), ("one wake step taken", 940), ("several wake steps taken", 1300), ("to rest", 1500),
    ]),
    ("part at rest:", &[("with its tree", 1500), ("a module alone", 1700), ("asleep", 920)]),
    ("plan in parts:", &[("all woken", 350), ("some woken", 240)]),
    ("step ends with", &[("0", 12000), ("41", 630), ("42", 600), ("43", 880), ("44", 630), ("45", 2100), ("54", 190)]),
    ("schedule ends with", &[
        ("0", 5900), ("41", 480), ("42", 410), ("43", 840), ("44", 1000), ("45", 2400), ("51", 76), ("52", 150), ("53", 580),
        ("54", 1300),
    ]),
    ("rounds ends with", &[("0", 5200)]),
    ("woken:", &[
        ("by a wake step", 6900), ("by a Connect", 4700), ("by a Connect that was put back", 1400), ("by a Test", 3400),
        ("by a Test that was put back", 3400),
    ]),
    ("chain of", &[
        ("no link", 6900), ("1 link", 3800), ("2 links", 2000), ("3 to 5 links", 1600), ("6 links or more", 730),
    ]),
    ("waking link:", &[("in the tree", 7400), ("not in the tree", 820), ("none", 11000)]),
    ("sleeper:", &[
        ("Initiate 32", 180), ("Accept 32", 180), ("Reject 32", 180), ("Report 32", 180), ("Change-root 32", 180),
        ("Connect 33", 72), ("Test 33", 60), ("Connect taken", 32), ("Connect put back", 16), ("Test put back", 120),
    ]),
    ("circle of", &[("2 modules", 79), ("3 modules or more", 120)]),
    ("31:", &[
        ("awake, not below L", 60), ("awake, another module's", 60), ("asleep, an own link", 60),
        ("asleep, another module's", 60), ("asleep, not below L", 60),
    ]),
];

impl Tally {
    pub fn count(&mut self, event: impl Into<String>) {
        self.0.count(event);
    }

    pub fn count_times(&mut self, event: &str, times: usize) {
        (0..times).for_each(|_| self.count(event));
    }

    /// A step that was taken: who woke by it, and whether the message was put back after that.
    pub fn step(&mut self, done: &Done) {
        if !done.woke {
            return;
        }
        let Some(word) = done.served else { return self.count("woken: by a wake step") };
        let name = NAMES[word.message.kind as usize];
        self.count(format!("woken: by a {name}"));
        if done.put_back {
            self.count(format!("woken: by a {name} that was put back"));
        }
    }

    pub fn report(&self) {
        self.0.report("waking", WANTED);
    }
}
