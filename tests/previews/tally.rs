//! Counts what previews come to: the answers, what the steps are that are taken, and the buffers that they are lent.

use crate::counts::{Counts, Wanted};
use crate::muruapy::Previewed;
use oracle::field::{Done, HAND_OVER};
use oracle::schedule::Step;

#[derive(Default)]
pub struct Tally(Counts);

/// What must come up: about half as often as with the seed of main.rs. (What is broken alone comes as often as asked for.)
#[rustfmt::skip]
const WANTED: &Wanted = &[
    ("preview answers", &[
        ("0", 16000), ("31", 1800), ("32", 460), ("33", 790), ("41", 370), ("42", 420), ("43", 1400), ("44", 1100),
        ("45", 2400), ("54", 420), ("75", 3900),
    ]),
    ("taken:", &[
        ("handed over, 0 words", 2100), ("woken, 0 words", 250), ("woken, 1 word", 1600), ("served, 0 words", 310),
        ("served, 1 word", 1100), ("served, 2 words", 220), ("served, 3 to 189 words", 66), ("served, 190 words", 18),
        ("served, 191 words", 10),
        ("put back, 0 words", 1700), ("put back, 1 word", 210),
    ]),
    ("buffer:", &[
        ("none, and none is needed", 4400), ("none, 75", 3400), ("one too few, 75", 430), ("fewer, 75", 86),
        ("just enough", 3300), ("more than enough", 8700), ("none, for a refused step", 4400),
        ("some, for a refused step", 5000),
    ]),
    ("from setup:", &[
        ("0", 5600), ("41", 76), ("42", 62), ("43", 290), ("44", 230), ("45", 570), ("54", 58), ("at rest", 32),
    ]),
    ("runs:", &[("in several parts", 25)]),
    ("sent count:", &[("just the ceiling", 300), ("one beyond", 300), ("at the ceiling before", 300)]),
    ("blank plan:", &[("31", 140), ("41", 550), ("42", 230), ("54", 330)]),
    ("31 alone:", &[]),
    ("faults:", &[]),
];

impl Tally {
    pub fn count(&mut self, event: impl Into<String>) {
        self.0.count(event);
    }

    /// One preview of a step that would be taken, or not, and send so many messages.
    pub fn preview(&mut self, answer: Previewed, taken: bool, sends: usize, places: usize) {
        self.count(format!("preview answers {}", answer.refusal));
        self.count(match places {
            0 if !taken => "buffer: none, for a refused step",
            _ if !taken => "buffer: some, for a refused step",
            0 if sends == 0 => "buffer: none, and none is needed",
            0 => "buffer: none, 75",
            _ if places + 1 == sends => "buffer: one too few, 75",
            _ if places < sends => "buffer: fewer, 75",
            _ if places == sends => "buffer: just enough",
            _ => "buffer: more than enough",
        });
    }

    /// The step itself.
    pub fn step(&mut self, step: Step, outcome: Result<Done, u32>) {
        let Ok(done) = outcome else { return };
        let what = match done.served {
            None if step.kind == HAND_OVER => "handed over",
            None => "woken",
            Some(_) if done.put_back => "put back",
            Some(_) => "served",
        };
        let words = match done.sends {
            1 => "1 word".to_string(),
            3..=189 => "3 to 189 words".to_string(),
            many => format!("{many} words"),
        };
        self.count(format!("taken: {what}, {words}"));
    }

    pub fn report(&self) {
        self.0.report("previews", WANTED);
    }
}
