//! Counts what the calls on stores come to: the answers, and what was asked for.

use crate::counts::{Counts, Wanted};
use oracle::field::Field;
use oracle::points::{is_name, points};

#[derive(Default)]
pub struct Tally(Counts);

/// What must come up: about half as often as with the seed of main.rs. (What is made in a number comes as often as asked
/// for.)
#[rustfmt::skip]
const WANTED: &Wanted = &[
    ("save answers", &[("0", 2500), ("31", 830), ("76", 3500), ("77", 170), ("78", 780)]),
    ("save:", &[
        ("a held name, 0", 1100), ("a held name, 78", 130), ("a new name, 0", 1300), ("a new name, 78", 640),
    ]),
    ("find answers", &[("0", 1700), ("76", 3700), ("77", 2000)]),
    ("find:", &[("a bad name", 120), ("not held", 1900), ("one of several records", 1500), ("the only record", 250)]),
    ("restore answers", &[("0", 1200), ("21", 760), ("76", 3500), ("77", 1700)]),
    ("restore:", &[
        ("just enough words", 670), ("more words than enough", 590), ("too few words", 410), ("no word", 340),
        ("a bad name", 230), ("not held", 1500),
    ]),
    ("modules:", &[("none", 230), ("1", 220), ("2 to 16", 1600), ("17 to 191", 300), ("192", 99)]),
    ("parts:", &[("several", 780)]),
    ("rehearsal:", &[
        ("nothing held", 32), ("one point held", 68), ("several points held", 190), ("saved again, the same bytes", 260),
        ("a step since the restore", 2000), ("to rest since the restore", 61), ("in several parts, back again", 72),
    ]),
    ("damage:", &[
        ("a find count of more than 8 bits", 40), ("a level of more than 8 bits", 40), ("a name of 13 letters", 40),
        ("a name twice", 40), ("a name with another byte", 40), ("a number missing", 40), ("a number more", 40),
        ("a plan of version 2", 40), ("a plan's L", 40), ("a plan's N", 40),
        ("a plan's length too long", 40), ("a plan's length too short", 40), ("a plan's link", 40),
        ("a plan's reading", 40), ("a plan's version byte", 40), ("a record behind zeros", 40),
        ("a word 0 at the end", 40), ("a word 0 in place of the last", 40), ("a word 0 within", 40),
        ("a word's bits", 40), ("bytes behind the words", 40), ("bytes of the last word missing", 40),
        ("cut short", 40), ("halted of more than 8 bits", 40), ("length 0", 40), ("length past the end", 40),
        ("length too long", 40), ("length too short", 40), ("mark 256", 40), ("mark 3", 40), ("mark none", 40),
        ("more words than M", 40), ("name length", 40), ("no name", 40), ("sent above M", 40),
        ("sent below waiting", 40), ("status 256", 40), ("status 3", 40), ("the last byte", 40), ("version byte", 40),
        ("version byte 0", 40), ("zeros replaced", 40),
    ]),
    ("31 alone:", &[]),
    ("76 by an item of 31:", &[]),
    ("byte changed:", &[("76", 680), ("still a store", 66)]),
    ("room:", &[
        ("new, too short", 150), ("new, just enough", 150), ("new, more than enough", 300), ("held, too short", 45),
        ("held, just enough", 46), ("held, more than enough", 200), ("shorter than before", 110), ("not shorter", 260),
        ("the longest record", 8),
    ]),
    ("faults:", &[
        ("save, 0 first", 12), ("save, 31 first", 96), ("save, 76 first", 48), ("save, 77 first", 24), ("save, 78 first", 12),
        ("restore, 0 first", 12), ("restore, 76 first", 96), ("restore, 77 first", 72), ("restore, 21 first", 12),
    ]),
];

impl Tally {
    pub fn count(&mut self, event: impl Into<String>) {
        self.0.count(event);
    }

    fn holds(store: &[u8], name: &[u8]) -> bool {
        points(store).is_ok_and(|all| all.iter().any(|point| point.name == name))
    }

    /// A save into the store, as it was before, which came to this.
    pub fn save(&mut self, field: &Field, store: &[u8], name: &[u8], answer: u32) {
        self.count(format!("save answers {answer}"));
        if [0, 78].contains(&answer) {
            let which = if Tally::holds(store, name) { "a held name" } else { "a new name" };
            self.count(format!("save: {which}, {answer}"));
        }
        if answer == 0 {
            self.count(match field.plan.modules {
                0 => "modules: none",
                1 => "modules: 1",
                2..=16 => "modules: 2 to 16",
                17..=191 => "modules: 17 to 191",
                _ => "modules: 192",
            });
            if field.plan.lowest_modules().len() > 1 {
                self.count("parts: several");
            }
        }
    }

    pub fn find(&mut self, store: &[u8], name: &[u8], answer: u32) {
        self.count(format!("find answers {answer}"));
        match answer {
            0 => self.count(match points(store).unwrap().len() {
                1 => "find: the only record",
                _ => "find: one of several records",
            }),
            77 => self.count(if is_name(name) { "find: not held" } else { "find: a bad name" }),
            _ => {}
        }
    }

    pub fn restore(&mut self, store: &[u8], name: &[u8], room: usize, outcome: &Result<Field, u32>) {
        self.count(format!("restore answers {}", outcome.as_ref().err().unwrap_or(&0)));
        match outcome {
            Ok(field) => self.count(match room - field.plan.ceiling() as usize {
                0 => "restore: just enough words",
                _ => "restore: more words than enough",
            }),
            Err(21) => self.count(match room {
                0 => "restore: no word",
                _ => "restore: too few words",
            }),
            Err(77) if !is_name(name) => self.count("restore: a bad name"),
            Err(77) if Tally::holds(store, name) => unreachable!("it is held"),
            Err(77) => self.count("restore: not held"),
            Err(_) => {}
        }
    }

    pub fn report(&self) {
        self.0.report("points", WANTED);
    }
}
