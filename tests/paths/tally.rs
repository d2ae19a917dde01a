//! Counts what the two calls come to: the answers, and what was asked for.

use crate::counts::{Counts, Wanted};
use crate::draws::needed;
use crate::muruapy::PathFound;
use oracle::plan::{Plan, NONE};

#[derive(Default)]
pub struct Tally {
    counts: Counts,
    pub calls: usize,
}

/// What must come up: about half as often as with the seed of main.rs. (What is made in a number comes as often as asked
/// for.)
#[rustfmt::skip]
const WANTED: &Wanted = &[
    ("path answers", &[
        ("0", 7800), ("14", 90), ("15", 44), ("16", 170), ("17", 66), ("18", 58), ("41", 2000),
        ("79", 2500),
    ]),
    ("path 41:", &[("both modules", 610), ("the first module", 700), ("the second module", 740)]),
    ("path:", &[
        ("1 link", 900), ("17 to 190 links", 230), ("191 links", 12), ("2 to 16 links", 2300), ("no link", 1900),
    ]),
    ("path, worst:", &[
        ("a link within", 760), ("none", 1900), ("the first link", 890), ("the last link", 900),
        ("the only link", 900),
    ]),
    ("path, room:", &[
        ("just enough", 1700), ("more than enough", 2600), ("nothing lent", 1400),
        ("nothing lent, nothing needed", 1000), ("one too few", 830), ("too few", 330),
    ]),
    ("near answers", &[
        ("0", 6900), ("14", 67), ("15", 29), ("16", 150), ("17", 46), ("18", 35), ("41", 1700),
        ("79", 5000),
    ]),
    ("near, h:", &[("0", 850), ("1 to N - 2", 2300), ("4294967295", 380), ("N - 1", 690), ("N or more", 2600)]),
    ("near, room:", &[
        ("just enough", 3500), ("more than enough", 3400), ("nothing lent", 2100), ("one too few", 1700),
        ("too few", 1200),
    ]),
    ("near:", &[
        ("all modules", 3200), ("some modules", 710), ("the module alone", 610), ("0 for other parts", 2600),
        ("a part of one", 930), ("all of a part", 1400),
    ]),
    ("modules:", &[("1", 840), ("192", 1200), ("2", 640), ("3 to 191", 9500)]),
    ("blank plan:", &[("near 41", 52), ("path 41", 52)]),
    ("faults:", &[
        ("near, 0 first", 25), ("near, 14 to 18 first", 100), ("near, 41 first", 50), ("near, 79 first", 25),
        ("no way, 14 to 18 first", 52),
        ("path, 0 first", 25), ("path, 14 to 18 first", 200), ("path, 41 first", 150), ("path, 79 first", 25),
    ]),
    ("no way:", &[("no room", 1300), ("with room", 1000), ("no link at all", 660), ("links elsewhere", 1700)]),
    ("claims:", &[("no way", 130), ("marks", 270), ("the same module", 130), ("two different modules", 280)]),
    ("a cue's hops:", &[("0", 30), ("1", 42), ("2", 52), ("3 or more", 89), ("another part", 100)]),
];

/// How a buffer's size is to what it needs.
fn fits(room: usize, needed: usize) -> &'static str {
    match room {
        _ if room == needed && room == 0 => "nothing lent, nothing needed",
        _ if room == needed => "just enough",
        _ if room > needed => "more than enough",
        0 => "nothing lent",
        _ if room + 1 == needed => "one too few",
        _ => "too few",
    }
}

impl Tally {
    pub fn count(&mut self, event: impl Into<String>) {
        self.counts.count(event);
    }

    fn size(&mut self, plan: &Plan) {
        self.count(match plan.modules {
            1 => "modules: 1",
            2 => "modules: 2",
            192 => "modules: 192",
            _ => "modules: 3 to 191",
        });
    }

    /// A path between two modules, the numbers as it left them.
    pub fn path(&mut self, plan: &Plan, [from, to]: [u16; 2], links: &[u16], found: PathFound) {
        let blank = plan.modules == 0 && plan.links.is_empty();
        self.calls += 1;
        self.count(format!("{} {}", if blank { "blank plan: path" } else { "path answers" }, found.refusal));
        let n = plan.modules;
        match found.refusal {
            41 if blank => {}
            41 => self.count(match (from >= n, to >= n) {
                (true, true) => "path 41: both modules",
                (true, false) => "path 41: the first module",
                _ => "path 41: the second module",
            }),
            79 => self.count(format!("path, room: {}", fits(links.len(), needed(plan, from, to)))),
            0 if found.way == 0 => self.no_way(plan, links),
            0 => self.taken(plan, links, found),
            _ => {}
        }
    }

    /// Between parts, with so many numbers lent.
    fn no_way(&mut self, plan: &Plan, links: &[u16]) {
        self.count(if links.is_empty() { "no way: no room" } else { "no way: with room" });
        self.count(if plan.links.is_empty() { "no way: no link at all" } else { "no way: links elsewhere" });
    }

    fn taken(&mut self, plan: &Plan, links: &[u16], found: PathFound) {
        let length = found.length as usize;
        self.size(plan);
        self.count(format!("path, room: {}", fits(links.len(), length)));
        self.count(match length {
            0 => "path: no link",
            1 => "path: 1 link",
            2..=16 => "path: 2 to 16 links",
            17..=190 => "path: 17 to 190 links",
            _ => "path: 191 links",
        });
        let at = links[..length].iter().position(|k| *k == found.worst);
        self.count(match at {
            None if found.worst == NONE => "path, worst: none",
            None => panic!("the worst link is not on the path"),
            Some(_) if length == 1 => "path, worst: the only link",
            Some(0) => "path, worst: the first link",
            Some(at) if at + 1 == length => "path, worst: the last link",
            Some(_) => "path, worst: a link within",
        });
    }

    /// Marks of the modules within h branches of one, the bytes as the call left them.
    pub fn near(&mut self, plan: &Plan, (from, h): (u16, u32), marks: &[u8], answer: u32) {
        let blank = plan.modules == 0 && plan.links.is_empty();
        self.calls += 1;
        self.count(format!("{} {answer}", if blank { "blank plan: near" } else { "near answers" }));
        let n = plan.modules as u32;
        if answer == 0 || answer == 79 {
            self.count(format!("near, room: {}", fits(marks.len(), n as usize)));
        }
        if answer != 0 {
            return;
        }
        self.size(plan);
        self.count(match h {
            0 => "near, h: 0",
            u32::MAX => "near, h: 4294967295",
            _ if h + 1 == n => "near, h: N - 1",
            _ if h >= n => "near, h: N or more",
            _ => "near, h: 1 to N - 2",
        });
        let part = plan.part_of(from).len();
        self.count(match marks[..n as usize].iter().filter(|mark| **mark == 1).count() {
            count if count == n as usize => "near: all modules",
            1 if part == 1 => "near: a part of one",
            1 => "near: the module alone",
            count if count == part => "near: all of a part",
            _ => "near: some modules",
        });
        if part < n as usize {
            self.count("near: 0 for other parts");
        }
    }

    pub fn report(&self) {
        self.counts.report("paths", WANTED);
    }
}
