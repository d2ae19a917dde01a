//! Counts what the schedules reach: the corners that document 01 and its traps name, and every refusal.

use oracle::field::{setup, waiting, Field, Word, SERVE};
use oracle::frame::*;
use oracle::plan::NONE;
use oracle::rules::{ASLEEP, BASIC, BRANCH, FIND, FOUND};
use oracle::schedule::{self, Step};
use oracle::trace::split;
use oracle::{plan, rules};
use std::collections::BTreeMap;

#[derive(Default)]
pub struct Events(BTreeMap<String, usize>);

/// What must be reached, and how often at least in INPUTS inputs: about half as often as with seed 7.
const INPUTS: usize = 3000;
const WANTED: [(&str, usize); 50] = [
    ("put back Connect", 11000),
    ("put back Test", 16000),
    ("put back Report", 12000),
    ("put back Connect at a sleeper", 520),
    ("put back Test at a sleeper", 1500),
    ("woken by Connect", 2300),
    ("woken by Test", 1500),
    ("woke without links", 410),
    ("crossing Tests", 1600),
    ("Test of the own fragment on a branch link", 1900),
    ("Reject on a branch link", 1800),
    ("absorbed while Find", 3200),
    ("absorbed while Found", 97),
    ("absorbed while Found, 5 modules or more", 97),
    ("several Initiates on one directed link", 11),
    ("Connect against Connect: a new level", 5100),
    ("Report against a worse one: change-root", 1700),
    ("Report on the in-branch, earlier or equal: nothing", 1700),
    ("Change-root passed on", 87),
    ("Change-root to Connect", 190),
    ("halted", 1600),
    ("at rest", 420),
    ("in several parts", 240),
    ("at rest in several parts", 190),
    ("at rest, a part asleep", 110),
    ("level 3", 710),
    ("refused 11", 8),
    ("refused 12", 8),
    ("refused 13", 10),
    ("refused 14", 7),
    ("refused 15", 6),
    ("refused 16", 11),
    ("refused 17", 3),
    ("refused 18", 4),
    ("refused 41", 98),
    ("refused 42", 100),
    ("refused 43", 89),
    ("refused 44", 90),
    ("refused 45", 88),
    ("refused 51", 23),
    ("refused 52", 16),
    ("refused 53", 64),
    ("refused 54", 19),
    ("N = 0: no steps", 28),
    ("N = 0: refused 15", 2),
    ("N = 0: refused 16", 7),
    ("N = 0: refused 41", 10),
    ("N = 0: refused 42", 8),
    ("N = 0: refused 51", 2),
    ("N = 0: refused 53", 2),
];

impl Events {
    fn count(&mut self, event: &str) {
        *self.0.entry(event.to_string()).or_default() += 1;
    }

    fn count_if(&mut self, holds: bool, event: &str) {
        if holds {
            self.count(event);
        }
    }

    pub fn of(&self, event: &str) -> usize {
        self.0.get(event).copied().unwrap_or(0)
    }

    pub fn print(&self) {
        for (event, times) in &self.0 {
            println!("{times:>9}  {event}");
        }
    }

    /// Reached less often than wanted, in so many inputs.
    pub fn missed(&self, inputs: usize) -> Vec<&'static str> {
        let rare = WANTED.iter().filter(|(event, least)| self.of(event) * INPUTS < least * inputs);
        rare.map(|(event, _)| *event).collect()
    }

    /// A refusal; those with nobody in the plan are counted by themselves.
    fn refused(&mut self, nobody: bool, refusal: u32) {
        self.count(&format!("{}refused {refusal}", if nobody { "N = 0: " } else { "" }));
    }

    /// Runs one input and counts.
    pub fn observe(&mut self, input: &[u8]) {
        let (plan_bytes, schedule_bytes) = split(input);
        let plan = match plan::read(plan_bytes) {
            Ok(plan) => plan,
            Err(refusal) => {
                let nobody = refusal > 13 && plan::be16(plan_bytes, 3) == 0;
                return self.refused(nobody, refusal);
            }
        };
        let nobody = plan.modules == 0;
        let mut words = vec![0; plan.ceiling() as usize];
        let mut field = setup(plan_bytes, &mut words).expect("the plan was taken");
        let steps = match schedule::read(schedule_bytes) {
            Ok(steps) => steps,
            Err(refusal) => return self.refused(nobody, refusal),
        };
        for step in steps {
            if let Err(refusal) = self.step(&mut field, &mut words, step) {
                return self.refused(nobody, refusal);
            }
        }
        self.count_if(nobody, "N = 0: no steps");
        let rest = waiting(&words) == 0 && field.modules.iter().any(|m| m.status != ASLEEP);
        self.count_if(rest, "at rest");
        let asleep = |v: &u16| field.plan.part_of(*v).iter().all(|u| field.modules[*u as usize].status == ASLEEP);
        let lowest = field.plan.lowest_modules();
        self.count_if(lowest.len() > 1, "in several parts");
        self.count_if(rest && lowest.len() > 1, "at rest in several parts");
        self.count_if(rest && lowest.iter().any(asleep), "at rest, a part asleep");
    }

    fn step(&mut self, field: &mut Field, words: &mut [u64], step: Step) -> Result<(), u32> {
        if step.kind == SERVE && step.number < field.plan.modules {
            if let Some(word) = field.next_in_queue(words, step.number) {
                self.serve(field, step.number, word);
            }
        }
        let several = several_initiates(words);
        let halted = field.modules.iter().filter(|m| m.halted == 1).count();
        let done = field.take(words, step.kind, step.number)?;
        self.count("steps taken");
        self.count_if(field.modules.iter().filter(|m| m.halted == 1).count() > halted, "halted");
        self.count_if(done.woke && field.plan.own_links(step.number).is_empty(), "woke without links");
        if let Some(word) = done.served {
            let name = NAMES[word.message.kind as usize];
            self.count_if(done.put_back, &format!("put back {name}"));
            self.count_if(done.woke, &format!("woken by {name}"));
            self.count_if(done.woke && done.put_back, &format!("put back {name} at a sleeper"));
            self.count_if(!done.put_back && word.message.level == 3, "level 3");
        }
        self.count_if(!several && several_initiates(words), "several Initiates on one directed link");
        Ok(())
    }

    /// What the service of this word meets, by the module's values before it.
    fn serve(&mut self, field: &Field, v: u16, word: Word) {
        let module = field.modules[v as usize];
        let j = word.directed / 2;
        let mark = field.own_marks(v).iter().find(|m| m.0 == j).map(|m| m.1);
        let (message, branch) = (word.message, mark == Some(BRANCH));
        match message.kind {
            CONNECT if message.level < module.level => {
                self.count_if(module.status == FIND, "absorbed while Find");
                self.count_if(module.status == FOUND, "absorbed while Found");
                let large = field.plan.modules >= 5;
                self.count_if(module.status == FOUND && large, "absorbed while Found, 5 modules or more");
            }
            CONNECT => self.count_if(mark != Some(BASIC), "Connect against Connect: a new level"),
            TEST if message.level <= module.level && message.carried == module.identity => {
                self.count_if(module.test_edge == j, "crossing Tests");
                self.count_if(branch, "Test of the own fragment on a branch link");
            }
            REJECT => self.count_if(branch, "Reject on a branch link"),
            REPORT if j == module.in_branch && module.status == FOUND => {
                let worse = field.plan.earlier(module.best_weight, message.carried);
                let none = module.best_weight == NONE && message.carried == NONE;
                self.count_if(worse, "Report against a worse one: change-root");
                self.count_if(!worse && !none, "Report on the in-branch, earlier or equal: nothing");
            }
            CHANGE_ROOT => {
                let best = field.own_marks(v).iter().find(|m| m.0 == module.best_edge).map(|m| m.1);
                let passed = best == Some(rules::BRANCH);
                self.count(if passed { "Change-root passed on" } else { "Change-root to Connect" });
            }
            _ => {}
        }
    }
}

fn several_initiates(words: &[u64]) -> bool {
    let initiates = |w: &&u64| (**w & 7) as u8 == INITIATE;
    let mut links: Vec<u64> = words[..waiting(words)].iter().filter(initiates).map(|w| w >> 24 & 65535).collect();
    links.sort();
    links.windows(2).any(|pair| pair[0] == pair[1])
}
