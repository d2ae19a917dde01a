//! Who woke whom, kept beside a field from what its steps did and without a look at the modules' waking links: what request
//! 05's waking link is held against. Standard term: the parent edge in the wake-up forest.

use crate::cue::other_end;
use crate::field::{Done, Field, Word};
use crate::plan::NONE;
use crate::rules::ASLEEP;
use crate::schedule::Step;

/// What woke a module.
#[derive(Clone, Copy, Debug, PartialEq, Eq)]
pub enum Cause {
    WakeStep,
    Message(Word),
}

/// For each module the step at which it woke, counted from 1, and what woke it; none for a sleeper.
#[derive(Clone)]
pub struct Diary {
    steps: usize,
    woken: Vec<Option<(usize, Cause)>>,
}

impl Diary {
    /// From setup: all are asleep.
    pub fn new(modules: u16) -> Diary {
        Diary { steps: 0, woken: vec![None; modules as usize] }
    }

    /// A step that was taken.
    pub fn note(&mut self, step: Step, done: &Done) {
        self.steps += 1;
        if done.woke {
            let cause = done.served.map_or(Cause::WakeStep, Cause::Message);
            let before = self.woken[step.number as usize].replace((self.steps, cause));
            assert_eq!(before, None, "module {} woke twice", step.number);
        }
    }

    /// "The link whose message woke it: none for a sleeper or one woken by a wake step."
    pub fn link(&self, v: u16) -> u16 {
        match self.woken[v as usize] {
            Some((_, Cause::Message(word))) => word.directed / 2,
            _ => NONE,
        }
    }

    /// The waking links, one for each module, are those of the diary, and from each awake module "following these links
    /// ends at one that a wake step woke, without returning to a module"; each on the way woke before the one that it
    /// woke. How many links were followed from each awake module.
    pub fn follow(&self, field: &Field, waking: &[u16]) -> Vec<usize> {
        let mut lengths = Vec::new();
        for v in 0..field.plan.modules {
            assert_eq!(waking[v as usize], self.link(v), "the waking link of module {v}");
            let awake = field.modules[v as usize].status != ASLEEP;
            assert_eq!(awake, self.woken[v as usize].is_some(), "who is awake: module {v}");
            if awake {
                let way =
                    chain(field, waking, v).unwrap_or_else(|| panic!("from module {v} the links run in a circle"));
                self.ordered(&way);
                lengths.push(way.len() - 1);
            }
        }
        lengths
    }

    /// Each module of a chain woke before the one that stands before it, and the last by a wake step.
    fn ordered(&self, way: &[u16]) {
        let woken = |v: u16| self.woken[v as usize].unwrap_or_else(|| panic!("module {v} of {way:?} is asleep"));
        assert!(way.windows(2).all(|pair| woken(pair[0]).0 > woken(pair[1]).0), "{way:?} is no order of waking");
        assert_eq!(woken(way[way.len() - 1]).1, Cause::WakeStep, "the end of {way:?}");
    }
}

/// The modules from v on, by the waking links, to one whose link is none; no chain where they return to a module.
pub fn chain(field: &Field, waking: &[u16], v: u16) -> Option<Vec<u16>> {
    let (mut way, mut at) = (vec![v], v);
    while waking[at as usize] != NONE {
        at = other_end(field, at, waking[at as usize]).expect("an own link");
        if way.contains(&at) {
            return None;
        }
        way.push(at);
    }
    Some(way)
}
