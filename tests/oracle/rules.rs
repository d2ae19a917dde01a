//! The module rules: the wakeup and the seven responses, by the parts of the appendix, with document 01's corners and
//! request 05's waking link. A response works on a copy of the module's values, so a refused one (32) leaves nothing
//! behind.

use crate::frame::*;
use crate::plan::{Plan, NONE};

pub const ASLEEP: u16 = 0;
pub const FIND: u16 = 1;
pub const FOUND: u16 = 2;

pub const BASIC: u8 = 0;
pub const BRANCH: u8 = 1;
pub const REJECTED: u8 = 2;

/// A module's values, in document 01's order, and behind them request 05's.
#[derive(Clone, Copy, Debug, PartialEq, Eq)]
pub struct Module {
    pub status: u16,
    pub level: u16,
    pub identity: u16,
    pub best_weight: u16,
    pub best_edge: u16,
    pub test_edge: u16,
    pub in_branch: u16,
    pub find_count: u16,
    pub halted: u16,
    /// "The link whose message woke it: none for a sleeper or one woken by a wake step."
    pub waking: u16,
}

/// How many values that are.
pub const WIDTH: usize = 10;

impl Module {
    /// Setup gives zeros and nones.
    pub const SETUP: Module = Module {
        status: ASLEEP,
        level: 0,
        identity: NONE,
        best_weight: NONE,
        best_edge: NONE,
        test_edge: NONE,
        in_branch: NONE,
        find_count: 0,
        halted: 0,
        waking: NONE,
    };

    /// The module of these values, in the same order.
    pub fn of(values: [u16; WIDTH]) -> Module {
        let [status, level, identity, best_weight, best_edge, test_edge, in_branch, find_count, halted, waking] =
            values;
        Module { status, level, identity, best_weight, best_edge, test_edge, in_branch, find_count, halted, waking }
    }

    pub fn values(&self) -> [u16; WIDTH] {
        [
            self.status,
            self.level,
            self.identity,
            self.best_weight,
            self.best_edge,
            self.test_edge,
            self.in_branch,
            self.find_count,
            self.halted,
            self.waking,
        ]
    }
}

/// What became of the message that was served.
#[derive(Clone, Copy, Debug, PartialEq, Eq)]
pub enum Fate {
    Taken,
    PutBack,
}

/// A module while it responds: its values, the marks of its own links by rising number, and its sends in order.
pub struct Response<'a> {
    plan: &'a Plan,
    pub module: Module,
    pub marks: Vec<(u16, u8)>,
    pub sends: Vec<(u16, Message)>,
}

impl<'a> Response<'a> {
    pub fn new(plan: &'a Plan, module: Module, marks: Vec<(u16, u8)>) -> Response<'a> {
        Response { plan, module, marks, sends: Vec::new() }
    }

    fn send(&mut self, link: u16, message: Message) {
        self.sends.push((link, message));
    }

    fn mark(&self, link: u16) -> u8 {
        self.marks.iter().find(|m| m.0 == link).unwrap().1
    }

    fn set_mark(&mut self, link: u16, mark: u8) {
        self.marks.iter_mut().find(|m| m.0 == link).unwrap().1 = mark;
    }

    /// The earliest own link whose mark passes, or none.
    fn earliest(&self, passes: impl Fn(u8) -> bool) -> u16 {
        let passing = self.marks.iter().filter(|m| passes(m.1)).map(|m| m.0);
        passing.min_by_key(|k| self.plan.key(*k)).unwrap_or(NONE)
    }

    /// 32: find-count would leave 0 to the module's links.
    fn raise_find_count(&mut self) -> Result<(), u32> {
        if self.module.find_count as usize >= self.marks.len() {
            return Err(32);
        }
        self.module.find_count += 1;
        Ok(())
    }

    fn lower_find_count(&mut self) -> Result<(), u32> {
        if self.module.find_count == 0 {
            return Err(32);
        }
        self.module.find_count -= 1;
        Ok(())
    }

    /// (2) Procedure wakeup. Waking also sets level, identity, best and test edges, best weight and in-branch to their
    /// setup values. A module without links wakes Found and halted, and sends nothing. It keeps the link of the message
    /// that wakes it, or none by a wake step.
    pub fn wakeup(&mut self, by: u16) {
        self.module = Module { status: FOUND, halted: self.module.halted, waking: by, ..Module::SETUP };
        let m = self.earliest(|_| true);
        if m == NONE {
            self.module.halted = 1;
        } else {
            self.set_mark(m, BRANCH);
            self.send(m, Message::connect(0));
        }
    }

    /// The response to a message that came by link j.
    pub fn receive(&mut self, j: u16, message: Message) -> Result<Fate, u32> {
        if self.module.status == ASLEEP {
            match message.kind {
                CONNECT | TEST => self.wakeup(j),
                _ => return Err(32),
            }
        }
        match message.kind {
            CONNECT => self.connect(j, message.level),
            INITIATE => self.initiate(j, message),
            TEST => self.test_message(j, message.level, message.carried),
            ACCEPT => self.accept(j),
            REJECT => self.reject(j),
            REPORT => self.report_message(j, message.carried),
            _ => self.change_root(),
        }
    }

    /// (3) Connect(L) on edge j.
    fn connect(&mut self, j: u16, level: u16) -> Result<Fate, u32> {
        if level < self.module.level {
            self.set_mark(j, BRANCH);
            let find = self.module.status == FIND;
            self.send(j, Message::initiate(self.module.level, self.module.identity, find));
            if find {
                self.raise_find_count()?;
            }
        } else if self.mark(j) == BASIC {
            return Ok(Fate::PutBack);
        } else if self.module.level + 1 > self.plan.top_level() {
            return Err(32);
        } else {
            self.send(j, Message::initiate(self.module.level + 1, j, true));
        }
        Ok(Fate::Taken)
    }

    /// (4) Initiate(L, F, S) on edge j. The copies go out by rising link number, before any Test or Report.
    fn initiate(&mut self, j: u16, message: Message) -> Result<Fate, u32> {
        self.module.level = message.level;
        self.module.identity = message.carried;
        self.module.status = if message.find { FIND } else { FOUND };
        self.module.in_branch = j;
        self.module.best_edge = NONE;
        self.module.best_weight = NONE;
        for (i, mark) in self.marks.clone() {
            if i != j && mark == BRANCH {
                self.send(i, message);
                if message.find {
                    self.raise_find_count()?;
                }
            }
        }
        if message.find {
            self.test()?;
        }
        Ok(Fate::Taken)
    }

    /// (5) Procedure test.
    fn test(&mut self) -> Result<(), u32> {
        self.module.test_edge = self.earliest(|mark| mark == BASIC);
        if self.module.test_edge == NONE {
            return self.report();
        }
        if self.module.level == 0 {
            return Err(32);
        }
        self.send(self.module.test_edge, Message::test(self.module.level, self.module.identity));
        Ok(())
    }

    /// (6) Test(L, F) on edge j.
    fn test_message(&mut self, j: u16, level: u16, identity: u16) -> Result<Fate, u32> {
        if level > self.module.level {
            return Ok(Fate::PutBack);
        }
        if identity != self.module.identity {
            self.send(j, Message::bare(ACCEPT));
            return Ok(Fate::Taken);
        }
        if self.mark(j) == BASIC {
            self.set_mark(j, REJECTED);
        }
        if self.module.test_edge != j {
            self.send(j, Message::bare(REJECT));
        } else {
            self.test()?;
        }
        Ok(Fate::Taken)
    }

    /// (7) Accept on edge j.
    fn accept(&mut self, j: u16) -> Result<Fate, u32> {
        self.module.test_edge = NONE;
        if self.plan.earlier(j, self.module.best_weight) {
            self.module.best_edge = j;
            self.module.best_weight = j;
        }
        self.report()?;
        Ok(Fate::Taken)
    }

    /// (8) Reject on edge j. A Reject on a Branch link leaves it Branch.
    fn reject(&mut self, j: u16) -> Result<Fate, u32> {
        if self.mark(j) == BASIC {
            self.set_mark(j, REJECTED);
        }
        self.test()?;
        Ok(Fate::Taken)
    }

    /// (9) Procedure report.
    fn report(&mut self) -> Result<(), u32> {
        if self.module.find_count == 0 && self.module.test_edge == NONE {
            self.module.status = FOUND;
            if self.module.in_branch == NONE {
                return Err(32);
            }
            self.send(self.module.in_branch, Message::report(self.module.best_weight));
        }
        Ok(())
    }

    /// (10) Report(w) on edge j.
    fn report_message(&mut self, j: u16, weight: u16) -> Result<Fate, u32> {
        if j != self.module.in_branch {
            self.lower_find_count()?;
            if self.plan.earlier(weight, self.module.best_weight) {
                self.module.best_weight = weight;
                self.module.best_edge = j;
            }
            self.report()?;
        } else if self.module.status == FIND {
            return Ok(Fate::PutBack);
        } else if self.plan.earlier(self.module.best_weight, weight) {
            return self.change_root();
        } else if weight == NONE && self.module.best_weight == NONE {
            self.module.halted = 1;
        }
        Ok(Fate::Taken)
    }

    /// (11) Procedure change-root, and (12) the response to Change-root.
    fn change_root(&mut self) -> Result<Fate, u32> {
        let best = self.module.best_edge;
        if best == NONE {
            return Err(32);
        }
        if self.mark(best) == BRANCH {
            self.send(best, Message::bare(CHANGE_ROOT));
        } else {
            self.send(best, Message::connect(self.module.level));
            self.set_mark(best, BRANCH);
        }
        Ok(Fate::Taken)
    }
}
