//! The field of modules with its air and queues: setup, check 31, and the three kinds of step.

use crate::frame::Message;
use crate::plan::{self, Plan, NONE};
use crate::rules::{Fate, Module, Response, ASLEEP};

pub const WAKE: u8 = 1;
pub const HAND_OVER: u8 = 2;
pub const SERVE: u8 = 3;

/// The marks of link k are `marks[k]`: first the lower module's, then the higher's.
#[derive(Clone, Debug, PartialEq, Eq)]
pub struct Field {
    pub plan: Plan,
    pub modules: Vec<Module>,
    pub marks: Vec<[u8; 2]>,
    pub sent: u32,
}

/// A waiting message. Bits 0 to 7 the header, 8 to 23 the carried number, 24 to 39 the directed link, bit 40 set once
/// handed over, bit 41 always set.
#[derive(Clone, Copy, Debug, PartialEq, Eq)]
pub struct Word {
    pub message: Message,
    pub directed: u16,
    pub handed: bool,
}

const HANDED: u64 = 1 << 40;
const ALWAYS: u64 = 1 << 41;

impl Word {
    pub fn pack(&self) -> u64 {
        let handed = if self.handed { HANDED } else { 0 };
        ALWAYS
            | handed
            | (self.directed as u64) << 24
            | (self.message.carried as u64) << 8
            | self.message.header() as u64
    }

    /// The message of a word that is laid out so, with carried numbers below `links`.
    pub fn unpack(word: u64, links: u16) -> Option<Word> {
        if word >> 41 != 1 {
            return None;
        }
        let message = Message::listed(word as u8, (word >> 8) as u16, links)?;
        Some(Word { message, directed: (word >> 24) as u16, handed: word & HANDED != 0 })
    }
}

/// How many words wait: those before the first zero.
pub fn waiting(words: &[u64]) -> usize {
    words.iter().position(|w| *w == 0).unwrap_or(words.len())
}

/// What a step that was taken did, for those who count events.
#[derive(Clone, Copy, Debug, PartialEq, Eq)]
pub struct Done {
    pub woke: bool,
    pub served: Option<Word>,
    pub put_back: bool,
    pub sends: usize,
}

/// Setup of a plan's bytes: the plan's refusals, then 21 for fewer words than M. All words are zeroed.
pub fn setup(bytes: &[u8], words: &mut [u64]) -> Result<Field, u32> {
    setup_value(plan::read(bytes)?, words)
}

/// The same of a plan value, however made.
pub fn setup_value(plan: Plan, words: &mut [u64]) -> Result<Field, u32> {
    plan.check()?;
    if words.len() < plan.ceiling() as usize {
        return Err(21);
    }
    words.fill(0);
    Ok(Field {
        modules: vec![Module::SETUP; plan.modules as usize],
        marks: vec![[0, 0]; plan.links.len()],
        sent: 0,
        plan,
    })
}

impl Field {
    /// The module that directed link d leads to, and the one it leaves. 2 × k runs from lower to higher.
    pub fn target(&self, d: u16) -> u16 {
        let link = self.plan.links[d as usize / 2];
        if d % 2 == 0 {
            link.higher
        } else {
            link.lower
        }
    }

    pub fn source(&self, d: u16) -> u16 {
        self.target(d ^ 1)
    }

    fn directed_from(&self, v: u16, k: u16) -> u16 {
        if self.plan.links[k as usize].lower == v {
            2 * k
        } else {
            2 * k + 1
        }
    }

    /// Which of a link's two marks is module v's.
    fn side(&self, v: u16, k: u16) -> usize {
        (self.plan.links[k as usize].lower != v) as usize
    }

    /// Module v's own links with its marks for them, by rising number.
    pub fn own_marks(&self, v: u16) -> Vec<(u16, u8)> {
        let own = self.plan.own_links(v);
        own.into_iter().map(|k| (k, self.marks[k as usize][self.side(v, k)])).collect()
    }

    /// 31: whether the field and its words are as a host may supply them.
    pub fn check(&self, words: &[u64]) -> Result<(), u32> {
        let sized = || self.modules.len() == self.plan.modules as usize && self.marks.len() == self.plan.links.len();
        let modules = || (0..self.plan.modules).all(|v| self.module_ok(v));
        let counts = || waiting(words) as u32 <= self.sent && self.sent <= self.plan.ceiling();
        let ok = self.plan.check().is_ok() && sized() && self.words_ok(words) && modules() && counts();
        if ok {
            Ok(())
        } else {
            Err(31)
        }
    }

    fn words_ok(&self, words: &[u64]) -> bool {
        let (front, rest) = words.split_at(waiting(words));
        words.len() >= self.plan.ceiling() as usize
            && rest.iter().all(|w| *w == 0)
            && front.iter().all(|w| self.word_ok(*w))
    }

    fn word_ok(&self, word: u64) -> bool {
        let links = self.plan.links.len() as u16;
        match Word::unpack(word, links) {
            Some(w) => w.directed < 2 * links && w.message.level <= self.plan.top_level(),
            None => false,
        }
    }

    fn module_ok(&self, v: u16) -> bool {
        let m = self.modules[v as usize];
        let marks = self.own_marks(v);
        let link = |x: u16| x == NONE || (x as usize) < self.plan.links.len();
        let own = |x: u16| x == NONE || marks.iter().any(|o| o.0 == x);
        m.status <= 2
            && m.level <= self.plan.top_level()
            && link(m.identity)
            && link(m.best_weight)
            && own(m.best_edge)
            && own(m.test_edge)
            && own(m.in_branch)
            && m.find_count as usize <= marks.len()
            && m.halted <= 1
            && own(m.waking)
            && (m.status != ASLEEP || m.waking == NONE)
            && marks.iter().all(|o| o.1 <= 2)
            && (m.identity == NONE) == (m.level == 0)
    }

    /// A step given alone: 31, then 54 for its kind, then the step's own refusals.
    pub fn step(&mut self, words: &mut [u64], kind: u8, number: u16) -> Result<Done, u32> {
        self.check(words)?;
        self.take(words, kind, number)
    }

    /// A step of a field that passed 31.
    pub fn take(&mut self, words: &mut [u64], kind: u8, number: u16) -> Result<Done, u32> {
        match kind {
            WAKE => self.wake(words, number),
            HAND_OVER => self.hand_over(words, number),
            SERVE => self.serve(words, number),
            _ => Err(54),
        }
    }

    fn wake(&mut self, words: &mut [u64], v: u16) -> Result<Done, u32> {
        if v >= self.plan.modules {
            return Err(41);
        }
        if self.modules[v as usize].status != ASLEEP {
            return Err(43);
        }
        let mut response = Response::new(&self.plan, self.modules[v as usize], self.own_marks(v));
        response.wakeup(NONE);
        let (module, marks, sends) = (response.module, response.marks, response.sends);
        self.count(sends.len())?;
        self.store(v, module, &marks);
        self.air(words, v, &sends);
        Ok(Done { woke: true, served: None, put_back: false, sends: sends.len() })
    }

    fn hand_over(&mut self, words: &mut [u64], d: u16) -> Result<Done, u32> {
        if d as usize >= 2 * self.plan.links.len() {
            return Err(42);
        }
        let in_air = |w: &u64| (*w >> 24) as u16 == d && *w & HANDED == 0;
        let first = words[..waiting(words)].iter().position(in_air);
        let word = take_out(words, first.ok_or(44u32)?);
        put_last(words, word | HANDED);
        Ok(Done { woke: false, served: None, put_back: false, sends: 0 })
    }

    /// The word is handed over and leads to module v.
    fn in_queue(&self, word: u64, v: u16) -> bool {
        word & HANDED != 0 && self.target((word >> 24) as u16) == v
    }

    /// The place of the first word in module v's queue.
    fn first_in_queue(&self, words: &[u64], v: u16) -> Option<usize> {
        words[..waiting(words)].iter().position(|w| self.in_queue(*w, v))
    }

    pub fn queue_length(&self, words: &[u64], v: u16) -> usize {
        words[..waiting(words)].iter().filter(|w| self.in_queue(**w, v)).count()
    }

    /// The message that a service of module v would take.
    pub fn next_in_queue(&self, words: &[u64], v: u16) -> Option<Word> {
        let at = self.first_in_queue(words, v)?;
        Word::unpack(words[at], self.plan.links.len() as u16)
    }

    fn serve(&mut self, words: &mut [u64], v: u16) -> Result<Done, u32> {
        if v >= self.plan.modules {
            return Err(41);
        }
        let at = self.first_in_queue(words, v).ok_or(45u32)?;
        let word = Word::unpack(words[at], self.plan.links.len() as u16).expect("31 holds");
        let mut response = Response::new(&self.plan, self.modules[v as usize], self.own_marks(v));
        let fate = response.receive(word.directed / 2, word.message)?;
        let (module, marks, sends) = (response.module, response.marks, response.sends);
        let woke = self.modules[v as usize].status == ASLEEP;
        self.count(sends.len())?;
        self.store(v, module, &marks);
        let taken = take_out(words, at);
        self.air(words, v, &sends);
        if fate == Fate::PutBack {
            put_last(words, taken);
        }
        Ok(Done { woke, served: Some(word), put_back: fate == Fate::PutBack, sends: sends.len() })
    }

    /// 33: sent would pass M. Otherwise sent grows by one for each message sent.
    fn count(&mut self, sends: usize) -> Result<(), u32> {
        let sent = self.sent + sends as u32;
        if sent > self.plan.ceiling() {
            return Err(33);
        }
        self.sent = sent;
        Ok(())
    }

    fn store(&mut self, v: u16, module: Module, marks: &[(u16, u8)]) {
        self.modules[v as usize] = module;
        for (k, mark) in marks {
            let side = self.side(v, *k);
            self.marks[*k as usize][side] = *mark;
        }
    }

    /// The sends of module v go to the end, in order.
    fn air(&self, words: &mut [u64], v: u16, sends: &[(u16, Message)]) {
        for (k, message) in sends {
            let directed = self.directed_from(v, *k);
            put_last(words, Word { message: *message, directed, handed: false }.pack());
        }
    }
}

/// When a word leaves, later words move one place forward.
fn take_out(words: &mut [u64], at: usize) -> u64 {
    let word = words[at];
    let end = waiting(words);
    words.copy_within(at + 1..end, at);
    words[end - 1] = 0;
    word
}

fn put_last(words: &mut [u64], word: u64) {
    let end = waiting(words);
    words[end] = word;
}
