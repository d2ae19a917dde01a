//! A run of rounds as one would write it in plain safe Rust: the same record and words as the compiled functions hold,
//! counted and searched by scanning, as document 01 describes them. All refusals are there: 31 first, 32 and 33 before
//! anything is written. What is marked `inline(never)` is so that sampling tells the parts of a run apart; left free to
//! inline, the ratios are the same.

use crate::muruapy::{Cells, Record};
use crate::plain::check_plan;
use oracle::rules::WIDTH;

const NONE: u16 = 65535;
const HANDED: u64 = 1 << 40;
const ALWAYS: u64 = 1 << 41;

#[derive(Clone, Copy, PartialEq)]
struct Module {
    status: u16,
    level: u16,
    identity: u16,
    best_weight: u16,
    best_edge: u16,
    test_edge: u16,
    in_branch: u16,
    find_count: u16,
    halted: u16,
    waking: u16,
}

impl Module {
    fn load(cells: &Cells, v: u16) -> Module {
        let c: &[u16; WIDTH] = cells[WIDTH * v as usize..][..WIDTH].try_into().unwrap();
        let [status, level, identity, best_weight, best_edge, test_edge, in_branch, find_count, halted, waking] = *c;
        Module { status, level, identity, best_weight, best_edge, test_edge, in_branch, find_count, halted, waking }
    }

    fn store(&self, cells: &mut Cells, v: u16) {
        let Module {
            status,
            level,
            identity,
            best_weight,
            best_edge,
            test_edge,
            in_branch,
            find_count,
            halted,
            waking,
        } = *self;
        let values: [u16; WIDTH] =
            [status, level, identity, best_weight, best_edge, test_edge, in_branch, find_count, halted, waking];
        cells[WIDTH * v as usize..][..WIDTH].copy_from_slice(&values);
    }
}

fn link(word: u64) -> u16 {
    (word >> 24) as u16
}

fn in_air(word: u64, d: u16) -> bool {
    word & HANDED == 0 && link(word) == d
}

fn header(kind: u8, level: u16, find: bool) -> u8 {
    kind | (level as u8) << 3 | (find as u8) << 6
}

impl Record {
    pub fn modules(&self) -> u16 {
        self.plan[0]
    }

    pub fn links(&self) -> u16 {
        self.plan[1]
    }

    fn lower(&self, k: u16) -> u16 {
        self.plan[2 + 4 * k as usize]
    }

    fn higher(&self, k: u16) -> u16 {
        self.plan[3 + 4 * k as usize]
    }

    pub fn owns(&self, v: u16, k: u16) -> bool {
        self.lower(k) == v || self.higher(k) == v
    }

    /// Module v's directed link over its link k, and the place of its mark.
    pub fn end(&self, v: u16, k: u16) -> u16 {
        2 * k + (self.lower(k) != v) as u16
    }

    fn target(&self, d: u16) -> u16 {
        if d % 2 == 0 { self.higher(d / 2) } else { self.lower(d / 2) }
    }

    fn in_queue(&self, word: u64, v: u16) -> bool {
        word & HANDED != 0 && self.target(link(word)) == v
    }

    fn own(&self, v: u16) -> impl Iterator<Item = u16> + '_ {
        (0..self.links()).filter(move |k| self.owns(v, *k))
    }

    fn key(&self, k: u16) -> (u16, u16, u16) {
        let (near, far) = (self.plan[4 + 4 * k as usize], self.plan[5 + 4 * k as usize]);
        (near.max(far), near + far, k)
    }

    /// Link a is earlier than b; none is later than all.
    fn earlier(&self, a: u16, b: u16) -> bool {
        a != NONE && (b == NONE || self.key(a) < self.key(b))
    }

    /// The floor of log2 N; 0 where there is nobody.
    fn top_level(&self) -> u16 {
        self.modules().checked_ilog2().unwrap_or(0) as u16
    }

    pub fn ceiling(&self) -> u32 {
        5 * self.modules() as u32 * self.top_level() as u32 + 2 * self.links() as u32
    }
}

/// What became of the message that was served.
#[derive(PartialEq)]
enum Fate {
    Taken,
    PutBack,
}

use Fate::{PutBack, Taken};

/// Module v while it responds. Nothing of the record changes before the response is done.
struct Response<'a> {
    record: &'a Record,
    v: u16,
    module: Module,
    /// The link whose mark changes, and its new mark.
    marked: Option<(u16, u8)>,
    sends: &'a mut Vec<u64>,
}

impl Response<'_> {
    fn send(&mut self, k: u16, header: u8, carried: u16) {
        let d = self.record.end(self.v, k);
        self.sends.push(ALWAYS | (d as u64) << 24 | (carried as u64) << 8 | header as u64);
    }

    fn mark(&self, k: u16) -> u8 {
        match self.marked {
            Some((marked, mark)) if marked == k => mark,
            _ => self.record.marks[self.record.end(self.v, k) as usize],
        }
    }

    /// The earliest own link that passes, or none.
    fn earliest(&self, passes: impl Fn(u16) -> bool) -> u16 {
        let mut best = NONE;
        for k in self.record.own(self.v) {
            if passes(k) && self.record.earlier(k, best) {
                best = k;
            }
        }
        best
    }

    fn degree(&self) -> u16 {
        self.record.own(self.v).count() as u16
    }

    /// Woken by a message over this link.
    fn wakeup(&mut self, by: u16) {
        self.module = Module {
            status: 2,
            level: 0,
            identity: NONE,
            best_weight: NONE,
            best_edge: NONE,
            test_edge: NONE,
            in_branch: NONE,
            find_count: 0,
            halted: self.module.halted,
            waking: by,
        };
        let k = self.earliest(|_| true);
        if k == NONE {
            self.module.halted = 1;
        } else {
            self.marked = Some((k, 1));
            self.send(k, header(1, 0, false), NONE);
        }
    }

    #[inline(never)]
    fn respond(&mut self, word: u64) -> Result<Fate, u32> {
        let (head, carried, j) = (word as u8, (word >> 8) as u16, link(word) / 2);
        let (kind, level, find) = (head & 7, (head >> 3 & 7) as u16, head >> 6 & 1 == 1);
        if self.module.status == 0 {
            if kind != 1 && kind != 3 {
                return Err(32);
            }
            self.wakeup(j);
        }
        match kind {
            1 => self.on_connect(j, level),
            2 => self.on_initiate(j, head, level, carried, find),
            3 => self.on_test(j, level, carried),
            4 => self.on_accept(j),
            5 => {
                self.strike(j);
                self.test()
            }
            6 => self.on_report(j, carried),
            _ => self.change_root(),
        }
    }

    fn on_connect(&mut self, j: u16, level: u16) -> Result<Fate, u32> {
        let m = self.module;
        if level < m.level {
            let find = m.status == 1;
            if find && m.find_count >= self.degree() {
                return Err(32);
            }
            self.module.find_count += find as u16;
            self.marked = Some((j, 1));
            self.send(j, header(2, m.level, find), m.identity);
        } else if self.mark(j) == 0 {
            return Ok(PutBack);
        } else if m.level >= self.record.top_level() {
            return Err(32);
        } else {
            self.send(j, header(2, m.level + 1, true), j);
        }
        Ok(Taken)
    }

    fn on_initiate(&mut self, j: u16, head: u8, level: u16, identity: u16, find: bool) -> Result<Fate, u32> {
        let m = &mut self.module;
        m.level = level;
        m.identity = identity;
        m.status = if find { 1 } else { 2 };
        m.in_branch = j;
        m.best_edge = NONE;
        m.best_weight = NONE;
        let record = self.record;
        let mut links = 0;
        for k in record.own(self.v) {
            links += 1;
            if k != j && self.mark(k) == 1 {
                self.send(k, head, identity);
            }
        }
        if !find {
            return Ok(Taken);
        }
        let count = self.module.find_count as usize + self.sends.len();
        if count > links {
            return Err(32);
        }
        self.module.find_count = count as u16;
        self.test()
    }

    fn test(&mut self) -> Result<Fate, u32> {
        let k = self.earliest(|k| self.mark(k) == 0);
        self.module.test_edge = k;
        if k == NONE {
            return self.report();
        }
        if self.module.level == 0 {
            return Err(32);
        }
        self.send(k, header(3, self.module.level, false), self.module.identity);
        Ok(Taken)
    }

    /// Link j is rejected, unless it is a branch.
    fn strike(&mut self, j: u16) {
        if self.mark(j) == 0 {
            self.marked = Some((j, 2));
        }
    }

    fn on_test(&mut self, j: u16, level: u16, identity: u16) -> Result<Fate, u32> {
        if level > self.module.level {
            return Ok(PutBack);
        }
        if identity != self.module.identity {
            self.send(j, header(4, 0, false), NONE);
            return Ok(Taken);
        }
        self.strike(j);
        if self.module.test_edge == j {
            return self.test();
        }
        self.send(j, header(5, 0, false), NONE);
        Ok(Taken)
    }

    fn on_accept(&mut self, j: u16) -> Result<Fate, u32> {
        self.module.test_edge = NONE;
        if self.record.earlier(j, self.module.best_weight) {
            self.module.best_edge = j;
            self.module.best_weight = j;
        }
        self.report()
    }

    fn report(&mut self) -> Result<Fate, u32> {
        let m = &mut self.module;
        if m.find_count == 0 && m.test_edge == NONE {
            if m.in_branch == NONE {
                return Err(32);
            }
            m.status = 2;
            let (to, weight) = (m.in_branch, m.best_weight);
            self.send(to, header(6, 0, false), weight);
        }
        Ok(Taken)
    }

    fn on_report(&mut self, j: u16, weight: u16) -> Result<Fate, u32> {
        let m = &mut self.module;
        if j != m.in_branch {
            if m.find_count == 0 {
                return Err(32);
            }
            m.find_count -= 1;
            if self.record.earlier(weight, m.best_weight) {
                m.best_weight = weight;
                m.best_edge = j;
            }
            return self.report();
        }
        if m.status == 1 {
            return Ok(PutBack);
        }
        if self.record.earlier(m.best_weight, weight) {
            return self.change_root();
        }
        if weight == NONE && m.best_weight == NONE {
            m.halted = 1;
        }
        Ok(Taken)
    }

    fn change_root(&mut self) -> Result<Fate, u32> {
        let best = self.module.best_edge;
        if best == NONE {
            return Err(32);
        }
        if self.mark(best) == 1 {
            self.send(best, header(7, 0, false), NONE);
        } else {
            self.send(best, header(1, self.module.level, false), NONE);
            self.marked = Some((best, 1));
        }
        Ok(Taken)
    }
}

/// What a service comes to: the place of its word, what became of that, the module's values and its new mark.
pub struct Served {
    at: usize,
    fate: Fate,
    module: Module,
    marked: Option<(u16, u8)>,
}

/// A service of module v, of a field whose waiting words these are, before anything is written: 45, 32 or 33, or what it
/// comes to. What it sends stands in `sends`.
pub fn served(record: &Record, waiting: &[u64], v: u16, sends: &mut Vec<u64>) -> Result<Served, u32> {
    let at = waiting.iter().position(|w| record.in_queue(*w, v)).ok_or(45u32)?;
    sends.clear();
    let mut response = Response { record, v, module: Module::load(&record.cells, v), marked: None, sends };
    let fate = response.respond(waiting[at])?;
    let (module, marked) = (response.module, response.marked);
    if record.sent + sends.len() as u32 > record.ceiling() {
        return Err(33);
    }
    Ok(Served { at, fate, module, marked })
}

/// The record and the words of a run; the first `waiting` words wait.
struct Run<'a> {
    record: &'a mut Record,
    words: &'a mut [u64],
    waiting: usize,
    sends: Vec<u64>,
}

impl Run<'_> {
    #[inline(never)]
    fn take_out(&mut self, at: usize) -> u64 {
        let word = self.words[at];
        self.words.copy_within(at + 1..self.waiting, at);
        self.waiting -= 1;
        self.words[self.waiting] = 0;
        word
    }

    fn put(&mut self, word: u64) {
        self.words[self.waiting] = word;
        self.waiting += 1;
    }

    #[inline(never)]
    fn hand_over(&mut self, d: u16) -> Result<(), u32> {
        let at = self.words[..self.waiting].iter().position(|w| in_air(*w, d)).ok_or(44u32)?;
        let word = self.take_out(at);
        self.put(word | HANDED);
        Ok(())
    }

    #[inline(never)]
    fn serve(&mut self, v: u16) -> Result<(), u32> {
        let Served { at, fate, module, marked } = served(self.record, &self.words[..self.waiting], v, &mut self.sends)?;
        let word = self.take_out(at);
        self.words[self.waiting..][..self.sends.len()].copy_from_slice(&self.sends);
        self.waiting += self.sends.len();
        if fate == PutBack {
            self.put(word);
        }
        module.store(&mut self.record.cells, v);
        if let Some((k, mark)) = marked {
            self.record.marks[self.record.end(v, k) as usize] = mark;
        }
        self.record.sent += self.sends.len() as u32;
        Ok(())
    }

    #[inline(never)]
    fn many_in_air(&self, d: u16) -> usize {
        self.words[..self.waiting].iter().filter(|w| in_air(**w, d)).count()
    }

    #[inline(never)]
    fn many_in_queue(&self, v: u16) -> usize {
        self.words[..self.waiting].iter().filter(|w| self.record.in_queue(**w, v)).count()
    }

    fn round(&mut self) -> Result<(), u32> {
        for d in 0..2 * self.record.links() {
            for _ in 0..self.many_in_air(d) {
                self.hand_over(d)?;
            }
        }
        for v in 0..self.record.modules() {
            for _ in 0..self.many_in_queue(v) {
                self.serve(v)?;
            }
        }
        Ok(())
    }
}

/// A run of rounds: rounds completed, and 0 or the refusal.
pub fn run(record: &mut Record, words: &mut [u64], limit: u16) -> (usize, u32) {
    let Some(waiting) = valid(record, words) else {
        return (0, 31);
    };
    let mut run = Run { record, words, waiting, sends: Vec::new() };
    for done in 0..limit as usize {
        if run.waiting == 0 {
            return (done, 0);
        }
        if let Err(refusal) = run.round() {
            return (done, refusal);
        }
    }
    (limit as usize, 0)
}

/// Refusal 31; where it does not apply, how many words wait.
#[inline(never)]
pub fn valid(record: &Record, words: &[u64]) -> Option<usize> {
    if check_plan(record) != 0 {
        return None;
    }
    valid_but_plan(record, words)
}

/// The same of a record whose plan is taken.
pub fn valid_but_plan(record: &Record, words: &[u64]) -> Option<usize> {
    if words.len() < record.ceiling() as usize {
        return None;
    }
    let waiting = words.iter().position(|w| *w == 0).unwrap_or(words.len());
    let (front, rest) = words.split_at(waiting);
    let mut degrees = [0; 192];
    for k in 0..record.links() {
        degrees[record.lower(k) as usize] += 1;
        degrees[record.higher(k) as usize] += 1;
    }
    let sent = record.sent;
    let ok = rest.iter().all(|w| *w == 0)
        && front.iter().all(|w| word_ok(record, *w))
        && (0..record.modules()).all(|v| module_ok(record, v, degrees[v as usize]))
        && record.marks[..2 * record.links() as usize].iter().all(|mark| *mark <= 2)
        && waiting <= sent as usize
        && sent <= record.ceiling();
    ok.then_some(waiting)
}

fn word_ok(record: &Record, word: u64) -> bool {
    let (head, carried) = (word as u8, (word >> 8) as u16);
    let (level, find) = ((head >> 3 & 7) as u16, head >> 6 & 1 == 1);
    let a_link = carried < record.links();
    let listed = match head & 7 {
        1 => !find && carried == NONE,
        2 => level >= 1 && a_link,
        3 => level >= 1 && !find && a_link,
        4 | 5 | 7 => level == 0 && !find && carried == NONE,
        6 => level == 0 && !find && (a_link || carried == NONE),
        _ => false,
    };
    word >> 41 == 1 && head < 128 && listed && level <= record.top_level() && link(word) < 2 * record.links()
}

fn module_ok(record: &Record, v: u16, degree: u16) -> bool {
    let m = Module::load(&record.cells, v);
    let link = |x: u16| x == NONE || x < record.links();
    let own = |x: u16| x == NONE || x < record.links() && record.owns(v, x);
    m.status <= 2
        && m.level <= record.top_level()
        && link(m.identity)
        && link(m.best_weight)
        && own(m.best_edge)
        && own(m.test_edge)
        && own(m.in_branch)
        && m.find_count <= degree
        && m.halted <= 1
        && own(m.waking)
        && (m.status != 0 || m.waking == NONE)
        && (m.identity == NONE) == (m.level == 0)
}
