//! The compiled library as safe Rust functions: every export of include/muruapy.h, once, for the tests that compare it
//! with the oracle. A slice of Rattle passes as a pointer and a length, an array as a pointer, a struct by value. No function
//! here asks for anything: every input is taken or refused by a number.
#![allow(dead_code)] // each test calls some of them

use oracle::cue::Cue;
use oracle::field::Field;
use oracle::plan::{Plan, MOST_LINKS, MOST_MODULES};
use oracle::rng::Rng;
use oracle::rules::{Module, WIDTH};
use oracle::schedule::Step;

/// A plan: N, L, four numbers for each link. What stands past the links means nothing.
pub type Numbers = [u16; 2 + 4 * MOST_LINKS];
pub type Cells = [u16; MOST_MODULES as usize * WIDTH];
pub type Marks = [u8; 2 * MOST_LINKS];

#[rustfmt::skip]
extern "C" {
    fn muruapy_plan_check(bytes: *const u8, len: usize) -> u32;
    fn muruapy_plan_read(bytes: *const u8, len: usize, plan: *mut Numbers) -> u32;
    fn muruapy_plan_value_check(plan: *const Numbers) -> u32;
    fn muruapy_plan_write(plan: *const Numbers, bytes: *mut u8, room: usize) -> u32;
    fn muruapy_link_cost(plan: *const Numbers, link: u16) -> u32;
    fn muruapy_ceiling(modules: u16, links: u16) -> u32;
    fn muruapy_tree(plan: *const Numbers, tree: *mut u8, room: usize) -> u32;
    fn muruapy_path(plan: *const Numbers, from: u16, to: u16, links: *mut u16, room: usize) -> PathFound;
    fn muruapy_near(plan: *const Numbers, from: u16, h: u32, marks: *mut u8, room: usize) -> u32;

    fn muruapy_header(kind: u8, level: u16, find: u8) -> u8;
    fn muruapy_header_kind(header: u8) -> u8;
    fn muruapy_header_level(header: u8) -> u16;
    fn muruapy_header_find(header: u8) -> u8;
    fn muruapy_message_listed(header: u8, carried: u16) -> bool;
    fn muruapy_frame_check(bytes: *const u8, len: usize) -> u32;
    fn muruapy_frame_read(bytes: *const u8, len: usize, header: *mut u8, carried: *mut u16) -> u32;
    fn muruapy_frame_write(header: u8, carried: u16, bytes: *mut u8, room: usize) -> u32;
    fn muruapy_word_header(word: u64) -> u8;
    fn muruapy_word_carried(word: u64) -> u16;
    fn muruapy_word_link(word: u64) -> u16;
    fn muruapy_word_handed(word: u64) -> bool;

    fn muruapy_waiting(words: *const u64, room: usize) -> usize;
    fn muruapy_setup_parts(
        plan: *const Numbers, held: *mut Numbers, cells: *mut Cells, marks: *mut Marks, sent: *mut u32, words: *mut u64, room: usize,
    ) -> u32;
    fn muruapy_field_check_parts(
        plan: *const Numbers, cells: *const Cells, marks: *const Marks, sent: u32, words: *const u64, room: usize,
    ) -> u32;
    fn muruapy_step_parts(
        plan: *const Numbers, cells: *mut Cells, marks: *mut Marks, sent: *mut u32, words: *mut u64, room: usize, kind: u8, number: u16,
    ) -> u32;
    fn muruapy_preview_parts(
        plan: *const Numbers, cells: *const Cells, marks: *const Marks, sent: u32, words: *const u64, room: usize, kind: u8, number: u16,
        buffer: *mut u64, places: usize,
    ) -> Previewed;
    fn muruapy_run_parts(
        plan: *const Numbers, cells: *mut Cells, marks: *mut Marks, sent: *mut u32, words: *mut u64, room: usize, bytes: *const u8, len: usize,
        steps: *mut usize,
    ) -> u32;
    fn muruapy_rounds_parts(
        plan: *const Numbers, cells: *mut Cells, marks: *mut Marks, sent: *mut u32, words: *mut u64, room: usize, limit: u16, rounds: *mut u16,
    ) -> u32;
    fn muruapy_job_parts(
        plan: *const Numbers, held: *mut Numbers, cells: *mut Cells, marks: *mut Marks, sent: *mut u32, words: *mut u64, room: usize, rounds: *mut u16,
    ) -> u32;
    fn muruapy_report_parts(
        plan: *const Numbers, cells: *const Cells, marks: *const Marks, sent: u32, rounds: u16, text: *mut u8, room: usize,
    ) -> usize;

    fn muruapy_save_parts(
        plan: *const Numbers, cells: *const Cells, marks: *const Marks, sent: u32, words: *const u64, room: usize, name: *const u8, letters: usize,
        store: *mut u8, size: usize,
    ) -> u32;
    fn muruapy_find(store: *const u8, size: usize, name: *const u8, letters: usize) -> Found;
    fn muruapy_restore_parts(
        store: *const u8, size: usize, name: *const u8, letters: usize, plan: *mut Numbers, cells: *mut Cells, marks: *mut Marks, sent: *mut u32,
        words: *mut u64, room: usize,
    ) -> u32;

    fn muruapy_cue_start_value(
        field: Record, words: *const u64, room: usize, cues: *mut Cue, count: usize, sender: u16, cue: u16,
    ) -> u32;
    fn muruapy_cue_deliver_value(
        field: Record, words: *const u64, room: usize, cues: *mut Cue, count: usize, link: u16,
    ) -> Delivered;

    fn muruapy_schedule_check(bytes: *const u8, len: usize) -> u32;
    fn muruapy_schedule_steps(bytes: *const u8, len: usize) -> usize;
    fn muruapy_schedule_read(
        bytes: *const u8, len: usize, at: usize, kind: *mut u8, number: *mut u16, next: *mut usize,
    ) -> usize;
}

/// The numbers of a plan value, as many links as there is room for, with anything past them.
pub fn numbers(plan: &Plan, rng: &mut Rng) -> Numbers {
    let mut numbers: Numbers = std::array::from_fn(|_| rng.next() as u16);
    numbers[0] = plan.modules;
    numbers[1] = plan.links.len() as u16;
    for (four, link) in numbers[2..].chunks_exact_mut(4).zip(&plan.links) {
        four.copy_from_slice(&[link.lower, link.higher, link.at_lower, link.at_higher]);
    }
    numbers
}

/// 11 to 18, or 0 for a plan that is taken.
pub fn plan_check(bytes: &[u8]) -> u32 {
    unsafe { muruapy_plan_check(bytes.as_ptr(), bytes.len()) }
}

pub fn plan_read(bytes: &[u8], plan: &mut Numbers) -> u32 {
    unsafe { muruapy_plan_read(bytes.as_ptr(), bytes.len(), plan) }
}

/// 14 to 18, or 0.
pub fn plan_value_check(plan: &Numbers) -> u32 {
    unsafe { muruapy_plan_value_check(plan) }
}

/// 14 to 18, then 22; else 0, and the plan's bytes are at the front of `out`.
pub fn plan_write(plan: &Numbers, out: &mut [u8]) -> u32 {
    unsafe { muruapy_plan_write(plan, out.as_mut_ptr(), out.len()) }
}

pub fn link_cost(plan: &Numbers, link: u16) -> u32 {
    unsafe { muruapy_link_cost(plan, link) }
}

pub fn ceiling(n: u16, l: u16) -> u32 {
    unsafe { muruapy_ceiling(n, l) }
}

/// 14 to 18, then 20; else 0, and the tree's L bytes are in `out`.
pub fn tree(plan: &Numbers, out: &mut [u8]) -> u32 {
    unsafe { muruapy_tree(plan, out.as_mut_ptr(), out.len()) }
}

/// What a path answers: 0 or the refusal, 1 or 0 for a way or "no way", how many links it has, the latest of them or none.
#[repr(C)]
#[derive(Clone, Copy, Debug, PartialEq, Eq)]
pub struct PathFound {
    pub refusal: u32,
    pub way: u32,
    pub length: u16,
    pub worst: u16,
}

/// The tree path between two modules, put at the front of `links`.
pub fn path(plan: &Numbers, from: u16, to: u16, links: &mut [u16]) -> PathFound {
    unsafe { muruapy_path(plan, from, to, links.as_mut_ptr(), links.len()) }
}

/// 14 to 18, 41, 79; else 0, and at the front of `marks` a byte for each module: 1 within h branches of one.
pub fn near(plan: &Numbers, from: u16, h: u32, marks: &mut [u8]) -> u32 {
    unsafe { muruapy_near(plan, from, h, marks.as_mut_ptr(), marks.len()) }
}

pub fn header(kind: u8, level: u16, find: u8) -> u8 {
    unsafe { muruapy_header(kind, level, find) }
}

/// Kind, level and Find bit of a header byte.
pub fn header_parts(header: u8) -> (u8, u16, u8) {
    unsafe { (muruapy_header_kind(header), muruapy_header_level(header), muruapy_header_find(header)) }
}

pub fn message_listed(header: u8, carried: u16) -> bool {
    unsafe { muruapy_message_listed(header, carried) }
}

/// 61 to 63, or 0 for a frame that is taken.
pub fn frame_check(bytes: &[u8]) -> u32 {
    unsafe { muruapy_frame_check(bytes.as_ptr(), bytes.len()) }
}

pub fn frame_read(bytes: &[u8], header: &mut u8, carried: &mut u16) -> u32 {
    unsafe { muruapy_frame_read(bytes.as_ptr(), bytes.len(), header, carried) }
}

/// 63, then 64; else 0, and the frame is in `out`.
pub fn frame_write(header: u8, carried: u16, out: &mut [u8]) -> u32 {
    unsafe { muruapy_frame_write(header, carried, out.as_mut_ptr(), out.len()) }
}

/// Header, carried number, directed link and bit 40 of a word.
pub fn word_parts(word: u64) -> (u8, u16, u16, bool) {
    unsafe {
        (muruapy_word_header(word), muruapy_word_carried(word), muruapy_word_link(word), muruapy_word_handed(word))
    }
}

pub fn waiting(words: &[u64]) -> usize {
    unsafe { muruapy_waiting(words.as_ptr(), words.len()) }
}

/// 51 to 54, or 0 for a schedule that is taken.
pub fn schedule_check(bytes: &[u8]) -> u32 {
    unsafe { muruapy_schedule_check(bytes.as_ptr(), bytes.len()) }
}

pub fn schedule_steps(bytes: &[u8]) -> usize {
    unsafe { muruapy_schedule_steps(bytes.as_ptr(), bytes.len()) }
}

/// The schedule reader at a place: how many steps stand from there on, the step there, the place after it.
pub fn schedule_read(bytes: &[u8], at: usize) -> (usize, Step, usize) {
    let (mut kind, mut number, mut next) = (77, 7777, 777_777);
    let left = unsafe { muruapy_schedule_read(bytes.as_ptr(), bytes.len(), at, &mut kind, &mut number, &mut next) };
    (left, Step { kind, number }, next)
}

/// What a preview answers: 0 or the refusal, how many messages the step would send.
#[repr(C)]
#[derive(Clone, Copy, Debug, PartialEq, Eq)]
pub struct Previewed {
    pub refusal: u32,
    pub count: u32,
}

/// What finding a point answers: 0 or the refusal, where its record stands and how many bytes it has.
#[repr(C)]
#[derive(Clone, Copy, Debug, PartialEq, Eq)]
pub struct Found {
    pub refusal: u32,
    pub at: usize,
    pub size: usize,
}

/// The point of a name, found in a store.
pub fn find(store: &[u8], name: &[u8]) -> Found {
    unsafe { muruapy_find(store.as_ptr(), store.len(), name.as_ptr(), name.len()) }
}

/// What a delivery answers: 0 or the refusal, 1 for heard and 0 for idle.
#[repr(C)]
#[derive(Clone, Copy, Debug, PartialEq, Eq)]
pub struct Delivered {
    pub refusal: u32,
    pub heard: u32,
}

/// A field in its parts: the plan's numbers, WIDTH cells for each module, link k's marks at 2 × k and 2 × k + 1. As a whole
/// it is laid out as in C, for the calls that take it by value.
#[repr(C)]
#[derive(Clone, Debug, PartialEq, Eq)]
pub struct Record {
    pub plan: Numbers,
    pub cells: Cells,
    pub marks: Marks,
    pub sent: u32,
}

impl Record {
    /// Memory that nobody wrote to.
    pub const ZEROS: Record = Record {
        plan: [0; 2 + 4 * MOST_LINKS],
        cells: [0; MOST_MODULES as usize * WIDTH],
        marks: [0; 2 * MOST_LINKS],
        sent: 0,
    };

    /// Anything.
    pub fn any(rng: &mut Rng) -> Record {
        Record {
            plan: std::array::from_fn(|_| rng.next() as u16),
            cells: std::array::from_fn(|_| rng.next() as u16),
            marks: std::array::from_fn(|_| rng.byte()),
            sent: rng.next() as u32,
        }
    }

    /// The record of a field, with anything past its modules and links.
    pub fn of(field: &Field, rng: &mut Rng) -> Record {
        let mut record = Record { plan: numbers(&field.plan, rng), ..Record::any(rng) };
        record.put(field);
        record
    }

    /// The record that setup makes of a plan's numbers, of a plan that is taken: zeros past its links, and all cells and
    /// marks, past its modules and links too.
    pub fn at_setup(plan: &Numbers) -> Record {
        let cells = std::array::from_fn(|i| Module::SETUP.values()[i % WIDTH]);
        let mut held = *plan;
        held[2 + 4 * plan[1] as usize..].fill(0);
        Record { plan: held, cells, marks: [0; 2 * MOST_LINKS], sent: 0 }
    }

    /// The record that restoring makes of a field: what is not saved is as at setup.
    pub fn restored(field: &Field) -> Record {
        let mut record = Record::at_setup(&numbers(&field.plan, &mut Rng::new(0)));
        record.put(field);
        record
    }

    /// Puts in what a step may change.
    pub fn put(&mut self, field: &Field) {
        for (values, module) in self.cells.chunks_exact_mut(WIDTH).zip(&field.modules) {
            values.copy_from_slice(&module.values());
        }
        for (ends, marks) in self.marks.chunks_exact_mut(2).zip(&field.marks) {
            ends.copy_from_slice(marks);
        }
        self.sent = field.sent;
    }

    /// Setup: 14 to 18, 21 or 0; then the new field takes the place of this one.
    pub fn setup(&mut self, plan: &Numbers, words: &mut [u64]) -> u32 {
        let Record { plan: held, cells, marks, sent } = self;
        unsafe { muruapy_setup_parts(plan, held, cells, marks, sent, words.as_mut_ptr(), words.len()) }
    }

    /// 31 or 0.
    pub fn check(&self, words: &[u64]) -> u32 {
        let Record { plan, cells, marks, sent } = self;
        unsafe { muruapy_field_check_parts(plan, cells, marks, *sent, words.as_ptr(), words.len()) }
    }

    /// A step given alone: 0 or its refusal.
    pub fn step(&mut self, words: &mut [u64], kind: u8, number: u16) -> u32 {
        let Record { plan, cells, marks, sent } = self;
        unsafe { muruapy_step_parts(plan, cells, marks, sent, words.as_mut_ptr(), words.len(), kind, number) }
    }

    /// What a step given alone would do; the words that it would send are put at the front of the buffer.
    #[rustfmt::skip]
    pub fn preview(&self, words: &[u64], kind: u8, number: u16, buffer: &mut [u64]) -> Previewed {
        let Record { plan, cells, marks, sent } = self;
        let (room, places) = (words.len(), buffer.len());
        unsafe {
            muruapy_preview_parts(plan, cells, marks, *sent, words.as_ptr(), room, kind, number, buffer.as_mut_ptr(), places)
        }
    }

    /// A run of a schedule: steps done, and 0 or the refusal.
    #[rustfmt::skip]
    pub fn run(&mut self, words: &mut [u64], bytes: &[u8]) -> (usize, u32) {
        let mut done = usize::MAX;
        let Record { plan, cells, marks, sent } = self;
        let refusal = unsafe {
            muruapy_run_parts(plan, cells, marks, sent, words.as_mut_ptr(), words.len(), bytes.as_ptr(), bytes.len(), &mut done)
        };
        (done, refusal)
    }

    /// A run of rounds: rounds completed, and 0 or the refusal.
    pub fn rounds(&mut self, words: &mut [u64], limit: u16) -> (usize, u32) {
        let mut done = u16::MAX;
        let Record { plan, cells, marks, sent } = self;
        let refusal = unsafe {
            muruapy_rounds_parts(plan, cells, marks, sent, words.as_mut_ptr(), words.len(), limit, &mut done)
        };
        (done as usize, refusal)
    }

    /// The whole job: rounds completed, and 14 to 18, 21 or 0; then the field that it leaves takes the place of this one.
    pub fn job(&mut self, plan: &Numbers, words: &mut [u64]) -> (usize, u32) {
        let mut done = u16::MAX;
        let Record { plan: held, cells, marks, sent } = self;
        let refusal =
            unsafe { muruapy_job_parts(plan, held, cells, marks, sent, words.as_mut_ptr(), words.len(), &mut done) };
        (done as usize, refusal)
    }

    /// The report, put at the front of a text: the number of bytes.
    pub fn report(&self, rounds: u16, text: &mut [u8]) -> usize {
        let Record { plan, cells, marks, sent } = self;
        unsafe { muruapy_report_parts(plan, cells, marks, *sent, rounds, text.as_mut_ptr(), text.len()) }
    }

    /// The field saved under a name: 31, 76, 77, 78 or 0.
    #[rustfmt::skip]
    pub fn save(&self, words: &[u64], name: &[u8], store: &mut [u8]) -> u32 {
        let Record { plan, cells, marks, sent } = self;
        let (room, letters, size) = (words.len(), name.len(), store.len());
        unsafe {
            muruapy_save_parts(plan, cells, marks, *sent, words.as_ptr(), room, name.as_ptr(), letters, store.as_mut_ptr(), size)
        }
    }

    /// The field of a name restored: 76, 77, 21 or 0; then it takes the place of this one.
    #[rustfmt::skip]
    pub fn restore(&mut self, store: &[u8], name: &[u8], words: &mut [u64]) -> u32 {
        let Record { plan, cells, marks, sent } = self;
        let (size, letters, room) = (store.len(), name.len(), words.len());
        unsafe {
            muruapy_restore_parts(store.as_ptr(), size, name.as_ptr(), letters, plan, cells, marks, sent, words.as_mut_ptr(), room)
        }
    }

    /// A cue started: 0 or the refusal.
    pub fn start_cue(&self, words: &[u64], cues: &mut [Cue], sender: u16, cue: u16) -> u32 {
        let (field, records) = (self.clone(), cues.as_mut_ptr());
        unsafe { muruapy_cue_start_value(field, words.as_ptr(), words.len(), records, cues.len(), sender, cue) }
    }

    /// A copy of a cue delivered.
    pub fn deliver_cue(&self, words: &[u64], cues: &mut [Cue], link: u16) -> Delivered {
        let (field, records) = (self.clone(), cues.as_mut_ptr());
        unsafe { muruapy_cue_deliver_value(field, words.as_ptr(), words.len(), records, cues.len(), link) }
    }
}
