//! Stores that are damaged, each in one known way: a record in its parts, one of which is wrong, or the store around its
//! records. Every call on such a store is refused by 76, whatever the name and the words are.

use crate::calls::{compare_find, compare_restore, compare_save, Site};
use crate::draws::{bad_name, busy_site, small_site, store_with, used, NAMES};
use crate::tally::Tally;
use oracle::field::{waiting, Field};
use oracle::plan::Plan;
use oracle::points::{field_bytes, field_numbers, framed, record};
use oracle::rng::Rng;
use oracle::rules::WIDTH;

pub const EACH: usize = 40;

/// A record in its parts, to be damaged.
struct Parts {
    name: Vec<u8>,
    plan: Vec<u8>,
    numbers: Vec<u16>,
    words: Vec<u64>,
    /// Bytes behind the words.
    more: Vec<u8>,
    /// How many of the last bytes are left out.
    cut: usize,
}

impl Parts {
    fn of(site: &Site) -> Parts {
        let words = site.words[..waiting(&site.words)].to_vec();
        let (plan, numbers) = (site.field.plan.encode(), field_numbers(&site.field));
        Parts { name: NAMES[1].to_vec(), plan, numbers, words, more: vec![], cut: 0 }
    }

    /// The record, with a length that fits.
    fn bytes(&self) -> Vec<u8> {
        let mut bytes = framed(&self.name, &field_bytes(&self.plan, &self.numbers), &self.words);
        bytes.extend(&self.more);
        bytes.truncate(bytes.len() - self.cut);
        let length = bytes.len() as u32 - 5;
        bytes[1..5].copy_from_slice(&length.to_be_bytes());
        bytes
    }
}

/// Where value i of each module stands among the numbers of a field, and where the marks do.
fn places(field: &Field, i: usize) -> (Vec<usize>, Vec<usize>) {
    let (mut values, mut marks, mut at) = (vec![], vec![], 1);
    for v in 0..field.plan.modules {
        let own = field.plan.own_links(v).len();
        values.push(at + i);
        marks.extend(at + WIDTH..at + WIDTH + own);
        at += WIDTH + own;
    }
    (values, marks)
}

/// Value i of some module becomes one of these numbers, or gets a bit of its high byte: 256 and its like.
fn value(r: &mut Rng, s: &Site, p: &mut Parts, i: usize, to: &[u16]) {
    let at = r.pick(&places(&s.field, i).0);
    p.numbers[at] = r.pick(to);
}

fn high(r: &mut Rng, s: &Site, p: &mut Parts, i: usize) {
    let at = r.pick(&places(&s.field, i).0);
    p.numbers[at] |= 1 << r.range(8, 15);
}

fn mark(r: &mut Rng, s: &Site, p: &mut Parts, to: &[u16]) {
    let at = r.pick(&places(&s.field, 0).1);
    p.numbers[at] = r.pick(to);
}

/// The plan in version 2's short form, as far as its numbers fit a byte.
fn version_2(plan: &Plan) -> Vec<u8> {
    let mut bytes = vec![2, (2 + 4 * plan.links.len()) as u8, plan.modules as u8, plan.links.len() as u8];
    for link in &plan.links {
        let whole = |reading: u16| (reading / 10) as u8;
        bytes.extend([link.lower as u8, link.higher as u8, whole(link.at_lower), whole(link.at_higher)]);
    }
    bytes
}

/// A way to damage the parts of a site's record.
type Damage = fn(&mut Rng, &Site, &mut Parts);

#[rustfmt::skip]
const RECORDS: [(&str, Damage); 30] = [
    ("no name", |_, _, p| p.name.clear()),
    ("a name of 13 letters", |_, _, p| p.name = b"abcdefghijklm".to_vec()),
    ("a name with another byte", |r, _, p| p.name = loop { let n = bad_name(r); if (1..13).contains(&n.len()) { break n } }),
    ("a plan of version 2", |_, s, p| p.plan = version_2(&s.field.plan)),
    ("a plan's version byte", |r, _, p| p.plan[0] = r.pick(&[0, 2, 255])),
    ("a plan's length too long", |r, _, p| add(&mut p.plan, 1, r.pick(&[1, 2, 8, 16, 1000, 20000]))),
    ("a plan's length too short", |r, _, p| add(&mut p.plan, 1, -r.pick(&[1, 2, 4, 8]))),
    ("a plan's N", |r, _, p| put(&mut p.plan, 3, r.pick(&[0, 193, 65535]))),
    ("a plan's L", |r, _, p| add(&mut p.plan, 5, r.pick(&[1, -1, 600, 20000]))),
    ("a plan's link", |r, _, p| put(&mut p.plan, 7, r.pick(&[192, 256, 65535]))),
    ("a plan's reading", |r, _, p| { let at = p.plan.len() - 2; put(&mut p.plan, at, r.pick(&[2001, 65535])) }),
    ("status 256", |_, s, p| high_status(s, p)),
    ("status 3", |r, s, p| value(r, s, p, 0, &[3, 4, 65535])),
    ("a level of more than 8 bits", |r, s, p| high(r, s, p, 1)),
    ("a find count of more than 8 bits", |r, s, p| high(r, s, p, 7)),
    ("halted of more than 8 bits", |r, s, p| high(r, s, p, 8)),
    ("mark 256", |r, s, p| mark(r, s, p, &[256, 256, 257, 258, 512, 32768])),
    ("mark 3", |r, s, p| mark(r, s, p, &[3, 3, 4, 255])),
    ("mark none", |r, s, p| mark(r, s, p, &[65535])),
    ("sent above M", |r, s, p| p.numbers[0] = s.ceiling() as u16 + r.pick(&[1, 1, 2, 256])),
    ("sent below waiting", |r, _, p| p.numbers[0] = r.below(p.words.len()) as u16),
    ("a number missing", |_, _, p| { p.numbers.pop(); }),
    ("a number more", |r, _, p| p.numbers.push(r.pick(&[0, 1, 65535]))),
    ("a word 0 at the end", |r, _, p| p.words.extend(vec![0; r.range(1, 3)])),
    ("a word 0 within", |r, _, p| { let at = r.below(p.words.len()); p.words.insert(at, 0) }),
    ("a word 0 in place of the last", |_, _, p| *p.words.last_mut().unwrap() = 0),
    ("a word's bits", |r, _, p| { let at = r.below(p.words.len()); p.words[at] ^= 1 << r.range(41, 63) }),
    ("more words than M", |r, s, p| many(r, s, p)),
    ("bytes behind the words", |r, _, p| p.more = (0..r.range(1, 7)).map(|_| r.byte()).collect()),
    ("bytes of the last word missing", |r, _, p| p.cut = r.range(1, 7)),
];

fn put(bytes: &mut [u8], at: usize, number: u16) {
    bytes[at..at + 2].copy_from_slice(&number.to_be_bytes());
}

fn add(bytes: &mut [u8], at: usize, more: i32) {
    let number = u16::from_be_bytes([bytes[at], bytes[at + 1]]) as i32 + more;
    put(bytes, at, number as u16);
}

/// Status 256, of a sleeper if there is one: cut to a byte it would be a good one.
fn high_status(s: &Site, p: &mut Parts) {
    let (all, _) = places(&s.field, 0);
    let asleep = all.iter().copied().find(|at| p.numbers[*at] == 0);
    p.numbers[asleep.unwrap_or(all[0])] = 256;
}

/// One word more than the ceiling, all sound and said to be sent.
fn many(r: &mut Rng, s: &Site, p: &mut Parts) {
    let count = s.ceiling() + 1;
    p.words = (0..count).map(|_| r.pick(&p.words)).collect();
    p.numbers[0] = r.pick(&[count, count - 1]) as u16;
}

/// A way to damage a store, of which is told where its last record begins and ends.
type Spoil = fn(&mut Rng, &mut Vec<u8>, usize, usize);

#[rustfmt::skip]
const STORES: [(&str, Spoil); 12] = [
    ("version byte", |r, s, last, _| s[last] = r.pick(&[2, 3, 128, 255])),
    ("version byte 0", |_, s, last, _| s[last] = 0),
    ("length too long", |r, s, last, end| { s.truncate(end + 9); length(s, last, r.pick(&[1, 2, 8, 9])) }),
    ("length past the end", |r, s, last, _| put_length(s, last, r.pick(&[u32::MAX, u32::MAX - 4, 1 << 31, 1 << 24]))),
    ("length too short", |r, s, last, _| length(s, last, -r.pick(&[1, 2, 7, 8, 9, 16]))),
    ("length 0", |_, s, last, _| put_length(s, last, 0)),
    ("name length", |r, s, last, _| s[last + 5] = r.pick(&[0, 13, 200, 255])),
    ("cut short", |r, s, last, end| s.truncate(r.range(last + 1, end - 1))),
    ("zeros replaced", |r, s, _, end| { let at = r.range(end, s.len() - 1); s[at] = r.pick(&[1, 2, 97, 255]) }),
    ("the last byte", |r, s, _, _| *s.last_mut().unwrap() = r.pick(&[1, 128])),
    ("a name twice", |_, s, last, end| { let again = s[last..end].to_vec(); s.splice(end..end, again); }),
    ("a record behind zeros", |r, s, last, end| { s.truncate(end + r.range(1, 9)); s.extend_from_within(last..end) }),
];

/// Another length of the record at a place.
fn put_length(s: &mut [u8], last: usize, length: u32) {
    s[last + 1..last + 5].copy_from_slice(&length.to_be_bytes());
}

/// The same, longer or shorter than it is.
fn length(s: &mut [u8], last: usize, more: i32) {
    let length = u32::from_be_bytes(s[last + 1..last + 5].try_into().unwrap());
    put_length(s, last, length.wrapping_add_signed(more));
}

/// Every call on a damaged store is refused by 76: for a held name, another, and none; with words enough and without.
fn refused(rng: &mut Rng, tally: &mut Tally, what: &str, store: &mut Vec<u8>, room: usize) {
    let site = small_site(rng);
    let bad = bad_name(rng);
    for name in [NAMES[1], NAMES[2], &bad[..]] {
        assert_eq!(compare_find(rng, tally, store, name).refusal, 76, "{what}: find");
        assert_eq!(compare_save(rng, tally, &site, store, name), 76, "{what}: save");
        let room = rng.pick(&[0, room]);
        assert_eq!(compare_restore(rng, tally, store, name, room).err(), Some(76), "{what}: restore");
    }
    tally.count(format!("damage: {what}"));
}

/// One record damaged among sound ones.
fn damaged_record(rng: &mut Rng, tally: &mut Tally, (what, damage): (&str, Damage)) {
    let site = busy_site(rng);
    let mut parts = Parts::of(&site);
    assert!(parts.bytes() == record(NAMES[1], &site.field, &site.words), "the parts of a record");
    damage(rng, &site, &mut parts);
    let (some, more, zeros) = (rng.below(2), rng.below(2), rng.pick(&[0, 3, 90]));
    let before = store_with(rng, &NAMES[2..2 + some], 0);
    let after = store_with(rng, &NAMES[4..4 + more], zeros);
    let mut store = [before, parts.bytes(), after].concat();
    refused(rng, tally, what, &mut store, site.ceiling());
}

/// A sound store damaged around its records.
fn damaged_store(rng: &mut Rng, tally: &mut Tally, (what, spoil): (&str, Spoil)) {
    let site = busy_site(rng);
    let some = rng.below(3);
    let before = store_with(rng, &NAMES[2..2 + some], 0);
    let zeros = vec![0; rng.range(9, 90)];
    let mut store = [before.clone(), record(NAMES[1], &site.field, &site.words), zeros].concat();
    let end = used(&store);
    spoil(rng, &mut store, before.len(), end);
    refused(rng, tally, what, &mut store, site.ceiling());
}

/// Each way so often; how many stores that are.
pub fn damages(rng: &mut Rng, tally: &mut Tally) -> usize {
    for _ in 0..EACH {
        RECORDS.iter().for_each(|way| damaged_record(rng, tally, *way));
        STORES.iter().for_each(|way| damaged_store(rng, tally, *way));
    }
    EACH * (RECORDS.len() + STORES.len())
}
