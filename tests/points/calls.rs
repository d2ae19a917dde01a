//! The three calls on a store, made by the compiled library and by the oracle. Answer and every buffer must be the same,
//! with what lies beside each; what is only read must stay.

use crate::muruapy::{find as found, Found, Record};
use crate::tally::Tally;
use oracle::field::Field;
use oracle::points::{find, record, restore, save};
use oracle::rng::Rng;
use std::ops::Range;

const GUARD: usize = 16;

/// A field with its words, and the library's record of it.
#[derive(Clone)]
pub struct Site {
    pub field: Field,
    pub words: Vec<u64>,
    pub record: Record,
}

impl Site {
    /// As a host may make it: anything where the field says nothing, past its links too.
    pub fn made(rng: &mut Rng, (field, words): (Field, Vec<u64>)) -> Site {
        let record = Record::of(&field, rng);
        Site { field, words, record }
    }

    pub fn ceiling(&self) -> usize {
        self.field.plan.ceiling() as usize
    }
}

/// Memory that is lent, with other numbers on both sides of it.
struct Lent<T>(Vec<T>);

impl<T: Copy + PartialEq> Lent<T> {
    fn new(content: &[T], mut beside: impl FnMut() -> T) -> Lent<T> {
        let guard: Vec<T> = (0..2 * GUARD).map(|_| beside()).collect();
        Lent([&guard[..GUARD], content, &guard[GUARD..]].concat())
    }

    fn inner(&self) -> Range<usize> {
        GUARD..self.0.len() - GUARD
    }

    fn part(&self) -> &[T] {
        &self.0[self.inner()]
    }

    fn part_mut(&mut self) -> &mut [T] {
        let inner = self.inner();
        &mut self.0[inner]
    }

    /// The same with this content: nothing beside it is written.
    fn with(&self, content: &[T]) -> Vec<T> {
        [&self.0[..GUARD], content, &self.0[self.0.len() - GUARD..]].concat()
    }
}

/// Bytes lie beside what else looks like a store or a name: letters, records that begin, zeros.
fn lend_bytes(rng: &mut Rng, content: &[u8]) -> Lent<u8> {
    Lent::new(content, || rng.pick(&[0, 1, b'a', b'g', b'z', 255]))
}

fn lend_words(rng: &mut Rng, content: &[u64]) -> Lent<u64> {
    Lent::new(content, || rng.pick(&[0, 0x20000FFFF01, u64::MAX]))
}

/// The field saved on both sides; the oracle's store goes on. The refusal, or 0.
pub fn compare_save(rng: &mut Rng, tally: &mut Tally, site: &Site, store: &mut Vec<u8>, name: &[u8]) -> u32 {
    let mut expected = store.clone();
    let answer = save(&mut expected, name, &site.field, &site.words).err().unwrap_or(0);
    assert!(answer == 0 || expected == *store, "a refusal writes nothing");
    let mut lent = lend_bytes(rng, store);
    let want = lent.with(&expected);
    let (before, given, words) = (site.record.clone(), lend_bytes(rng, name), lend_words(rng, &site.words));
    let (name_before, words_before) = (given.0.clone(), words.0.clone());
    let got = site.record.save(words.part(), given.part(), lent.part_mut());
    assert_eq!(got, answer, "save {name:?} in {} bytes, {:?} and words {:x?}", store.len(), site.field, site.words);
    assert!(lent.0 == want, "save {name:?}: the store, or what is beside it, for {:?}", site.field);
    assert!(site.record == before && given.0 == name_before && words.0 == words_before, "what is only read is written");
    tally.save(&site.field, store, name, answer);
    *store = expected;
    answer
}

/// A name found on both sides; what is shown is its record.
pub fn compare_find(rng: &mut Rng, tally: &mut Tally, store: &[u8], name: &[u8]) -> Found {
    let (lent, given) = (lend_bytes(rng, store), lend_bytes(rng, name));
    let before = (lent.0.clone(), given.0.clone());
    let got = found(lent.part(), given.part());
    match find(store, name) {
        Err(refusal) => assert_eq!(got, Found { refusal, at: 0, size: 0 }, "find {name:?}"),
        Ok(point) => {
            assert_eq!(got, Found { refusal: 0, at: point.at, size: point.size }, "find {name:?}");
            let shown = &lent.part()[got.at..got.at + got.size];
            assert!(*shown == record(name, &point.field, &point.words), "find {name:?}: another record is shown");
        }
    }
    assert!((lent.0, given.0) == before, "what is only read is written");
    tally.find(store, name, got.refusal);
    got
}

/// What words hold before a point is restored into them.
fn rubbish(rng: &mut Rng, room: usize) -> Vec<u64> {
    let fill = rng.pick(&[0, 9, 0x20000FFFF01, u64::MAX]);
    (0..room).map(|_| if rng.once_in(2) { fill } else { rng.next() }).collect()
}

/// A name restored on both sides into so many words and a record that holds anything: the refusal, or what came back.
pub fn compare_restore(rng: &mut Rng, tally: &mut Tally, store: &[u8], name: &[u8], room: usize) -> Result<Site, u32> {
    let before = rubbish(rng, room);
    let mut expected = before.clone();
    let outcome = restore(store, name, &mut expected);
    assert!(outcome.is_ok() || expected == before, "a refusal writes nothing");
    let mut record = if rng.once_in(4) { Record::ZEROS } else { Record::any(rng) };
    let want = outcome.as_ref().map_or(record.clone(), Record::restored);

    let (lent, given, mut words) = (lend_bytes(rng, store), lend_bytes(rng, name), lend_words(rng, &before));
    let read = (lent.0.clone(), given.0.clone());
    let want_words = words.with(&expected);
    let got = record.restore(lent.part(), given.part(), words.part_mut());
    let answer = outcome.as_ref().err().copied().unwrap_or(0);
    assert_eq!(got, answer, "restore {name:?} of {} bytes into {room} words", store.len());
    assert!(record == want, "restore {name:?}: the field, {outcome:?}");
    assert!(words.0 == want_words, "restore {name:?}: the words, or those beside them, {outcome:?}");
    assert!((lent.0, given.0) == read, "what is only read is written");
    tally.restore(store, name, room, &outcome);
    outcome.map(|field| Site { field, words: expected, record })
}
