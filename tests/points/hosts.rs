//! Fields that a host may make up: valid ones that no run reaches, with anything in the record where 31 does not look;
//! spoilt ones; and for each item of 31 some in which it alone is broken, as a field to save and as a record of a store.

use crate::calls::{compare_find, compare_restore, compare_save, Site};
use crate::draws::{bad_name, size_of, small_site, some_name, some_store, store_with, NAMES};
use crate::items::{broken, WAYS};
use crate::tally::Tally;
use oracle::field::Field;
use oracle::fields::{drawn, some_field, spoil};
use oracle::plans;
use oracle::points::{record, LONGEST_RECORD};
use oracle::rng::Rng;

pub const MADE_UP: usize = 1500;
pub const SPOILT: usize = 600;
pub const ALONE: usize = 12;
pub const LONGEST: usize = 4;

/// A point restored into just enough words, more, one too few, and none.
fn restored(rng: &mut Rng, tally: &mut Tally, store: &[u8], name: &[u8], site: &Site) {
    let enough = site.ceiling();
    for room in [enough, enough + rng.range(1, 60), enough.saturating_sub(1), 0] {
        match compare_restore(rng, tally, store, name, room) {
            Ok(back) => assert!(room >= enough && back.field == site.field, "another field comes back"),
            Err(refusal) => assert!(room < enough && refusal == 21, "{refusal} with {room} of {enough} words"),
        }
    }
}

/// Valid fields, saved into stores with room or without, found and restored.
pub fn made_up(rng: &mut Rng, tally: &mut Tally) {
    for _ in 0..MADE_UP {
        let made = some_field(rng);
        let site = Site::made(rng, made);
        let name = some_name(rng);
        let mut store = some_store(rng, size_of(&site, &name));
        let answer = compare_save(rng, tally, &site, &mut store, &name);
        assert!([0, 77, 78].contains(&answer), "{answer} for a drawn field");
        compare_find(rng, tally, &store, &name);
        if answer == 0 {
            restored(rng, tally, &store, &name, &site);
        } else {
            let _ = compare_restore(rng, tally, &store, &name, site.ceiling());
        }
    }
}

/// Fields with one value changed at random: most are refused by 31, whatever name and store are.
pub fn spoilt(rng: &mut Rng, tally: &mut Tally) {
    for _ in 0..SPOILT {
        let (mut field, mut words) = some_field(rng);
        spoil(rng, &mut field, &mut words);
        let site = Site::made(rng, (field, words));
        let name = some_name(rng);
        let mut store = some_store(rng, 900);
        if rng.once_in(3) {
            store.push(1);
        }
        compare_save(rng, tally, &site, &mut store, &name);
    }
}

/// Whether a record can tell of this: words that are lent and do not wait are not in it, and the count has 16 bits.
fn told(item: &str, field: &Field) -> bool {
    !["words fewer than M", "words with a gap"].contains(&item) && field.sent <= u16::MAX as u32
}

/// A store that has a record of this field, which may be none.
fn store_of(rng: &mut Rng, field: &Field, words: &[u64]) -> Vec<u8> {
    let (some, after) = (rng.below(3), rng.below(40));
    let before = store_with(rng, &NAMES[2..2 + some], 0);
    [before, record(NAMES[1], field, words), vec![0; after]].concat()
}

/// One item of 31 broken: saving the field is refused by 31 before all else, a store that has it by 76.
fn alone(rng: &mut Rng, tally: &mut Tally, item: &str, field: Field, words: Vec<u64>) {
    let mut store = store_of(rng, &field, &words);
    let in_record = told(item, &field);
    let site = Site::made(rng, (field, words));
    let (good, bad) = (NAMES[rng.below(4)], bad_name(rng));
    let mut sound = store_with(rng, &NAMES[..2], 300);
    for (store, name) in [(&mut sound, good), (&mut store, &bad[..])] {
        assert_eq!(compare_save(rng, tally, &site, store, name), 31, "{item}");
    }
    tally.count(format!("31 alone: {item}"));
    if in_record {
        let other = small_site(rng);
        assert_eq!(compare_find(rng, tally, &store, good).refusal, 76, "{item}");
        assert_eq!(compare_find(rng, tally, &store, &bad).refusal, 76, "{item}");
        assert_eq!(compare_save(rng, tally, &other, &mut store, NAMES[1]), 76, "{item}");
        assert_eq!(compare_restore(rng, tally, &store, NAMES[1], site.words.len()).err(), Some(76), "{item}");
        tally.count(format!("76 by an item of 31: {item}"));
    }
}

/// Each way to break an item of 31, alone.
pub fn items_alone(rng: &mut Rng, tally: &mut Tally) {
    for (item, way, damage) in WAYS {
        let (mut cases, mut tries) = (0, 0);
        while cases < ALONE {
            tries += 1;
            assert!(tries < 400 * ALONE, "{item}, {way}: alone only {cases} times");
            let (mut field, mut words) = some_field(rng);
            damage(rng, &mut field, &mut words);
            if broken(&field, &words) == [item] {
                alone(rng, tally, item, field, words);
                cases += 1;
            }
        }
    }
}

/// The longest record there is: the largest plan, a message in each word that it may have. One byte too few, just enough,
/// and more.
pub fn longest(rng: &mut Rng, tally: &mut Tally) {
    for _ in 0..LONGEST {
        let plan = plans::good(rng, "full");
        let (mut field, _) = drawn(rng, &plan);
        field.sent = plan.ceiling();
        let words = vec![0x20000FFFF01 | (rng.below(1200) as u64) << 24; plan.ceiling() as usize];
        let site = Site::made(rng, (field, words));
        for size in [LONGEST_RECORD - 1, LONGEST_RECORD, LONGEST_RECORD + 100] {
            let mut store = vec![0; size];
            let answer = compare_save(rng, tally, &site, &mut store, NAMES[4]);
            assert_eq!(answer, if size < LONGEST_RECORD { 78 } else { 0 }, "the longest record in {size} bytes");
            if answer == 0 {
                restored(rng, tally, &store, NAMES[4], &site);
                tally.count("room: the longest record");
            }
        }
    }
}

/// Fields of the blank plan: they need no word, and take 16 bytes with a name of one letter.
pub fn blank(rng: &mut Rng, tally: &mut Tally) {
    for size in (0..40).chain([160]) {
        let made = drawn(rng, &plans::blank());
        let site = Site::made(rng, made);
        let mut store = vec![0; size];
        let answer = compare_save(rng, tally, &site, &mut store, NAMES[0]);
        assert_eq!(answer, if size < 16 { 78 } else { 0 }, "a blank plan in {size} bytes");
        let room = rng.below(4);
        assert_eq!(compare_restore(rng, tally, &store, NAMES[0], room).is_ok(), answer == 0);
        let second = compare_save(rng, tally, &site, &mut store, NAMES[1]);
        assert_eq!(second, if size < 33 { 78 } else { 0 }, "two blank plans in {size} bytes");
    }
}
