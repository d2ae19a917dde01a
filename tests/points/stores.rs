//! Stores by their bytes: one byte changed anywhere, lengths at which a record just fits or does not, and every set of
//! faults at once, for the order of the numbers.

use crate::calls::{compare_find, compare_restore, compare_save, Site};
use crate::draws::{bad_name, busy_site, size_of, small_site, store_with, used, NAMES};
use crate::muruapy::{find, Record};
use crate::tally::Tally;
use oracle::field::waiting;
use oracle::points::points;
use oracle::rng::Rng;

pub const CHANGED: usize = 1500;
pub const ROOMS: usize = 150;
pub const ORDERS: usize = 12;

/// A store that passes is again the layout of what it then holds: each point restored by the library and saved again, in
/// order, into as many zeros.
fn one_layout(store: &[u8]) {
    let mut again = vec![0; store.len()];
    for point in points(store).expect("it passes") {
        let (mut record, mut words) = (Record::ZEROS, vec![9; point.field.plan.ceiling() as usize]);
        assert_eq!(record.restore(store, &point.name, &mut words), 0, "a point that is held");
        assert_eq!(record.save(&words, &point.name, &mut again), 0, "a point that was restored");
    }
    assert!(again == store, "two layouts of one store");
}

/// One byte changed anywhere: in a version, a length, a name, a plan, a count, a value, a mark, a word, or the zeros.
pub fn changed(rng: &mut Rng, tally: &mut Tally) {
    for i in 0..CHANGED {
        let names = &NAMES[..rng.range(1, 3)];
        let mut store = store_with(rng, names, 20);
        let at = if i % 3 == 0 { rng.below(store.len().min(60)) } else { rng.below(store.len()) };
        let change = rng.range(1, 255) as u8;
        store[at] ^= if rng.once_in(2) { change } else { 1 << rng.below(8) };
        let refusal = compare_find(rng, tally, &store, NAMES[0]).refusal;
        let site = small_site(rng);
        let _ = compare_restore(rng, tally, &store, NAMES[0], 200);
        if refusal == 76 {
            assert_eq!(compare_save(rng, tally, &site, &mut store, NAMES[0]), 76);
            tally.count("byte changed: 76");
        } else {
            one_layout(&store);
            compare_save(rng, tally, &site, &mut store, NAMES[0]);
            tally.count("byte changed: still a store");
        }
    }
}

/// A point saved into a store of others with just enough bytes, one too few and more, under a new name and a held one: the
/// old record's bytes count as free.
fn in_room(rng: &mut Rng, tally: &mut Tally, held: bool) {
    let site = busy_site(rng);
    let others = store_with(rng, &NAMES[1..3], 0);
    let mut names = [NAMES[1], NAMES[2]];
    rng.shuffle(&mut names);
    let name = if held { names[0] } else { NAMES[3] };
    let old = if held { find(&others, name).size } else { 0 };
    let end = others.len() - old + size_of(&site, name);
    for size in [end - 1, end, end + 1, end + 50] {
        // a store is never shorter than what it holds
        let mut store = others.clone();
        store.resize(size.max(others.len()), 0);
        let fits = store.len() >= end;
        let answer = compare_save(rng, tally, &site, &mut store, name);
        assert_eq!(answer, if fits { 0 } else { 78 }, "{size} of {end} bytes");
        let found = compare_find(rng, tally, &store, name);
        if fits {
            assert_eq!((found.at + found.size, used(&store)), (end, end), "the new one stands last");
            assert!(store[end..].iter().all(|byte| *byte == 0), "zeros after");
            one_layout(&store);
        }
        let kind = if held { "held" } else { "new" };
        tally.count(match (fits, store.len() == end) {
            (false, _) => format!("room: {kind}, too short"),
            (true, true) => format!("room: {kind}, just enough"),
            (true, false) => format!("room: {kind}, more than enough"),
        });
    }
}

/// The same name saved again and again, longer and shorter: what a longer record leaves becomes zeros.
fn again_and_again(rng: &mut Rng, tally: &mut Tally) {
    let mut store = vec![0; 9000];
    for _ in 0..5 {
        let site = small_site(rng);
        let name = NAMES[rng.below(2)];
        let before = used(&store);
        assert_eq!(compare_save(rng, tally, &site, &mut store, name), 0);
        one_layout(&store);
        tally.count(if used(&store) < before { "room: shorter than before" } else { "room: not shorter" });
    }
}

pub fn rooms(rng: &mut Rng, tally: &mut Tally) {
    for _ in 0..ROOMS {
        in_room(rng, tally, false);
        in_room(rng, tally, true);
        again_and_again(rng, tally);
    }
}

/// A store with no room for more, whole or not.
fn tight(rng: &mut Rng, whole: bool) -> Vec<u8> {
    let mut store = store_with(rng, &NAMES[1..3], 3);
    if !whole {
        let end = store.len();
        store[end - 1] = 7;
    }
    store
}

/// A save with all of these faults is refused by the first one's number: a field that is none, a store that is none, no
/// name, no room.
fn faulty_save(rng: &mut Rng, tally: &mut Tally, set: usize) {
    let [field, store, name, room] = [0, 1, 2, 3].map(|i| set >> i & 1 == 1);
    let mut site = busy_site(rng);
    if field {
        site.field.sent = rng.pick(&[0, waiting(&site.words) as u32 - 1, site.field.plan.ceiling() + 1]);
        site.record.put(&site.field);
    }
    let mut lent = tight(rng, !store);
    if !room {
        lent.splice(lent.len() - 3..lent.len() - 3, vec![0; size_of(&site, NAMES[4])]);
    }
    let given = if name { bad_name(rng) } else { NAMES[4].to_vec() };
    let numbers = [(field, 31), (store, 76), (name, 77), (room, 78)];
    let answer = numbers.iter().find(|fault| fault.0).map_or(0, |fault| fault.1);
    assert_eq!(compare_save(rng, tally, &site, &mut lent, &given), answer, "set {set}");
    tally.count(format!("faults: save, {answer} first"));
}

/// The same of a name found and restored: a store that is none, no name or one that is not held, too few words.
fn faulty_restore(rng: &mut Rng, tally: &mut Tally, set: usize) {
    let [store, bad, absent, few] = [0, 1, 2, 3].map(|i| set >> i & 1 == 1);
    let site = busy_site(rng);
    let mut lent = vec![0; 9000];
    assert_eq!(compare_save(rng, tally, &site, &mut lent, NAMES[1]), 0);
    lent.truncate(used(&lent) + 5);
    if store {
        *lent.last_mut().unwrap() = 1;
    }
    let held = if absent { NAMES[5] } else { NAMES[1] };
    let given = if bad { bad_name(rng) } else { held.to_vec() };
    let room = if few { rng.below(site.ceiling()) } else { site.ceiling() };
    let found = match (store, bad || absent) {
        (true, _) => 76,
        (false, true) => 77,
        _ => 0,
    };
    assert_eq!(compare_find(rng, tally, &lent, &given).refusal, found, "set {set}");
    let answer = if found == 0 && few { 21 } else { found };
    let got = compare_restore(rng, tally, &lent, &given, room).err().unwrap_or(0);
    assert_eq!(got, answer, "set {set}");
    tally.count(format!("faults: restore, {answer} first"));
}

/// Every set of faults of each call; how many calls that are.
pub fn orders(rng: &mut Rng, tally: &mut Tally) -> usize {
    for set in (0..16).flat_map(|set| [set; ORDERS]) {
        faulty_save(rng, tally, set);
        faulty_restore(rng, tally, set);
    }
    3 * 16 * ORDERS
}

/// A site's calls on an empty store, of which there is no byte.
pub fn empty(rng: &mut Rng, tally: &mut Tally, site: &Site) {
    for name in [NAMES[0], b"", b"Go"] {
        let named = name == NAMES[0];
        assert_eq!(compare_save(rng, tally, site, &mut vec![], name), if named { 78 } else { 77 });
        assert_eq!(compare_find(rng, tally, &[], name).refusal, 77);
        assert_eq!(compare_restore(rng, tally, &[], name, 0).err(), Some(77));
    }
}
