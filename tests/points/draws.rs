//! What is drawn for the calls on stores: names, small fields, stores that hold some of them.

use crate::calls::Site;
use oracle::fields::{drawn, some_field};
use oracle::plans;
use oracle::points::{points, record, save};
use oracle::rng::Rng;

pub const NAMES: [&[u8]; 6] = [b"a", b"go", b"on", b"gone", b"abcdefghijkl", b"zzzzzzzzzzzz"];

/// A name that is none: too short, too long (a byte would tell some of these lengths as good ones), or another byte in it.
pub fn bad_name(rng: &mut Rng) -> Vec<u8> {
    let mut name = rng.pick(&NAMES).to_vec();
    match rng.below(4) {
        0 => name.clear(),
        1 => name.resize(rng.pick(&[13, 13, 14, 255, 256, 257, 258, 268]), b'a'),
        _ => {
            let at = rng.below(name.len());
            name[at] = rng.pick(&[b'a' - 1, b'z' + 1, b'A', b'G', b'0', b' ', 0, 1, 225, 255]);
        }
    }
    name
}

pub fn some_name(rng: &mut Rng) -> Vec<u8> {
    if rng.once_in(12) {
        return bad_name(rng);
    }
    rng.pick(&NAMES).to_vec()
}

/// A valid field of a small plan, most of which no run reaches.
pub fn small_site(rng: &mut Rng) -> Site {
    loop {
        let made = some_field(rng);
        if made.0.plan.ceiling() < 200 {
            return Site::made(rng, made);
        }
    }
}

/// The same with messages that wait, and with links.
pub fn busy_site(rng: &mut Rng) -> Site {
    loop {
        let kind = rng.pick(&["path", "ring", "small", "banks", "islands"]);
        let plan = plans::good(rng, kind);
        let made = drawn(rng, &plan);
        if made.0.plan.ceiling() < 200 && oracle::field::waiting(&made.1) > 0 {
            return Site::made(rng, made);
        }
    }
}

/// How many bytes of the store its records take.
pub fn used(store: &[u8]) -> usize {
    points(store).expect("a store").last().map_or(0, |point| point.at + point.size)
}

/// How many bytes the record of a site takes.
pub fn size_of(site: &Site, name: &[u8]) -> usize {
    record(name, &site.field, &site.words).len()
}

/// A store that holds points of these names, in some order, with so many zeros after them.
pub fn store_with(rng: &mut Rng, names: &[&[u8]], zeros: usize) -> Vec<u8> {
    let mut store = vec![0; 40_000];
    let mut names = names.to_vec();
    rng.shuffle(&mut names);
    for name in names {
        let site = small_site(rng);
        save(&mut store, name, &site.field, &site.words).expect("a point of a small field");
    }
    store.truncate(used(&store) + zeros);
    store
}

/// A store of some points, without room, with just so much, or with more.
pub fn some_store(rng: &mut Rng, needed: usize) -> Vec<u8> {
    let count = rng.below(4);
    let mut names = NAMES;
    rng.shuffle(&mut names);
    let zeros = rng.pick(&[0, 1, needed / 2, needed.saturating_sub(1), needed, needed + 1, needed + 700, 2 * needed]);
    store_with(rng, &names[..count], zeros)
}
