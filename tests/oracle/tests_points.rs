//! The oracle's named points against the samples of request 06, and against what it says of stores: one field has one
//! layout, what was saved comes back, the order of the refusals.

use crate::field::{setup_value, waiting, Field, HAND_OVER, SERVE, WAKE};
use crate::fields::{good_step, some_field};
use crate::plan::{self, Plan};
use crate::plans;
use crate::points::{find, is_name, points, record, restore, save, LONGEST_RECORD};
use crate::rng::Rng;
use crate::tests::set_up;
use vectors::{bytes, stored, BLANK, PLAN, SERVED, STORE, WAITING, WOKEN, WORDS};

#[path = "../points/vectors.rs"]
mod vectors;

fn take(field: &mut Field, words: &mut [u64], steps: &[(u8, u16)]) {
    for (kind, number) in steps {
        field.step(words, *kind, *number).unwrap();
    }
}

/// Where a name is found, or the refusal.
fn place(store: &[u8], name: &[u8]) -> Result<(usize, usize), u32> {
    find(store, name).map(|point| (point.at, point.size))
}

/// What restoring answers, and what it leaves of words that are all 9.
fn restored(store: &[u8], name: &[u8], count: usize) -> (Result<Field, u32>, Vec<u64>) {
    let mut words = vec![9; count];
    (restore(store, name, &mut words), words)
}

/// The sample's field, with module 0 awake and its Connect handed over.
fn woken() -> (Field, Vec<u64>) {
    let mut words = vec![7; WORDS];
    let mut field = setup_value(plan::read(&bytes(PLAN)).unwrap(), &mut words).unwrap();
    take(&mut field, &mut words, &[(WAKE, 0), (HAND_OVER, 0)]);
    (field, words)
}

#[test]
fn samples() {
    let (mut field, mut words) = woken();
    let mut store = vec![0; STORE];
    assert_eq!(save(&mut store, b"go", &field, &words), Ok(()));
    assert_eq!(store, stored(WOKEN, STORE));

    take(&mut field, &mut words, &[(SERVE, 1)]);
    assert_eq!(save(&mut store, b"go", &field, &words), Ok(()));
    assert_eq!(store, stored(SERVED, STORE));
    assert_eq!(record(b"b", &field, &words).len(), 84);
    assert_eq!((save(&mut store, b"b", &field, &words), &store), (Err(78), &stored(SERVED, STORE)));
    assert_eq!((save(&mut store, b"go", &field, &words), &store), (Ok(()), &stored(SERVED, STORE)));

    assert_eq!(place(&store, b"go"), Ok((0, 85)));
    assert_eq!((place(&store, b"no"), place(&store, b"Go")), (Err(77), Err(77)));
    let mut back = WAITING.to_vec();
    back.resize(WORDS + 1, 0);
    assert_eq!(restored(&store, b"go", WORDS + 1), (Ok(field.clone()), back));
    assert_eq!(restored(&store, b"go", WORDS - 1), (Err(21), vec![9; WORDS - 1]));
    assert_eq!((place(&store[..84], b"go"), place(&store[..85], b"go")), (Err(76), Ok((0, 85))));

    let poked = Field { sent: WORDS as u32 + 1, ..field.clone() };
    assert_eq!(save(&mut store, b"", &poked, &words), Err(31));
    store[100] = 1;
    assert_eq!(save(&mut store, b"", &field, &words), Err(76));
    assert_eq!(restored(&store, b"zz", 0), (Err(76), vec![]));
}

#[test]
fn the_blank_plan() {
    let field = setup_value(plans::blank(), &mut []).unwrap();
    for size in 0..18 {
        let mut store = vec![0; size];
        let answer = save(&mut store, b"a", &field, &[]);
        assert_eq!(answer, if size < 16 { Err(78) } else { Ok(()) });
        assert_eq!(store, if size < 16 { vec![0; size] } else { stored(BLANK, size) });
    }
    assert_eq!(restored(&bytes(BLANK), b"a", 0), (Ok(field.clone()), vec![]));
    assert_eq!(restored(&bytes(BLANK), b"a", 3), (Ok(field), vec![0; 3]));
}

/// The first number that applies, whatever else is wrong.
#[test]
fn refusals() {
    let (field, words) = woken();
    let good = stored(WOKEN, STORE);
    let bad = [vec![2], good[1..].to_vec()].concat();
    let spoilt = Field { sent: 0, ..field.clone() };
    for name in [&b""[..], b"Go", b"abcdefghijklm", b"a b", b"g\0", b"{", b"`"] {
        assert!(!is_name(name));
        assert_eq!(save(&mut bad.clone(), name, &spoilt, &words), Err(31));
        assert_eq!(save(&mut bad.clone(), name, &field, &words), Err(76));
        assert_eq!(save(&mut good[..77].to_vec(), name, &field, &words), Err(77));
        assert_eq!((place(&bad, name), place(&good, name)), (Err(76), Err(77)));
        assert_eq!((restored(&bad, name, 0).0, restored(&good, name, 0).0), (Err(76), Err(77)));
    }
    assert_eq!(save(&mut good[..77].to_vec(), b"on", &field, &words), Err(78));
    assert_eq!(save(&mut good[..77].to_vec(), b"go", &field, &words), Ok(()));
    assert!(is_name(b"abcdefghijkl") && is_name(b"a") && is_name(b"z"));
    // an empty store is whole, and holds nothing
    assert_eq!((place(&[], b"go"), restored(&[], b"go", 0).0), (Err(77), Err(77)));
    assert_eq!(save(&mut [], b"go", &field, &words), Err(78));
}

/// The store that holds just what these points say, in their order.
fn rebuilt(store: &[u8]) -> Vec<u8> {
    let points = points(store).unwrap();
    let mut all: Vec<u8> = points.iter().flat_map(|p| record(&p.name, &p.field, &p.words)).collect();
    all.resize(store.len(), 0);
    all
}

/// "So one field has one layout": a store that was changed is refused by 76, or is the layout of what it then holds. Of a
/// record of the blank plan no change of one or two bytes passes but another letter as its name.
#[test]
fn one_layout() {
    let (field, words) = woken();
    let mut store = vec![0; 190];
    save(&mut store, b"a", &setup_value(plans::blank(), &mut []).unwrap(), &[]).unwrap();
    save(&mut store, b"go", &field, &words).unwrap();
    save(&mut store, b"on", &setup_value(field.plan.clone(), &mut vec![0; WORDS]).unwrap(), &[0; WORDS]).unwrap();
    let mut passed = 0;
    for (at, change) in (0..store.len()).flat_map(|at| (1..=255).map(move |change| (at, change))) {
        store[at] ^= change;
        if points(&store).is_ok() {
            assert_eq!(rebuilt(&store), store, "byte {at} ^ {change}");
            passed += 1;
        }
        store[at] ^= change;
    }
    assert!(passed > 25 * 5 && passed < 190 * 100, "{passed} changes pass");

    let blank = bytes(BLANK);
    let (mut singles, mut pairs) = (0, 0);
    for a in 0..blank.len() {
        for x in 1..=255 {
            let mut one = blank.clone();
            one[a] ^= x;
            singles += points(&one).is_ok() as usize;
            for (b, y) in (0..a).flat_map(|b| (1..=255).map(move |y| (b, y))) {
                one[b] ^= y;
                pairs += points(&one).is_ok() as usize;
                one[b] ^= y;
            }
        }
    }
    assert_eq!((singles, pairs), (25, 0));
}

/// A field on its way through drawn steps, or one that a host made up.
fn some_point(rng: &mut Rng) -> (Field, Vec<u64>) {
    if rng.once_in(2) {
        return some_field(rng);
    }
    let kind = rng.pick(&["single", "path", "ring", "small", "medium", "banks", "islands", "unlinked"]);
    let (mut field, mut words) = set_up(&plans::good(rng, kind).encode());
    for _ in 0..rng.below(30) {
        let step = good_step(rng, &field, &words);
        let _ = field.take(&mut words, step.kind, step.number);
    }
    (field, words)
}

/// What is saved under drawn names comes back, each under its name, as it was saved last; records stand in the order of
/// their last saving, with the length that their parts have, and zeros stand after them.
#[test]
fn saved_and_restored() {
    let mut rng = Rng::new(76);
    let mut full = 0;
    for _ in 0..60 {
        let mut store = vec![0; rng.pick(&[500, 3000, 20_000, 60_000])];
        let mut held: Vec<(Vec<u8>, Field, Vec<u64>)> = Vec::new();
        for _ in 0..12 {
            let (field, words) = some_point(&mut rng);
            let name = rng.pick(&[&b"a"[..], b"b", b"go", b"abcdefghijkl", b"zzzzzzzzzzzz"]);
            let before = store.clone();
            if save(&mut store, name, &field, &words) == Err(78) {
                assert_eq!(store, before);
                full += 1;
            } else {
                held.retain(|other| other.0 != name);
                held.push((name.to_vec(), field, words));
            }
            assert_eq!(rebuilt(&store), store);
            assert_eq!(points(&store).unwrap().len(), held.len());
            let mut at = 0;
            for (name, field, words) in &held {
                let (n, l) = (field.plan.modules as usize, field.plan.links.len());
                let size = 15 + name.len() + 12 * l + 20 * n + 8 * waiting(words);
                assert_eq!(place(&store, name), Ok((at, size)));
                at += size;
                let (back, lent) = restored(&store, name, words.len().max(field.plan.ceiling() as usize));
                assert_eq!((back, &lent[..words.len()]), (Ok(field.clone()), &words[..]));
            }
        }
    }
    assert!(full > 20, "too long {full} times");
}

/// The longest record: the largest plan with as many messages under way as there may be.
#[test]
fn the_longest_record() {
    let plan = plans::good(&mut Rng::new(1), "full");
    let (mut field, mut words) = set_up(&plan.encode());
    words.truncate(7920);
    words.fill(0x20000FFFF01);
    field.sent = 7920;
    let mut store = vec![0; LONGEST_RECORD];
    assert_eq!(record(b"abcdefghijkl", &field, &words).len(), LONGEST_RECORD);
    assert_eq!(save(&mut store[1..], b"abcdefghijkl", &field, &words), Err(78));
    assert_eq!(save(&mut store, b"abcdefghijkl", &field, &words), Ok(()));
    assert_eq!(restored(&store, b"abcdefghijkl", 7920), (Ok(field.clone()), words.clone()));
    // a word more than were sent, as many as the ceiling
    field.sent = 7919;
    assert_eq!(points(&record(b"a", &field, &words)), Err(76));
}

/// Records that are none, each alone in its store.
fn no_records() -> Vec<(&'static str, Vec<u8>)> {
    let good = bytes(WOKEN);
    let changed = |at: usize, to: &[u8]| {
        let mut bytes = good.clone();
        bytes[at..at + to.len()].copy_from_slice(to);
        bytes
    };
    // with a length that fits
    let long = |bytes: &[u8]| [&[1, 0, 0, 0, bytes.len() as u8 - 5], &bytes[5..]].concat();
    vec![
        ("status 256", changed(25, &[1, 0])),
        ("mark 256", changed(45, &[1, 0])),
        ("mark 3", changed(45, &[0, 3])),
        ("sent above M", changed(23, &[0, 13])),
        ("sent below waiting", changed(23, &[0, 0])),
        ("a word 0", long(&[&good[..], &[0; 8]].concat())),
        ("a word 0 within", changed(69, &[0; 8])),
        ("a byte behind the words", long(&[&good[..], &[7]].concat())),
        ("a byte too few", long(&good[..76])),
        ("length too long", changed(1, &[0, 0, 0, 0x49])),
        ("the longest length", changed(1, &[255; 4])),
        ("length 0", changed(1, &[0; 4])),
        ("name length 0", changed(5, &[0])),
        ("name length 255", changed(5, &[255])),
        ("a capital letter", changed(6, b"G")),
        ("a plan of version 2", changed(8, &[2])),
        ("a plan too long", changed(9, &[255, 255])),
        ("N 193", changed(11, &[0, 193])),
        ("a name twice", [&good[..], &good[..]].concat()),
        ("a record behind zeros", [&good[..], &[0], &good[..]].concat()),
    ]
}

#[test]
fn damaged_records() {
    let (field, words) = woken();
    for (what, store) in no_records() {
        assert_eq!(points(&store), Err(76), "{what}");
        assert_eq!(save(&mut store.clone(), b"on", &field, &words), Err(76), "{what}");
    }
    assert!(points(&record(b"a", &Field { sent: 1, ..field }, &words)).is_ok());
    let one = Plan { modules: 1, links: vec![] };
    let (alone, words) = set_up(&one.encode());
    assert!(points(&record(b"a", &alone, &words)).is_ok());
}
