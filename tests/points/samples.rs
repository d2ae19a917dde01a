//! Request 06's samples through the library.

use crate::muruapy::{find, Found, Record};
use crate::vectors::{bytes, stored, BLANK, PLAN, SERVED, STORE, WAITING, WOKEN, WORDS};
use oracle::field::{HAND_OVER, SERVE, WAKE};

/// The field of a sample's plan at setup, and its words.
fn set_up(plan: &str, room: usize) -> (Record, Vec<u64>) {
    let (mut given, mut record, mut words) = (Record::ZEROS.plan, Record::ZEROS, vec![7; room]);
    assert_eq!(crate::muruapy::plan_read(&bytes(plan), &mut given), 0);
    assert_eq!(record.setup(&given, &mut words), 0);
    (record, words)
}

fn refused(refusal: u32) -> Found {
    Found { refusal, at: 0, size: 0 }
}

/// Two modules: what is saved, byte by byte, and what is refused.
fn two_modules() {
    let (mut record, mut words) = set_up(PLAN, WORDS);
    let mut store = vec![0; STORE];
    assert_eq!((record.step(&mut words, WAKE, 0), record.step(&mut words, HAND_OVER, 0)), (0, 0));
    assert_eq!((record.save(&words, b"go", &mut store), &store), (0, &stored(WOKEN, STORE)));
    assert_eq!(record.step(&mut words, SERVE, 1), 0);
    assert_eq!((record.save(&words, b"go", &mut store), &store), (0, &stored(SERVED, STORE)));
    assert_eq!((record.save(&words, b"b", &mut store), &store), (78, &stored(SERVED, STORE)));
    assert_eq!((record.save(&words, b"go", &mut store), &store), (0, &stored(SERVED, STORE)));

    assert_eq!(find(&store, b"go"), Found { refusal: 0, at: 0, size: 85 });
    assert_eq!([&b"no"[..], b"Go", b""].map(|name| find(&store, name)), [refused(77); 3]);
    assert_eq!((find(&store[..84], b"go"), find(&store[..85], b"go").size), (refused(76), 85));
    let (mut back, mut lent) = (Record::ZEROS, vec![9; WORDS + 1]);
    assert_eq!(back.restore(&store, b"go", &mut lent), 0);
    assert!(back == record && lent[..2] == WAITING && lent[2..].iter().all(|word| *word == 0), "what comes back");
    let (mut kept, mut few) = (Record::ZEROS, vec![9; WORDS - 1]);
    assert_eq!((kept.restore(&store, b"go", &mut few), few), (21, vec![9; WORDS - 1]));
    assert!(kept == Record::ZEROS, "21 writes nothing");

    let poked = Record { sent: WORDS as u32 + 1, ..record.clone() };
    assert_eq!(poked.save(&words, b"", &mut store), 31);
    store[100] = 1;
    assert_eq!(record.save(&words, b"", &mut store), 76);
    assert_eq!(kept.restore(&store, b"zz", &mut []), 76);
}

/// The blank plan: 16 bytes, and memory that is all zeros is a field of it.
fn blank() {
    let (record, words) = set_up("01 0004 0000 0000", 0);
    for field in [&record, &Record::ZEROS] {
        let mut store = vec![0; 20];
        assert_eq!((field.save(&words, b"a", &mut store), &store), (0, &stored(BLANK, 20)));
        let mut back = Record::ZEROS;
        assert_eq!(back.restore(&store, b"a", &mut []), 0);
        assert!(back == record, "what comes back is as at setup");
    }
}

pub fn samples() {
    two_modules();
    blank();
}
