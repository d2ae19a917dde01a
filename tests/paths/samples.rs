//! The samples of requests 07 and 08 through the library.

use crate::muruapy::{near, numbers, path, PathFound};
use oracle::plan::NONE;
use oracle::plans::{two_banks, worse_reading};
use oracle::rng::Rng;

pub fn samples() {
    let t = numbers(&worse_reading(), &mut Rng::new(7));
    let found = |from, to, room| {
        let mut links = vec![9; room];
        (path(&t, from, to, &mut links), links)
    };
    let two = PathFound { refusal: 0, way: 1, length: 2, worst: 2 };
    let refused = |refusal| PathFound { refusal, way: 0, length: 0, worst: NONE };
    assert_eq!(found(0, 2, 4), (two, vec![0, 2, 9, 9]));
    assert_eq!(found(2, 0, 4), (two, vec![2, 0, 9, 9]));
    assert_eq!(found(2, 0, 1), (refused(79), vec![9]));
    assert_eq!(found(1, 1, 0), (PathFound { refusal: 0, way: 1, length: 0, worst: NONE }, vec![]));
    assert_eq!((found(0, 3, 0).0, found(3, 3, 0).0), (refused(41), refused(41)));

    let marked = |from, h, room| {
        let mut marks = vec![9; room];
        (near(&t, from, h, &mut marks), marks)
    };
    assert_eq!(marked(0, 0, 4), (0, vec![1, 0, 0, 9]));
    assert_eq!(marked(0, 1, 3), (0, vec![1, 1, 0]));
    assert_eq!(marked(2, 1, 3), (0, vec![0, 1, 1]));
    assert_eq!((marked(0, 1, 2), marked(3, 1, 2)), ((79, vec![9, 9]), (41, vec![9, 9])));
    banks();
}

/// Two parts: no way between them, also without room; a part's marks are its own.
fn banks() {
    let b = numbers(&two_banks(), &mut Rng::new(8));
    let no_way = PathFound { refusal: 0, way: 0, length: 0, worst: NONE };
    let (mut links, mut marks) = ([9; 2], [9; 5]);
    assert_eq!((path(&b, 0, 2, &mut []), path(&b, 3, 1, &mut links), links), (no_way, no_way, [9; 2]));
    assert_eq!((path(&b, 0, 4, &mut []).refusal, path(&b, 4, 2, &mut []).refusal), (41, 41));
    assert_eq!((path(&b, 2, 3, &mut []).refusal, path(&b, 2, 3, &mut links).worst, links), (79, 1, [1, 9]));
    assert_eq!((near(&b, 2, 5, &mut marks), marks), (0, [0, 0, 1, 1, 9]));
}
