//! The samples of request 06, byte by byte, for the oracle's own tests and for the library's. (Their numbers of words are
//! those of the ceiling before request 12: 12 for two modules and a link.)

/// Two modules and a link.
pub const PLAN: &str = "01 000C 0002 0001 0000 0001 0003 0004";

/// The ceiling of that plan.
pub const WORDS: usize = 12;

/// Bytes of the sample's store.
pub const STORE: usize = 160;

/// Saved as "go" after a wake of module 0 and a hand-over of directed link 0: 77 bytes.
pub const WOKEN: &str = "
    01 00000048 02 676F 01000C000200010000000100030004 0001
    00020000FFFFFFFFFFFFFFFFFFFF00000000FFFF 0001
    00000000FFFFFFFFFFFFFFFFFFFF00000000FFFF 0000
    0000030000FFFF01";

/// Saved as "go" after a service of module 1 besides: 85 bytes.
pub const SERVED: &str = "
    01 00000050 02 676F 01000C000200010000000100030004 0003
    00020000FFFFFFFFFFFFFFFFFFFF00000000FFFF 0001
    00020000FFFFFFFFFFFFFFFFFFFF000000000000 0001
    0000020001FFFF01 000002000100004A";

/// The blank plan's field, saved as "a": 16 bytes.
pub const BLANK: &str = "01 0000000B 01 61 01000400000000 0000";

/// The words that wait when `SERVED` is saved.
pub const WAITING: [u64; 2] = [0x20001FFFF01, 0x2000100004A];

/// Bytes written in hexadecimal.
pub fn bytes(digits: &str) -> Vec<u8> {
    let digits: Vec<u32> = digits.chars().filter_map(|c| c.to_digit(16)).collect();
    digits.chunks(2).map(|two| (16 * two[0] + two[1]) as u8).collect()
}

/// A store of so many bytes that holds these bytes and zeros after them.
pub fn stored(digits: &str, size: usize) -> Vec<u8> {
    let mut store = bytes(digits);
    assert!(store.len() <= size, "a sample that fits");
    store.resize(size, 0);
    store
}
