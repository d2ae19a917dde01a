//! The other side of the benchmark's preview of a service: the same work in plain safe Rust, on a field's record.

use crate::muruapy::{Previewed, Record};
use crate::rounds;

/// A service of module v previewed: 31, 41, 45, 32, 33, 75; else the words that it would send, at the front of the buffer.
pub fn serve(record: &Record, words: &[u64], v: u16, buffer: &mut [u64], sends: &mut Vec<u64>) -> Previewed {
    let refused = |refusal| Previewed { refusal, count: 0 };
    let Some(waiting) = rounds::valid(record, words) else {
        return refused(31);
    };
    if v >= record.modules() {
        return refused(41);
    }
    if let Err(refusal) = rounds::served(record, &words[..waiting], v, sends) {
        return refused(refusal);
    }
    let Some(front) = buffer.get_mut(..sends.len()) else {
        return refused(75);
    };
    front.copy_from_slice(sends);
    Previewed { refusal: 0, count: sends.len() as u32 }
}
