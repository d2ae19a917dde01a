//! The other side of the benchmark's delivery of a cue: the same work in plain safe Rust, on a field's record.

use crate::muruapy::{Delivered, Record};
use crate::{plain, rounds};
use oracle::cue::Cue;
use oracle::plan::NONE;

/// 71: both ends of each tree link are marked Branch, no other end is.
fn marked(record: &Record) -> bool {
    let mut tree = [0; 600];
    let l = record.links() as usize;
    plain::kruskal(&mut tree[..l], |k| record.plan[2 + 4 * k..][..4].try_into().unwrap());
    tree[..l].iter().zip(record.marks.chunks_exact(2)).all(|(t, ends)| ends.iter().all(|m| (*m == 1) == (*t == 1)))
}

/// The two modules of link k.
fn ends(record: &Record, k: u16) -> (u16, u16) {
    (record.plan[2 + 4 * k as usize], record.plan[3 + 4 * k as usize])
}

fn in_tree(record: &Record, k: u16) -> bool {
    record.marks[2 * k as usize] == 1
}

/// 73: one pass over the records of the plan's modules.
fn left_by_sending(record: &Record, cues: &[Cue]) -> bool {
    let right = |v: usize, c: &Cue| {
        if c.heard != 1 {
            return *c == Cue::UNHEARD;
        }
        if c.link == NONE {
            return c.hops == 0;
        }
        if c.link >= record.links() || !in_tree(record, c.link) {
            return false;
        }
        let near = match ends(record, c.link) {
            (lower, higher) if lower as usize == v => cues[higher as usize],
            (lower, higher) if higher as usize == v => cues[lower as usize],
            _ => return false,
        };
        near.heard == 1 && near.cue == c.cue && c.hops as u32 == near.hops as u32 + 1
    };
    let senders = cues.iter().filter(|c| c.heard == 1 && c.link == NONE).count();
    senders == 1 && cues.iter().enumerate().all(|(v, c)| right(v, c))
}

/// A copy of a cue delivered: 31, 71, 73, 42; else heard or idle.
pub fn deliver(record: &Record, words: &[u64], cues: &mut [Cue], d: u16) -> Delivered {
    let refused = |refusal| Delivered { refusal, heard: 0 };
    if rounds::valid(record, words).is_none() {
        return refused(31);
    }
    if !marked(record) {
        return refused(71);
    }
    let n = record.modules() as usize;
    if cues.len() < n || !left_by_sending(record, &cues[..n]) {
        return refused(73);
    }
    if d >= 2 * record.links() {
        return refused(42);
    }
    let k = d / 2;
    let (lower, higher) = ends(record, k);
    let (from, to) = if d % 2 == 0 { (lower, higher) } else { (higher, lower) };
    let near = cues[from as usize];
    let waits = in_tree(record, k) && near.heard == 1 && near.link != k && cues[to as usize].heard == 0;
    if waits {
        cues[to as usize] = Cue { heard: 1, cue: near.cue, link: k, hops: near.hops + 1 };
    }
    Delivered { refusal: 0, heard: waits as u32 }
}
