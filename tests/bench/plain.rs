//! The other side of the benchmark: the same work as one would write it in plain safe Rust.

use crate::muruapy::{Numbers, Record};

/// The parts that links have joined so far, by their roots, with path halving.
struct Parts([u8; 192]);

impl Parts {
    fn new() -> Parts {
        Parts(std::array::from_fn(|v| v as u8))
    }

    fn root(&mut self, mut v: usize) -> usize {
        while self.0[v] as usize != v {
            self.0[v] = self.0[self.0[v] as usize];
            v = self.0[v] as usize;
        }
        v
    }

    fn join(&mut self, a: usize, b: usize) -> bool {
        let (a, b) = (self.root(a), self.root(b));
        self.0[a] = b as u8;
        a != b
    }
}

fn be16(bytes: &[u8], at: usize) -> u16 {
    u16::from_be_bytes([bytes[at], bytes[at + 1]])
}

/// The plan's refusals 11 to 18 in one pass over the bytes; 0 for a plan that is taken.
pub fn check(bytes: &[u8]) -> u32 {
    if bytes.len() < 3 {
        return 11;
    }
    if bytes[0] != 1 {
        return 12;
    }
    let length = be16(bytes, 1) as usize;
    if length != bytes.len() - 3 || length < 4 {
        return 13;
    }
    let (n, l) = (be16(bytes, 3), be16(bytes, 5) as usize);
    if n > 192 {
        return 14;
    }
    if l > 600 || length != 4 + 8 * l {
        return 15;
    }
    links_check(n, bytes[7..].chunks_exact(8).map(|b| [be16(b, 0), be16(b, 2), be16(b, 4), be16(b, 6)]))
}

/// 16 to 18 of links given by their ends and readings, or 0.
fn links_check(n: u16, links: impl Iterator<Item = [u16; 4]>) -> u32 {
    let mut before = None;
    for [lower, higher, near, far] in links {
        let ends = (lower, higher);
        if lower >= higher || higher >= n {
            return 16;
        }
        if before >= Some(ends) {
            return 17;
        }
        if near > 2000 || far > 2000 {
            return 18;
        }
        before = Some(ends);
    }
    0
}

/// The plan of a record: 14 to 18, or 0.
pub fn check_plan(r: &Record) -> u32 {
    check_numbers(&r.plan)
}

/// A plan's value: 14 to 18, or 0.
pub fn check_numbers(plan: &Numbers) -> u32 {
    let [modules, links] = [plan[0], plan[1]];
    if modules > 192 {
        return 14;
    }
    if links > 600 {
        return 15;
    }
    let links = plan[2..].chunks_exact(4).take(links as usize);
    links_check(modules, links.map(|link| link.try_into().unwrap()))
}

/// The check, then Kruskal with the standard sort and union-find; 20 for a buffer that is not L bytes.
pub fn tree(bytes: &[u8], out: &mut [u8]) -> u32 {
    let refusal = check(bytes);
    if refusal != 0 {
        return refusal;
    }
    let links = &bytes[7..];
    if out.len() != links.len() / 8 {
        return 20;
    }
    kruskal(out, |k| std::array::from_fn(|i| be16(links, 8 * k + 2 * i)));
    0
}

/// A byte for each link, 1 in the tree: Kruskal over links given by their ends and readings.
pub fn kruskal(out: &mut [u8], link: impl Fn(usize) -> [u16; 4]) {
    let key = |k: usize| {
        let [.., near, far] = link(k);
        (near.max(far), near + far, k as u16)
    };
    let mut order: Vec<(u16, u16, u16)> = (0..out.len()).map(key).collect();
    order.sort();
    let mut parts = Parts::new();
    for (.., k) in order {
        let [lower, higher, ..] = link(k as usize);
        out[k as usize] = parts.join(lower as usize, higher as usize) as u8;
    }
}
