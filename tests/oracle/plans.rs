//! Generators of plans: good ones of many shapes, and damaged bytes.

use crate::frame::{self, CARRIED_BOUND};
use crate::plan::{Link, Plan, MOST_LINKS, MOST_MODULES, NONE};
use crate::rng::Rng;
use std::collections::BTreeSet;

/// How readings are drawn. All but `Wide` and `SameSum` make many equal costs.
#[derive(Clone, Copy, Debug)]
pub enum Readings {
    Wide,
    Few,
    Same,
    /// The same larger reading, at either end, and drawn smaller ones: the sums decide, where they differ.
    SameCost,
    /// Different readings of the same sum.
    SameSum,
    Extreme,
}

pub const READINGS: [Readings; 6] =
    [Readings::Wide, Readings::Few, Readings::Same, Readings::SameCost, Readings::SameSum, Readings::Extreme];

type Pairs = Vec<(u16, u16)>;

pub fn path(n: u16) -> Pairs {
    (1..n).map(|v| (v - 1, v)).collect()
}

pub fn star(n: u16, centre: u16) -> Pairs {
    (0..n).filter(|v| *v != centre).map(|v| (v.min(centre), v.max(centre))).collect()
}

/// A ring of 3 modules or more.
pub fn ring(n: u16) -> Pairs {
    let mut pairs = path(n);
    pairs.push((0, n - 1));
    pairs
}

pub fn complete(n: u16) -> Pairs {
    (0..n).flat_map(|a| (a + 1..n).map(move |b| (a, b))).collect()
}

/// A random spanning tree over shuffled modules, and further links up to l in all where there is room.
pub fn connected(rng: &mut Rng, n: u16, l: usize) -> Pairs {
    in_parts(rng, n, 1, l)
}

/// So many parts of drawn sizes over shuffled modules, each a random tree, and further links within parts, up to l in all
/// where there is room.
pub fn in_parts(rng: &mut Rng, n: u16, count: usize, l: usize) -> Pairs {
    let mut order: Vec<u16> = (0..n).collect();
    rng.shuffle(&mut order);
    // each part has a module, the others go anywhere
    let mut part = vec![0; n as usize];
    for (i, v) in order.iter().enumerate() {
        part[*v as usize] = if i < count || count == 1 { i % count } else { rng.below(count) };
    }
    let members = |p: usize| order.iter().copied().filter(|v| part[*v as usize] == p).collect::<Vec<u16>>();
    let (mut pairs, mut room) = (BTreeSet::new(), 0);
    for members in (0..count).map(members) {
        for i in 1..members.len() {
            let (a, b) = (members[rng.below(i)], members[i]);
            pairs.insert((a.min(b), a.max(b)));
        }
        room += members.len() * members.len().saturating_sub(1) / 2;
    }
    while pairs.len() < l.min(room).min(MOST_LINKS) {
        let (a, b) = (rng.below(n as usize) as u16, rng.below(n as usize) as u16);
        if a != b && part[a as usize] == part[b as usize] {
            pairs.insert((a.min(b), a.max(b)));
        }
    }
    pairs.into_iter().collect()
}

/// The plan with nobody in it.
pub fn blank() -> Plan {
    Plan { modules: 0, links: vec![] }
}

/// Three links with readings 3 and 3, 0 and 5, 4 and 0: in the order 0, 2, 1, and by their sums 2, 1, 0.
pub fn worse_reading() -> Plan {
    let link = |lower, higher, at_lower, at_higher| Link { lower, higher, at_lower, at_higher };
    Plan { modules: 3, links: vec![link(0, 1, 3, 3), link(0, 2, 0, 5), link(1, 2, 4, 0)] }
}

/// Two banks of a river, no radio across the water: 0-1 with readings 3 and 3, 2-3 with readings 0 and 5.
pub fn two_banks() -> Plan {
    let link = |lower, higher, at_lower, at_higher| Link { lower, higher, at_lower, at_higher };
    Plan { modules: 4, links: vec![link(0, 1, 3, 3), link(2, 3, 0, 5)] }
}

/// So many modules, and no link.
pub fn unlinked(n: u16) -> Plan {
    Plan { modules: n, links: vec![] }
}

/// The plan of n modules and these links, ascending, with drawn readings.
pub fn plan(rng: &mut Rng, n: u16, mut pairs: Pairs, readings: Readings) -> Plan {
    pairs.sort();
    let same = rng.range(0, 2000) as u16;
    let mut draw = || match readings {
        Readings::Wide => (rng.range(0, 2000) as u16, rng.range(0, 2000) as u16),
        Readings::Few => (rng.range(0, 2) as u16, rng.range(0, 2) as u16),
        Readings::Same => (same, same),
        Readings::SameCost => {
            let drawn = rng.below(2 * (same as usize + 1)) as u16;
            if drawn % 2 == 0 {
                (drawn / 2, same)
            } else {
                (same, drawn / 2)
            }
        }
        Readings::SameSum => {
            let a = rng.range(0, same as usize) as u16;
            (a, same - a)
        }
        Readings::Extreme => (rng.pick(&[0, 1, 1999, 2000]), rng.pick(&[0, 1, 1999, 2000])),
    };
    let links = pairs.into_iter().map(|(lower, higher)| {
        let (at_lower, at_higher) = draw();
        Link { lower, higher, at_lower, at_higher }
    });
    Plan { modules: n, links: links.collect() }
}

#[rustfmt::skip]
pub const KINDS: [&str; 15] = [
    "blank", "single", "path", "star", "ring", "complete", "tree", "small", "medium", "full",
    "banks", "forest", "islands", "unlinked", "wide",
];

/// The kinds of plans in several parts: a few large ones, trees, many small ones, modules without links, the largest plan.
pub const IN_PARTS: [&str; 5] = ["banks", "forest", "islands", "unlinked", "wide"];

pub fn kinds_without(left_out: &[&str]) -> Vec<&'static str> {
    KINDS.into_iter().filter(|kind| !left_out.contains(kind)).collect()
}

/// A good plan of a kind.
pub fn good(rng: &mut Rng, kind: &str) -> Plan {
    let readings = rng.pick(&READINGS);
    let size = |rng: &mut Rng, least: usize| {
        let most = rng.pick(&[4, 12, 60, 192]);
        rng.range(least, most) as u16
    };
    let (n, pairs) = match kind {
        "blank" => (0, Vec::new()),
        "single" => (1, Vec::new()),
        "path" => {
            let n = size(rng, 2);
            (n, path(n))
        }
        "star" => {
            let n = size(rng, 2);
            (n, star(n, rng.below(n as usize) as u16))
        }
        "ring" => {
            let n = size(rng, 3);
            (n, ring(n))
        }
        "complete" => {
            // 35 modules have 595 pairs, 36 have more than 600
            let n = rng.range(2, 35) as u16;
            (n, complete(n))
        }
        "tree" => {
            let n = size(rng, 2);
            (n, connected(rng, n, 0))
        }
        "small" => {
            let n = rng.range(2, 8) as u16;
            let l = rng.range(n as usize - 1, 28);
            (n, connected(rng, n, l))
        }
        "medium" => {
            let n = rng.range(9, 100) as u16;
            let l = rng.range(n as usize - 1, 4 * n as usize);
            (n, connected(rng, n, l))
        }
        "full" => (MOST_MODULES, connected(rng, MOST_MODULES, MOST_LINKS)),
        _ => parted(rng, kind),
    };
    plan(rng, n, pairs, readings)
}

/// The modules and links of a plan in several parts.
fn parted(rng: &mut Rng, kind: &str) -> (u16, Pairs) {
    let most = rng.pick(&[4, 12, 60, 192]);
    let n = match kind {
        "banks" => rng.range(4, most.min(60)),
        "islands" => rng.range(3, 20),
        "wide" => MOST_MODULES as usize,
        _ => rng.range(2, most),
    };
    let some = rng.range(2, n);
    let (count, l) = match kind {
        "banks" => (rng.range(2, 3), rng.range(n - 2, 3 * n)),
        "forest" => (some, 0),
        "islands" => (some, rng.below(2 * n)),
        "unlinked" => (n, 0),
        "wide" => (rng.pick(&[2, 3, 8, 40]), MOST_LINKS),
        _ => panic!("no kind of plan is {kind}"),
    };
    (n as u16, in_parts(rng, n as u16, count, l))
}

/// A value that a reading, a module number or a count may be damaged to: most lie at a bound.
fn odd_number(rng: &mut Rng, bound: u16) -> u16 {
    match rng.below(6) {
        0 => bound,
        1 => bound.wrapping_add(1),
        2 => bound.saturating_sub(1),
        3 => 0,
        4 => NONE,
        _ => rng.next() as u16,
    }
}

/// Damages a plan value without links: its number of modules, or a link in it.
fn damage_linkless(rng: &mut Rng, plan: &mut Plan) {
    match rng.below(4) {
        0 => plan.links.push(Link { lower: 0, higher: 1, at_lower: 3, at_higher: 4 }),
        _ => plan.modules = odd_number(rng, MOST_MODULES),
    }
}

/// Damages a plan value: its counts, an end of a link, the order of links, a reading. Some damages only put modules apart.
fn damage_value(rng: &mut Rng, plan: &mut Plan) {
    if plan.links.is_empty() {
        return damage_linkless(rng, plan);
    }
    let k = rng.below(plan.links.len());
    match rng.below(12) {
        0 => plan.modules = odd_number(rng, MOST_MODULES),
        // one module more, without a link
        1 => plan.modules = plan.modules.wrapping_add(1),
        // one module fewer than the links name
        2 => plan.modules = plan.modules.wrapping_sub(1),
        3 => plan.links[k].higher = plan.links[k].lower,
        4 => {
            let link = &mut plan.links[k];
            (link.lower, link.higher) = (link.higher, link.lower);
        }
        5 => plan.links[k].higher = odd_number(rng, plan.modules),
        6 => {
            let other = rng.below(plan.links.len());
            plan.links.swap(k, other);
        }
        // a link twice
        7 => plan.links.insert(k, plan.links[k]),
        8 => plan.links[k].at_lower = odd_number(rng, 2000),
        9 => plan.links[k].at_higher = odd_number(rng, 2000),
        // nobody at the links
        10 => plan.modules = 0,
        // all links of one module
        _ => {
            let v = plan.links[k].lower;
            plan.links.retain(|link| link.lower != v && link.higher != v);
        }
    }
}

/// More than 600 links with a fitting length, good but for their number.
pub fn too_many(rng: &mut Rng) -> Plan {
    let mut pairs = complete(rng.range(37, 60) as u16);
    pairs.truncate(rng.pick(&[601, 602, 666]));
    let n = 1 + pairs.iter().map(|p| p.1).max().unwrap();
    plan(rng, n, pairs, Readings::Wide)
}

/// Damages bytes: flips, truncation, appended bytes, version, length, counts, zeros from some place on.
fn damage_bytes(rng: &mut Rng, bytes: &mut Vec<u8>) {
    match rng.below(8) {
        0 => {
            for _ in 0..rng.range(1, 3) {
                let at = rng.below(bytes.len().max(1));
                if let Some(byte) = bytes.get_mut(at) {
                    *byte ^= 1 << rng.below(8);
                }
            }
        }
        1 => bytes.truncate(rng.below(bytes.len() + 1)),
        2 => bytes.truncate(rng.below(12)),
        3 => {
            for _ in 0..rng.range(1, 9) {
                let byte = rng.byte();
                bytes.push(byte);
            }
        }
        4 if !bytes.is_empty() => bytes[0] = rng.pick(&[0, 2, 3, 128, 255]),
        5 if bytes.len() >= 3 => bytes[1 + rng.below(2)] = rng.byte(),
        6 if bytes.len() >= 7 => bytes[5 + rng.below(2)] = rng.byte(),
        7 => {
            let from = rng.pick(&[0, 1, 3, 3, 5, 7]).min(bytes.len());
            bytes[from..].fill(0);
        }
        _ => {}
    }
}

/// A plan value with up to two damages. Some come out whole.
pub fn damaged_value(rng: &mut Rng) -> Plan {
    let kind = rng.pick(&KINDS);
    let mut plan = good(rng, kind);
    for _ in 0..rng.below(3) {
        damage_value(rng, &mut plan);
    }
    plan
}

/// The same, the i-th of many: some with more than 600 links, and with nobody at them.
pub fn some_value(rng: &mut Rng, i: usize) -> Plan {
    match i % 80 {
        0 => too_many(rng),
        40 => Plan { modules: 0, ..too_many(rng) },
        _ => damaged_value(rng),
    }
}

/// Bytes with N = 0: the links of another plan behind it, if it has any, and their number right, 0 or another.
fn nobody(rng: &mut Rng) -> Vec<u8> {
    let kind = rng.pick(&KINDS);
    let plan = Plan { modules: 0, ..good(rng, kind) };
    let l = plan.links.len() as u16;
    let told = rng.pick(&[l, l, 0, l + 1, l.saturating_sub(1), NONE]);
    let mut bytes = plan.encode();
    bytes[5..7].copy_from_slice(&told.to_be_bytes());
    bytes
}

/// The bytes of a plan with one damage or several, or random bytes. Some come out whole.
pub fn damaged(rng: &mut Rng) -> Vec<u8> {
    if rng.once_in(40) {
        return (0..rng.below(40)).map(|_| rng.byte()).collect();
    }
    if rng.once_in(40) {
        return too_many(rng).encode();
    }
    if rng.once_in(40) {
        return nobody(rng);
    }
    if rng.once_in(40) {
        // the right length of too little, or of a few random bytes
        let follow = rng.below(14) as u8;
        let mut bytes = vec![1, 0, follow];
        bytes.extend((0..follow).map(|_| rng.byte() & 3));
        return bytes;
    }
    let mut bytes = damaged_value(rng).encode();
    for _ in 0..rng.pick(&[0, 0, 0, 1, 1, 2]) {
        damage_bytes(rng, &mut bytes);
    }
    bytes
}

/// A frame's six bytes: a good one, one with numbers at their bounds, or a damaged one.
pub fn damaged_frame(rng: &mut Rng) -> Vec<u8> {
    if rng.once_in(20) {
        return (0..rng.below(9)).map(|_| rng.byte()).collect();
    }
    let carried = match rng.below(4) {
        0 => NONE,
        1 => rng.pick(&[0, 1, 255, 256, 598, 599, 600, 601, 65534]),
        2 => rng.below(CARRIED_BOUND as usize) as u16,
        _ => rng.next() as u16,
    };
    let header = if rng.once_in(2) { rng.byte() } else { good_header(rng) };
    let c = carried.to_be_bytes();
    let mut bytes = vec![1, 0, 3, header, c[0], c[1]];
    match rng.below(12) {
        0 => bytes.truncate(rng.below(6)),
        1 => bytes.push(rng.byte()),
        2 => bytes[0] = rng.byte(),
        3 => bytes[1] = rng.byte(),
        4 => bytes[2] = rng.byte(),
        5 => bytes[rng.below(6)] ^= 1 << rng.below(8),
        _ => {}
    }
    bytes
}

/// A header that is listed with some carried number.
fn good_header(rng: &mut Rng) -> u8 {
    loop {
        let header = rng.byte();
        if [0, NONE].iter().any(|c| frame::Message::listed(header, *c, CARRIED_BOUND).is_some()) {
            return header;
        }
    }
}
