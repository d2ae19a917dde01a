//! The other side of the benchmark's finding of a point: the same check of a store in plain safe Rust, record by record, into
//! a field's record that is kept from call to call.

use crate::muruapy::{Found, Record};
use crate::rounds;
use oracle::rules::WIDTH;

/// Room for the field and the words of one record.
pub type Room = (Record, Vec<u64>);

fn be16(bytes: &[u8], at: usize) -> u16 {
    u16::from_be_bytes([bytes[at], bytes[at + 1]])
}

fn is_name(name: &[u8]) -> bool {
    (1..=12).contains(&name.len()) && name.iter().all(u8::is_ascii_lowercase)
}

/// The plan at the front of some bytes into the record, as far as its head and its length are right; how many bytes it has.
/// What its links are is looked at with 31.
fn take_plan(bytes: &[u8], record: &mut Record) -> Option<usize> {
    if bytes.len() < 7 || bytes[0] != 1 {
        return None;
    }
    let (length, n, l) = (be16(bytes, 1) as usize, be16(bytes, 3), be16(bytes, 5) as usize);
    if n > 192 || l > 600 || length != 4 + 8 * l || bytes.len() < 3 + length {
        return None;
    }
    for (number, two) in record.plan.iter_mut().zip(bytes[3..3 + length].chunks_exact(2)) {
        *number = be16(two, 0);
    }
    record.plan[2 + 4 * l..].fill(0);
    Some(3 + length)
}

/// The sent count, values and marks into the record, in one pass over the modules and one over the ends of links: how many
/// bytes they have. None where bytes are missing, or a mark has more than 8 bits.
fn take_field(bytes: &[u8], record: &mut Record) -> Option<usize> {
    let (modules, ends) = (record.modules() as usize, 2 * record.links() as usize);
    let size = 2 + 2 * WIDTH * modules + 2 * ends;
    let numbers = bytes.get(..size)?;
    let module = |plan: &[u16], end: usize| plan[2 + 4 * (end / 2) + end % 2] as usize;
    record.sent = be16(numbers, 0) as u32;
    // where each module's values begin; its marks stand behind them
    let mut starts = [0; 192];
    for end in 0..ends {
        starts[module(&record.plan, end)] += 1;
    }
    let mut at = 1;
    for start in &mut starts[..modules] {
        at += WIDTH + std::mem::replace(start, at);
    }
    for (v, cells) in record.cells.chunks_exact_mut(WIDTH).take(modules).enumerate() {
        for (j, cell) in cells.iter_mut().enumerate() {
            *cell = be16(numbers, 2 * (starts[v] + j));
        }
    }
    for end in 0..ends {
        let start = &mut starts[module(&record.plan, end)];
        record.marks[end] = u8::try_from(be16(numbers, 2 * (*start + WIDTH))).ok()?;
        *start += 1;
    }
    Some(size)
}

/// The words, none of them 0, then zeros up to the ceiling.
fn take_words(bytes: &[u8], ceiling: usize, words: &mut Vec<u64>) -> Option<()> {
    if bytes.len() % 8 != 0 {
        return None;
    }
    words.clear();
    words.extend(bytes.chunks_exact(8).map(|eight| u64::from_be_bytes(eight.try_into().unwrap())));
    if words.contains(&0) {
        return None;
    }
    words.resize(ceiling.max(words.len()), 0);
    Some(())
}

/// The name of a record that is one, from its version byte on to its end.
fn name_of<'a>(bytes: &'a [u8], (record, words): &mut Room) -> Option<&'a [u8]> {
    let letters = *bytes.get(5)? as usize;
    let name = bytes.get(6..6 + letters)?;
    let body = &bytes[6 + letters..];
    let plan = is_name(name).then(|| take_plan(body, record))??;
    // links that are none would lead nowhere
    if crate::plain::check_plan(record) != 0 {
        return None;
    }
    let numbers = take_field(&body[plan..], record)?;
    take_words(&body[plan + numbers..], record.ceiling() as usize, words)?;
    rounds::valid_but_plan(record, words).map(|_| name)
}

/// 76, 77, or where the record of a name stands.
pub fn find(store: &[u8], name: &[u8], room: &mut Room) -> Found {
    let refused = |refusal| Found { refusal, at: 0, size: 0 };
    let (mut at, mut names, mut found) = (0, Vec::new(), None);
    while at < store.len() && store[at] != 0 {
        let rest = &store[at..];
        if rest.len() < 5 || rest[0] != 1 {
            return refused(76);
        }
        let size = 5 + u32::from_be_bytes(rest[1..5].try_into().unwrap()) as usize;
        let Some(held) = rest.get(..size).and_then(|bytes| name_of(bytes, room)) else {
            return refused(76);
        };
        if names.contains(&held) {
            return refused(76);
        }
        if held == name {
            found = Some(Found { refusal: 0, at, size });
        }
        names.push(held);
        at += size;
    }
    if store[at..].iter().any(|byte| *byte != 0) {
        return refused(76);
    }
    found.unwrap_or(refused(77))
}
