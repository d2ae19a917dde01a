//! Compares the compiled calls on plans, frames, header bytes and words with the oracle, input by input; those on plan
//! values also on values that no reader gives. Prints one line of counts, or panics at the first difference.

#[path = "../muruapy.rs"]
mod muruapy;

use muruapy::Numbers;
use oracle::field::Word;
use oracle::plan::{Link, Plan, NONE};
use oracle::rng::Rng;
use oracle::{frame, kruskal, plan, plans};
use std::collections::BTreeMap;

/// Counts of what was compared, and how often each refusal number came.
#[derive(Default)]
struct Tally {
    good_plans: usize,
    plans: usize,
    frames: usize,
    values: usize,
    /// plans, frames and plan values, drawn or damaged, that are refused
    refused: usize,
    numbers: BTreeMap<u32, usize>,
    /// plans and plan values with N = 0, by what they are answered
    nobody: BTreeMap<(&'static str, u32), usize>,
    /// good plans in several parts, and those among them that have a part of one module
    in_parts: [usize; 2],
    /// good plans whose tree each of `WRONG_ORDERS` would change: of up to 4 modules, and of more
    told_apart: [[usize; 2]; WRONG_ORDERS.len()],
}

impl Tally {
    fn count(&mut self, number: u32) {
        if number != 0 {
            *self.numbers.entry(number).or_default() += 1;
        }
    }

    fn count_nobody(&mut self, n: u16, what: &'static str, number: u32) {
        if n == 0 {
            *self.nobody.entry((what, number)).or_default() += 1;
        }
    }
}

/// With N = 0, as bytes and as a value: taken, refused by 15 (L does not fit, or is above 600), by 16 (a link); and the empty
/// tree of those that are taken. How often each must come, about half as often as with the seed of main.
const NOBODY: [((&str, u32), usize); 8] = [
    (("bytes", 0), 200),
    (("bytes", 15), 240),
    (("bytes", 16), 320),
    (("tree", 0), 200),
    (("tree", 20), 400),
    (("value", 0), 58),
    (("value", 15), 20),
    (("value", 16), 120),
];

/// What links are compared by.
type Keys = fn(&Plan, u16) -> [u32; 3];

/// Ways to get the order of links wrong. Last: of how many plans of up to 4 modules, and of more, each must change the tree, at
/// the least.
const WRONG_ORDERS: [(&str, Keys, [usize; 2]); 4] = [
    ("the sum left out, or behind the number", |p, k| [p.cost(k), k as u32, p.sum(k)], [4000, 300]),
    ("the smaller reading", |p, k| [p.sum(k) - p.cost(k), p.sum(k), k as u32], [4000, 300]),
    ("the sum as the cost", |p, k| [p.sum(k), k as u32, 0], [2500, 300]),
    ("the higher number", |p, k| [p.cost(k), p.sum(k), NONE as u32 - k as u32], [7000, 300]),
];

const GOOD: usize = 600;
const GUARD: usize = 16;

/// Lends `len` bytes of a larger buffer of arbitrary bytes. The call must answer `number`, and leave `written` at the
/// front of the lent bytes and every other byte as it was.
fn lend(rng: &mut Rng, len: usize, number: u32, written: &[u8], call: impl Fn(&mut [u8]) -> u32) {
    let before: Vec<u8> = (0..len + 2 * GUARD).map(|_| rng.byte()).collect();
    let mut buffer = before.clone();
    let answer = call(&mut buffer[GUARD..GUARD + len]);
    assert_eq!(answer, number, "the answer");
    let mut expected = before;
    expected[GUARD..GUARD + written.len()].copy_from_slice(written);
    assert_eq!(buffer, expected, "the lent bytes, or those beside them");
}

/// A call that is refused by `number` and leaves all bytes alone.
fn refused(rng: &mut Rng, tally: &mut Tally, len: usize, number: u32, call: impl Fn(&mut [u8]) -> u32) {
    tally.count(number);
    lend(rng, len, number, &[], call);
}

/// What reading leaves in a lent plan: the numbers with zeros behind them, or what lay there.
fn numbers_read(plan: &Result<Plan, u32>, before: &Numbers) -> Numbers {
    let Ok(plan) = plan else { return *before };
    let mut numbers = [0; 2402];
    let four = plan.links.iter().flat_map(|link| [link.lower, link.higher, link.at_lower, link.at_higher]);
    let all = [plan.modules, plan.links.len() as u16].into_iter().chain(four);
    all.zip(&mut numbers).for_each(|(number, place)| *place = number);
    numbers
}

/// Bytes that may be a plan: check and reader; then written again and the tree, with buffers that fit, are longer and are
/// shorter.
fn compare_plan(rng: &mut Rng, tally: &mut Tally, bytes: &[u8]) {
    tally.plans += 1;
    let expected = plan::read(bytes);
    let before: Numbers = std::array::from_fn(|_| rng.next() as u16);
    let mut numbers = before;
    let answer = expected.as_ref().err().copied().unwrap_or(0);
    if answer == 0 || answer > 13 {
        tally.count_nobody(plan::be16(bytes, 3), "bytes", answer);
    }
    assert_eq!(muruapy::plan_check(bytes), answer, "the check");
    assert_eq!(muruapy::plan_read(bytes, &mut numbers), answer, "the reader");
    assert!(numbers == numbers_read(&expected, &before), "the plan read, or kept");
    let tree = |out: &mut [u8]| muruapy::tree(&numbers, out);
    let copy = |out: &mut [u8]| muruapy::plan_write(&numbers, out);
    match expected {
        Err(number) => {
            tally.refused += 1;
            tally.count(number);
        }
        Ok(plan) => {
            tally.good_plans += 1;
            let lowest = plan.lowest_modules();
            let alone = lowest.iter().any(|v| plan.own_links(*v).is_empty());
            tally.in_parts[0] += (lowest.len() > 1) as usize;
            tally.in_parts[1] += (lowest.len() > 1 && alone) as usize;
            let l = plan.links.len();
            let expected = kruskal::tree(&plan);
            for ((_, key, _), count) in WRONG_ORDERS.iter().zip(&mut tally.told_apart) {
                count[(plan.modules > 4) as usize] += (kruskal::tree_by(&plan, |k| key(&plan, k)) != expected) as usize;
            }
            lend(rng, l, 0, &expected, tree);
            tally.count_nobody(plan.modules, "tree", 0);
            for len in [l + 1, l + 600, rng.below(l.max(1)), l.saturating_sub(1)] {
                if len != l {
                    refused(rng, tally, len, 20, tree);
                    tally.count_nobody(plan.modules, "tree", 20);
                }
            }
            lend(rng, bytes.len(), 0, bytes, copy);
            let longer = bytes.len() + rng.range(1, 40);
            lend(rng, longer, 0, bytes, copy);
            for len in [0, bytes.len() - 1, rng.below(bytes.len())] {
                refused(rng, tally, len, 22, copy);
            }
        }
    }
}

/// The reader of a frame's bytes: the message's header and carried number, or what lay there.
fn read_frame(bytes: &[u8]) -> (u8, u16) {
    let expected = frame::read(bytes);
    let (mut header, mut carried) = (0xEE, 0xEEEE);
    let answer = muruapy::frame_read(bytes, &mut header, &mut carried);
    assert_eq!(answer, expected.err().unwrap_or(0), "the reader of {bytes:02x?}");
    let wanted = expected.map_or((0xEE, 0xEEEE), |message| (message.header(), message.carried));
    assert_eq!((header, carried), wanted, "the frame read, or kept, of {bytes:02x?}");
    wanted
}

/// Bytes that may be a frame: check and reader; then written again, with a buffer that fits and others.
fn compare_frame(rng: &mut Rng, tally: &mut Tally, bytes: &[u8]) {
    tally.frames += 1;
    let (header, carried) = read_frame(bytes);
    let copy = |out: &mut [u8]| muruapy::frame_write(header, carried, out);
    let other = rng.pick(&[0, 1, 5, 7, 8, 12]);
    match frame::read(bytes) {
        Err(number) => {
            tally.refused += 1;
            tally.count(number);
            assert_eq!(muruapy::frame_check(bytes), number, "the check");
        }
        Ok(_) => {
            assert_eq!(muruapy::frame_check(bytes), 0, "the check");
            lend(rng, 6, 0, bytes, copy);
            refused(rng, tally, other, 64, copy);
        }
    }
}

/// Lends both programs the same bytes: they answer and leave the same, and alter nothing beside the lent bytes.
fn alike(
    rng: &mut Rng,
    tally: &mut Tally,
    len: usize,
    oracle: impl Fn(&mut [u8]) -> Result<(), u32>,
    call: impl Fn(&mut [u8]) -> u32,
) {
    let mut buffer: Vec<u8> = (0..len + 2 * GUARD).map(|_| rng.byte()).collect();
    let mut expected = buffer.clone();
    let number = oracle(&mut expected[GUARD..GUARD + len]).err().unwrap_or(0);
    tally.count(number);
    assert_eq!(call(&mut buffer[GUARD..GUARD + len]), number, "the answer");
    assert_eq!(buffer, expected, "the lent bytes, or those beside them");
}

/// A plan value, taken or refused, with anything past its links: checked, its costs, written, and its tree built.
fn compare_value(rng: &mut Rng, tally: &mut Tally, plan: &Plan) {
    tally.values += 1;
    if plan.check().is_err() {
        tally.refused += 1;
    }
    let value = muruapy::numbers(plan, rng);
    let answer = plan.check().err().unwrap_or(0);
    tally.count_nobody(plan.modules, "value", answer);
    assert_eq!(muruapy::plan_value_check(&value), answer, "the check of a value");
    for k in [0, rng.below(700) as u16, plan.links.len() as u16, 599, 600, NONE] {
        let there = (k as usize) < plan.links.len().min(600);
        let cost = if there { plan.cost(k) } else { NONE as u32 };
        assert_eq!(muruapy::link_cost(&value, k), cost, "the cost of link {k}");
    }
    let size = 7 + 8 * plan.links.len();
    for len in [size, size + rng.range(1, 40), size - 1, rng.below(size)] {
        alike(rng, tally, len, |out| plan::write(plan, out).map(|_| ()), |out| muruapy::plan_write(&value, out));
    }
    let l = plan.links.len();
    let built = |out: &mut [u8]| {
        plan.check()?;
        if out.len() != l {
            return Err(20);
        }
        out.copy_from_slice(&kruskal::tree(plan));
        Ok(())
    };
    for len in [l, l + 1, rng.below(l + 1)] {
        alike(rng, tally, len, built, |out| muruapy::tree(&value, out));
    }
}

/// A frame of a header and a carried number, taken or refused, written into a buffer that fits and into another.
fn compare_write(rng: &mut Rng, tally: &mut Tally, header: u8, carried: u16) {
    for len in [6, rng.pick(&[0, 1, 5, 7, 8, 12])] {
        let oracle = |out: &mut [u8]| frame::write(header, carried, out);
        alike(rng, tally, len, oracle, |out| muruapy::frame_write(header, carried, out));
    }
}

/// Every plan of 4 modules whose links each have one of these readings or are not there: one part to four.
fn all_of_four(rng: &mut Rng, tally: &mut Tally) {
    const READINGS: [(u16, u16); 4] = [(0, 1), (1, 0), (1, 1), (2, 0)];
    for code in 0..5usize.pow(6) {
        let mut plan = Plan { modules: 4, links: Vec::new() };
        for (i, (lower, higher)) in plans::complete(4).into_iter().enumerate() {
            if let Some(&(at_lower, at_higher)) = READINGS.get(code / 5usize.pow(i as u32) % 5) {
                plan.links.push(Link { lower, higher, at_lower, at_higher });
            }
        }
        compare_plan(rng, tally, &plan.encode());
    }
}

/// Every header and carried number, in a frame of the right version and length and given to the writer.
fn all_frames(tally: &mut Tally) {
    for header in 0..=255 {
        for carried in 0..=65535u16 {
            let c = carried.to_be_bytes();
            let bytes = [1, 0, 3, header, c[0], c[1]];
            let number = frame::read(&bytes).err().unwrap_or(0);
            assert_eq!(muruapy::frame_check(&bytes), number, "frame {bytes:02x?}");
            assert_eq!(muruapy::message_listed(header, carried), number == 0, "listed {bytes:02x?}");
            read_frame(&bytes);
            let (mut out, before) = ([9; 6], [9; 6]);
            assert_eq!(muruapy::frame_write(header, carried, &mut out), number, "write {bytes:02x?}");
            assert_eq!(out, if number == 0 { bytes } else { before }, "written {bytes:02x?}");
            tally.frames += 1;
        }
    }
}

/// Every header byte taken apart, and every one that can be made; 255 where a part does not fit.
fn all_headers() {
    for h in 0..=255u8 {
        assert_eq!(muruapy::header_parts(h), (h & 7, (h >> 3 & 7) as u16, h >> 6 & 1), "header {h:02x}");
    }
    for kind in 0..=255u8 {
        for level in (0..20).chain([255, 256, 8 * 256, 65535]) {
            for find in [0, 1, 2, 3, 128, 255] {
                let fits = kind < 8 && level < 8 && find < 2;
                let byte = if fits { kind + 8 * level as u8 + 64 * find } else { 255 };
                assert_eq!(muruapy::header(kind, level, find), byte, "header of {kind}, {level}, {find}");
            }
        }
    }
}

/// The parts of any word, and of words as the oracle packs them.
fn words(rng: &mut Rng) {
    for _ in 0..20_000 {
        let word = rng.next();
        let parts = (word as u8, (word >> 8) as u16, (word >> 24) as u16, word >> 40 & 1 == 1);
        assert_eq!(muruapy::word_parts(word), parts, "word {word:x}");
        let level = rng.below(8) as u16;
        let message = frame::Message::connect(level);
        let (directed, handed) = (rng.below(1200) as u16, rng.once_in(2));
        let packed = Word { message, directed, handed }.pack();
        assert_eq!(muruapy::word_parts(packed), (message.header(), message.carried, directed, handed));
    }
}

fn all_ceilings() -> usize {
    let mut compared = 0;
    for n in 0..=192 {
        for l in 0..=600 {
            assert_eq!(muruapy::ceiling(n, l), plan::ceiling(n, l), "the ceiling of {n}, {l}");
            compared += 1;
        }
    }
    compared
}

/// A plan of zeros is blank: checked, written, without a tree and without costs.
fn zeros(rng: &mut Rng) {
    let value = [0; 2402];
    assert_eq!(muruapy::plan_value_check(&value), 0, "the check of zeros");
    assert_eq!(muruapy::link_cost(&value, 0), NONE as u32, "a cost of zeros");
    lend(rng, 7, 0, &[1, 0, 4, 0, 0, 0, 0], |out| muruapy::plan_write(&value, out));
    lend(rng, 6, 22, &[], |out| muruapy::plan_write(&value, out));
    lend(rng, 0, 0, &[], |out| muruapy::tree(&value, out));
    lend(rng, 1, 20, &[], |out| muruapy::tree(&value, out));
}

/// The documents' samples for plans, tree, ceiling and frames, with the numbers written out here.
fn samples(rng: &mut Rng) {
    for (n, l, m) in [(0, 0, 0), (1, 0, 0), (2, 1, 12), (3, 3, 21), (192, 600, 7920)] {
        assert_eq!(muruapy::ceiling(n, l), m);
    }
    let link = |lower, higher, at_lower, at_higher| Link { lower, higher, at_lower, at_higher };
    let path = |n: u16| Plan { modules: n, links: (1..n).map(|v| link(v - 1, v, 2, 3)).collect() }.encode();
    let pair = |reading| Plan { modules: 2, links: vec![link(0, 1, reading, 0)] }.encode();
    let complete: Vec<Link> = plans::complete(60).into_iter().map(|(a, b)| link(a, b, 1, 1)).collect();
    let many = |l: usize| Plan { modules: 60, links: complete[..l].to_vec() }.encode();
    let no_link = Plan { modules: 2, links: vec![] }.encode();
    let two = [1, 0, 0x0C, 0, 2, 0, 1, 0, 0, 0, 1, 0, 3, 0, 4];
    let numbers: [(&[u8], u32); 13] = [
        (&[], 11),
        (&path(193), 14),
        (&path(192), 0),
        (&many(601), 15),
        (&many(600), 0),
        (&pair(2001), 18),
        (&pair(2000), 0),
        (&no_link, 0),
        (&two, 0),
        (&two[..14], 13),
        (&[1, 0, 4, 0, 0, 0, 0], 0),
        (&[1, 0, 0x0C, 0, 0, 0, 1, 0, 0, 0, 1, 0, 3, 0, 4], 16),
        (&[1, 0, 0x0C, 0, 0, 0, 2, 0, 0, 0, 1, 0, 3, 0, 4], 15),
    ];
    for (bytes, number) in numbers {
        assert_eq!(muruapy::plan_check(bytes), number);
    }
    let triangle = Plan { modules: 3, links: vec![link(0, 1, 2, 3), link(0, 2, 2, 3), link(1, 2, 2, 3)] };
    let value = muruapy::numbers(&triangle, rng);
    lend(rng, 3, 0, &[1, 1, 0], |out| muruapy::tree(&value, out));
    for frame in [[1, 0, 3, 0x52, 0, 5], [1, 0, 3, 1, 0xFF, 0xFF]] {
        assert_eq!(muruapy::frame_check(&frame), 0);
        let (header, carried) = read_frame(&frame);
        lend(rng, 6, 0, &frame, |out| muruapy::frame_write(header, carried, out));
    }
    assert_eq!(frame::read(&[1, 0, 3, 0x52, 0, 5]), Ok(frame::Message::initiate(2, 5, true)));
    assert_eq!(frame::read(&[1, 0, 3, 1, 0xFF, 0xFF]), Ok(frame::Message::connect(0)));
    assert_eq!(plan::be16(&[0xFF, 0xFF], 0), NONE);
}

/// The plans of samples/; a refused one has its number in its name.
fn sample_files(rng: &mut Rng, tally: &mut Tally) {
    for file in std::fs::read_dir("samples").expect("run at the top of the repository") {
        let path = file.unwrap().path();
        let name = path.file_stem().unwrap().to_str().unwrap();
        if path.extension().is_some_and(|e| e == "plan") {
            let number = name.strip_prefix("refused-").map_or(0, |rest| rest[..2].parse().unwrap());
            let bytes = std::fs::read(&path).unwrap();
            assert_eq!(muruapy::plan_check(&bytes), number, "{name}");
            compare_plan(rng, tally, &bytes);
        }
    }
}

/// What came, as often as wanted.
fn check_counts(tally: &Tally) {
    for number in (11..=18).chain([20, 22]).chain(61..=64) {
        let times = tally.numbers.get(&number).copied().unwrap_or(0);
        assert!(times >= 20, "refusal {number} came only {times} times: {:?}", tally.numbers);
    }
    for (what, least) in NOBODY {
        let times = tally.nobody.get(&what).copied().unwrap_or(0);
        assert!(times >= least, "N = 0, {what:?}: only {times} times, {least} wanted");
    }
    for ((order, _, least), times) in WRONG_ORDERS.iter().zip(tally.told_apart) {
        assert!(times.iter().zip(least).all(|(t, l)| t >= l), "{order}: only {times:?} trees would be others");
    }
    assert!(tally.in_parts[0] >= 1200 && tally.in_parts[1] >= 1000, "only {:?} plans in several parts", tally.in_parts);
    assert!(tally.refused >= 10_000, "only {} inputs were refused", tally.refused);
}

/// Good plans of every kind, the samples, small plans of all shapes, damaged plans and frames, plan values and headers.
fn drawn(rng: &mut Rng, tally: &mut Tally) {
    for i in 0..GOOD {
        let plan = plans::good(rng, plans::KINDS[i % plans::KINDS.len()]);
        compare_plan(rng, tally, &plan.encode());
    }
    assert_eq!(tally.good_plans, GOOD);
    sample_files(rng, tally);
    all_of_four(rng, tally);
    for _ in 0..15000 {
        let bytes = plans::damaged(rng);
        compare_plan(rng, tally, &bytes);
    }
    for _ in 0..15000 {
        let bytes = plans::damaged_frame(rng);
        compare_frame(rng, tally, &bytes);
    }
    for i in 0..3000 {
        let plan = plans::some_value(rng, i);
        compare_value(rng, tally, &plan);
        let carried = rng.pick(&[0, 5, 599, 600, 65534, NONE]);
        let header = rng.byte();
        compare_write(rng, tally, header, carried);
    }
}

fn main() {
    let mut rng = Rng::new(20);
    let mut tally = Tally::default();
    samples(&mut rng);
    zeros(&mut rng);
    let ceilings = all_ceilings();
    all_headers();
    words(&mut rng);
    drawn(&mut rng, &mut tally);
    let frames = tally.frames;
    all_frames(&mut tally);
    let numbers: Vec<String> = tally.numbers.iter().map(|(number, times)| format!("{number}:{times}")).collect();
    println!(
        "ground: {} plans ({} good, tree as Kruskal's), {} plan values, {} frames ({frames} drawn), {ceilings} ceilings \
         agree; {} drawn inputs refused; refusals {}; trees that a wrong order of links would change: {:?}",
        tally.plans,
        tally.good_plans,
        tally.values,
        tally.frames,
        tally.refused,
        numbers.join(" "),
        tally.told_apart
    );
    println!("ground: in several parts, with a part of one: {:?}", tally.in_parts);
    println!("ground: N = 0, by what was answered: {:?}", tally.nobody);
    check_counts(&tally);
}
