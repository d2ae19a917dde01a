//! `check` and `show`: the number, and where it applies, worked out once more from the oracle.

use crate::tool::Tool;
use oracle::frame::{self, NAMES};
use oracle::plan::{self, be16, Link, Plan};
use oracle::report::report;
use oracle::schedule;
use std::collections::BTreeMap;

/// A refusal and its place in words.
type Place = (u32, String);

/// The command reads no more than this: no plan and no schedule is as long.
const ENOUGH: usize = 65539;

fn how_many(bytes: &[u8]) -> String {
    match bytes.len() {
        1 => "1 byte".into(),
        n if n >= ENOUGH => format!("{ENOUGH} bytes or more"),
        n => format!("{n} bytes"),
    }
}

fn lengths(bytes: &[u8]) -> String {
    let behind = if bytes.len() >= ENOUGH { "65536 or more".into() } else { (bytes.len() - 3).to_string() };
    format!("length {}, {behind} bytes behind it", be16(bytes, 1))
}

/// The place of 16 to 18: the first links up to it, taken as a plan, are refused, and those before it are not.
fn link_place(number: u32, n: u16, links: &[Link]) -> String {
    let refused = |k: &usize| {
        let front = Plan { modules: n, links: links[..=*k].to_vec() };
        front.check().is_err()
    };
    let k = (0..links.len()).find(refused).expect("a link is refused");
    let Link { lower, higher, at_lower, at_higher } = links[k];
    let link = format!("link {k} ({lower}-{higher})");
    match number {
        16 if lower >= higher => format!("{link}, {lower} is not below {higher}"),
        16 if n == 0 => format!("{link}, there is no module"),
        16 => format!("{link}, the last module is {}", n - 1),
        17 => format!("{link}, behind link {} ({}-{})", k - 1, links[k - 1].lower, links[k - 1].higher),
        _ if at_lower > 2000 => format!("{link}, reading {at_lower} at module {lower}"),
        _ => format!("{link}, reading {at_higher} at module {higher}"),
    }
}

/// The place of 14 and 16 to 18 in a plan's value, with the link concerned.
pub fn of_value(number: u32, plan: &Plan) -> (String, Option<usize>) {
    match number {
        14 => (format!("{} modules", plan.modules), None),
        _ => {
            let words = link_place(number, plan.modules, &plan.links);
            let k = words["link ".len()..].split(' ').next().unwrap().parse().unwrap();
            (words, Some(k))
        }
    }
}

fn of_plan(bytes: &[u8]) -> Option<Place> {
    let number = plan::read(bytes).err()?;
    let link = |b: &[u8]| Link { lower: be16(b, 0), higher: be16(b, 2), at_lower: be16(b, 4), at_higher: be16(b, 6) };
    let words = match number {
        11 => how_many(bytes),
        12 => format!("version byte {}", bytes[0]),
        13 => lengths(bytes),
        15 => format!("{} links, length {}", be16(bytes, 5), be16(bytes, 1)),
        _ => {
            of_value(number, &Plan { modules: be16(bytes, 3), links: bytes[7..].chunks_exact(8).map(link).collect() }).0
        }
    };
    Some((number, words))
}

fn of_schedule(bytes: &[u8]) -> Option<Place> {
    let number = schedule::read(bytes).err()?;
    let words = match number {
        51 => how_many(bytes),
        52 => format!("version byte {}", bytes[0]),
        53 => lengths(bytes),
        _ => {
            let i = bytes[3..].iter().step_by(3).position(|kind| !(1..=3).contains(kind)).unwrap();
            format!("step {}, kind {} at byte {}", i + 1, bytes[3 + 3 * i], 3 + 3 * i)
        }
    };
    Some((number, words))
}

fn of_frame(bytes: &[u8]) -> Option<Place> {
    let number = frame::read(bytes).err()?;
    let words = match number {
        61 => how_many(bytes),
        62 if bytes[0] != 1 => format!("version byte {}", bytes[0]),
        62 => format!("length {}", be16(bytes, 1)),
        _ => {
            let (header, carried) = (bytes[3], be16(bytes, 4));
            let (kind, level) = (header & 7, header >> 3 & 7);
            let name = NAMES[kind as usize];
            let what = match kind {
                _ if header >= 128 => "has bit 7 set".into(),
                0 => "has kind 0".into(),
                1 | 3..=7 if header & 64 != 0 => format!("is {name} with the Find bit"),
                2 | 3 if level == 0 => format!("is {name} with level 0"),
                4..=7 if level > 0 => format!("is {name} with level {level}"),
                _ => format!("is {name}, carried number {carried}"),
            };
            format!("header {header} {what}")
        }
    };
    Some((number, words))
}

/// How often each refusal came.
pub type Tally = BTreeMap<u32, usize>;

/// Compares one answer of `check`; counts its refusal.
fn compare(tool: &Tool, option: Option<&str>, bytes: &[u8], expected: Option<Place>, tally: &mut Tally) {
    let args: Vec<&str> = ["check"].into_iter().chain(option).chain(["-"]).collect();
    let ran = tool.run(&args, bytes);
    let out = String::from_utf8(ran.out).unwrap();
    assert_eq!(ran.err, "", "{args:?}");
    match expected {
        None => assert_eq!((ran.code, out.as_str()), (0, "taken\n"), "{args:?} {bytes:?}"),
        Some((number, words)) => {
            let sentence =
                out.strip_prefix(&format!("{number}: ")).and_then(|s| s.strip_suffix(&format!(": {words}\n")));
            assert!(
                sentence.is_some_and(|s| s.len() > 10 && !s.contains("no refusal")),
                "{out} is not {number}: {words}"
            );
            assert_eq!(ran.code, 1, "{out}");
            *tally.entry(number).or_default() += 1;
        }
    }
}

pub fn plan(tool: &Tool, bytes: &[u8], tally: &mut Tally) {
    compare(tool, None, bytes, of_plan(bytes), tally);
}

pub fn schedule(tool: &Tool, bytes: &[u8], tally: &mut Tally) {
    compare(tool, Some("--schedule"), bytes, of_schedule(bytes), tally);
}

pub fn frame(tool: &Tool, bytes: &[u8], tally: &mut Tally) {
    compare(tool, Some("--frame"), bytes, of_frame(bytes), tally);
}

/// `show` prints what the proved program and the oracle print, and exits with 1 where they refuse.
pub fn show(tool: &Tool, program: &Tool, bytes: &[u8]) {
    let (ran, proved) = (tool.run(&["show", "-"], bytes), program.done(&[], bytes));
    assert_eq!(ran.out, proved, "show");
    assert_eq!(ran.out, report(bytes).into_bytes(), "show");
    let refused = plan::read(bytes).is_err();
    assert_eq!((ran.code, ran.err.is_empty()), (refused as i32, !refused), "show: {}", ran.err);
}
