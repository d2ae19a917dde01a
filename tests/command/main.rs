//! The command `muruapy` against the oracle, run as people run it.
//!
//!   command COMMAND CHECKED REPORT WORK COUNT
//!
//! COMMAND is the command, CHECKED the same built with sanitizers, which gets some of the damaged inputs and all calls on the
//! blank plan, REPORT the proved reporting program, WORK a folder for files, COUNT how many plans are drawn.

mod blank;
mod cues;
mod paths;
mod pictures;
mod places;
mod points;
mod previews;
mod rehearsals;
mod texts;
mod told;
mod tool;

use oracle::plan::{self, Plan};
use oracle::plans::{self, Readings, KINDS};
use oracle::rng::Rng;
use oracle::schedule::{self, Step};
use tool::Tool;

struct Tools {
    plain: Tool,
    checked: Tool,
    report: Tool,
}

impl Tools {
    /// For the damaged inputs; the checked one takes longer to start, so it gets every fourth: as the kinds of plans are
    /// no multiple of 4, of each kind some.
    fn any(&self, i: usize) -> &Tool {
        if i % 4 == 0 {
            &self.checked
        } else {
            &self.plain
        }
    }
}

/// The plans of samples/, good and refused.
fn samples() -> Vec<Vec<u8>> {
    let files = std::fs::read_dir("samples").expect("run at the top of the repository");
    let paths = files.map(|file| file.unwrap().path()).filter(|path| path.extension().is_some_and(|e| e == "plan"));
    paths.map(|path| std::fs::read(path).unwrap()).collect()
}

/// What is printed of a good plan.
fn good(tools: &Tools, plan: &Plan, drawn: bool) {
    let bytes = plan.encode();
    places::show(&tools.plain, &tools.report, &bytes);
    assert_eq!(tools.plain.text(&["check", "-"], &bytes), "taken\n");
    texts::there_and_back(&tools.plain, plan);
    if drawn {
        pictures::dot(&tools.plain, plan);
        pictures::svg(&tools.plain, plan);
    }
}

fn plans(tools: &Tools, rng: &mut Rng, count: usize) -> String {
    let (mut taken, mut tally) = (0, places::Tally::new());
    for bytes in samples() {
        places::plan(&tools.plain, &bytes, &mut tally);
        match plan::read(&bytes) {
            Ok(plan) => good(tools, &plan, true),
            Err(_) => places::show(&tools.checked, &tools.report, &bytes),
        }
        taken += plan::read(&bytes).is_ok() as usize;
    }
    for i in 0..count {
        let plan = plans::good(rng, KINDS[i % KINDS.len()]);
        good(tools, &plan, i % 4 == 0);
        if i % 4 == 0 {
            cues::told(tools.any(i / 4), &plan, rng.below(plan.modules.max(1) as usize) as u16);
        }
    }
    format!("{} plans", taken + count)
}

/// About as long as a length can tell, and longer; as a plan and as a schedule.
fn long(version: u8, size: usize) -> Vec<u8> {
    let mut bytes = vec![version, 255, 255];
    bytes.resize(size, 1);
    bytes
}

/// Drawn kinds of a schedule, some out of their list, then damaged as a plan's bytes are.
fn damaged_schedule(rng: &mut Rng) -> Vec<u8> {
    let step =
        |rng: &mut Rng| Step { kind: if rng.once_in(30) { rng.byte() } else { rng.range(1, 3) as u8 }, number: 5 };
    let steps: Vec<Step> = (0..rng.below(20)).map(|_| step(rng)).collect();
    let mut bytes = schedule::encode(&steps);
    match rng.below(8) {
        0 => bytes.truncate(rng.below(5)),
        1 => bytes[0] = rng.byte(),
        2 => bytes[2] ^= 1 << rng.below(8),
        3 => bytes.push(1),
        4 => {
            bytes.push(1);
            bytes[2] += 1;
        }
        _ => {}
    }
    bytes
}

fn refused(tools: &Tools, rng: &mut Rng, count: usize) -> String {
    let mut tally = places::Tally::new();
    for i in 0..count {
        let (tool, bytes) = (tools.any(i), plans::damaged(rng));
        places::plan(tool, &bytes, &mut tally);
        places::show(tool, &tools.report, &bytes);
        places::schedule(tool, &damaged_schedule(rng), &mut tally);
        places::frame(tool, &plans::damaged_frame(rng), &mut tally);
    }
    let tool = &tools.checked;
    for bytes in [65537, 65538, 65539, 65540, 300_000].into_iter().flat_map(|size| [long(1, size), long(2, size)]) {
        places::plan(tool, &bytes, &mut tally);
        places::show(tool, &tools.report, &bytes);
        places::schedule(tool, &bytes, &mut tally);
        places::frame(tool, &bytes, &mut tally);
    }
    let all = (11..=18).chain(51..=54).chain(61..=63);
    assert!(tally.keys().copied().eq(all), "some refusal never came: {tally:?}");
    // what is refused is refused by all that read a plan, before they print anything
    for (name, bytes) in [("short", &b"\x01"[..]), ("many", b"\x01\x00\x04\x00\xc1\x00\x00")] {
        tool.write(name, bytes);
        for sub in ["text", "dot", "svg"] {
            let ran = tool.run(&[sub, name], b"");
            assert_eq!((ran.code, ran.out.len()), (1, 0), "{sub}");
            assert!(ran.err.starts_with(&format!("muruapy: {name}: 1")), "{}", ran.err);
        }
    }
    format!("{} refusals", tally.values().sum::<usize>())
}

fn lines(tools: &Tools, rng: &mut Rng, count: usize) -> String {
    let (mut taken, mut refused) = (0, 0);
    for i in 0..count {
        let kind = KINDS[i % KINDS.len()];
        let plan = plans::good(rng, kind);
        let text = texts::otherwise_written(rng, &plan);
        assert!(texts::compare(tools.any(i), &text), "a good text is refused");
        let mut text = tools.plain.done(&["text", "-"], &plan.encode());
        for _ in 0..rng.range(1, 2) {
            text = texts::damage(rng, &text);
        }
        let ok = texts::compare(tools.any(i), &text);
        taken += 1 + ok as usize;
        refused += !ok as usize;
    }
    let many = |links: usize| {
        let mut pairs = plans::complete(40);
        pairs.truncate(links);
        let lines: String = pairs.iter().map(|(a, b)| format!("link {a} {b} 1 1\n")).collect();
        format!("modules 40\n{lines}").into_bytes()
    };
    let noise: Vec<u8> = (0..100_000).map(|_| rng.byte()).collect();
    let zeros = [b"modules ".to_vec(), vec![b'0'; 200], b"1".to_vec()].concat();
    let wide = |width: usize| format!("{:width$}# comment", "modules 1").into_bytes();
    let bounds = [(many(600), true), (many(601), false), (wide(255), true), (wide(256), false)];
    for (text, ok) in bounds.into_iter().chain([(noise, false), (vec![], false), (zeros, true)]) {
        assert_eq!(texts::compare(&tools.checked, &text), ok);
    }
    assert!(refused > count / 2, "{refused} texts refused");
    format!("{taken} texts taken, {refused} refused")
}

/// A path whose costs rise, all modules woken: more steps than one schedule holds.
fn long_path(tools: &Tools, tally: &mut rehearsals::Tally) {
    let pairs = plans::path(192);
    let mut plan = plans::plan(&mut Rng::new(1), 192, pairs, Readings::Same);
    for (k, link) in plan.links.iter_mut().enumerate() {
        (link.at_lower, link.at_higher) = (k as u16, k as u16);
    }
    let all: Vec<u16> = (0..192).collect();
    let schedules = rehearsals::rehearsed(&tools.plain, &plan, &all, None, tally);
    assert_eq!(schedules.len(), 2, "schedules of the long path");
}

fn schedules(tools: &Tools, rng: &mut Rng, count: usize) -> String {
    let mut tally = rehearsals::Tally::default();
    for i in 0..count {
        let plan = plans::good(rng, KINDS[i % KINDS.len()]);
        let wakes = rehearsals::some_modules(rng, plan.modules);
        rehearsals::rehearsed(&tools.plain, &plan, &wakes, None, &mut tally);
        rehearsals::rehearsed(&tools.checked, &plan, &[], None, &mut tally);
        // many orders, one tree; the same seed, the same order
        let seed = rng.below(1_000_000) as u64;
        let drawn = rehearsals::rehearsed(&tools.plain, &plan, &wakes, Some(seed), &mut tally);
        let again = rehearsals::rehearsed(&tools.plain, &plan, &wakes, Some(seed), &mut tally);
        let other = rehearsals::rehearsed(&tools.plain, &plan, &wakes, Some(seed + 1), &mut tally);
        assert!(drawn == again && (plan.modules < 6 || drawn != other), "seeds");
        for i in 0..8 {
            let steps = rehearsals::drawn_steps(rng, &plan, 200);
            let at = rng.below(steps.len() + 1);
            rehearsals::replayed(tools.any(i), &plan, &[steps[..at].to_vec(), steps[at..].to_vec()], &mut tally);
        }
    }
    long_path(tools, &mut tally);
    assert!(tally.refused.keys().copied().eq(41..=45), "some refusal never came: {:?}", tally.refused);
    assert!(tally.held.len() == 4 && tally.held.values().all(|n| *n > 20), "{:?}", tally.held);
    assert!(tally.in_parts >= 9 && tally.asleep >= 4, "{} in parts, {} with sleepers", tally.in_parts, tally.asleep);
    format!("{} steps told", tally.steps)
}

fn shown(tools: &Tools, rng: &mut Rng, count: usize) -> String {
    let mut tally = previews::Tally::default();
    for i in 0..count {
        let plan = plans::good(rng, KINDS[i % KINDS.len()]);
        previews::told(tools.any(i), rng, &plan, &mut tally);
    }
    assert!(tally.answers.keys().copied().eq([0, 41, 42, 43, 44, 45]), "{:?}", tally.answers);
    assert!((0..3).all(|n| tally.messages.get(&n).is_some_and(|times| *times > 5)), "{:?}", tally.messages);
    format!("{} previews", tally.answers.values().sum::<usize>())
}

/// Paths in the tree, and the modules near one.
fn ways(tools: &Tools, rng: &mut Rng, count: usize) -> String {
    let mut tally = paths::Tally::default();
    for i in 0..count {
        let plan = plans::good(rng, KINDS[i % KINDS.len()]);
        paths::told(tools.any(i), rng, &plan, &mut tally);
    }
    let often = |answer| tally.answers.get(&answer).is_some_and(|times| *times > 9);
    assert!([("near", 0), ("near", 41), ("path", 0), ("path", 41)].into_iter().all(often), "{:?}", tally.answers);
    assert!((0..5).all(|n| tally.lengths.get(&n).is_some_and(|times| *times > 3)), "{:?}", tally.lengths);
    assert!(tally.no_way > 30, "{} times no way", tally.no_way);
    format!("{} calls on paths", tally.answers.values().sum::<usize>())
}

/// Stores with points of one plan or of two.
fn stores(tools: &Tools, rng: &mut Rng, count: usize) -> String {
    let mut tally = points::Tally::default();
    for i in 0..count {
        let plan = plans::good(rng, KINDS[i % KINDS.len()]);
        let other = plans::good(rng, if i % 2 == 0 { "small" } else { "single" });
        points::told(tools.any(i), rng, &[&plan, &other, &plan], &mut tally);
    }
    let answers = [("find", 0), ("find", 76), ("find", 77), ("restore", 0), ("restore", 77), ("save", 0), ("save", 78)];
    assert!(answers.iter().all(|answer| tally.0.get(answer).is_some_and(|times| *times > 5)), "{:?}", tally.0);
    let places = points::places(&tools.plain) + points::places(&tools.checked);
    format!("{} calls on stores", tally.0.values().sum::<usize>() + places)
}

/// Nobody reads what is printed: 2, and no signal.
fn unread(tools: &Tools, rng: &mut Rng) {
    let bytes = plans::good(rng, "full").encode();
    for sub in ["show", "check", "text", "dot", "svg"] {
        assert_eq!(tools.plain.unread(&[sub, "-"], &bytes), 2, "{sub}");
    }
    assert_eq!(tools.plain.unread(&["make", "-"], b"modules 1\n"), 2);
    assert_eq!(tools.plain.unread(&["preview", "-", "wake", "0"], &bytes), 2);
    assert_eq!(tools.plain.unread(&["path", "-", "0", "191"], &bytes), 2);
    assert_eq!(tools.plain.unread(&["near", "-", "0", "191"], &bytes), 2);
}

fn main() {
    let args: Vec<String> = std::env::args().skip(1).collect();
    let tool = |i: usize| {
        let path = std::fs::canonicalize(&args[i]).expect("a program");
        Tool::new(path.to_str().unwrap(), &args[3])
    };
    let tools = Tools { plain: tool(0), checked: tool(1), report: tool(2) };
    let count: usize = args[4].parse().expect("a number");
    let mut rng = Rng::new(11);
    let said = [
        plans(&tools, &mut rng, count),
        refused(&tools, &mut rng, count),
        lines(&tools, &mut rng, count / 2),
        schedules(&tools, &mut rng, count / 15),
        shown(&tools, &mut rng, count / 5),
        stores(&tools, &mut rng, count / 5),
        ways(&tools, &mut rng, count / 2),
    ];
    unread(&tools, &mut rng);
    let blank = blank::all(&tools.plain) + blank::all(&tools.checked);
    let runs = tools.plain.runs.get() + tools.checked.runs.get();
    println!("{}, {runs} runs, {blank} of them on the blank plan and beside it", said.join(", "));
}
