//! `replay` in words, worked out once more from the oracle's steps.

use oracle::field::{setup_value, waiting, Done, Field, Word, HAND_OVER, SERVE, WAKE};
use oracle::frame::{CONNECT, INITIATE, NAMES, REPORT, TEST};
use oracle::plan::{Plan, NONE};
use oracle::rules::Module;
use oracle::schedule::Step;

const MARKS: [&str; 3] = ["Basic", "Branch", "Rejected"];
pub const STEPS: [&str; 4] = ["", "wake", "hand over", "serve"];

pub fn word(field: &Field, word: u64) -> Word {
    Word::unpack(word, field.plan.links.len() as u16).expect("a waiting word")
}

pub fn message(w: &Word) -> String {
    let (m, name) = (&w.message, NAMES[w.message.kind as usize]);
    match m.kind {
        CONNECT => format!("{name} level {}", m.level),
        INITIATE => {
            format!("{name} level {} identity {} {}", m.level, m.carried, if m.find { "Find" } else { "Found" })
        }
        TEST => format!("{name} level {} identity {}", m.level, m.carried),
        REPORT if m.carried == NONE => format!("{name} none"),
        REPORT => format!("{name} link {}", m.carried),
        _ => name.into(),
    }
}

/// Why a message waits, in the three forms.
fn put_back(field: &Field, w: &Word) -> String {
    let (v, u, level) = (field.target(w.directed), field.source(w.directed), w.message.level);
    match w.message.kind {
        CONNECT => format!("module {v} holds Connect level {level} from module {u}: link still basic"),
        TEST => {
            let own = field.modules[v as usize].level;
            format!("module {v} holds Test level {level} from module {u}: own level {own}")
        }
        _ => format!("module {v} holds Report from module {u}: still finding"),
    }
}

/// What module v did in a step that sent the words.
fn effects(was: &Field, now: &Field, v: u16, done: &Done, sent: &[u64]) -> String {
    let mut said = Vec::new();
    if done.woke {
        said.push("wakes".into());
    }
    for ((k, new), (_, old)) in now.own_marks(v).into_iter().zip(was.own_marks(v)) {
        if new != old {
            said.push(format!("marks link {k} {}", MARKS[new as usize]));
        }
    }
    for (i, w) in sent.iter().map(|w| word(now, *w)).enumerate() {
        let verb = if i == 0 { "sends " } else { "" };
        said.push(format!("{verb}{} to module {}", message(&w), now.target(w.directed)));
    }
    if was.modules[v as usize].halted != now.modules[v as usize].halted {
        said.push("halts".into());
    }
    if said.is_empty() {
        "sends nothing".into()
    } else {
        said.join(", ")
    }
}

/// The part of a step's line behind its name.
fn outcome(was: &Field, before: &[u64], now: &Field, words: &[u64], step: Step, done: &Done) -> String {
    let (number, count) = (step.number, waiting(words));
    let behind = count - done.put_back as usize;
    let acts = || effects(was, now, number, done, &words[behind - done.sends..behind]);
    match (step.kind, &done.served) {
        (WAKE, _) => format!("module {number} {}", acts()),
        (HAND_OVER, _) => {
            let mut all = before.iter().map(|w| word(was, *w));
            let first = all.find(|w| w.directed == number && !w.handed).unwrap();
            format!("{} from module {} to module {}", message(&first), was.source(number), was.target(number))
        }
        (SERVE, Some(w)) if done.put_back && done.woke => format!("{}; it {}", put_back(now, w), acts()),
        (SERVE, Some(w)) if done.put_back => put_back(now, w),
        (SERVE, Some(w)) => {
            format!("module {number} takes {} from module {}: {}", message(w), was.source(w.directed), acts())
        }
        _ => unreachable!(),
    }
}

fn module(field: &Field, v: u16) -> String {
    let m: Module = field.modules[v as usize];
    let link = |k: u16| if k == NONE { "none".into() } else { k.to_string() };
    let mut line = format!("module {v}: {}", ["asleep", "Find", "Found"][m.status as usize]);
    if m.status != 0 {
        line += &format!(", level {}, identity {}, best weight {}", m.level, link(m.identity), link(m.best_weight));
        line += &format!(", best edge {}, test edge {}", link(m.best_edge), link(m.test_edge));
        line += &format!(", in-branch {}, find-count {}", link(m.in_branch), m.find_count);
        line += if m.halted == 1 { ", halted" } else { "" };
        line += &format!(", waking link {}", link(m.waking));
    }
    let other = |k: u16| {
        let link = field.plan.links[k as usize];
        if link.lower == v {
            link.higher
        } else {
            link.lower
        }
    };
    let mark = |(k, mark): (u16, u8)| format!("link {k} to module {} {}", other(k), MARKS[mark as usize]);
    let marks: Vec<String> = field.own_marks(v).into_iter().map(mark).collect();
    let sign = if marks.is_empty() { "" } else { "; " };
    format!("{line}{sign}{}\n", marks.join(", "))
}

/// The lines of the field behind the steps.
fn field_lines(field: &Field, words: &[u64]) -> String {
    let mut out: String = (0..field.plan.modules).map(|v| module(field, v)).collect();
    let count = waiting(words);
    for w in words[..count].iter().map(|w| word(field, *w)) {
        let ends = format!("from module {} to module {}", field.source(w.directed), field.target(w.directed));
        let place = if w.handed { "handed over" } else { "in the air" };
        out += &format!("waiting: {} {ends}, {place}\n", message(&w));
    }
    out + &messages(field, words)
}

/// The line on what waits and was sent.
pub fn messages(field: &Field, words: &[u64]) -> String {
    let count = waiting(words);
    let rest = if count == 0 { ", at rest" } else { "" };
    format!("{count} waiting, {} messages sent of {} at most{rest}\n", field.sent, field.plan.ceiling())
}

/// What `replay` has to print, up to a refused step's sentence; that step's refusal; the field and words that are left.
pub struct Replayed {
    pub steps: String,
    pub refusal: Option<u32>,
    pub lines: String,
    pub field: Field,
    pub words: Vec<u64>,
}

/// The schedules with their names, one after the other, from setup.
pub fn replay(plan: &Plan, schedules: &[(String, Vec<Step>)]) -> Replayed {
    let mut words = vec![0; plan.ceiling() as usize];
    let field = setup_value(plan.clone(), &mut words).expect("the plan is good");
    go_on(field, words, schedules)
}

/// The same from any field.
pub fn go_on(mut field: Field, mut words: Vec<u64>, schedules: &[(String, Vec<Step>)]) -> Replayed {
    let (mut told, mut refusal) = (String::new(), None);
    let each = schedules.iter().flat_map(|(name, steps)| steps.iter().enumerate().map(move |(at, s)| (name, at, s)));
    for (i, (name, at, step)) in each.enumerate() {
        let (was, before) = (field.clone(), words[..waiting(&words)].to_vec());
        let which = format!("{} {}", STEPS[step.kind as usize], step.number);
        match field.take(&mut words, step.kind, step.number) {
            Ok(done) => {
                let what = outcome(&was, &before, &field, &words, *step, &done);
                told += &format!("step {}: {which}: {what}\n", i + 1);
            }
            Err(number) => {
                told += &format!("step {} (step {} of {name}): {which}: refused {number}: ", i + 1, at + 1);
                refusal = Some(number);
                break;
            }
        }
    }
    Replayed { steps: told, refusal, lines: field_lines(&field, &words), field, words }
}
