//! Compares the compiled preview of a step with the oracle, and with the step itself: steps of runs from setup, each
//! previewed before it is taken; steps on fields that a host may make up, most of which no run reaches; fields that are
//! damaged, each item of 31 by itself; sent counts about the ceiling; every set of faults at once; a module of many
//! links, up to the largest number of messages; fields of the blank plan. Each is made with an empty buffer, one that is
//! just long enough, a longer one, and shorter ones. Answer and buffer must be the same, field and words stay. Prints
//! counts, or panics at the first difference.

mod calls;
#[path = "../counts.rs"]
mod counts;
mod faults;
#[path = "../fields/items.rs"]
mod items;
#[path = "../muruapy.rs"]
mod muruapy;
mod tally;

use calls::{compare, Site};
use faults::{ceilings, items_alone, orders, ALONE, CEILINGS};
use muruapy::{Previewed, Record};
use oracle::field::{setup_value, waiting, Word, SERVE};
use oracle::fields::{drawn, good_step, some_field, some_step, spoil, BLANK_NUMBERS, BLANK_STEPS};
use oracle::frame::Message;
use oracle::plans::{self, Readings};
use oracle::rng::Rng;
use oracle::rules::{ASLEEP, BASIC, BRANCH, FOUND, REJECTED};
use oracle::schedule::Step;
use tally::Tally;

const RUNS: usize = 140;
const LONGEST: usize = 150;
const VALID: usize = 2500;
const STEPS: usize = 3;
const SPOILT: usize = 1500;
const HUBS: usize = 160;
const BLANK: usize = 100;

/// Steps from setup on, of which most are taken, to rest or so many. How many they were.
fn run(rng: &mut Rng, tally: &mut Tally, kind: &str) -> usize {
    let plan = plans::good(rng, kind);
    if plan.lowest_modules().len() > 1 {
        tally.count("runs: in several parts");
    }
    let mut words = vec![7; plan.ceiling() as usize + rng.below(3)];
    let mut site = Site { field: setup_value(plan, &mut words).expect("a good plan"), words };
    for steps in 0..LONGEST {
        let asleep = site.field.modules.iter().any(|m| m.status == ASLEEP);
        if waiting(&site.words) == 0 && !asleep {
            tally.count("from setup: at rest");
            return steps;
        }
        let draw = if rng.once_in(4) { some_step } else { good_step };
        let step = draw(rng, &site.field, &site.words);
        let refusal = compare(rng, tally, &mut site, step);
        assert!(![31, 32, 33].contains(&refusal), "{refusal} from setup");
        tally.count(format!("from setup: {refusal}"));
    }
    LONGEST
}

/// Fields that a host may make up, each with steps one after the other.
fn valid_fields(rng: &mut Rng, tally: &mut Tally) {
    for _ in 0..VALID {
        let mut site = Site::of(some_field(rng));
        for _ in 0..STEPS {
            let draw = if rng.once_in(2) { some_step } else { good_step };
            let step = draw(rng, &site.field, &site.words);
            assert_ne!(compare(rng, tally, &mut site, step), 31, "a drawn field is valid");
        }
    }
}

/// Fields with one value changed at random.
fn spoilt_fields(rng: &mut Rng, tally: &mut Tally) {
    for _ in 0..SPOILT {
        let mut site = Site::of(some_field(rng));
        let step = some_step(rng, &site.field, &site.words);
        spoil(rng, &mut site.field, &mut site.words);
        compare(rng, tally, &mut site, step);
    }
}

/// A module of n - 1 links, all of them branches but some, takes an Initiate over a link with this mark: copies go on
/// all other branches, and by Find a Test on a link that is still Basic.
fn hub(rng: &mut Rng, tally: &mut Tally, n: u16, own: u8, others: &[u8]) {
    let centre = rng.below(n as usize) as u16;
    let plan = plans::plan(rng, n, plans::star(n, centre), Readings::Wide);
    let mut words = vec![0; plan.ceiling() as usize];
    let mut field = setup_value(plan, &mut words).expect("a good plan");
    let links = field.plan.links.len();
    let side: Vec<usize> = field.plan.links.iter().map(|link| (link.lower != centre) as usize).collect();
    (0..links).for_each(|k| field.marks[k][side[k]] = BRANCH);
    let j = rng.below(links);
    for mark in others {
        let k = rng.below(links);
        field.marks[k][side[k]] = *mark;
    }
    field.marks[j][side[j]] = own;
    let level = rng.range(1, field.plan.top_level() as usize) as u16;
    let message = Message::initiate(level, rng.below(links) as u16, others.is_empty() || !rng.once_in(4));
    words[0] = Word { message, directed: (2 * j + 1 - side[j]) as u16, handed: true }.pack();
    field.modules[centre as usize].status = FOUND;
    field.sent = field.plan.ceiling() - (links as u32 - (own != BASIC) as u32).max(1);
    let step = Step { kind: SERVE, number: centre };
    assert_eq!(compare(rng, tally, &mut Site { field, words }, step), 0);
}

/// The largest count, by copies and a Test back over the Initiate's own link, as a host may mark it; one less by copies
/// alone, and by a copy fewer and a Test; then any.
fn hubs(rng: &mut Rng, tally: &mut Tally) {
    for case in 0..HUBS {
        let some: Vec<u8> = (0..rng.below(60)).map(|_| rng.pick(&[BASIC, BRANCH, REJECTED])).collect();
        match case % 8 {
            0 => hub(rng, tally, 192, BRANCH, &[]),
            1 => hub(rng, tally, 192, BRANCH, &[BASIC]),
            2 => hub(rng, tally, 192, BASIC, &[]),
            _ => {
                let n = rng.range(2, 192) as u16;
                hub(rng, tally, n, BRANCH, &some)
            }
        }
    }
}

/// Fields of the blank plan, with words and without, and memory that is all zeros, which is one. No step is taken.
fn blank_fields(rng: &mut Rng, tally: &mut Tally) {
    for _ in 0..BLANK {
        let mut site = Site::of(drawn(rng, &plans::blank()));
        for (kind, refusal) in BLANK_STEPS {
            let step = Step { kind, number: rng.pick(&BLANK_NUMBERS) };
            assert_eq!(compare(rng, tally, &mut site, step), refusal, "{step:?}");
            let shown = Record::ZEROS.preview(&site.words, kind, step.number, &mut []);
            assert_eq!(shown, Previewed { refusal, count: 0 }, "{step:?} of zeros");
        }
        site.field.sent = rng.pick(&[1, 2, 65536]);
        let step = some_step(rng, &site.field, &site.words);
        assert_eq!(compare(rng, tally, &mut site, step), 31, "a sent count above 0");
    }
}

fn main() {
    let mut rng = Rng::new(75);
    let mut tally = Tally::default();
    // in a blank plan no run has a step
    let kinds = plans::kinds_without(&["blank"]);
    let from_setup: usize = (0..RUNS).map(|i| run(&mut rng, &mut tally, kinds[i % kinds.len()])).sum();
    valid_fields(&mut rng, &mut tally);
    spoilt_fields(&mut rng, &mut tally);
    items_alone(&mut rng, &mut tally);
    ceilings(&mut rng, &mut tally);
    let faulty = orders(&mut rng, &mut tally);
    hubs(&mut rng, &mut tally);
    blank_fields(&mut rng, &mut tally);
    let blank = BLANK * (BLANK_STEPS.len() + 1);
    let made_up = VALID * STEPS + SPOILT + ALONE * items::WAYS.len() + 3 * CEILINGS + faulty + HUBS + blank;
    println!("previews: {} steps agree, {from_setup} of them in {RUNS} runs from setup", from_setup + made_up);
    tally.report();
}
