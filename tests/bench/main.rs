//! The compiled Rattle plan check, tree builder, paths and marks in the tree, rounds, preview of a service, delivery of a cue
//! and finding of a point beside plain Rust, as ratios in one run: the same inputs, both built for release, in turn; and the
//! preview beside the step itself, a path beside the tree alone. A benchmark, not a test. `bench rattle` and `bench rust`
//! make one side's runs of rounds alone, for a profiler, `bench points` and `bench paths` the rows on these alone.

mod cues;
#[path = "../muruapy.rs"]
mod muruapy;
mod paths;
mod plain;
mod points;
mod previews;
mod rounds;

use muruapy::{Delivered, Found, Numbers, Previewed, Record};
use oracle::cue::Cue;
use oracle::field::{self, HAND_OVER, SERVE, WAKE};
use oracle::fields::{drawn, spoil};
use oracle::plans::{connected, good, plan, Readings};
use oracle::preview::MOST_SENDS;
use oracle::rng::Rng;
use std::collections::BTreeSet;
use std::hint::black_box;
use std::time::Instant;

const PLANS: usize = 100;
const REPETITIONS: usize = 201;
const RUNS: usize = 21;
const POINTS: usize = 20;

/// One side of a comparison: microseconds of one call on input i. A call is short beside a time slice, so another
/// process disturbs few of them.
type Side<'a> = &'a mut dyn FnMut(usize) -> f64;

fn micros<T>(call: impl FnOnce() -> T) -> (f64, T) {
    let start = Instant::now();
    let result = black_box(call());
    (start.elapsed().as_secs_f64() * 1e6, result)
}

/// The value that a share of all lies below.
fn quantile(times: &mut [f64], share: f64) -> f64 {
    times.sort_by(f64::total_cmp);
    times[(share * (times.len() - 1) as f64) as usize]
}

/// Times both sides in turn, each call on another plan than the one before: calls on the same plan again and again
/// are quicker, and not alike on both sides. The sides take turns in going first. A plan's time is the median of its
/// repetitions, a side's the mean of its plans' times. The same by the first quartile shows whether the machine was
/// quiet: the two ratios should be alike. Answers both sides' times.
fn row(name: &str, repetitions: usize, rattle: Side, rust: Side) -> (f64, f64) {
    let mut times = vec![[Vec::new(), Vec::new()]; PLANS];
    for repetition in 0..repetitions {
        for (i, [ours, theirs]) in times.iter_mut().enumerate() {
            if repetition % 2 == 0 {
                ours.push(rattle(i));
                theirs.push(rust(i));
            } else {
                theirs.push(rust(i));
                ours.push(rattle(i));
            }
        }
    }
    let mut mean = |side: usize, share: f64| {
        let total: f64 = times.iter_mut().map(|sides| quantile(&mut sides[side], share)).sum();
        total / PLANS as f64
    };
    let (a, b, c, d) = (mean(0, 0.5), mean(1, 0.5), mean(0, 0.25), mean(1, 0.25));
    println!("| {name} | {a:.1} | {b:.1} | {:.2} | {:.2} |", a / b, c / d);
    (a, b)
}

/// A side that works on a plan's bytes and answers 0.
fn on_bytes<'a>(inputs: &'a [Vec<u8>], mut work: impl FnMut(&[u8]) -> u32 + 'a) -> impl FnMut(usize) -> f64 + 'a {
    move |i| {
        let (time, answer) = micros(|| work(black_box(&inputs[i])));
        assert_eq!(answer, 0);
        time
    }
}

/// A plan's bytes read, and its tree: 0 where all is taken.
fn tree_of(bytes: &[u8], out: &mut [u8]) -> u32 {
    let mut numbers = [0; 2402];
    match muruapy::plan_read(bytes, &mut numbers) {
        0 => muruapy::tree(&numbers, out),
        refusal => refusal,
    }
}

/// A field and its words.
type Start = (Record, Vec<u64>);

type Rounds = fn(&mut Record, &mut [u64], u16) -> (usize, u32);

/// The field of a plan's bytes, module 0 awake.
fn woken(rng: &mut Rng, bytes: &[u8]) -> Start {
    let mut words = vec![0; 7920];
    let mut field = field::setup(bytes, &mut words).unwrap();
    field.step(&mut words, WAKE, 0).unwrap();
    (Record::of(&field, rng), words)
}

/// What a run answers and leaves.
fn outcome(start: &Start, limit: u16, run: Rounds) -> ((usize, u32), Start) {
    let (mut record, mut words) = start.clone();
    (run(&mut record, &mut words, limit), (record, words))
}

/// A side that runs rounds from a woken module to rest, the copy of the start not counted.
fn on_fields<'a>(starts: &'a [Start], limit: u16, run: Rounds) -> impl FnMut(usize) -> f64 + 'a {
    move |i| {
        let (mut record, mut words) = starts[i].clone();
        let (time, answer) = micros(|| run(black_box(&mut record), &mut words, limit));
        assert_eq!(answer.1, 0);
        time
    }
}

/// A field on its way to rest, all that waits handed over, with the modules that have something to serve.
fn on_the_way((record, words): &Start) -> (Start, Vec<u16>) {
    let (mut record, mut words) = (record.clone(), words.clone());
    assert_eq!(record.rounds(&mut words, 40), (40, 0));
    for d in 0..1200 {
        while record.step(&mut words, HAND_OVER, d) == 0 {}
    }
    let serves = |v: &u16| record.clone().step(&mut words.clone(), SERVE, *v) == 0;
    let modules: Vec<u16> = (0..192).filter(serves).collect();
    assert!(!modules.is_empty(), "nothing waits after 40 rounds");
    ((record, words), modules)
}

type Shows = fn(&Record, &[u64], u16, &mut [u64], &mut Vec<u64>) -> Previewed;

/// The compiled preview of a service; plain Rust keeps the room for its sends from call to call, which this has no use for.
fn preview(record: &Record, words: &[u64], v: u16, buffer: &mut [u64], _: &mut Vec<u64>) -> Previewed {
    record.preview(words, SERVE, v, buffer)
}

/// A side that previews a service, each time of the next module.
fn on_services<'a>(starts: &'a [(Start, Vec<u16>)], show: Shows) -> impl FnMut(usize) -> f64 + 'a {
    let (mut turn, mut buffer, mut sends) = (0, [0; MOST_SENDS], Vec::new());
    move |i| {
        let ((record, words), modules) = &starts[i];
        turn += 1;
        let v = modules[turn / PLANS % modules.len()];
        let (time, answer) = micros(|| show(black_box(record), words, v, &mut buffer, &mut sends));
        assert_eq!(answer.refusal, 0);
        time
    }
}

/// A side that takes those services, the copy of the field and its words not counted.
fn taking(starts: &[(Start, Vec<u16>)]) -> impl FnMut(usize) -> f64 + '_ {
    let mut turn = 0;
    move |i| {
        let ((record, words), modules) = &starts[i];
        let (mut record, mut words) = (record.clone(), words.clone());
        turn += 1;
        let v = modules[turn / PLANS % modules.len()];
        let (time, answer) = micros(|| black_box(&mut record).step(&mut words, SERVE, v));
        assert_eq!(answer, 0);
        time
    }
}

/// A cue of module 0 on a field at rest, after one delivery over each directed link: some have heard, some have not.
fn under_way((record, words): &Start) -> (Start, Vec<Cue>) {
    let (mut record, mut words) = (record.clone(), words.clone());
    record.rounds(&mut words, 65535);
    let mut cues = vec![Cue::UNHEARD; 192];
    assert_eq!(record.start_cue(&words, &mut cues, 0, 7), 0);
    for d in 0..1200 {
        record.deliver_cue(&words, &mut cues, d);
    }
    ((record, words), cues)
}

type Delivers = fn(&Record, &[u64], &mut [Cue], u16) -> Delivered;

/// A side that delivers over each directed link in turn, call by call, the copy of the records not counted.
fn on_cues<'a>(starts: &'a [(Start, Vec<Cue>)], deliver: Delivers) -> impl FnMut(usize) -> f64 + 'a {
    let mut link = 0;
    move |i| {
        let ((record, words), cues) = &starts[i];
        let mut cues = cues.clone();
        link = (link + 7) % 1200;
        let (time, answer) = micros(|| deliver(black_box(record), words, &mut cues, link));
        assert_eq!(answer.refusal, 0);
        time
    }
}

/// The name of the i-th point of a store.
fn name(i: usize) -> [u8; 2] {
    [b'p', b'a' + i as u8]
}

/// A store of a field's points on its way to rest, seven rounds apart, and some zeros.
fn saved((record, words): &Start) -> Vec<u8> {
    let (mut record, mut words) = (record.clone(), words.clone());
    let mut store = vec![0; POINTS * 20_000];
    for i in 0..POINTS {
        assert_eq!(record.save(&words, &name(i), &mut store), 0);
        record.rounds(&mut words, 7);
    }
    let last = muruapy::find(&store, &name(POINTS - 1));
    store.truncate(last.at + last.size + 1000);
    store
}

/// The compiled find; plain Rust keeps the room for a record from call to call, which this has no use for.
fn find(store: &[u8], name: &[u8], _: &mut points::Room) -> Found {
    muruapy::find(store, name)
}

type Finds = fn(&[u8], &[u8], &mut points::Room) -> Found;

/// A side that finds the last point, for which all of the store is looked at.
fn on_stores(stores: &[Vec<u8>], find: Finds) -> impl FnMut(usize) -> f64 + '_ {
    let mut room = (Record::ZEROS, Vec::new());
    move |i| {
        let (time, found) = micros(|| find(black_box(&stores[i]), &name(POINTS - 1), &mut room));
        assert_eq!(found.refusal, 0);
        time
    }
}

/// Both sides find alike, in the stores that are timed and with a byte of them changed.
fn agree_on_points(stores: &[Vec<u8>]) {
    let (rng, room) = (&mut Rng::new(76), &mut (Record::ZEROS, Vec::new()));
    let mut answers = BTreeSet::new();
    for store in stores {
        let mut changed = store.clone();
        let at = rng.below(store.len());
        changed[at] ^= 1 << rng.below(8);
        let any = name(rng.below(POINTS));
        for (store, name) in [(store, any), (store, name(25)), (&changed, any)] {
            let found = find(store, &name, room);
            assert_eq!(found, points::find(store, &name, room), "both sides find alike");
            answers.insert(found.refusal);
        }
    }
    assert_eq!(Vec::from_iter(answers), [0, 76, 77]);
}

/// Both sides build the same trees and come to the same rounds, cells, marks, sent count and words: on the inputs that
/// are timed, and on made-up fields, whose runs end by refusals too.
fn agree(inputs: &Inputs) {
    for bytes in inputs.wide.iter().chain(&inputs.few) {
        let (mut a, mut b) = ([0; 600], [0; 600]);
        assert_eq!((tree_of(bytes, &mut a), plain::tree(bytes, &mut b)), (0, 0));
        assert_eq!(a, b, "both sides build the same tree");
    }
    let same = |start: &Start, limit: u16| {
        let (rattle, rust) = (outcome(start, limit, Record::rounds), outcome(start, limit, rounds::run));
        assert!(rattle == rust, "both sides come to the same end");
        rattle.0
    };
    for start in inputs.wide_starts.iter().chain(&inputs.few_starts) {
        assert!(matches!(same(start, 65535), (1.., 0)), "a run from a woken module is not refused");
    }
    for ((record, words), _) in &inputs.services {
        for (v, places) in (0..193).flat_map(|v| [0, 1, MOST_SENDS].map(|places| (v, places))) {
            let (mut a, mut b, sends) = (vec![9; places], vec![9; places], &mut Vec::new());
            let answers = (preview(record, words, v, &mut a, sends), previews::serve(record, words, v, &mut b, sends));
            assert!(answers.0 == answers.1 && a == b, "both sides preview alike");
        }
    }
    for start in &inputs.cues {
        let ((record, words), cues) = start;
        for d in 0..1201 {
            let (mut a, mut b) = (cues.clone(), cues.clone());
            let answers = (record.deliver_cue(words, &mut a, d), cues::deliver(record, words, &mut b, d));
            assert!(answers.0 == answers.1 && a == b, "both sides deliver alike");
        }
    }
    let rng = &mut Rng::new(31);
    let mut ends = BTreeSet::new();
    for _ in 0..600 {
        let kind = rng.pick(&["small", "medium", "full", "banks", "wide"]);
        let plan = good(rng, kind);
        let (mut field, mut words) = drawn(rng, &plan);
        if rng.once_in(6) {
            spoil(rng, &mut field, &mut words);
        }
        ends.insert(same(&(Record::of(&field, rng), words), 3).1);
    }
    assert_eq!(Vec::from_iter(ends), [0, 31, 32, 33]);
}

/// The plans' bytes, and the fields with module 0 awake: readings from 0 to 2000, and readings 0 to 2; the former on their
/// way, and at rest with a cue under way.
struct Inputs {
    wide: Vec<Vec<u8>>,
    few: Vec<Vec<u8>>,
    wide_starts: Vec<Start>,
    few_starts: Vec<Start>,
    services: Vec<(Start, Vec<u16>)>,
    cues: Vec<(Start, Vec<Cue>)>,
}

impl Inputs {
    /// The same in each run.
    fn draw() -> Inputs {
        let mut rng = Rng::new(13);
        let mut draw = |readings| {
            let pairs = connected(&mut rng, 192, 600);
            plan(&mut rng, 192, pairs, readings).encode()
        };
        let wide: Vec<Vec<u8>> = (0..PLANS).map(|_| draw(Readings::Wide)).collect();
        let few: Vec<Vec<u8>> = (0..PLANS).map(|_| draw(Readings::Few)).collect();
        let wide_starts: Vec<Start> = wide.iter().map(|bytes| woken(&mut rng, bytes)).collect();
        let few_starts: Vec<Start> = few.iter().map(|bytes| woken(&mut rng, bytes)).collect();
        let services = wide_starts.iter().map(on_the_way).collect();
        let cues = wide_starts.iter().map(under_way).collect();
        Inputs { wide, few, wide_starts, few_starts, services, cues }
    }

    /// The values of the wide plans.
    fn values(&self) -> Vec<Numbers> {
        self.wide_starts.iter().map(|(record, _)| record.plan).collect()
    }

    /// A store of each wide field. The profiler's runs have no use for them.
    fn stores(&self) -> Vec<Vec<u8>> {
        let stores: Vec<Vec<u8>> = self.wide_starts.iter().map(saved).collect();
        agree_on_points(&stores);
        stores
    }
}

/// All of a store checked, for the last of its points.
fn point_row(stores: &[Vec<u8>]) {
    let rattle = &mut on_stores(stores, find);
    row("the last of 20 points found", RUNS, rattle, &mut on_stores(stores, points::find));
}

fn head() {
    println!("{PLANS} plans of 192 modules and 600 links, microseconds a call, medians of {REPETITIONS} calls");
    println!("(of {RUNS} for rounds to rest and for points)\n");
    println!("| work | Rattle | plain Rust | ratio | ratio by first quartiles |");
    println!("|---|---|---|---|---|");
}

fn tables(inputs: &Inputs) {
    head();
    let check = &mut on_bytes(&inputs.wide, plain::check);
    row("check", REPETITIONS, &mut on_bytes(&inputs.wide, muruapy::plan_check), check);
    let (mut a, mut b) = ([0; 600], [0; 600]);
    let mut tree = |name: &str, inputs: &[Vec<u8>]| {
        let rattle = &mut on_bytes(inputs, |bytes| tree_of(bytes, &mut a));
        row(name, REPETITIONS, rattle, &mut on_bytes(inputs, |bytes| plain::tree(bytes, &mut b)));
    };
    tree("check and tree, readings 0 to 2000", &inputs.wide);
    tree("check and tree, many equal costs", &inputs.few);
    let values = inputs.values();
    paths::rows(&values);
    let rounds = |name: &str, starts: &[Start], limit: u16, repetitions: usize| {
        let rattle = &mut on_fields(starts, limit, Record::rounds);
        row(name, repetitions, rattle, &mut on_fields(starts, limit, rounds::run));
    };
    rounds("a run of no round: 31 alone", &inputs.wide_starts, 0, REPETITIONS);
    rounds("rounds to rest, readings 0 to 2000", &inputs.wide_starts, 65535, RUNS);
    rounds("rounds to rest, many equal costs", &inputs.few_starts, 65535, RUNS);
    let rattle = &mut on_services(&inputs.services, preview);
    row("a preview of a service", REPETITIONS, rattle, &mut on_services(&inputs.services, previews::serve));
    let rattle = &mut on_cues(&inputs.cues, Record::deliver_cue);
    row("a delivery of a cue", REPETITIONS, rattle, &mut on_cues(&inputs.cues, cues::deliver));
    point_row(&inputs.stores());
    println!("\n| work | preview | the step itself | ratio | ratio by first quartiles |");
    println!("|---|---|---|---|---|");
    let previews = &mut on_services(&inputs.services, preview);
    row("a service, Rattle", REPETITIONS, previews, &mut taking(&inputs.services));
    paths::beside_the_tree(&values);
}

/// What a run to rest does, on average over the plans: it is taken round by round.
fn work(starts: &[Start]) {
    let (mut rounds, mut waiting, mut sent) = (0, 0, 0);
    for start in starts {
        let (mut record, mut words) = start.clone();
        loop {
            waiting += field::waiting(&words);
            let (done, refusal) = record.rounds(&mut words, 1);
            assert_eq!(refusal, 0);
            if done == 0 {
                break;
            }
            rounds += done;
        }
        sent += record.sent as usize;
    }
    let each = |n: usize| n as f64 / starts.len() as f64;
    println!("\nA run to rest, readings 0 to 2000, mean of {} plans:\n", starts.len());
    println!(
        "| rounds | messages sent | words waiting, mean over rounds | words passed over for 1,200 directed links |"
    );
    println!("|---|---|---|---|");
    let mean = waiting as f64 / rounds as f64;
    println!("| {:.0} | {:.0} | {mean:.0} | {:.2} million |", each(rounds), each(sent), each(1200 * waiting) / 1e6);
}

/// One side's runs to rest, five on each plan, for a sampling profiler.
fn profile(starts: &[Start], run: Rounds) {
    let mut side = on_fields(starts, 65535, run);
    for i in 0..5 * PLANS {
        side(i % PLANS);
    }
}

fn main() {
    let inputs = Inputs::draw();
    match std::env::args().nth(1).as_deref() {
        Some("rattle") => profile(&inputs.wide_starts, Record::rounds),
        Some("rust") => profile(&inputs.wide_starts, rounds::run),
        Some("points") => {
            let stores = inputs.stores();
            head();
            point_row(&stores);
        }
        Some("paths") => paths::alone(&inputs.values()),
        _ => {
            agree(&inputs);
            tables(&inputs);
            work(&inputs.wide_starts);
        }
    }
}
