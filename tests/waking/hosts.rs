//! Waking links in fields that a host may make up: a sleeper's service, taken and refused; circles, which 31 lets pass; and
//! the values that 31 covers, in every call.

use crate::muruapy::{Delivered, Previewed, Record};
use crate::site::waking_links;
use crate::tally::Tally;
use oracle::cue::{other_end, Cue};
use oracle::field::{waiting, Field, Word, SERVE};
use oracle::fields::{drawn, good_step, marked, some_field};
use oracle::frame::{Message, CONNECT, INITIATE, NAMES, REPORT, TEST};
use oracle::plan::NONE;
use oracle::plans;
use oracle::preview::MOST_SENDS;
use oracle::rng::Rng;
use oracle::rules::{ASLEEP, FIND, FOUND};
use oracle::schedule::{encode, Step};

const SERVICES: usize = 60;
const CIRCLES: usize = 300;
const REFUSED: usize = 60;
pub const FIELDS: usize = 7 * 3 * SERVICES + CIRCLES + REFUSED * WAYS.len();

fn message(rng: &mut Rng, field: &Field, kind: u8) -> Message {
    let (link, top) = (rng.below(field.plan.links.len()) as u16, field.plan.top_level() as usize);
    match kind {
        CONNECT => Message::connect(rng.range(0, top) as u16),
        INITIATE => Message::initiate(rng.range(1, top) as u16, link, rng.once_in(2)),
        TEST => Message::test(rng.range(1, top) as u16, link),
        REPORT => Message::report(rng.pick(&[link, NONE])),
        _ => Message::bare(kind),
    }
}

/// A drawn field in which the module that this word leads to sleeps, and has it first in its queue; so many messages may
/// still be sent.
fn sleeper(rng: &mut Rng, kind: u8, left: u32) -> (Field, Vec<u64>, Word) {
    loop {
        let (mut field, mut words) = some_field(rng);
        let (most, links) = (field.plan.ceiling(), field.plan.links.len());
        let room = words.len();
        words.truncate(waiting(&words));
        if links == 0 || words.len() as u32 + 1 + left > most {
            continue;
        }
        let word = Word { message: message(rng, &field, kind), directed: rng.below(2 * links) as u16, handed: true };
        let v = field.target(word.directed);
        words.retain(|w| field.target((w >> 24) as u16) != v);
        words.insert(rng.below(words.len() + 1), word.pack());
        words.resize(room, 0);
        let module = &mut field.modules[v as usize];
        (module.status, module.waking) = (ASLEEP, NONE);
        field.sent = most - left;
        return (field, words, word);
    }
}

/// The service of a sleeper, given alone, as a schedule, and shown: the whole record and all words are the oracle's. Taken,
/// its waking link is the message's and no other changes; refused, everything stays.
fn service(rng: &mut Rng, tally: &mut Tally, kind: u8, left: u32) {
    let (field, words, word) = sleeper(rng, kind, left);
    let step = Step { kind: SERVE, number: field.target(word.directed) };
    let (mut after, mut words_after) = (field.clone(), words.clone());
    let outcome = after.step(&mut words_after, step.kind, step.number);
    let refusal = outcome.err().unwrap_or(0);
    let before = Record::of(&field, rng);
    let mut expected = before.clone();
    expected.put(&after);
    assert!(refusal == 0 || expected == before && words_after == words, "a refusal changes nothing");

    let shown = before.preview(&words, step.kind, step.number, &mut [0; MOST_SENDS]);
    let count = outcome.map_or(0, |done| done.sends as u32);
    assert_eq!(shown, Previewed { refusal, count }, "the preview of {word:?} at a sleeper");
    let (mut alone, mut lent) = (before.clone(), words.clone());
    assert_eq!(alone.step(&mut lent, step.kind, step.number), refusal, "{word:?} at a sleeper");
    assert!(alone == expected && lent == words_after, "what {word:?} at a sleeper leaves");
    let (mut run, mut lent) = (before.clone(), words);
    assert_eq!(run.run(&mut lent, &encode(&[step])), ((refusal == 0) as usize, refusal), "{word:?} in a schedule");
    assert!(run == expected && lent == words_after, "what {word:?} leaves in a schedule");

    let mut links = waking_links(&before);
    links[step.number as usize] = if refusal == 0 { word.directed / 2 } else { NONE };
    assert_eq!(waking_links(&alone), links, "the waking links after {word:?} at a sleeper");
    let how = match outcome {
        Ok(done) if done.put_back => "put back".to_string(),
        Ok(_) => "taken".to_string(),
        Err(refusal) => refusal.to_string(),
    };
    tally.count(format!("sleeper: {} {how}", NAMES[kind as usize]));
}

/// Each kind of message at a sleeper, with no room for what it would send, with little and with more.
pub fn services(rng: &mut Rng, tally: &mut Tally) {
    for kind in 1..=7 {
        for left in 0..3 {
            (0..SERVICES).for_each(|_| service(rng, tally, kind, left));
        }
    }
}

/// How many modules the circle has that the links from module 0 on lead into.
fn circle_length(field: &Field) -> usize {
    let mut way = vec![0];
    loop {
        let at = way[way.len() - 1];
        let next = other_end(field, at, field.modules[at as usize].waking).expect("an own link");
        if let Some(back) = way.iter().position(|v| *v == next) {
            return way.len() - back;
        }
        way.push(next);
    }
}

/// Everybody awake and each with an own link, so that the links run in circles: 31 lets it pass. In every other one they
/// run around a ring.
pub fn circles(rng: &mut Rng, tally: &mut Tally) {
    for i in 0..CIRCLES {
        let kind = if i % 2 == 0 { "ring" } else { rng.pick(&["path", "star", "ring", "complete", "small", "tree"]) };
        let plan = plans::good(rng, kind);
        let (mut field, words) = drawn(rng, &plan);
        for v in 0..plan.modules {
            let own = plan.own_links(v);
            let next = (v + 1) % plan.modules;
            let along = own.iter().copied().find(|k| plan.own_links(next).contains(k)).filter(|_| i % 2 == 0);
            let module = &mut field.modules[v as usize];
            module.status = rng.pick(&[FIND, FOUND]);
            module.waking = along.unwrap_or_else(|| rng.pick(&own));
        }
        let step = good_step(rng, &field, &words);
        let mut record = Record::of(&field, rng);
        assert_eq!((field.check(&words), record.check(&words)), (Ok(()), 0), "a circle: {field:?}");
        let (mut expected, mut after, mut words_after) = (record.clone(), field.clone(), words.clone());
        let refusal = after.step(&mut words_after, step.kind, step.number).err().unwrap_or(0);
        expected.put(&after);
        let mut lent = words;
        assert_eq!(record.step(&mut lent, step.kind, step.number), refusal, "{step:?} with a circle: {field:?}");
        assert!(record == expected && lent == words_after, "what {step:?} leaves with a circle: {field:?}");
        tally.count(if circle_length(&field) == 2 { "circle of 2 modules" } else { "circle of 3 modules or more" });
    }
}

/// A way to spoil a waking link: asleep or awake; which link, of the module's own links, of the other ones and of L.
type Way = (&'static str, bool, fn(&mut Rng, &[u16], &[u16], u16) -> Option<u16>);

const WAYS: [Way; 5] = [
    ("awake, not below L", false, |rng, _, _, l| Some(rng.pick(&[l, l + 1, 600, 65534]).max(l))),
    ("awake, another module's", false, |rng, _, others, _| (!others.is_empty()).then(|| rng.pick(others))),
    ("asleep, an own link", true, |rng, own, _, _| (!own.is_empty()).then(|| rng.pick(own))),
    ("asleep, another module's", true, |rng, _, others, _| (!others.is_empty()).then(|| rng.pick(others))),
    ("asleep, not below L", true, |rng, _, _, l| Some(rng.pick(&[l, l + 1, 600, 65534]).max(l))),
];

/// A field that is marked with its tree, sound but for one module's waking link; none where the plan has no such link.
fn spoilt(rng: &mut Rng, (way, asleep, link): Way) -> Option<(Field, Vec<u64>)> {
    let kind =
        rng.pick(&["single", "path", "star", "ring", "complete", "small", "small", "medium", "banks", "islands"]);
    let plan = plans::good(rng, kind);
    let (mut field, words) = marked(rng, &plan);
    let v = rng.below(plan.modules as usize) as u16;
    let (own, l) = (plan.own_links(v), plan.links.len() as u16);
    let others: Vec<u16> = (0..l).filter(|k| !own.contains(k)).collect();
    let link = link(rng, &own, &others, l)?;
    let module = &mut field.modules[v as usize];
    (module.status, module.waking) = (if asleep { ASLEEP } else { rng.pick(&[FIND, FOUND]) }, NONE);
    assert_eq!((field.check(&words), Record::of(&field, rng).check(&words)), (Ok(()), 0), "sound before {way}");
    field.modules[v as usize].waking = link;
    assert_eq!(field.check(&words), Err(31), "{way}");
    Some((field, words))
}

/// Each way in every call that takes a field: 31, and all that is lent stays.
pub fn refused_values(rng: &mut Rng, tally: &mut Tally) {
    for way in WAYS {
        let mut cases = 0;
        while cases < REFUSED {
            let Some((field, words)) = spoilt(rng, way) else { continue };
            every_call(rng, way.0, &field, &words);
            tally.count(format!("31: {}", way.0));
            cases += 1;
        }
    }
}

fn every_call(rng: &mut Rng, way: &str, field: &Field, words: &[u64]) {
    let before = Record::of(field, rng);
    let step = good_step(rng, field, words);
    let (mut record, mut lent) = (before.clone(), words.to_vec());
    assert_eq!(record.check(&lent), 31, "31 by itself: {way}");
    assert_eq!(record.step(&mut lent, step.kind, step.number), 31, "a step: {way}");
    assert_eq!(record.run(&mut lent, &encode(&[step])), (0, 31), "a schedule: {way}");
    assert_eq!(record.rounds(&mut lent, 65535), (0, 31), "rounds: {way}");
    let mut buffer = [9; 3];
    let shown = record.preview(&lent, step.kind, step.number, &mut buffer);
    assert_eq!((shown, buffer), (Previewed { refusal: 31, count: 0 }, [9; 3]), "a preview: {way}");
    let n = field.modules.len();
    let cues = vec![Cue::of_sender(7); n];
    let mut lent_cues = cues.clone();
    assert_eq!(record.start_cue(&lent, &mut lent_cues, rng.below(n) as u16, 7), 31, "a start: {way}");
    let delivered = record.deliver_cue(&lent, &mut lent_cues, 0);
    assert_eq!(delivered, Delivered { refusal: 31, heard: 0 }, "a delivery: {way}");
    assert!(record == before && lent == words && lent_cues == cues, "31 changes nothing: {way}");
}
