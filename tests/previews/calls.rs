//! A preview, made by the compiled library and by the oracle with buffers of several sizes; then the step itself, which it
//! is held against.

use crate::muruapy::{Previewed, Record};
use crate::tally::Tally;
use oracle::field::{waiting, Done, Field, HAND_OVER, SERVE};
use oracle::plans;
use oracle::preview::{preview, MOST_SENDS};
use oracle::rng::Rng;
use oracle::schedule::Step;

const HANDED: u64 = 1 << 40;
const GUARD: usize = 4;

/// A field with its words, however made.
#[derive(Clone)]
pub struct Site {
    pub field: Field,
    pub words: Vec<u64>,
}

impl Site {
    pub fn of((field, words): (Field, Vec<u64>)) -> Site {
        Site { field, words }
    }

    /// The step by the oracle, and what it leaves.
    pub fn after(&self, step: Step) -> (Result<Done, u32>, Site) {
        let mut site = self.clone();
        (site.field.step(&mut site.words, step.kind, step.number), site)
    }

    /// The place of the word that a step takes, if it takes one.
    fn taken(&self, step: Step) -> Option<usize> {
        let directed = |word: u64| (word >> 24) as u16;
        self.words.iter().position(|word| match step.kind {
            HAND_OVER => word & HANDED == 0 && directed(*word) == step.number,
            SERVE => word & HANDED != 0 && self.field.target(directed(*word)) == step.number,
            _ => false,
        })
    }

    /// What waited before without the word that it took, then the previewed words, then the word handed over or put
    /// back.
    fn foretold(&self, step: Step, shown: &[u64], put_back: bool) -> Vec<u64> {
        let mut words = self.words[..waiting(&self.words)].to_vec();
        let word = self.taken(step).map(|at| words.remove(at));
        words.extend(shown);
        match word {
            Some(word) if step.kind == HAND_OVER => words.push(word | HANDED),
            Some(word) if put_back => words.push(word),
            _ => {}
        }
        words
    }
}

/// What a lent buffer may hold: anything, zeros, words like those that wait.
fn rubbish(rng: &mut Rng, site: &Site) -> u64 {
    match rng.below(4) {
        0 => 0,
        1 if !site.words.is_empty() => rng.pick(&site.words),
        2 => 1 << 41 | rng.next() >> 24,
        _ => rng.next(),
    }
}

/// No place, just enough, more; and fewer than enough: one, and some.
fn places(rng: &mut Rng, sends: usize) -> Vec<usize> {
    let mut all = vec![0, sends + rng.range(1, 4)];
    if sends > 0 {
        all.push(sends);
    }
    if sends > 1 {
        all.extend([sends - 1, rng.below(sends)]);
    }
    if rng.once_in(8) {
        all.push(rng.pick(&[MOST_SENDS - 1, MOST_SENDS, 600, 7920]));
    }
    all
}

/// One preview on both sides, with other words beside the buffer. Answer and buffer must be the same; field and words must
/// stay. What is then at the front of the buffer.
fn compare_one(rng: &mut Rng, site: &Site, record: &Record, step: Step, places: usize) -> (Previewed, Vec<u64>) {
    let lent = GUARD..GUARD + places;
    let before: Vec<u64> = (0..places + 2 * GUARD).map(|_| rubbish(rng, site)).collect();
    let mut expected = before.clone();
    let outcome = preview(&site.field, &site.words, step.kind, step.number, &mut expected[lent.clone()]);
    assert!(outcome.is_ok() || expected == before, "a refusal writes nothing");
    let answer = Previewed { refusal: outcome.err().unwrap_or(0), count: outcome.unwrap_or(0) as u32 };

    let (field, words, mut buffer) = (record.clone(), site.words.clone(), before);
    let got = field.preview(&words, step.kind, step.number, &mut buffer[lent.clone()]);
    assert_eq!(got, answer, "{step:?}, {places} places, {:?} and words {:x?}", site.field, site.words);
    assert!(buffer == expected, "{step:?}: the buffer is {buffer:x?}, not {expected:x?}, for {:?}", site.field);
    assert!(field == *record && words == site.words, "{step:?}: the field or its words are written");
    (got, buffer[lent][..got.count as usize].to_vec())
}

/// The step itself, by the library: it does what the preview said, where there was room enough.
fn compare_step(site: &Site, record: &Record, step: Step, said: &(Previewed, Vec<u64>), after: &Site, put_back: bool) {
    let (mut field, mut words) = (record.clone(), site.words.clone());
    let refusal = field.step(&mut words, step.kind, step.number);
    assert_eq!(refusal, said.0.refusal, "{step:?}: the step answers something else, for {:?}", site.field);
    let mut expected = record.clone();
    expected.put(&after.field);
    assert!(field == expected && words == after.words, "{step:?}: the step leaves something else");
    if refusal == 0 {
        assert_eq!(field.sent - record.sent, said.0.count, "{step:?}: the sent count");
        let mut foretold = site.foretold(step, &said.1, put_back);
        foretold.resize(words.len(), 0);
        assert_eq!(words, foretold, "{step:?}: other words wait");
    }
}

/// A step previewed with each kind of buffer, then taken. The oracle's outcome goes on; the step's refusal, or 0.
pub fn compare(rng: &mut Rng, tally: &mut Tally, site: &mut Site, step: Step) -> u32 {
    let record = Record::of(&site.field, rng);
    let (outcome, after) = site.after(step);
    let sends = outcome.map_or(0, |done| done.sends);
    let mut enough = None;
    for places in places(rng, sends) {
        let said = compare_one(rng, site, &record, step, places);
        let refusal = if places < sends { 75 } else { outcome.err().unwrap_or(0) };
        assert_eq!(said.0.refusal, refusal, "{step:?}: 75 exactly where the places are too few");
        if site.field.plan == plans::blank() {
            tally.count(format!("blank plan: {refusal}"));
        } else {
            tally.preview(said.0, outcome.is_ok(), sends, places);
        }
        if places >= sends {
            enough = Some(said);
        }
    }
    let put_back = outcome.is_ok_and(|done| done.put_back);
    compare_step(site, &record, step, &enough.expect("as many places as it sends"), &after, put_back);
    tally.step(step, outcome);
    *site = after;
    outcome.err().unwrap_or(0)
}
