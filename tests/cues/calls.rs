//! The two calls, each made by the compiled library and by the oracle.

use crate::muruapy::{Delivered, Record};
use crate::site::{any_records, Site};
use crate::tally::Tally;
use oracle::cue::{deliver, start, Cue, Delivery};
use oracle::rng::Rng;

const GUARD: usize = 4;

/// Makes the compiled call, with other records beside the lent ones and anything in the field's unused parts. It must answer
/// and leave what the oracle did, and the words as they were.
fn same<T: PartialEq + std::fmt::Debug>(
    rng: &mut Rng,
    site: &Site,
    [before, after]: [&[Cue]; 2],
    answer: T,
    call: impl Fn(&Record, &[u64], &mut [Cue]) -> T,
) {
    let record = Record::of(&site.field, rng);
    let (field, words) = (record.clone(), site.words.clone());
    let beside = any_records(rng, 2 * GUARD);
    let around = |cues: &[Cue]| [&beside[..GUARD], cues, &beside[GUARD..]].concat();
    let mut lent = around(before);
    let got = call(&field, &words, &mut lent[GUARD..GUARD + before.len()]);
    assert_eq!(got, answer, "the answer, for {:?} and records {before:?}", site.field);
    assert_eq!(lent, around(after), "the records, or those beside them, after {:?}", site.field);
    assert!(field == record && words == site.words, "the field or its words are written");
}

/// One start on both sides; the oracle's outcome goes on.
pub fn compare_start(rng: &mut Rng, tally: &mut Tally, site: &Site, cues: &mut Vec<Cue>, sender: u16, cue: u16) -> u32 {
    let mut after = cues.clone();
    let answer = start(&site.field, &site.words, &mut after, sender, cue).err().unwrap_or(0);
    assert!(answer == 0 || after == *cues, "a refusal changes nothing");
    same(rng, site, [&cues[..], &after], answer, |field, words, cues| field.start_cue(words, cues, sender, cue));
    tally.start(&site.field, answer);
    *cues = after;
    answer
}

/// One delivery on both sides; the oracle's outcome goes on.
pub fn compare_delivery(rng: &mut Rng, tally: &mut Tally, site: &Site, cues: &mut Vec<Cue>, link: u16) -> Delivered {
    let mut after = cues.clone();
    let outcome = deliver(&site.field, &site.words, &mut after, link);
    let refusal = outcome.err().unwrap_or(0);
    if cues.len() >= site.modules() && ![31, 71].contains(&refusal) {
        assert_eq!(refusal == 73, !site.broken(cues).is_empty(), "73 as its items say: {:?}", site.broken(cues));
    }
    let answer = Delivered { refusal, heard: (outcome == Ok(Delivery::Heard)) as u32 };
    assert!(answer.heard == 1 || after == *cues, "a refusal, or idle, changes nothing");
    same(rng, site, [&cues[..], &after], answer, |field, words, cues| field.deliver_cue(words, cues, link));
    tally.delivery(&site.field, &site.tree, cues, link, outcome);
    *cues = after;
    answer
}
