//! Fields of the blank plan, drawn and as memory that is all zeros: nobody can send, and no sending left any records.

use crate::calls::{compare_delivery, compare_start};
use crate::muruapy::{Delivered, Record};
use crate::site::{any_records, past, Site};
use crate::tally::Tally;
use oracle::cue::Cue;
use oracle::fields::{marked, spoil};
use oracle::plans;
use oracle::rng::Rng;

pub const FIELDS: usize = 200;

/// No records, or a few: of anything, not heard, or of senders.
fn some_records(rng: &mut Rng) -> Vec<Cue> {
    let count = rng.pick(&[0, 0, 1, 2, 5]);
    match rng.below(3) {
        0 => vec![Cue::UNHEARD; count],
        1 => vec![Cue::of_sender(7); count],
        _ => any_records(rng, count),
    }
}

/// A start is refused by 72 whatever the sender and the records, a delivery by 73 whatever its number. Then with the field
/// changed: both by 31, or the same again.
pub fn fields(rng: &mut Rng, tally: &mut Tally) {
    let refused = |refusal| Delivered { refusal, heard: 0 };
    for _ in 0..FIELDS {
        let mut site = Site::of(marked(rng, &plans::blank()));
        let before = some_records(rng);
        let (mut cues, sender, link) = (before.clone(), past(rng, 0), past(rng, 0));
        assert_eq!(compare_start(rng, tally, &site, &mut cues, sender, 5), 72, "{sender} sends");
        assert_eq!(compare_delivery(rng, tally, &site, &mut cues, link), refused(73), "over {link}");
        assert_eq!(Record::ZEROS.start_cue(&site.words, &mut cues, sender, 5), 72, "{sender} sends, of zeros");
        assert_eq!(Record::ZEROS.deliver_cue(&site.words, &mut cues, link), refused(73), "over {link}, of zeros");
        spoil(rng, &mut site.field, &mut site.words);
        let started = compare_start(rng, tally, &site, &mut cues, sender, 5);
        let delivered = compare_delivery(rng, tally, &site, &mut cues, link).refusal;
        assert!([(31, 31), (72, 73)].contains(&(started, delivered)), "start {started}, delivery {delivered}");
        assert_eq!(cues, before, "a refusal changes nothing");
    }
}
