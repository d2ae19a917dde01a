//! Compares saving, finding and restoring of named points by the compiled library with the oracle: rehearsals from setup
//! that are saved, gone on with and come back to; fields that a host may make up, valid, spoilt, and each item of 31 alone
//! broken, as a field and as a record; stores damaged in each known way, by one byte anywhere, cut short; lengths at which a
//! record just fits; every set of faults at once; the blank plan, the longest record, and the request's own samples. Answer,
//! store, words and field must be the same, and what lies beside them. Prints counts, or panics at the first difference.

mod calls;
#[path = "../counts.rs"]
mod counts;
mod damages;
mod draws;
mod hosts;
#[path = "../fields/items.rs"]
mod items;
#[path = "../muruapy.rs"]
mod muruapy;
mod rehearsals;
mod samples;
mod stores;
mod tally;
mod vectors;

use draws::small_site;
use oracle::rng::Rng;
use tally::Tally;

fn main() {
    let mut rng = Rng::new(76);
    let mut tally = Tally::default();
    samples::samples();
    rehearsals::rehearsals(&mut rng, &mut tally);
    hosts::made_up(&mut rng, &mut tally);
    hosts::spoilt(&mut rng, &mut tally);
    hosts::items_alone(&mut rng, &mut tally);
    hosts::blank(&mut rng, &mut tally);
    hosts::longest(&mut rng, &mut tally);
    let damaged = damages::damages(&mut rng, &mut tally);
    stores::changed(&mut rng, &mut tally);
    stores::rooms(&mut rng, &mut tally);
    let faulty = stores::orders(&mut rng, &mut tally);
    let site = small_site(&mut rng);
    stores::empty(&mut rng, &mut tally, &site);
    println!(
        "points: {} rehearsals, {} made-up fields, {} damaged stores, {} with one byte changed, {faulty} calls with faults \
         agree",
        rehearsals::REHEARSALS,
        hosts::MADE_UP + hosts::SPOILT + hosts::ALONE * items::WAYS.len(),
        damaged,
        stores::CHANGED,
    );
    tally.report();
}
