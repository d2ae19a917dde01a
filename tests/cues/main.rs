//! Compares the compiled start and delivery of cues with the oracle: cues that go through drawn fields in drawn orders, to
//! the end and beyond, several on the same records; records in which one item of 73 alone is broken; marks and fields that
//! are damaged, fields on the way to their tree; calls with several faults at once; fields of the blank plan. Answer and all
//! records must be the same, words and field stay. Prints counts, or panics at the first difference.

mod blank;
mod calls;
#[path = "../counts.rs"]
mod counts;
mod faults;
mod items;
#[path = "../muruapy.rs"]
mod muruapy;
mod site;
mod tally;

use calls::{compare_delivery, compare_start};
use faults::{damaged_marks, orders, spoilt_fields, unfinished_fields, DAMAGED, MARKS, ORDERS, SPOILT, UNFINISHED};
use items::{Marked, WAYS};
use muruapy::Delivered;
use oracle::cue::Cue;
use oracle::fields::marked;
use oracle::plans;
use oracle::rng::Rng;
use site::{any_record, any_records, left, past, run_site, some_link, some_site, Site};
use tally::Tally;

const FINISHED: usize = 180;
const JOURNEYS: usize = 700;
const LARGE: usize = 18;
const ALONE: usize = 50;
const CHANGED: usize = 1200;

/// Calls that are refused and leave the cue under way: a sender that there is not, and records that are too few.
fn refused_calls(rng: &mut Rng, tally: &mut Tally, site: &Site, cues: &mut Vec<Cue>) {
    let sender = past(rng, site.modules());
    assert_eq!(compare_start(rng, tally, site, cues, sender, 9), 72);
    let mut few = cues[..rng.below(site.modules())].to_vec();
    assert_eq!(compare_start(rng, tally, site, &mut few, 0, 9), 73);
    let link = some_link(rng, site, cues);
    assert_eq!(compare_delivery(rng, tally, site, &mut few, link).refusal, 73);
}

/// Cues one after the other on the same records, each delivered in some order until no copy waits and a little beyond, or
/// left under way. At the end of a whole one all of the sender's part have heard, after one answer "heard" fewer than it has
/// modules, and nobody else.
fn journey(rng: &mut Rng, tally: &mut Tally, site: &Site) {
    let n = site.modules();
    tally.count(match n {
        1 => "journey: on 1 module",
        2 => "journey: on 2 modules",
        192 => "journey: on 192 modules",
        _ => "journey: on 3 to 191 modules",
    });
    let mut cues = any_records(rng, n);
    for _ in 0..rng.pick(&[0, 0, 1, 5]) {
        cues.push(any_record(rng));
    }
    for _ in 0..rng.range(1, 3) {
        let cue = rng.pick(&[0, 1, 255, 256, 7777, 65535]);
        let sender = rng.below(n) as u16;
        assert_eq!(compare_start(rng, tally, site, &mut cues, sender, cue), 0);
        if rng.once_in(2) {
            refused_calls(rng, tally, site, &mut cues);
        }
        let whole = !rng.once_in(4);
        let mut heard = 0;
        while !site.waiting(&cues).is_empty() && (whole || !rng.once_in(n)) {
            let link = some_link(rng, site, &cues);
            heard += compare_delivery(rng, tally, site, &mut cues, link).heard as usize;
        }
        for _ in 0..3 {
            let link = some_link(rng, site, &cues);
            heard += compare_delivery(rng, tally, site, &mut cues, link).heard as usize;
        }
        let part = site.part(sender);
        let all = heard + 1 == part && cues[..n].iter().filter(|r| r.heard == 1).count() == part;
        assert!(all || !whole, "not all of the part have heard");
        tally.count(if all { "journey: to the end" } else { "journey: left under way" });
        tally.count(match part {
            _ if part == n => "sender's part: all modules",
            1 => "sender's part: the sender alone",
            _ => "sender's part: some modules",
        });
    }
}

fn journeys(rng: &mut Rng, tally: &mut Tally) {
    // a blank plan has no sender, and the full ones come last
    let kinds = plans::kinds_without(&["blank", "full", "wide"]);
    for i in 0..FINISHED {
        let site = run_site(rng, kinds[i % kinds.len()], 65535, true);
        journey(rng, tally, &site);
    }
    for _ in 0..JOURNEYS {
        let site = some_site(rng);
        journey(rng, tally, &site);
    }
    for i in 0..LARGE {
        let kind = ["full", "full", "wide"][i % 3];
        let plan = plans::good(rng, kind);
        let site = if i % 4 == 0 { run_site(rng, kind, 65535, true) } else { Site::of(marked(rng, &plan)) };
        journey(rng, tally, &site);
    }
}

/// Each way to break an item of 73: records in which this item alone is broken. Deliveries are refused by 73, whatever their
/// number; a start does not look at them.
fn items_alone(rng: &mut Rng, tally: &mut Tally) {
    for (item, way, damage) in WAYS {
        let (mut cases, mut tries) = (0, 0);
        while cases < ALONE {
            tries += 1;
            assert!(tries < 400 * ALONE, "{item}, {way}: alone only {cases} times");
            let site = some_site(rng);
            let mut cues = left(rng, &site);
            let link = some_link(rng, &site, &cues);
            damage(rng, &Marked { field: &site.field, tree: &site.tree }, &mut cues[..site.modules()]);
            if site.broken(&cues) == [item] {
                for link in [link, past(rng, site.directed())] {
                    let answer = compare_delivery(rng, tally, &site, &mut cues, link);
                    assert_eq!(answer, Delivered { refusal: 73, heard: 0 }, "{item}, {way}");
                }
                let sender = rng.below(site.modules()) as u16;
                assert_eq!(compare_start(rng, tally, &site, &mut cues, sender, 5), 0, "{item}, {way}");
                tally.count(format!("73 alone: {item} ({way})"));
                cases += 1;
            }
        }
    }
}

/// A record with one value changed, near what it is or what another's is.
fn change(rng: &mut Rng, site: &Site, cues: &mut [Cue]) {
    let (v, u) = (rng.below(site.modules()), rng.below(site.modules()));
    let other = cues[u];
    let record = &mut cues[v];
    match rng.below(7) {
        0 => record.heard = rng.pick(&[0, 1, 1, 2]),
        1 => record.cue = other.cue,
        2 => record.link = rng.pick(&[other.link, 65535, site.tree.len() as u16]),
        3 if site.directed() > 0 => record.link = rng.below(site.tree.len()) as u16,
        4 => record.hops = other.hops,
        5 => record.hops = record.hops.wrapping_add(rng.pick(&[1, 65535])),
        _ => *record = rng.pick(&[other, Cue::UNHEARD]),
    }
}

/// Records with some values changed, and a delivery.
fn changed_records(rng: &mut Rng, tally: &mut Tally) {
    for _ in 0..CHANGED {
        let site = some_site(rng);
        let mut cues = left(rng, &site);
        for _ in 0..rng.range(1, 3) {
            change(rng, &site, &mut cues);
        }
        let link = rng.below(site.directed() + 1) as u16;
        let answer = compare_delivery(rng, tally, &site, &mut cues, link);
        tally.count(format!("changed records, delivery ends with {}", answer.refusal));
    }
}

fn main() {
    let mut rng = Rng::new(71);
    let mut tally = Tally::default();
    journeys(&mut rng, &mut tally);
    items_alone(&mut rng, &mut tally);
    changed_records(&mut rng, &mut tally);
    unfinished_fields(&mut rng, &mut tally);
    damaged_marks(&mut rng, &mut tally);
    spoilt_fields(&mut rng, &mut tally);
    let sets = orders(&mut rng, &mut tally);
    blank::fields(&mut rng, &mut tally);
    let marks = UNFINISHED + MARKS * DAMAGED.len();
    let cases = FINISHED + JOURNEYS + LARGE + ALONE * WAYS.len() + CHANGED + marks + SPOILT + ORDERS * sets;
    let blank = blank::FIELDS;
    println!("cues: {cases} drawn cases agree, {sets} sets of faults among them, and {blank} fields of the blank plan");
    tally.report();
}
