//! Rehearsals: drawn runs from setup on both sides, with points saved on the way, found, and come back to. From setup on,
//! and from each restore on, the library's whole record must be what restoring would make of the oracle's field.

use crate::calls::{compare_find, compare_restore, compare_save, Site};
use crate::draws::{some_name, NAMES};
use crate::muruapy::{find, numbers, Record};
use crate::tally::Tally;
use oracle::field::{setup_value, waiting};
use oracle::fields::{good_step, some_step};
use oracle::plan::Plan;
use oracle::rng::Rng;
use oracle::schedule::Step;
use oracle::{plans, rounds};

pub const REHEARSALS: usize = 600;

/// What was saved under a name: the site as the library held it then, and the bytes of its record.
struct Kept {
    name: Vec<u8>,
    site: Site,
    bytes: Vec<u8>,
}

struct Rehearsal {
    site: Site,
    store: Vec<u8>,
    kept: Vec<Kept>,
}

/// Setup on both sides, of a plan with anything past its links, into memory that holds anything.
fn set_up(rng: &mut Rng, plan: Plan) -> Site {
    let given = numbers(&plan, rng);
    let mut words = vec![7; plan.ceiling() as usize + rng.pick(&[0, 0, 1, 5])];
    let (mut record, mut lent) = (Record::any(rng), words.clone());
    assert_eq!(record.setup(&given, &mut lent), 0, "setup");
    let field = setup_value(plan, &mut words).expect("a good plan");
    let site = Site { field, words, record };
    same(&site, &lent, "setup");
    site
}

fn same(site: &Site, lent: &[u64], call: &str) {
    assert!(site.record == Record::restored(&site.field), "the record after {call}, for {:?}", site.field);
    assert!(lent == site.words, "the words after {call}, for {:?}", site.field);
}

/// A step on both sides: its refusal, or 0.
fn step(site: &mut Site, step: Step) -> u32 {
    let mut lent = site.words.clone();
    let refusal = site.field.step(&mut site.words, step.kind, step.number).err().unwrap_or(0);
    assert_eq!(site.record.step(&mut lent, step.kind, step.number), refusal, "{step:?}, for {:?}", site.field);
    same(site, &lent, "a step");
    refusal
}

/// Some steps or rounds.
fn go_on(rng: &mut Rng, site: &mut Site) {
    if rng.once_in(5) {
        let (mut lent, limit) = (site.words.clone(), rng.pick(&[1, 2, 5]));
        let answer = rounds::run(&mut site.field, &mut site.words, limit);
        assert_eq!(site.record.rounds(&mut lent, limit), (answer.done as usize, 0), "rounds");
        same(site, &lent, "rounds");
        return;
    }
    for _ in 0..rng.range(1, 12) {
        let draw = if rng.once_in(10) { some_step } else { good_step };
        let next = draw(rng, &site.field, &site.words);
        step(site, next);
    }
}

impl Rehearsal {
    fn save(&mut self, rng: &mut Rng, tally: &mut Tally) {
        let name = some_name(rng);
        if compare_save(rng, tally, &self.site, &mut self.store, &name) == 0 {
            let found = find(&self.store, &name);
            let bytes = self.store[found.at..found.at + found.size].to_vec();
            self.kept.retain(|kept| kept.name != name);
            self.kept.push(Kept { name, site: self.site.clone(), bytes });
        }
    }

    /// A name is restored into enough words or too few; the rehearsal goes on from there.
    fn restore(&mut self, rng: &mut Rng, tally: &mut Tally) {
        let name = some_name(rng);
        let kept = self.kept.iter().find(|kept| kept.name == name);
        let enough = kept.map_or(10, |kept| kept.site.ceiling());
        let room = match rng.below(4) {
            0 => rng.below(enough + 1),
            1 => enough + rng.range(1, 40),
            _ => enough,
        };
        if let Ok(site) = compare_restore(rng, tally, &self.store, &name, room) {
            let kept = kept.expect("it is held, so it was saved");
            back_again(rng, tally, kept, &site, &self.store);
            self.site = site;
        } else {
            assert!(kept.is_none() || room < enough, "a name that was saved comes back");
        }
    }

    fn turn(&mut self, rng: &mut Rng, tally: &mut Tally) {
        match rng.below(11) {
            0..=3 => go_on(rng, &mut self.site),
            4..=5 => self.save(rng, tally),
            6 => {
                let name = some_name(rng);
                compare_find(rng, tally, &self.store, &name);
            }
            7..=9 => self.restore(rng, tally),
            // another show, in the same store
            _ => {
                let kind = rng.pick(&["blank", "single", "small", "ring", "tree", "banks", "unlinked"]);
                let plan = plans::good(rng, kind);
                self.site = set_up(rng, plan);
            }
        }
    }
}

/// What came back is what was saved: the whole record and what waits; saved again it is the same bytes; and a run goes on
/// from it as from the field that was saved.
fn back_again(rng: &mut Rng, tally: &mut Tally, kept: &Kept, site: &Site, store: &[u8]) {
    let count = waiting(&site.words);
    assert!(site.record == kept.site.record, "another record comes back");
    assert_eq!(site.words[..count], kept.site.words[..waiting(&kept.site.words)], "other words come back");
    let mut again = store.to_vec();
    assert_eq!(compare_save(rng, tally, site, &mut again, &kept.name), 0, "what was restored is saved again");
    let found = find(&again, &kept.name);
    assert!(again[found.at..found.at + found.size] == kept.bytes, "it is saved as other bytes");
    tally.count("rehearsal: saved again, the same bytes");
    if site.field.plan.lowest_modules().len() > 1 {
        tally.count("rehearsal: in several parts, back again");
    }

    let (mut then, mut now) = (kept.site.clone(), site.clone());
    for _ in 0..rng.range(1, 15) {
        let next = good_step(rng, &now.field, &now.words);
        let refusals = [&mut then, &mut now].map(|site| step(site, next));
        let front = waiting(&now.words);
        assert!(refusals[0] == refusals[1] && then.record == now.record, "{next:?} since the restore");
        assert_eq!(then.words[..waiting(&then.words)], now.words[..front], "the words since the restore");
        tally.count("rehearsal: a step since the restore");
    }
    if rng.once_in(4) {
        let ends = [&mut then, &mut now].map(|site| site.record.rounds(&mut site.words, 65535));
        assert!(ends[0] == ends[1] && then.record == now.record, "rounds since the restore");
        assert_eq!((waiting(&then.words), waiting(&now.words)), (0, 0), "at rest");
        tally.count("rehearsal: to rest since the restore");
    }
}

/// A rehearsal in a store of drawn length: nothing fits, one record does, or several.
fn rehearse(rng: &mut Rng, tally: &mut Tally, kind: &str) {
    let plan = plans::good(rng, kind);
    let one = 15 + 12 + 12 * plan.links.len() + 20 * plan.modules as usize + 80;
    let most = [0, one / 2, one, 2 * one, 2 * one, 4 * one, 8 * one, 8 * one];
    let size = rng.pick(&most) + rng.below(one);
    let mut rehearsal = Rehearsal { site: set_up(rng, plan), store: vec![0; size], kept: Vec::new() };
    for _ in 0..rng.range(12, 30) {
        rehearsal.turn(rng, tally);
    }
    for name in NAMES {
        compare_find(rng, tally, &rehearsal.store, name);
    }
    tally.count(match rehearsal.kept.len() {
        0 => "rehearsal: nothing held",
        1 => "rehearsal: one point held",
        _ => "rehearsal: several points held",
    });
}

pub fn rehearsals(rng: &mut Rng, tally: &mut Tally) {
    for i in 0..REHEARSALS {
        rehearse(rng, tally, plans::KINDS[i % plans::KINDS.len()]);
    }
}
