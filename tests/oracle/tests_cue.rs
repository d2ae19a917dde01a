//! The oracle's cues against the samples of request 01, and against a second way that follows the copies one by one: which
//! records a start and deliveries leave, which copies wait, how many are sent, how far a module is from the sender.

use crate::cue::{deliver, finished_tree, left_by_sending, start, waits, Cue, Delivery};
use crate::field::{Field, WAKE};
use crate::fields;
use crate::kruskal;
use crate::plan::{Plan, NONE};
use crate::plans::{self, Readings};
use crate::report::job;
use crate::rng::Rng;
use crate::rules::{BASIC, BRANCH, REJECTED};
use crate::tests::set_up;
use std::collections::HashSet;

fn record(heard: u8, cue: u16, link: u16, hops: u16) -> Cue {
    Cue { heard, cue, link, hops }
}

/// The field of a plan at rest, with its words.
fn at_rest(plan: &Plan) -> (Field, Vec<u64>) {
    let mut words = vec![7; 8000];
    let (field, _) = job(plan.clone(), &mut words).unwrap();
    (field, words)
}

const PAST: Cue = Cue { heard: 9, cue: 9, link: 9, hops: 9 };

#[test]
fn samples() {
    let (field, words) = at_rest(&plans::worse_reading());
    assert_eq!(kruskal::tree(&field.plan), [1, 0, 1]);
    let none = Cue::UNHEARD;
    let mut cues = vec![PAST; 4];
    assert_eq!(start(&field, &words, &mut cues, 0, 7), Ok(()));
    assert_eq!(cues, [record(1, 7, NONE, 0), none, none, PAST]);
    for (directed, answer) in [(2, Delivery::Idle), (4, Delivery::Idle), (0, Delivery::Heard), (0, Delivery::Idle)] {
        assert_eq!(deliver(&field, &words, &mut cues, directed), Ok(answer));
    }
    assert_eq!(cues, [record(1, 7, NONE, 0), record(1, 7, 0, 1), none, PAST]);
    assert_eq!(deliver(&field, &words, &mut cues, 4), Ok(Delivery::Heard));
    assert_eq!(cues[2..], [record(1, 7, 2, 2), PAST]);
    assert_eq!(deliver(&field, &words, &mut cues, 6), Err(42));
    for (v, damaged) in
        [(2, record(1, 7, 2, 3)), (2, record(1, 7, 1, 1)), (2, record(1, 8, 2, 2)), (0, none), (1, record(2, 7, 0, 1))]
    {
        let mut cues = cues.clone();
        cues[v] = damaged;
        for directed in [0, 2, 4, 6] {
            assert_eq!(deliver(&field, &words, &mut cues, directed), Err(73));
        }
    }
    let mut cues = vec![none, record(1, 7, NONE, 0), none, PAST];
    assert_eq!(deliver(&field, &words, &mut cues, 1), Ok(Delivery::Heard));
    assert_eq!(cues, [record(1, 7, 0, 1), record(1, 7, NONE, 0), none, PAST]);
}

/// The numbers in their order, each call leaving the records as they were.
#[test]
fn refusals() {
    let (good, words) = at_rest(&plans::worse_reading());
    let before = vec![record(1, 7, NONE, 0), PAST, Cue::UNHEARD, PAST];
    let started = |field: &Field, words: &[u64], sender, count: usize| {
        let mut cues = before.clone();
        let answer = start(field, words, &mut cues[..count], sender, 8);
        assert!(answer.is_ok() || cues == before);
        answer
    };
    let delivered = |field: &Field, words: &[u64], count: usize| {
        let mut cues = before.clone();
        let answer = deliver(field, words, &mut cues[..count], 6);
        assert!(cues == before);
        answer
    };
    assert_eq!(started(&good, &words, 2, 3), Ok(()));
    assert_eq!(started(&good, &words, 3, 2), Err(72));
    assert_eq!(started(&good, &words, 65535, 0), Err(72));
    assert_eq!(started(&good, &words, 2, 2), Err(73));
    assert_eq!(delivered(&good, &words, 2), Err(73));
    assert_eq!(delivered(&good, &words, 4), Err(73));
    for (k, end, mark) in [(1, 0, BRANCH), (1, 1, BRANCH), (0, 0, REJECTED), (2, 1, BASIC)] {
        let mut field = good.clone();
        field.marks[k][end] = mark;
        assert_eq!([started(&field, &words, 3, 2), started(&field, &words, 0, 3)], [Err(71); 2]);
        assert_eq!(delivered(&field, &words, 2), Err(71));
        field.marks[0][0] = 3;
        assert_eq!(started(&field, &words, 3, 2), Err(31));
        assert_eq!(delivered(&field, &words, 2), Err(31));
    }
    let mut field = good.clone();
    field.marks[1] = [BASIC, REJECTED];
    assert_eq!(started(&field, &words, 0, 3), Ok(()));
}

/// One module takes a cue before it wakes, and a field with messages waiting too: only marks count.
#[test]
fn only_marks_count() {
    let (field, words) = set_up(&Plan { modules: 1, links: vec![] }.encode());
    let mut cues = vec![PAST];
    assert_eq!(deliver(&field, &words, &mut cues, 0), Err(73));
    assert_eq!(start(&field, &words, &mut cues, 0, 0), Ok(()));
    assert_eq!(cues, [record(1, 0, NONE, 0)]);
    assert_eq!(deliver(&field, &words, &mut cues, 0), Err(42));

    let (mut field, mut words) = set_up(&[1, 0, 0x0C, 0, 2, 0, 1, 0, 0, 0, 1, 0, 3, 0, 4]);
    let mut cues = vec![PAST; 2];
    for (v, answer) in [(0, Err(71)), (1, Ok(()))] {
        field.step(&mut words, WAKE, v).unwrap();
        assert_eq!(start(&field, &words, &mut cues, 1, 65535), answer);
    }
    assert_eq!(words[..3].iter().filter(|word| **word != 0).count(), 2);
    assert_eq!(deliver(&field, &words, &mut cues, 1), Ok(Delivery::Heard));
    assert_eq!(cues, [record(1, 65535, 0, 1), record(1, 65535, NONE, 0)]);
}

/// The second way: the copies that were sent and have not arrived, by directed link, in a list; nothing is read off records.
#[derive(Clone)]
struct Copies {
    records: Vec<Cue>,
    waiting: Vec<u16>,
    sent: usize,
}

impl Copies {
    fn begin(field: &Field, sender: u16, cue: u16) -> Copies {
        let records = vec![Cue::UNHEARD; field.plan.modules as usize];
        let mut copies = Copies { records, waiting: Vec::new(), sent: 0 };
        copies.hear(field, sender, record(1, cue, NONE, 0));
        copies
    }

    /// "Hearing a cue, a module passes a copy to each branch but the one it came by."
    fn hear(&mut self, field: &Field, v: u16, heard: Cue) {
        assert_eq!(self.records[v as usize], Cue::UNHEARD, "each module hears the cue at most once");
        self.records[v as usize] = heard;
        for (k, mark) in field.own_marks(v) {
            if mark == BRANCH && k != heard.link {
                let up = field.plan.links[k as usize].lower == v;
                self.waiting.push(2 * k + !up as u16);
                self.sent += 1;
            }
        }
    }

    /// Whether a copy waited there.
    fn deliver(&mut self, field: &Field, directed: u16) -> bool {
        let Some(at) = self.waiting.iter().position(|d| *d == directed) else { return false };
        self.waiting.remove(at);
        let from = self.records[field.source(directed) as usize];
        self.hear(field, field.target(directed), record(1, from.cue, directed / 2, from.hops + 1));
        true
    }
}

/// All lists that starts of these cues and deliveries in any order leave.
fn reachable(field: &Field, cues: &[u16]) -> HashSet<Vec<Cue>> {
    let mut seen = HashSet::new();
    let senders = (0..field.plan.modules).flat_map(|v| cues.iter().map(move |cue| (v, *cue)));
    let mut open: Vec<Copies> = senders.map(|(v, cue)| Copies::begin(field, v, cue)).collect();
    while let Some(copies) = open.pop() {
        if seen.insert(copies.records.clone()) {
            for directed in copies.waiting.clone() {
                let mut next = copies.clone();
                next.deliver(field, directed);
                open.push(next);
            }
        }
    }
    seen
}

/// Records near those that are left: cues 0 and 7, every link, one that is none of them, none; hops to past the largest.
fn near_records(plan: &Plan) -> Vec<Cue> {
    let mut all = Vec::new();
    for heard in 0..3 {
        for cue in [0, 7] {
            for link in (0..plan.links.len() as u16 + 1).chain([NONE]) {
                let hops = (0..plan.modules + 1).chain([65535]);
                all.extend(hops.map(|hops| record(heard, cue, link, hops)));
            }
        }
    }
    all
}

/// Calls f with each list of so many of these records.
fn every_list(count: usize, of: &[Cue], list: &mut Vec<Cue>, f: &mut dyn FnMut(&[Cue])) {
    if list.len() == count {
        return f(list);
    }
    for record in of {
        list.push(*record);
        every_list(count, of, list, f);
        list.pop();
    }
}

/// All shapes of up to 4 modules, with small readings.
fn small_plans(rng: &mut Rng) -> Vec<Plan> {
    let mut plans = vec![plans::blank(), Plan { modules: 1, links: vec![] }, plans::worse_reading()];
    for n in 2..=4 {
        let pairs = plans::complete(n);
        for subset in 0..1u32 << pairs.len() {
            let some = (0..pairs.len()).filter(|i| subset >> i & 1 == 1).map(|i| pairs[i]).collect();
            plans.push(plans::plan(rng, n, some, Readings::Few));
        }
    }
    plans.retain(|plan| plan.check().is_ok());
    plans
}

/// 73 is exact: of all lists near those that starts and deliveries leave, just those pass. Lists of up to 2 modules, and of 3
/// on some plans, all; else each that is left, with one record changed in every way, and with two.
#[test]
fn the_rule_passes_what_deliveries_leave() {
    let mut rng = Rng::new(73);
    let (mut lists, mut passed) = (0, HashSet::new());
    for (i, plan) in small_plans(&mut rng).iter().enumerate() {
        let (field, _) = at_rest(plan);
        let tree = kruskal::tree(plan);
        let (left, values) = (reachable(&field, &[0, 7]), near_records(plan));
        let mut look = |list: &[Cue]| {
            lists += 1;
            let passes = left_by_sending(&field, &tree, list);
            assert_eq!(passes, left.contains(list), "{plan:?}: {list:?}");
            if passes {
                passed.insert((i, list.to_vec()));
            }
        };
        if plan.modules <= 2 || plan.modules == 3 && plan.links.len() <= 2 {
            every_list(plan.modules as usize, &values, &mut Vec::new(), &mut look);
        }
        for list in &left {
            for v in 0..list.len() {
                for value in &values {
                    let mut changed = list.clone();
                    changed[v] = *value;
                    look(&changed);
                    changed[rng.below(list.len())] = rng.pick(&values);
                    look(&changed);
                }
            }
        }
        assert!(left.iter().all(|list| passed.contains(&(i, list.clone()))), "some list was not looked at");
    }
    assert!(lists > 1_000_000 && passed.len() > 500, "{lists} lists, {} pass", passed.len());
}

/// How many tree links lie between a module and each module, from one to the next; none for another part's.
fn distances(plan: &Plan, from: u16) -> Vec<u16> {
    let tree = kruskal::tree(plan);
    let mut hops = vec![NONE; plan.modules as usize];
    let mut next = vec![from];
    hops[from as usize] = 0;
    while let Some(v) = next.pop() {
        for k in plan.own_links(v).into_iter().filter(|k| tree[*k as usize] == 1) {
            let link = plan.links[k as usize];
            let other = link.lower + link.higher - v;
            if hops[other as usize] == NONE {
                hops[other as usize] = hops[v as usize] + 1;
                next.push(other);
            }
        }
    }
    hops
}

/// Any order of deliveries: the records and what waits are the second way's, and at the end one copy fewer than the sender's
/// part has modules was sent, all of it have heard, each as many hops from the sender as the tree has links between them.
#[test]
fn copies_one_by_one() {
    let mut rng = Rng::new(1);
    // a blank plan has no sender, and a full one takes long
    let kinds = plans::kinds_without(&["blank", "full", "wide"]);
    for i in 0..500 {
        let plan = plans::good(&mut rng, kinds[i % kinds.len()]);
        let (field, words) = fields::marked(&mut rng, &plan);
        let tree = finished_tree(&field, &words).expect("the tree is marked");
        let n = plan.modules as usize;
        let (sender, cue) = (rng.below(n) as u16, rng.next() as u16);
        let mut copies = Copies::begin(&field, sender, cue);
        let mut cues = vec![PAST; n + rng.below(3)];
        start(&field, &words, &mut cues, sender, cue).unwrap();
        let mut heard = 0;
        while !copies.waiting.is_empty() {
            let any = rng.below(2 * plan.links.len()) as u16;
            let directed = if rng.once_in(4) { any } else { rng.pick(&copies.waiting) };
            let waited = copies.deliver(&field, directed);
            let answer = if waited { Delivery::Heard } else { Delivery::Idle };
            assert_eq!(deliver(&field, &words, &mut cues, directed), Ok(answer));
            heard += waited as usize;
            let by_records = (0..2 * plan.links.len() as u16).filter(|d| waits(&field, &tree, &cues[..n], *d));
            let mut waiting = copies.waiting.clone();
            waiting.sort();
            assert!(by_records.eq(waiting), "what waits");
            assert!(cues[..n] == copies.records && cues[n..].iter().all(|past| *past == PAST), "the records");
        }
        let part = plan.part_of(sender).len();
        assert_eq!((copies.sent, heard), (part - 1, part - 1));
        for (record, hops) in cues.iter().zip(distances(&plan, sender)) {
            let heard = Cue { heard: 1, cue, link: record.link, hops };
            assert_eq!(*record, if hops == NONE { Cue::UNHEARD } else { heard });
        }
        for directed in 0..2 * plan.links.len() as u16 {
            assert_eq!(deliver(&field, &words, &mut cues, directed), Ok(Delivery::Idle));
        }
    }
}
