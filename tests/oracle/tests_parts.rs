//! The oracle against request 08's samples and what it says of plans in several parts: the forest costs least among the sets
//! of links that join each part's modules, each part comes to its own tree and core, a cue stays in its sender's part.

use crate::cue::{deliver, start, Cue, Delivery};
use crate::field::{waiting, Field, HAND_OVER, SERVE, WAKE};
use crate::kruskal::{self, Parts};
use crate::path::{between, near};
use crate::plan::{self, NONE};
use crate::plans::{self, two_banks, unlinked};
use crate::report::report;
use crate::rest::{at_rest, Rest};
use crate::rng::Rng;
use crate::rounds;
use crate::schedule::Answer;
use crate::tests::set_up;

const BANKS: [u8; 23] = [1, 0, 0x14, 0, 4, 0, 2, 0, 0, 0, 1, 0, 3, 0, 3, 0, 2, 0, 3, 0, 0, 0, 5];

#[test]
fn sample_reports() {
    assert_eq!(plan::read(&BANKS), Ok(two_banks()));
    let lines =
        "modules 4\nlinks 2\nbranch 0 1 3\nbranch 2 3 5\ntotal 8\ncore 0 1\ncore 2 3\nmessages 12 of 44\nrounds 4\n";
    assert_eq!(report(&BANKS), lines);
    let lines = "modules 2\nlinks 0\ntotal 0\ncore none\ncore none\nmessages 0 of 10\nrounds 0\n";
    assert_eq!(report(&[1, 0, 4, 0, 2, 0, 0]), lines);
    let cores = "core none\n".repeat(192);
    let lines = format!("modules 192\nlinks 0\ntotal 0\n{cores}messages 0 of 6720\nrounds 0\n");
    assert_eq!(report(&unlinked(192).encode()), lines);
}

/// "The lowest module of each part", and the parts' order by it.
#[test]
fn parts_by_their_lowest_modules() {
    assert_eq!((two_banks().parts(), two_banks().lowest_modules()), (vec![0, 0, 2, 2], vec![0, 2]));
    assert_eq!((plans::blank().parts(), unlinked(3).lowest_modules()), (vec![], vec![0, 1, 2]));
    let crossed = plans::plan(&mut Rng::new(1), 6, vec![(0, 4), (1, 5), (3, 5)], plans::Readings::Few);
    assert_eq!(crossed.parts(), [0, 1, 2, 1, 0, 1]);
    assert_eq!((crossed.part_of(5), crossed.part_of(2)), (vec![1, 3, 5], vec![2]));
    // the parts of drawn plans are those that the disjoint sets of Kruskal's method have
    let rng = &mut Rng::new(8);
    for i in 0..150 {
        let plan = plans::good(rng, plans::KINDS[i % plans::KINDS.len()]);
        let (mut sets, parts) = (Parts::new(plan.modules as usize), plan.parts());
        for link in &plan.links {
            sets.join(link.lower as usize, link.higher as usize);
        }
        for (u, v) in (0..parts.len()).flat_map(|u| (0..u).map(move |v| (u, v))) {
            assert_eq!(parts[u] == parts[v], sets.root(u) == sets.root(v));
        }
        let several = plans::IN_PARTS.contains(&plans::KINDS[i % plans::KINDS.len()]);
        assert_eq!(several, plan.lowest_modules().len() > 1, "{plan:?}");
    }
}

#[test]
fn sample_paths() {
    let b = two_banks();
    assert_eq!(between(&b, 0, 2, &mut []), Ok(None));
    let mut links = [9; 2];
    assert_eq!((between(&b, 3, 1, &mut links), links), (Ok(None), [9; 2]));
    assert_eq!((between(&b, 0, 4, &mut []), between(&b, 4, 2, &mut [])), (Err(41), Err(41)));
    assert_eq!((between(&b, 2, 3, &mut []), links), (Err(79), [9; 2]));
    let mut marks = [9; 5];
    assert_eq!((near(&b, 2, 5, &mut marks), marks), (Ok(()), [0, 0, 1, 1, 9]));
    assert_eq!((near(&b, 1, 0, &mut marks), marks), (Ok(()), [0, 1, 0, 0, 9]));
}

/// 71 looks at the links of all parts: with one of them asleep no cue is sent in any. Then it stays in its sender's part.
#[test]
fn sample_cue() {
    let (mut field, mut words) = set_up(&BANKS);
    let mut cues = vec![Cue::UNHEARD; 4];
    field.step(&mut words, WAKE, 2).unwrap();
    rounds::run(&mut field, &mut words, 65535);
    assert_eq!(at_rest(&field, &words, &[2]), Rest { agreed: 1, alone: 0, asleep: 1 });
    assert_eq!(start(&field, &words, &mut cues, 2, 9), Err(71));
    field.step(&mut words, WAKE, 0).unwrap();
    rounds::run(&mut field, &mut words, 65535);
    assert_eq!(at_rest(&field, &words, &[2, 0]), Rest { agreed: 2, alone: 0, asleep: 0 });
    assert_eq!(start(&field, &words, &mut cues, 2, 9), Ok(()));
    assert_eq!(deliver(&field, &words, &mut cues, 2), Ok(Delivery::Heard));
    for directed in 0..4 {
        assert_eq!(deliver(&field, &words, &mut cues, directed), Ok(Delivery::Idle));
    }
    assert_eq!(cues, [Cue::UNHEARD, Cue::UNHEARD, Cue::of_sender(9), Cue { link: 1, hops: 1, ..Cue::of_sender(9) }]);
}

/// "Least total cost is judged among the sets of links that join each part's modules": of every set of links of small plans,
/// those that join what all links join cost no less than the forest.
#[test]
fn no_cheaper_forest() {
    let rng = &mut Rng::new(9);
    let mut dearer = 0;
    for i in 0..240 {
        let kind = ["banks", "forest", "islands", "small"][i % 4];
        let plan = plans::good(rng, kind);
        if plan.links.len() > 9 {
            continue;
        }
        let joins = |chosen: &dyn Fn(usize) -> bool| {
            let links = plan.links.iter().enumerate().filter(|(k, _)| chosen(*k)).map(|(_, link)| *link).collect();
            plan::Plan { modules: plan.modules, links }.parts() == plan.parts()
        };
        let total = |chosen: &dyn Fn(usize) -> bool| -> u32 {
            (0..plan.links.len()).filter(|k| chosen(*k)).map(|k| plan.cost(k as u16)).sum()
        };
        let tree = kruskal::tree(&plan);
        let least = total(&|k| tree[k] == 1);
        assert!(joins(&|k| tree[k] == 1));
        let links = tree.iter().filter(|mark| **mark == 1).count();
        assert_eq!(links + plan.lowest_modules().len(), plan.modules as usize, "a forest");
        for set in 0..1usize << plan.links.len() {
            let chosen = |k: usize| set >> k & 1 == 1;
            if joins(&chosen) {
                assert!(total(&chosen) >= least, "{plan:?}");
                dearer += (total(&chosen) > least) as usize;
            }
        }
    }
    assert!(dearer > 200, "{dearer} dearer sets");
}

/// Wakes of some modules, then steps in any order or rounds: every part with one of them comes to its tree, the others stay
/// as at setup; within the ceiling of the whole plan, and rounds within its bound. Nobody woken: nothing happens.
#[test]
fn each_part_comes_to_rest() {
    let rng = &mut Rng::new(10);
    let mut all = Rest::default();
    for i in 0..300 {
        let kind = rng.pick(&["banks", "banks", "forest", "islands", "islands", "unlinked", "small", "single"]);
        let plan = plans::good(rng, kind);
        if plan.modules > 60 {
            continue;
        }
        let (mut field, mut words) = set_up(&plan.encode());
        let mut woken: Vec<u16> = (0..plan.modules).filter(|_| rng.once_in(4)).collect();
        rng.shuffle(&mut woken);
        for v in &woken {
            field.step(&mut words, WAKE, *v).unwrap();
        }
        if i % 2 == 0 {
            in_any_order(rng, &mut field, &mut words);
        } else {
            let Answer { done, refusal } = rounds::run(&mut field, &mut words, 65535);
            assert!(refusal.is_none() && done <= plan.ceiling() + plan.modules as u32);
        }
        let rest = at_rest(&field, &words, &woken);
        assert!(!woken.is_empty() || rest.asleep == plan.lowest_modules().len());
        all.agreed += rest.agreed;
        all.alone += rest.alone;
        all.asleep += rest.asleep;
    }
    assert!(all.agreed > 200 && all.alone > 150 && all.asleep > 400, "{all:?}");
}

/// Steps to rest; in the end it is the rounds' order, so that it ends.
fn in_any_order(rng: &mut Rng, field: &mut Field, words: &mut [u64]) {
    for _ in 0..400 {
        if waiting(words) > 0 {
            let kind = rng.pick(&[HAND_OVER, HAND_OVER, SERVE, SERVE]);
            let bound = if kind == HAND_OVER { 2 * field.plan.links.len() } else { field.modules.len() };
            match field.take(words, kind, rng.below(bound) as u16) {
                Ok(_) | Err(44 | 45) => {}
                Err(refusal) => panic!("refused {refusal}"),
            }
        }
    }
    assert_eq!(rounds::run(field, words, 65535).refusal, None);
}

/// "A cue reaches its sender's part, with one copy fewer than its modules." The others' records stay zeros and none.
#[test]
fn cues_stay_in_their_part() {
    let rng = &mut Rng::new(11);
    for i in 0..120 {
        let plan = plans::good(rng, plans::IN_PARTS[i % 4]);
        let (field, words) = crate::fields::marked(rng, &plan);
        let n = plan.modules as usize;
        let (sender, mut cues, mut heard) = (rng.below(n) as u16, vec![Cue::UNHEARD; n], 0);
        start(&field, &words, &mut cues, sender, 5).unwrap();
        // as many times round as the longest path has links
        for _ in 0..n {
            for directed in 0..2 * plan.links.len() as u16 {
                heard += (deliver(&field, &words, &mut cues, directed) == Ok(Delivery::Heard)) as usize;
            }
            if heard + 1 == plan.part_of(sender).len() {
                break;
            }
        }
        let part = plan.part_of(sender);
        assert_eq!(heard, part.len() - 1);
        for (v, cue) in cues.iter().enumerate() {
            assert_eq!(*cue != Cue::UNHEARD, part.contains(&(v as u16)), "module {v}");
            assert!(cue.link == NONE || part.contains(&plan.links[cue.link as usize].lower));
        }
    }
}
