//! The oracle's paths against the samples of request 07, and against what it says of them: the only way over tree links,
//! no way over any links with an earlier latest link, the same path turned round, marks by the lengths of paths; and of
//! request 08: "no way" exactly where no links lead from one module to the other.

use crate::cue::{deliver, finished_tree, start, waits, Cue};
use crate::fields::marked;
use crate::kruskal::{self, Parts};
use crate::path::{across, between, hops, latest, near, tree_path, Path};
use crate::plan::{Link, Plan, NONE};
use crate::plans;
use crate::rng::Rng;

/// What a path answers, and what it leaves of numbers that are all 9.
fn found(plan: &Plan, from: u16, to: u16, room: usize) -> (Result<Option<Path>, u32>, Vec<u16>) {
    let mut out = vec![9; room];
    (between(plan, from, to, &mut out), out)
}

/// The same of marks.
fn marks(plan: &Plan, from: u16, h: u32, room: usize) -> (Result<(), u32>, Vec<u8>) {
    let mut out = vec![9; room];
    (near(plan, from, h, &mut out), out)
}

#[test]
fn samples() {
    let t = plans::worse_reading();
    let two = Ok(Some(Path { length: 2, worst: 2 }));
    let none = Ok(Some(Path { length: 0, worst: NONE }));
    assert_eq!(found(&t, 0, 2, 4), (two, vec![0, 2, 9, 9]));
    assert_eq!(found(&t, 2, 0, 4), (two, vec![2, 0, 9, 9]));
    assert_eq!(found(&t, 2, 0, 2), (two, vec![2, 0]));
    assert_eq!(found(&t, 2, 0, 1), (Err(79), vec![9]));
    assert_eq!(found(&t, 1, 1, 0), (none, vec![]));
    assert_eq!(found(&t, 1, 1, 2), (none, vec![9, 9]));
    assert_eq!((found(&t, 0, 3, 0).0, found(&t, 3, 0, 0).0, found(&t, 3, 3, 0).0), (Err(41), Err(41), Err(41)));

    assert_eq!(marks(&t, 0, 0, 4), (Ok(()), vec![1, 0, 0, 9]));
    assert_eq!(marks(&t, 0, 1, 3), (Ok(()), vec![1, 1, 0]));
    assert_eq!(marks(&t, 2, 1, 3), (Ok(()), vec![0, 1, 1]));
    assert_eq!(marks(&t, 0, 2, 3), marks(&t, 0, u32::MAX, 3));
    assert_eq!((marks(&t, 0, 1, 2), marks(&t, 3, 1, 2)), ((Err(79), vec![9, 9]), (Err(41), vec![9, 9])));
}

/// The plan comes before the module, the module before "no way", and that before the buffer.
#[test]
fn refusals() {
    let t = plans::worse_reading();
    let mut reading = t.clone();
    reading.links[2].at_lower = 2001;
    let apart = Plan { modules: 4, ..t.clone() };
    let nowhere = |from, to, room| found(&apart, from, to, room) == (Ok(None), vec![9; room]);
    assert!(nowhere(0, 3, 0) && nowhere(3, 1, 5) && !nowhere(3, 3, 0));
    assert_eq!(
        (found(&apart, 3, 4, 0).0, found(&apart, 4, 3, 0).0, found(&apart, 0, 2, 1).0),
        (Err(41), Err(41), Err(79))
    );
    for (plan, number) in [(Plan { modules: 193, ..t.clone() }, 14), (reading, 18), (plans::blank(), 41)] {
        for v in [0, 3, 65535] {
            assert_eq!((found(&plan, v, 0, 0).0, found(&plan, 0, v, 5).0), (Err(number), Err(number)));
            assert_eq!((marks(&plan, v, 0, 0).0, marks(&plan, v, 9, 5).0), (Err(number), Err(number)));
        }
    }
    // nobody but one: within any number of branches of itself
    let single = Plan { modules: 1, links: vec![] };
    assert_eq!(found(&single, 0, 0, 0).0, Ok(Some(Path { length: 0, worst: NONE })));
    assert_eq!((marks(&single, 0, 0, 1), marks(&single, 0, 7, 0).0), ((Ok(()), vec![1]), Err(79)));
}

/// All ways from v to `to` over these links that come to no module twice.
fn ways(plan: &Plan, links: &[u16], v: u16, to: u16, been: &mut Vec<u16>, way: &mut Vec<u16>, all: &mut Vec<Vec<u16>>) {
    if v == to {
        all.push(way.clone());
        return;
    }
    been.push(v);
    for k in plan.own_links(v).into_iter().filter(|k| links.contains(k)) {
        let w = across(plan, k, v);
        if !been.contains(&w) {
            way.push(k);
            ways(plan, links, w, to, been, way, all);
            way.pop();
        }
    }
    been.pop();
}

fn all_ways(plan: &Plan, links: &[u16], from: u16, to: u16) -> Vec<Vec<u16>> {
    let mut all = Vec::new();
    ways(plan, links, from, to, &mut Vec::new(), &mut Vec::new(), &mut all);
    all
}

/// On plans of up to 6 modules, for each two of them: over tree links there is the path and no other way; over all links
/// each way has a latest link that is not earlier than the path's, and some way has another one.
#[test]
fn every_way_of_small_plans() {
    let rng = &mut Rng::new(7);
    let (mut later, mut apart) = (0, 0);
    for _ in 0..200 {
        let readings = rng.pick(&plans::READINGS);
        let (n, l) = (rng.range(1, 6) as u16, rng.below(16));
        let count = rng.pick(&[1, 1, 2]).min(n as usize);
        let pairs = plans::in_parts(rng, n, count, l);
        let plan = plans::plan(rng, n, pairs, readings);
        let links: Vec<u16> = (0..plan.links.len() as u16).collect();
        let tree = kruskal::tree(&plan);
        let branches: Vec<u16> = links.iter().copied().filter(|k| tree[*k as usize] == 1).collect();
        for (u, v) in (0..n).flat_map(|u| (0..n).map(move |v| (u, v))) {
            let Some(path) = tree_path(&plan, u, v) else {
                assert!(all_ways(&plan, &links, u, v).is_empty(), "{u} to {v} in {plan:?}");
                apart += 1;
                continue;
            };
            assert_eq!(all_ways(&plan, &branches, u, v), [path.clone()]);
            let worst = latest(&plan, &path);
            for way in all_ways(&plan, &links, u, v) {
                let other = latest(&plan, &way);
                assert!(u == v || !plan.earlier(other, worst), "{way:?} is better than {path:?} in {plan:?}");
                later += (other != worst) as usize;
            }
        }
    }
    assert!(later > 5_000 && apart > 200, "{later} ways with a later latest link, {apart} times no way");
}

/// On plans of any size: the links that are earlier than the worst one do not join the two modules, those up to it do; where
/// there is no way, all links do not.
#[test]
fn no_earlier_links_join() {
    let rng = &mut Rng::new(8);
    for i in 0..120 {
        let kinds = plans::kinds_without(&["blank", "single"]);
        let kind = kinds[i % kinds.len()];
        let plan = plans::good(rng, kind);
        for _ in 0..6 {
            let (u, v) = (rng.below(plan.modules as usize) as u16, rng.below(plan.modules as usize) as u16);
            let Some(path) = tree_path(&plan, u, v) else {
                assert!(!plan.part_of(u).contains(&v), "{u} and {v} are in one part");
                continue;
            };
            let worst = latest(&plan, &path);
            let mut parts = Parts::new(plan.modules as usize);
            let join =
                |parts: &mut Parts, Link { lower, higher, .. }: Link| parts.join(lower as usize, higher as usize);
            for k in (0..plan.links.len() as u16).filter(|k| worst != NONE && plan.earlier(*k, worst)) {
                join(&mut parts, plan.links[k as usize]);
            }
            let joined = |parts: &mut Parts| parts.root(u as usize) == parts.root(v as usize);
            assert_eq!(joined(&mut parts), u == v, "{u} and {v} by links before {worst}");
            if u != v {
                join(&mut parts, plan.links[worst as usize]);
                assert!(joined(&mut parts), "{u} and {v} by links up to {worst}");
            }
        }
    }
}

/// The path is a way from the first module to the second in which no module comes twice; from the second to the first it
/// is turned round, with the same worst link; its length is how far the search in breadth finds the module.
#[test]
fn ways_turned_round() {
    let rng = &mut Rng::new(9);
    let kinds = plans::kinds_without(&["blank"]);
    for i in 0..300 {
        let kind = kinds[i % kinds.len()];
        let plan = plans::good(rng, kind);
        let (u, v) = (rng.below(plan.modules as usize) as u16, rng.below(plan.modules as usize) as u16);
        let Some(path) = tree_path(&plan, u, v) else {
            assert_eq!((tree_path(&plan, v, u), hops(&plan, u)[v as usize]), (None, None));
            continue;
        };
        let mut been = vec![u];
        for k in &path {
            let link = plan.links[*k as usize];
            let at = *been.last().unwrap();
            assert!(link.lower == at || link.higher == at, "link {k} does not go on from module {at}");
            been.push(across(&plan, *k, at));
        }
        assert_eq!(been.last(), Some(&v));
        been.sort();
        been.dedup();
        assert_eq!(been.len(), path.len() + 1, "a module comes twice");
        let back = tree_path(&plan, v, u).expect("the way back");
        assert!(back.iter().rev().eq(&path) && latest(&plan, &back) == latest(&plan, &path), "{u} to {v}");
        assert_eq!(hops(&plan, u)[v as usize], Some(path.len() as u32));
    }
}

/// The hops that a cue's records tell are the lengths of the paths from its sender, and so are the marks: for each h those
/// within h hops. Where there is no way, nothing is heard.
#[test]
fn hops_of_a_cue() {
    let rng = &mut Rng::new(10);
    for i in 0..90 {
        let kind =
            ["single", "path", "star", "ring", "complete", "tree", "small", "banks", "forest", "islands"][i % 10];
        let plan = plans::good(rng, kind);
        let (field, words) = marked(rng, &plan);
        let n = plan.modules as usize;
        let (sender, mut cues) = (rng.below(n) as u16, vec![Cue::UNHEARD; n]);
        start(&field, &words, &mut cues, sender, 5).unwrap();
        let tree = finished_tree(&field, &words).unwrap();
        while let Some(d) = (0..2 * plan.links.len() as u16).find(|d| waits(&field, &tree, &cues, *d)) {
            deliver(&field, &words, &mut cues, d).unwrap();
        }
        for (v, cue) in cues.iter().enumerate() {
            let heard = (cue.heard == 1).then_some(cue.hops as usize);
            assert_eq!(tree_path(&plan, sender, v as u16).map(|path| path.len()), heard, "from {sender} to {v}");
        }
        for h in [0, 1, 2, n as u32 / 2, n as u32 - 1, n as u32, u32::MAX] {
            let within: Vec<u8> = cues.iter().map(|cue| (cue.heard == 1 && cue.hops as u32 <= h) as u8).collect();
            assert_eq!(marks(&plan, sender, h, n), (Ok(()), within), "within {h} of {sender}");
        }
    }
}
