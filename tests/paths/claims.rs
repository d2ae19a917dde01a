//! What requests 07 and 08 say of paths, held against the library's own answers; of the oracle only the order of links and the
//! joining of parts are used.

use crate::draws::some_module;
use crate::muruapy::{self, Numbers, Record};
use crate::tally::Tally;
use oracle::cue::Cue;
use oracle::kruskal::Parts;
use oracle::plan::{Plan, NONE};
use oracle::plans;
use oracle::rng::Rng;

const CUES: usize = 60;

/// The library's path between two modules of a good plan, and its worst link; none for "no way".
fn path(plan: &Numbers, from: u16, to: u16) -> Option<(Vec<u16>, u16)> {
    let mut links = [NONE; 191];
    let found = muruapy::path(plan, from, to, &mut links);
    assert!(found.refusal == 0 && found.way <= 1);
    (found.way == 1).then(|| (links[..found.length as usize].to_vec(), found.worst))
}

/// How long it is.
fn length(plan: &Numbers, from: u16, to: u16) -> Option<u32> {
    path(plan, from, to).map(|(links, _)| links.len() as u32)
}

/// Whether two modules are joined by those links that `by` names.
fn joined(plan: &Plan, u: u16, v: u16, by: impl Fn(u16) -> bool) -> bool {
    let mut parts = Parts::new(plan.modules as usize);
    for k in (0..plan.links.len()).filter(|k| by(*k as u16)) {
        parts.join(plan.links[k].lower as usize, plan.links[k].higher as usize);
    }
    parts.root(u as usize) == parts.root(v as usize)
}

/// A way from the first module to the second, no module twice, over the library's own tree; no way has an earlier latest
/// link; back it is turned round.
pub fn of_path(rng: &mut Rng, plan: &Plan, tally: &mut Tally) {
    let numbers = muruapy::numbers(plan, rng);
    let (u, v) = (some_module(rng, plan), some_module(rng, plan));
    let Some((links, worst)) = path(&numbers, u, v) else {
        assert!(!joined(plan, u, v, |_| true) && path(&numbers, v, u).is_none(), "a way from {u} to {v}");
        return tally.count("claims: no way");
    };
    let mut tree = vec![0; plan.links.len()];
    assert_eq!(muruapy::tree(&numbers, &mut tree), 0);
    let mut been = vec![u];
    for k in &links {
        let (link, at) = (plan.links[*k as usize], *been.last().unwrap());
        assert!(tree[*k as usize] == 1 && [link.lower, link.higher].contains(&at), "link {k} behind module {at}");
        let next = if link.lower == at { link.higher } else { link.lower };
        assert!(!been.contains(&next), "module {next} comes twice");
        been.push(next);
    }
    assert_eq!(been.last(), Some(&v), "the path ends elsewhere");
    tally.count(if u == v { "claims: the same module" } else { "claims: two different modules" });
    assert!(if u == v { worst == NONE } else { links.contains(&worst) }, "worst {worst} of {links:?}");
    assert!(u == v || !joined(plan, u, v, |k| plan.earlier(k, worst)), "a better way than by {worst}");
    assert!(joined(plan, u, v, |k| !plan.earlier(worst, k)), "no way up to {worst}");
    let (back, same) = path(&numbers, v, u).expect("the way back");
    assert!(back.iter().rev().eq(&links) && same == worst, "{u} to {v} turned round");
}

/// The marks of a module by the lengths of the paths from it, for each number of branches.
pub fn of_marks(plan: &Plan, rng: &mut Rng, tally: &mut Tally) {
    let numbers = muruapy::numbers(plan, rng);
    let n = plan.modules;
    let from = some_module(rng, plan);
    for h in 0..=n as u32 {
        tally.count("claims: marks");
        let mut marks = vec![9; n as usize];
        assert_eq!(muruapy::near(&numbers, from, h, &mut marks), 0);
        let within = |v: u16| length(&numbers, from, v).is_some_and(|links| links <= h) as u8;
        assert!((0..n).map(within).eq(marks), "within {h} of {from}");
    }
}

/// A cue on the field that the job leaves, delivered until nobody hears: the hops in the library's records, none where the
/// cue was not heard.
fn hops(rng: &mut Rng, plan: &Numbers, sender: u16) -> Vec<Option<u32>> {
    let (mut field, mut words) = (Record::any(rng), vec![0; muruapy::ceiling(plan[0], plan[1]) as usize]);
    let mut cues = vec![Cue::UNHEARD; plan[0] as usize];
    assert_eq!((field.job(plan, &mut words).1, field.start_cue(&words, &mut cues, sender, 5)), (0, 0));
    while (0..2 * plan[1]).map(|d| field.deliver_cue(&words, &mut cues, d).heard).sum::<u32>() > 0 {}
    cues.iter().map(|cue| (cue.heard == 1).then_some(cue.hops as u32)).collect()
}

/// The hops of the library's cues are the lengths of its paths; where there is no way, nothing is heard.
pub fn of_cues(rng: &mut Rng, tally: &mut Tally) -> usize {
    for _ in 0..CUES {
        let kind = rng.pick(&["single", "complete", "small", "small", "banks", "islands"]);
        let plan = plans::good(rng, kind);
        let (numbers, sender) = (muruapy::numbers(&plan, rng), some_module(rng, &plan));
        let lengths = (0..plan.modules).map(|v| length(&numbers, sender, v));
        let hops = hops(rng, &numbers, sender);
        assert!(lengths.eq(hops.iter().copied()), "the hops of a cue from {sender}");
        for h in hops {
            tally.count(match h {
                None => "a cue's hops: another part".to_string(),
                Some(h) if h < 3 => format!("a cue's hops: {h}"),
                _ => "a cue's hops: 3 or more".to_string(),
            });
        }
    }
    CUES
}
