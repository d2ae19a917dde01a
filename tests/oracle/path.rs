//! Paths in the tree, from the text of document 02's requests 07 and 08 and the readings of them: the tree path between two
//! modules with its worst link, or "no way", and the modules within some branches of one.

use crate::kruskal;
use crate::plan::{Plan, NONE};
use std::collections::VecDeque;

/// What a path answers that is not refused: how many links it has, and the latest of them.
#[derive(Clone, Copy, Debug, PartialEq, Eq)]
pub struct Path {
    pub length: u16,
    pub worst: u16,
}

/// "For two modules the answer is the tree path as link numbers, from the first module on, at the front of a lent buffer,
/// and the latest link on it": 14 to 18, 41 for either module, 79; the rest of the buffer keeps. "A path between parts is
/// answered "no way"" (none): nothing is written, and no room is needed.
pub fn between(plan: &Plan, from: u16, to: u16, out: &mut [u16]) -> Result<Option<Path>, u32> {
    plan.check()?;
    if from >= plan.modules || to >= plan.modules {
        return Err(41);
    }
    let Some(path) = tree_path(plan, from, to) else { return Ok(None) };
    out.get_mut(..path.len()).ok_or(79u32)?.copy_from_slice(&path);
    Ok(Some(Path { length: path.len() as u16, worst: latest(plan, &path) }))
}

/// "A second answer writes N bytes, 1 for each module within h branches of one module and 0 otherwise": 14 to 18, 41, 79;
/// the rest of the buffer keeps. Modules of other parts get 0.
pub fn near(plan: &Plan, from: u16, h: u32, out: &mut [u8]) -> Result<(), u32> {
    plan.check()?;
    if from >= plan.modules {
        return Err(41);
    }
    let front = out.get_mut(..plan.modules as usize).ok_or(79u32)?;
    for (mark, hops) in front.iter_mut().zip(hops(plan, from)) {
        *mark = hops.is_some_and(|n| n <= h) as u8;
    }
    Ok(())
}

/// The latest of some links; none where there is no link.
pub fn latest(plan: &Plan, links: &[u16]) -> u16 {
    links.iter().copied().max_by_key(|k| plan.key(*k)).unwrap_or(NONE)
}

/// The module at the other end of a link.
pub fn across(plan: &Plan, k: u16, v: u16) -> u16 {
    let link = plan.links[k as usize];
    link.lower + link.higher - v
}

/// The links of the tree between two modules, by a search in depth; none where they are in different parts.
pub fn tree_path(plan: &Plan, from: u16, to: u16) -> Option<Vec<u16>> {
    let mut path = Vec::new();
    descend(plan, &kruskal::tree(plan), from, to, &mut path).then_some(path)
}

/// Goes on from module v, and not back over the link that it came by; false where `to` lies elsewhere, the path as it was.
fn descend(plan: &Plan, tree: &[u8], v: u16, to: u16, path: &mut Vec<u16>) -> bool {
    if v == to {
        return true;
    }
    let came_by = path.last().copied();
    for k in plan.own_links(v) {
        if tree[k as usize] == 1 && Some(k) != came_by {
            path.push(k);
            if descend(plan, tree, across(plan, k, v), to, path) {
                return true;
            }
            path.pop();
        }
    }
    false
}

/// How many branches each module is away from one, by a search in breadth; none in another part.
pub fn hops(plan: &Plan, from: u16) -> Vec<Option<u32>> {
    let tree = kruskal::tree(plan);
    let mut hops = vec![None; plan.modules as usize];
    hops[from as usize] = Some(0);
    let mut queue = VecDeque::from([from]);
    while let Some(v) = queue.pop_front() {
        for k in plan.own_links(v) {
            let w = across(plan, k, v) as usize;
            if tree[k as usize] == 1 && hops[w].is_none() {
                hops[w] = hops[v as usize].map(|n| n + 1);
                queue.push_back(w as u16);
            }
        }
    }
    hops
}
