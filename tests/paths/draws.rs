//! Modules, numbers of branches and sizes of buffers, most of them at a bound.

use oracle::path::tree_path;
use oracle::plan::Plan;
use oracle::rng::Rng;

/// A module of the plan, often one of its ends.
pub fn some_module(rng: &mut Rng, plan: &Plan) -> u16 {
    let (any, last) = (rng.below(plan.modules as usize), plan.modules as usize - 1);
    rng.pick(&[0, last, any, any, any]) as u16
}

/// A number that is no module's.
pub fn no_module(rng: &mut Rng, plan: &Plan) -> u16 {
    let n = plan.modules as usize;
    let any = rng.range(n, 65535);
    rng.pick(&[n, n, n + 1, 192.max(n), 256.max(n), 65535, any]) as u16
}

/// Branches: none, some, all but one, just enough for every module, more, as many as a number can tell.
pub fn some_branches(rng: &mut Rng, plan: &Plan) -> u32 {
    let n = plan.modules as u32;
    let (within, any, few) = (rng.below(n.max(1) as usize) as u32, rng.next() as u32, rng.range(1, 4) as u32);
    let most = n.saturating_sub(1);
    rng.pick(&[0, few, within, within, most.saturating_sub(1), most, n, 255, 256, 257, 65536, any, u32::MAX])
}

/// How many numbers a path needs; none where there is no way.
pub fn needed(plan: &Plan, from: u16, to: u16) -> usize {
    tree_path(plan, from, to).map_or(0, |path| path.len())
}

/// Sizes of a buffer that needs so many places: just enough, one too few, none, more, and any fewer.
pub fn rooms(rng: &mut Rng, needed: usize) -> Vec<usize> {
    let mut rooms = vec![needed, 0, needed + 1, needed + rng.range(2, 50)];
    if needed > 0 {
        rooms.push(needed - 1);
        rooms.push(rng.below(needed));
    }
    rooms
}
