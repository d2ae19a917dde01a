//! Cues, from the text of document 02's request 01 and the readings of it: one 16-bit cue goes from a sender over the
//! finished tree. A console lends a record for each module; a cue is started, its copies are delivered one by one.

use crate::field::Field;
use crate::kruskal;
use crate::plan::NONE;
use crate::rules::BRANCH;

/// "One for each module: heard or not, the cue, the link it came by (none at the sender), the hops from the sender." As C
/// lends it: four numbers, any.
#[repr(C)]
#[derive(Clone, Copy, Debug, PartialEq, Eq, Hash)]
pub struct Cue {
    pub heard: u8,
    pub cue: u16,
    pub link: u16,
    pub hops: u16,
}

impl Cue {
    /// "A module that has not heard has zeros and none."
    pub const UNHEARD: Cue = Cue { heard: 0, cue: 0, link: NONE, hops: 0 };

    pub fn of_sender(cue: u16) -> Cue {
        Cue { heard: 1, cue, link: NONE, hops: 0 }
    }
}

/// What a delivery answers that is not refused.
#[derive(Clone, Copy, Debug, PartialEq, Eq)]
pub enum Delivery {
    Heard,
    Idle,
}

/// A field "whose branch marks equal the plan's tree", as a byte for each link; 31, then 71.
pub fn finished_tree(field: &Field, words: &[u64]) -> Result<Vec<u8>, u32> {
    field.check(words)?;
    let tree = kruskal::tree(&field.plan);
    let agrees = |k: usize| field.marks[k].iter().all(|mark| (*mark == BRANCH) == (tree[k] == 1));
    if (0..tree.len()).all(agrees) {
        Ok(tree)
    } else {
        Err(71)
    }
}

/// Starts a cue: 31, 71, 72, then 73 for too few records; old records are not looked at, and those past N keep.
pub fn start(field: &Field, words: &[u64], cues: &mut [Cue], sender: u16, cue: u16) -> Result<(), u32> {
    finished_tree(field, words)?;
    if sender >= field.plan.modules {
        return Err(72);
    }
    let records = cues.get_mut(..field.plan.modules as usize).ok_or(73u32)?;
    records.fill(Cue::UNHEARD);
    records[sender as usize] = Cue::of_sender(cue);
    Ok(())
}

/// Delivers the copy that waits on a directed link: 31, 71, 73, 42, or heard, or idle where none waits.
pub fn deliver(field: &Field, words: &[u64], cues: &mut [Cue], directed: u16) -> Result<Delivery, u32> {
    let tree = finished_tree(field, words)?;
    let records = cues.get_mut(..field.plan.modules as usize).ok_or(73u32)?;
    if !left_by_sending(field, &tree, records) {
        return Err(73);
    }
    if directed as usize >= 2 * field.plan.links.len() {
        return Err(42);
    }
    if !waits(field, &tree, records, directed) {
        return Ok(Delivery::Idle);
    }
    let near = records[field.source(directed) as usize];
    records[field.target(directed) as usize] = Cue { link: directed / 2, hops: near.hops + 1, ..near };
    Ok(Delivery::Heard)
}

/// A copy waits on a directed link exactly if it is one of a tree link, its near end has heard and its far end has not.
pub fn waits(field: &Field, tree: &[u8], records: &[Cue], directed: u16) -> bool {
    let heard = |v: u16| records[v as usize].heard == 1;
    tree[directed as usize / 2] == 1 && heard(field.source(directed)) && !heard(field.target(directed))
}

/// The rule of 73 on the first N records. tests_cue.rs compares it with what starts and deliveries of one cue leave.
pub fn left_by_sending(field: &Field, tree: &[u8], records: &[Cue]) -> bool {
    let heard: Vec<&Cue> = records.iter().filter(|r| r.heard == 1).collect();
    let senders = heard.iter().filter(|r| r.link == NONE).count();
    senders == 1
        && records.iter().all(|r| r.heard == 1 || *r == Cue::UNHEARD)
        && heard.iter().all(|r| r.cue == heard[0].cue)
        && (0..records.len()).all(|v| records[v].heard == 0 || follows(field, tree, records, v as u16))
}

/// The sender has no hops; another that has heard did so over an own link of the tree, from one that has heard, and is a
/// hop further.
fn follows(field: &Field, tree: &[u8], records: &[Cue], v: u16) -> bool {
    let record = records[v as usize];
    if record.link == NONE {
        return record.hops == 0;
    }
    let Some(near) = other_end(field, v, record.link) else { return false };
    let near = records[near as usize];
    tree[record.link as usize] == 1 && near.heard == 1 && record.hops as u32 == near.hops as u32 + 1
}

/// The module at the other end of an own link; none where it is no own link.
pub fn other_end(field: &Field, v: u16, k: u16) -> Option<u16> {
    let link = field.plan.links.get(k as usize)?;
    match v {
        _ if v == link.lower => Some(link.higher),
        _ if v == link.higher => Some(link.lower),
        _ => None,
    }
}
