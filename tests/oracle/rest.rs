//! What demand 3 and request 08 say of a field from setup that is at rest: "each part with a woken module has the marks
//! demand 3 gives, and a part of one has one halted module, a larger part exactly two, the ends of one of its tree links.
//! Parts with nobody woken stay asleep."

use crate::field::{waiting, Field};
use crate::kruskal;
use crate::rules::{Module, BRANCH, REJECTED};

/// How many parts came to their tree, those of one module by themselves, and how many stayed asleep.
#[derive(Clone, Copy, Debug, Default, PartialEq, Eq)]
pub struct Rest {
    pub agreed: usize,
    pub alone: usize,
    pub asleep: usize,
}

/// Holds a field at rest against that, part by part; `woken` are the modules that a wake step woke.
pub fn at_rest(field: &Field, words: &[u64], woken: &[u16]) -> Rest {
    assert_eq!(waiting(words), 0, "at rest");
    assert_eq!(field.check(words), Ok(()), "a valid field");
    assert!(field.sent <= field.plan.ceiling(), "within the ceiling");
    let tree = kruskal::tree(&field.plan);
    let mut rest = Rest::default();
    for lowest in field.plan.lowest_modules() {
        let part = field.plan.part_of(lowest);
        if woken.iter().all(|v| !part.contains(v)) {
            asleep(field, &part);
            rest.asleep += 1;
        } else {
            agrees(field, &part, &tree);
            if part.len() == 1 {
                rest.alone += 1;
            } else {
                rest.agreed += 1;
            }
        }
    }
    rest
}

/// The numbers of a part's links.
fn links(field: &Field, part: &[u16]) -> Vec<usize> {
    (0..field.plan.links.len()).filter(|k| part.contains(&field.plan.links[*k].lower)).collect()
}

/// As at setup.
fn asleep(field: &Field, part: &[u16]) {
    for v in part {
        assert_eq!(field.modules[*v as usize], Module::SETUP, "module {v} of a part that nobody woke");
    }
    for k in links(field, part) {
        assert_eq!(field.marks[k], [0, 0], "link {k} of a part that nobody woke");
    }
}

fn agrees(field: &Field, part: &[u16], tree: &[u8]) {
    let links = links(field, part);
    for k in &links {
        let mark = if tree[*k] == 1 { BRANCH } else { REJECTED };
        assert_eq!(field.marks[*k], [mark, mark], "link {k}");
    }
    let halted: Vec<u16> = part.iter().copied().filter(|v| field.modules[*v as usize].halted == 1).collect();
    if part.len() == 1 {
        assert_eq!(halted, part, "a part of one has halted");
    } else {
        let core = links.iter().find(|k| halted == [field.plan.links[**k].lower, field.plan.links[**k].higher]);
        assert_eq!(tree[*core.expect("the halted modules are the ends of a link")], 1, "which is in the tree");
    }
}
