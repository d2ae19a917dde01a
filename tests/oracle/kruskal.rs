//! The tree by Kruskal's method, or a forest where links do not join all modules: the links from the earliest on, each
//! taken if it joins two sets of modules.

use crate::plan::Plan;

/// Disjoint sets of modules, with path halving.
pub struct Parts(Vec<usize>);

impl Parts {
    pub fn new(n: usize) -> Parts {
        Parts((0..n).collect())
    }

    pub fn root(&mut self, mut v: usize) -> usize {
        while self.0[v] != v {
            self.0[v] = self.0[self.0[v]];
            v = self.0[v];
        }
        v
    }

    /// Joins the sets of a and b; false if they were one already.
    pub fn join(&mut self, a: usize, b: usize) -> bool {
        let (a, b) = (self.root(a), self.root(b));
        self.0[a] = b;
        a != b
    }
}

/// A byte for each link: 1 for a tree link, 0 otherwise.
pub fn tree(plan: &Plan) -> Vec<u8> {
    tree_by(plan, |k| plan.key(k))
}

/// The same with links compared by any keys.
pub fn tree_by<K: Ord>(plan: &Plan, key: impl Fn(u16) -> K) -> Vec<u8> {
    let mut order: Vec<u16> = (0..plan.links.len() as u16).collect();
    order.sort_by_key(|k| key(*k));
    let mut parts = Parts::new(plan.modules as usize);
    let mut tree = vec![0; plan.links.len()];
    for k in order {
        let link = plan.links[k as usize];
        if parts.join(link.lower as usize, link.higher as usize) {
            tree[k as usize] = 1;
        }
    }
    tree
}
