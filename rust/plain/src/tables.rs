//! The tables of a search: crates/theory/specs/Search/Tables.antt, Start.antt and Grow.antt.
use crate::NONE;

/// What a label says of a route.
#[derive(Clone, Copy, PartialEq)]
pub enum Label {
    /// No walk from a root has come to it.
    Unreached,
    /// A walk comes to it over an edge, and goes on to its partner.
    Inner,
    /// A walk ends in it, and may go on to any neighbour.
    Outer,
}

/// By route, and then by group: each route is a group of one, and each ring makes one group more.
pub struct Tables {
    /// Its partner, or its own number.
    pub mate: Vec<u32>,
    /// The partners after the search.
    pub found: Vec<u32>,
    /// An inner route's parent.
    pub parent: Vec<u32>,
    /// The group that it is in now.
    pub top: Vec<u32>,
    pub label: Vec<Label>,
    /// The outer routes in order of entry.
    pub queue: Vec<u32>,
    /// The root of its tree.
    pub root: Vec<u32>,
    /// The route by which it hangs from the root.
    pub base: Vec<u32>,
    /// How deep it hangs.
    pub rank: Vec<u32>,
    /// Of a ring of 2 h + 1 groups h.
    pub half: Vec<u32>,
    /// The ring that it has gone into, the group next to it there, and the edge to that one.
    pub up: Vec<u32>,
    pub next: Vec<u32>,
    pub out: Vec<u32>,
    pub into: Vec<u32>,
    /// How many groups there are.
    pub ids: u32,
}

impl Tables {
    /// Room for n routes.
    pub fn new(n: usize) -> Tables {
        let (routes, groups) = (vec![NONE; n], vec![NONE; 2 * n]);
        Tables {
            mate: routes.clone(),
            found: routes.clone(),
            parent: routes.clone(),
            top: routes,
            label: vec![Label::Unreached; n],
            queue: Vec::with_capacity(n),
            root: groups.clone(),
            base: groups.clone(),
            rank: groups.clone(),
            half: groups.clone(),
            up: groups.clone(),
            next: groups.clone(),
            out: groups.clone(),
            into: groups,
            ids: 0,
        }
    }

    /// Before the first step: each route with no partner is the root of a tree, outer and queued. A cell of a group that is
    /// not there yet, or of a ring's edge that is not stored yet, is not read, but for `up`.
    pub fn begin(&mut self, pairing: &[u32]) {
        self.queue.clear();
        self.up.fill(NONE);
        self.label.fill(Label::Unreached);
        for (v, &partner) in (0..).zip(pairing) {
            let k = v as usize;
            self.mate[k] = if partner == NONE { v } else { partner };
            self.top[k] = v;
            self.root[k] = v;
            self.base[k] = v;
            self.rank[k] = 0;
            if partner == NONE {
                self.enter(v);
            }
        }
        self.ids = pairing.len() as u32;
    }

    /// v becomes outer, and is queued.
    pub fn enter(&mut self, v: u32) {
        self.label[v as usize] = Label::Outer;
        self.queue.push(v);
    }

    /// From the outer route v to w, which is not reached, and on to its partner.
    pub fn grow(&mut self, v: u32, w: u32) {
        let u = self.mate[w as usize];
        let g = self.top[v as usize] as usize;
        let (root, rank) = (self.root[g], self.rank[g]);
        self.parent[w as usize] = v;
        self.root[w as usize] = root;
        self.root[u as usize] = root;
        self.rank[w as usize] = rank + 1;
        self.rank[u as usize] = rank + 2;
        self.label[w as usize] = Label::Inner;
        self.enter(u);
    }
}
