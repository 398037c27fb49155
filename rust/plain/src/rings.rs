//! Rings become groups, and an edge between two trees becomes pairs: crates/theory/specs/Search/Rings.antt and
//! Expose.antt.
use crate::tables::{Label, Tables};
use crate::NONE;

impl Tables {
    /// The ring that the edge between v and w closes becomes a group.
    pub fn contract(&mut self, v: u32, w: u32) {
        let first = self.top[v as usize];
        self.link(self.top[w as usize], w, v, first);
        let (mut x, mut y, mut half) = (v, w, 0);
        while self.top[x as usize] != self.top[y as usize] {
            let (g, h) = (self.top[x as usize], self.top[y as usize]);
            if self.rank[g as usize] < self.rank[h as usize] {
                y = self.walk_right(h);
            } else {
                x = self.walk_left(g);
            }
            half += 1;
        }
        self.absorb(first, self.top[x as usize], half);
    }

    /// The edge from `out` in a group to `into` in the next is stored in the ring's direction.
    fn link(&mut self, group: u32, out: u32, into: u32, next: u32) {
        let group = group as usize;
        self.next[group] = next;
        self.out[group] = out;
        self.into[group] = into;
    }

    /// From the group g by its base to the base's partner, and on to that one's parent, which is the answer.
    fn walk_left(&mut self, g: u32) -> u32 {
        let (base, partner, parent) = self.above(g);
        self.link(g, base, partner, partner);
        self.link(partner, partner, parent, self.top[parent as usize]);
        parent
    }

    /// The same walk, stored the other way round.
    fn walk_right(&mut self, g: u32) -> u32 {
        let (base, partner, parent) = self.above(g);
        self.link(partner, partner, base, g);
        self.link(self.top[parent as usize], parent, partner, partner);
        parent
    }

    /// The base of g, its partner, and that one's parent; g and the partner go into the ring.
    fn above(&mut self, g: u32) -> (u32, u32, u32) {
        let base = self.base[g as usize];
        let partner = self.mate[base as usize];
        self.up[g as usize] = self.ids;
        self.up[partner as usize] = self.ids;
        (base, partner, self.parent[partner as usize])
    }

    /// The ring has the root, the base and the rank of the group in which the walks have met.
    fn absorb(&mut self, first: u32, met: u32, half: u32) {
        let (ring, met) = (self.ids as usize, met as usize);
        self.up[met] = self.ids;
        for top in &mut self.top {
            if self.up[*top as usize] == self.ids {
                *top = self.ids;
            }
        }
        self.root[ring] = self.root[met];
        self.base[ring] = self.base[met];
        self.rank[ring] = self.rank[met];
        self.half[ring] = half;
        self.admit(first, 2 * half + 1);
        self.ids += 1;
    }

    /// Round the ring from the first group on: inner routes become outer, and are queued. A ring within has no label.
    fn admit(&mut self, first: u32, groups: u32) {
        let mut g = first;
        for _ in 0..groups {
            if self.label.get(g as usize) == Some(&Label::Inner) {
                self.enter(g);
            }
            g = self.next[g as usize];
        }
    }

    /// The pairs that the edge between one and two brings, written over the pairing.
    pub fn add(&mut self, one: u32, two: u32, pairing: &mut [u32]) {
        self.found.copy_from_slice(&self.mate);
        self.pair(one, two);
        self.raise(one);
        self.raise(two);
        for (v, (partner, &found)) in (0..).zip(pairing.iter_mut().zip(&self.found)) {
            *partner = if found == v { NONE } else { found };
        }
    }

    fn pair(&mut self, one: u32, other: u32) {
        self.found[one as usize] = other;
        self.found[other as usize] = one;
    }

    /// From v up to its root: each group is exposed where the walk came into it.
    fn raise(&mut self, mut v: u32) {
        loop {
            let g = self.top[v as usize];
            self.expose(g, v);
            let base = self.base[g as usize];
            let partner = self.mate[base as usize];
            if partner == base {
                return;
            }
            v = self.parent[partner as usize];
            self.pair(partner, v);
        }
    }

    /// The group g is exposed at its route x: ring by ring from x up to g, the others of each ring are coupled.
    fn expose(&mut self, g: u32, x: u32) {
        let mut c = x;
        while c != g {
            let ring = self.up[c as usize];
            self.couple(self.half[ring as usize], self.next[c as usize]);
            c = ring;
        }
    }

    /// So many couples round a ring, from the group g on: the edge from a group to the next is a pair.
    fn couple(&mut self, couples: u32, mut g: u32) {
        for _ in 0..couples {
            let (next, x, y) = (self.next[g as usize], self.out[g as usize], self.into[g as usize]);
            self.pair(x, y);
            self.expose(g, x);
            self.expose(next, y);
            g = self.next[next as usize];
        }
    }
}
