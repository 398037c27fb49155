//! A plain model of one search, written from what the definition says in words (crates/theory/specs/Search) and with no
//! regard for speed. It shares no table with the proved code: a group is a set of routes, a ring is a list of groups with
//! the edge from each to the next, and every walk to a root is made anew. It is to find the same pairs and the same
//! witness, since the order of rows, roots and rings is fixed.

/// The partner of each route, if it has one.
pub type Partners = Vec<Option<usize>>;

/// What one search brings.
pub enum Outcome {
    /// The partners with one pair more.
    Found(Partners),
    /// The routes of a witness, rising: there is no pair more.
    Stuck(Vec<usize>),
}

/// A search that is over: what it brings, and how deep its rings are nested.
pub struct Searched {
    pub outcome: Outcome,
    pub depth: usize,
}

/// One search from these partners.
pub fn search(rows: &[Vec<u32>], partners: &[Option<usize>]) -> Searched {
    let mut forest = Forest::planted(partners);
    let outcome = match forest.grown(rows) {
        Some(edge) => Outcome::Found(forest.improved(edge)),
        None => Outcome::Stuck((0..rows.len()).filter(|&v| forest.labels[v] == Label::Inner).collect()),
    };
    let depth = (0..forest.groups.len()).map(|group| forest.depth(group)).max().unwrap_or(0);
    Searched { outcome, depth }
}

#[derive(Clone, Copy, PartialEq)]
enum Label {
    Unreached,
    Inner,
    Outer,
}

/// One group of a ring, and the edge from it to the next one.
struct Link {
    group: usize,
    edge: (usize, usize),
}

/// Routes that count as one. The first groups are the routes themselves, and each ring is a group more.
struct Group {
    holds: Vec<bool>,
    base: usize,
    ring: Vec<Link>,
}

struct Forest {
    partners: Partners,
    parents: Vec<Option<usize>>,
    labels: Vec<Label>,
    queue: Vec<usize>,
    groups: Vec<Group>,
}

impl Forest {
    /// Every route is a group, and those without partners are the roots.
    fn planted(partners: &[Option<usize>]) -> Forest {
        let n = partners.len();
        let alone = |v| Group { holds: (0..n).map(|w| w == v).collect(), base: v, ring: vec![] };
        let mut forest = Forest {
            partners: partners.to_vec(),
            parents: vec![None; n],
            labels: vec![Label::Unreached; n],
            queue: vec![],
            groups: (0..n).map(alone).collect(),
        };
        (0..n).filter(|&v| partners[v].is_none()).for_each(|v| forest.enter(v));
        forest
    }

    /// v turns outer, and its row is to be looked through.
    fn enter(&mut self, v: usize) {
        self.labels[v] = Label::Outer;
        self.queue.push(v);
    }

    /// The rows of the queue, until an edge between two trees is found.
    fn grown(&mut self, rows: &[Vec<u32>]) -> Option<(usize, usize)> {
        let mut turn = 0;
        while turn < self.queue.len() {
            let v = self.queue[turn];
            for &w in &rows[v] {
                if self.look(v, w as usize) {
                    return Some((v, w as usize));
                }
            }
            turn += 1;
        }
        None
    }

    /// The entry w of row v: is the edge one between two trees?
    fn look(&mut self, v: usize, w: usize) -> bool {
        if self.group_of(v) == self.group_of(w) || self.labels[w] == Label::Inner {
            return false;
        }
        if self.labels[w] == Label::Unreached {
            self.parents[w] = Some(v);
            self.labels[w] = Label::Inner;
            self.enter(self.partners[w].expect("a route without a partner is a root"));
            return false;
        }
        let (one, two) = (self.way(v), self.way(w));
        if one.last() != two.last() {
            return true;
        }
        self.contract((v, w), &one, &two);
        false
    }

    /// The largest group that holds v: rings come later than what is in them.
    fn group_of(&self, v: usize) -> usize {
        self.groups.iter().rposition(|group| group.holds[v]).expect("every route is a group")
    }

    /// The groups on the way from v to its root.
    fn way(&self, v: usize) -> Vec<usize> {
        let mut way = vec![self.group_of(v)];
        while let Some((_, over)) = self.upward(way[way.len() - 1]) {
            way.push(self.group_of(over));
        }
        way
    }

    /// The edge by which a group hangs: of an inner route to its parent, of any other group from its base to a partner.
    fn upward(&self, group: usize) -> Option<(usize, usize)> {
        let base = self.groups[group].base;
        if self.labels[base] == Label::Inner {
            return Some((base, self.parents[base]?));
        }
        Some((base, self.partners[base]?))
    }

    /// The ring that an edge closes becomes a group: up from its first end to where the ways meet, down to its second.
    fn contract(&mut self, (v, w): (usize, usize), one: &[usize], two: &[usize]) {
        let up = one.iter().position(|group| two.contains(group)).expect("one tree has one root");
        let down = two.iter().position(|&group| group == one[up]).expect("it is on both ways");
        let mut ring: Vec<Link> = vec![];
        for &group in &one[..up] {
            ring.push(Link { group, edge: self.upward(group).expect("the root is not below it") });
        }
        for k in (0..down).rev() {
            let (below, above) = self.upward(two[k]).expect("the root is not below it");
            ring.push(Link { group: two[k + 1], edge: (above, below) });
        }
        ring.push(Link { group: two[0], edge: (w, v) });
        let holds = (0..self.labels.len()).map(|r| ring.iter().any(|link| self.groups[link.group].holds[r])).collect();
        for link in &ring {
            if link.group < self.labels.len() && self.labels[link.group] == Label::Inner {
                self.enter(link.group);
            }
        }
        self.groups.push(Group { holds, base: self.groups[one[up]].base, ring });
    }

    /// The partners after an edge between two trees.
    fn improved(&self, (v, w): (usize, usize)) -> Partners {
        let mut new = self.partners.clone();
        pair(&mut new, (v, w));
        self.raise(v, &mut new);
        self.raise(w, &mut new);
        new
    }

    /// From v to its root: each group is exposed where the walk comes into it.
    fn raise(&self, v: usize, new: &mut Partners) {
        let group = self.group_of(v);
        self.expose(group, v, new);
        if let Some(inner) = self.partners[self.groups[group].base] {
            let parent = self.parents[inner].expect("an inner route has a parent");
            pair(new, (inner, parent));
            self.raise(parent, new);
        }
    }

    /// The others of the ring are coupled, two by two from the one that holds x on.
    fn expose(&self, group: usize, x: usize, new: &mut Partners) {
        let ring = &self.groups[group].ring;
        let Some(at) = ring.iter().position(|link| self.groups[link.group].holds[x]) else { return };
        self.expose(ring[at].group, x, new);
        for k in (1..ring.len()).step_by(2) {
            let (one, two) = (&ring[(at + k) % ring.len()], &ring[(at + k + 1) % ring.len()]);
            pair(new, one.edge);
            self.expose(one.group, one.edge.0, new);
            self.expose(two.group, one.edge.1, new);
        }
    }

    /// How many rings stand one within the other in a group.
    fn depth(&self, group: usize) -> usize {
        self.groups[group].ring.iter().map(|link| 1 + self.depth(link.group)).max().unwrap_or(0)
    }
}

fn pair(partners: &mut Partners, (one, two): (usize, usize)) {
    partners[one] = Some(two);
    partners[two] = Some(one);
}
