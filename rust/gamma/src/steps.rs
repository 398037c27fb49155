//! gamma's search for a maximum matching, search by search. `maximum_matching` takes any `Graph`, so it is lent one that
//! answers what the graph of the rows answers and unwinds when a second search begins. So each call makes one step of
//! the run, by gamma's own code, and what the step left can be looked at. A run that comes to a pairing for the second
//! time never ends: a search reads nothing but the graph and the pairing.
use crate::caught;
use crate::graph::{DefaultGraph, Error, Graph};
use crate::matching::{maximum_matching, Pairing};
use std::any::Any;
use std::cell::Cell;
use std::collections::HashSet;
use std::panic::resume_unwind;

/// How a run of gamma went.
#[derive(Clone, Debug, PartialEq)]
pub struct Run {
    /// The pairs at the start, and after each step, each by lower id and rising.
    pub pairs: Vec<Vec<(usize, usize)>>,
    pub end: End,
}

/// How a run of gamma ended.
#[derive(Clone, Debug, PartialEq)]
pub enum End {
    /// It found no more; the last pairs are its answer.
    Finished,
    /// It panicked, with these words.
    Panicked(String),
    /// It came to pairs where it had been before.
    Endless,
    /// It made more steps than the limit, and never the same twice.
    TooLong,
}

impl Run {
    /// The first step after which there are no more pairs than before it, counted from 0.
    pub fn stood_still(&self) -> Option<usize> {
        self.pairs.windows(2).position(|two| two[1].len() <= two[0].len())
    }

    /// The pairs that it was left with.
    pub fn last(&self) -> &[(usize, usize)] {
        self.pairs.last().expect("the pairs at the start")
    }
}

/// A run from these pairs, of at most so many steps.
pub fn run(graph: &DefaultGraph, start: &[(usize, usize)], limit: usize) -> Run {
    let mut pairing = Pairing::new();
    start.iter().for_each(|&(one, other)| pairing.pair(one, other));
    let mut pairs = vec![edges(&pairing)];
    let mut been = HashSet::from([pairs[0].clone()]);
    let end = loop {
        let stepped = step(graph, &mut pairing);
        let now = edges(&pairing);
        match stepped {
            Step::Panicked(words) => break End::Panicked(words),
            // where the step left no route unpaired, the search after it looks at no row
            Step::Returned if now != pairs[pairs.len() - 1] => pairs.push(now.clone()),
            Step::Returned => break End::Finished,
            Step::Made => pairs.push(now.clone()),
        }
        if !been.insert(now) {
            break End::Endless;
        }
        if pairs.len() > limit {
            break End::TooLong;
        }
    };
    Run { pairs, end }
}

/// The pairs, which come in hash order, sorted.
pub fn edges(pairing: &Pairing) -> Vec<(usize, usize)> {
    let mut edges: Vec<(usize, usize)> = pairing.edges().collect();
    edges.sort();
    edges
}

enum Step {
    /// gamma came back by itself.
    Returned,
    /// A search brought pairs, and the next had begun.
    Made,
    Panicked(String),
}

/// One search, and the pairs that it brings.
fn step(graph: &DefaultGraph, pairing: &mut Pairing) -> Step {
    let once = Once { graph, looks: Cell::new(0) };
    match caught(|| maximum_matching(&once, pairing)) {
        Ok(()) => Step::Returned,
        Err(thrown) if thrown.is::<Second>() => Step::Made,
        Err(thrown) => Step::Panicked(words(thrown.as_ref())),
    }
}

/// What a panic says.
fn words(thrown: &(dyn Any + Send)) -> String {
    let text = thrown.downcast_ref::<String>().cloned();
    text.or_else(|| thrown.downcast_ref::<&str>().map(|text| text.to_string())).unwrap_or_default()
}

/// Thrown when a second search begins.
struct Second;

/// The graph, until a second search reads a row. A search looks at all ids once, then reads rows; where it contracts, it
/// looks at all ids twice more, and reads no more rows of this graph. So a row that is read after the second look at all
/// ids is read by the next search.
struct Once<'a> {
    graph: &'a DefaultGraph,
    looks: Cell<u64>,
}

impl Graph for Once<'_> {
    fn is_empty(&self) -> bool {
        self.graph.is_empty()
    }

    fn order(&self) -> usize {
        self.graph.order()
    }

    fn size(&self) -> usize {
        self.graph.size()
    }

    fn ids(&self) -> Box<dyn Iterator<Item = usize> + '_> {
        self.looks.set(self.looks.get() + 1);
        self.graph.ids()
    }

    fn neighbors(&self, id: usize) -> Result<Box<dyn Iterator<Item = usize> + '_>, Error> {
        if self.looks.get() > 1 {
            resume_unwind(Box::new(Second));
        }
        self.graph.neighbors(id)
    }

    fn has_id(&self, id: usize) -> bool {
        self.graph.has_id(id)
    }

    fn degree(&self, id: usize) -> Result<usize, Error> {
        self.graph.degree(id)
    }

    fn edges(&self) -> Box<dyn Iterator<Item = (usize, usize)> + '_> {
        self.graph.edges()
    }

    fn has_edge(&self, one: usize, other: usize) -> Result<bool, Error> {
        self.graph.has_edge(one, other)
    }
}
