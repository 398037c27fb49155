//! The operations, and how a list of them is written for the proved ones (crates/drive).
use std::fmt;

/// One past the highest id.
pub const IDS: u32 = 512;

/// No partner.
pub const NONE: u32 = u32::MAX;

/// An operation with its ids.
#[derive(Clone, Debug, PartialEq)]
pub enum Operation {
    Order,
    HasNode(u32),
    Pair(u32, u32),
    Edges,
    Augment(Vec<u32>),
    Mate(u32),
}

/// Their names, by their codes.
pub const NAMES: [&str; 6] = ["order", "has_node", "pair", "edges", "augment", "mate"];

impl Operation {
    pub fn code(&self) -> u32 {
        match self {
            Operation::Order => 0,
            Operation::HasNode(_) => 1,
            Operation::Pair(..) => 2,
            Operation::Edges => 3,
            Operation::Augment(_) => 4,
            Operation::Mate(_) => 5,
        }
    }

    pub fn ids(&self) -> Vec<u32> {
        match self {
            Operation::Order | Operation::Edges => vec![],
            Operation::HasNode(id) | Operation::Mate(id) => vec![*id],
            Operation::Pair(a, b) => vec![*a, *b],
            Operation::Augment(path) => path.clone(),
        }
    }

    /// The operation that a code and its ids stand for.
    pub fn of(code: u32, ids: &[u32]) -> Option<Operation> {
        Some(match (code, ids) {
            (0, []) => Operation::Order,
            (1, &[id]) => Operation::HasNode(id),
            (2, &[a, b]) => Operation::Pair(a, b),
            (3, []) => Operation::Edges,
            (4, path) => Operation::Augment(path.to_vec()),
            (5, &[id]) => Operation::Mate(id),
            _ => return None,
        })
    }

    /// The code, how many ids there are, and the ids.
    pub fn numbers(&self) -> Vec<u32> {
        let ids = self.ids();
        [&[self.code(), ids.len() as u32], &ids[..]].concat()
    }
}

impl fmt::Display for Operation {
    fn fmt(&self, f: &mut fmt::Formatter) -> fmt::Result {
        let ids: Vec<String> = self.ids().iter().map(u32::to_string).collect();
        let brackets = if let Operation::Augment(_) = self { ("([", "])") } else { ("(", ")") };
        write!(f, "{}{}{}{}", NAMES[self.code() as usize], brackets.0, ids.join(", "), brackets.1)
    }
}

/// A list of operations, one after the other.
pub fn numbers(operations: &[Operation]) -> Vec<u32> {
    operations.iter().flat_map(Operation::numbers).collect()
}
