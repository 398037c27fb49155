//! What was run, and how gamma's runs ended, with the smallest input of each kind.
use crate::ours::pairs;
use crate::{text, Partners, Rows};
use std::collections::BTreeMap;
use std::fmt;

/// An input with its measure: routes, edges, pairs at the start, entries.
#[derive(Clone, Debug, PartialEq, Eq, PartialOrd, Ord)]
struct Input {
    routes: usize,
    entries: usize,
    paired: usize,
    rows: Rows,
    start: Partners,
}

/// How often, and the smallest input.
struct Kind {
    times: u64,
    smallest: Input,
    said: String,
}

/// Runs by kind.
#[derive(Default)]
pub struct Seen {
    pub runs: u64,
    pub finished: u64,
    pub added: u64,
    pub exact: u64,
    pub twice: u64,
    kinds: BTreeMap<String, Kind>,
}

impl Seen {
    /// A run of this kind, and what it said.
    pub fn keep(&mut self, kind: &str, rows: &Rows, start: &Partners, said: String) {
        let input = Input {
            routes: rows.len(),
            entries: rows.iter().map(Vec::len).sum(),
            paired: pairs(start).len(),
            rows: rows.clone(),
            start: start.clone(),
        };
        match self.kinds.get_mut(kind) {
            Some(kept) => {
                kept.times += 1;
                if input < kept.smallest {
                    kept.smallest = input;
                    kept.said = said;
                }
            }
            None => drop(self.kinds.insert(kind.to_string(), Kind { times: 1, smallest: input, said })),
        }
    }

    /// What another share of the runs has counted too.
    pub fn add(&mut self, other: Seen) {
        self.runs += other.runs;
        self.finished += other.finished;
        self.added += other.added;
        self.exact += other.exact;
        self.twice += other.twice;
        for (name, kind) in other.kinds {
            match self.kinds.get_mut(&name) {
                Some(kept) => {
                    let times = kept.times + kind.times;
                    if kind.smallest < kept.smallest {
                        *kept = kind;
                    }
                    kept.times = times;
                }
                None => drop(self.kinds.insert(name, kind)),
            }
        }
    }
}

impl fmt::Display for Seen {
    fn fmt(&self, f: &mut fmt::Formatter) -> fmt::Result {
        writeln!(f, "{} runs", self.runs)?;
        writeln!(f, "  gamma finished {} with as many pairs, {} of them added", self.finished, self.added)?;
        writeln!(f, "  the same pairs, where no cycle is odd: {}", self.exact)?;
        writeln!(f, "  asked a second and third time, with the same answer: {}", self.twice)?;
        for (name, kind) in &self.kinds {
            writeln!(f, "  {name}: {}; the smallest input has {} routes:", kind.times, kind.smallest.routes)?;
            writeln!(f, "    {}", text::input(&kind.smallest.rows, &kind.smallest.start))?;
            writeln!(f, "    {}", kind.said)?;
        }
        Ok(())
    }
}
