//! The search of crates/theory/specs/Search once more, as a straightforward Rust program: step for step the same, so that
//! pairs and witness are the same. It is what the proved code is timed against, and a second hand at the definition. The
//! tables are vectors made once for all searches, and each search begins with their first cells as new.
mod read;
mod rings;
mod tables;

pub use read::{partners, rows, Refused};

use tables::{Label, Tables};

/// The number that stands for no route.
pub const NONE: u32 = u32::MAX;

/// What improvement leaves and answers.
#[derive(Clone, Debug, PartialEq)]
pub struct Improved {
    /// For each route its partner, or none.
    pub pairing: Vec<u32>,
    /// Where finished, for each route 1 in the set and 0 outside it.
    pub witness: Option<Vec<u8>>,
    /// How many pairs were added.
    pub added: u32,
}

impl Improved {
    /// Whether no pairing is larger.
    pub fn finished(&self) -> bool {
        self.witness.is_some()
    }
}

/// At most `budget` pairs more than the start has. Rows and start must be sound.
pub fn improve(rows: &[Vec<u32>], start: &[u32], budget: u32) -> Improved {
    let mut tables = Tables::new(rows.len());
    let mut pairing = start.to_vec();
    let mut added = 0;
    loop {
        tables.begin(&pairing);
        match tables.search(rows) {
            None => return Improved { pairing, witness: Some(tables.witness()), added },
            Some(_) if added == budget => return Improved { pairing, witness: None, added },
            Some((one, two)) => tables.add(one, two, &mut pairing),
        }
        added += 1;
    }
}

impl Tables {
    /// The rows of the queue, in order of entry, until an edge between two trees is found.
    fn search(&mut self, rows: &[Vec<u32>]) -> Option<(u32, u32)> {
        let mut k = 0;
        while k < self.queue.len() {
            let v = self.queue[k];
            for &w in &rows[v as usize] {
                if self.look(v, w) {
                    return Some((v, w));
                }
            }
            k += 1;
        }
        None
    }

    /// An entry w of row v: whether it is an edge between two trees.
    fn look(&mut self, v: u32, w: u32) -> bool {
        let (g, h) = (self.top[v as usize], self.top[w as usize]);
        if g == h {
            return false;
        }
        match self.label[w as usize] {
            Label::Inner => false,
            Label::Unreached => {
                self.grow(v, w);
                false
            }
            Label::Outer if self.root[g as usize] == self.root[h as usize] => {
                self.contract(v, w);
                false
            }
            Label::Outer => true,
        }
    }

    /// 1 for an inner route.
    fn witness(&self) -> Vec<u8> {
        self.label.iter().map(|&label| u8::from(label == Label::Inner)).collect()
    }
}
