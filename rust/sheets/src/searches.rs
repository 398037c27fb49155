//! The layouts of the program `searches` (crates/searches), made here from rows and not from that program, and the lines
//! that it has to print: what the plain model of a search says, until a search finds nothing.
use crate::search::{search, Outcome, Partners};
use crate::{all_joined, layouts};
use std::fmt::Write;

/// A layout with its name and the pairs to start from.
pub struct Case {
    pub name: &'static str,
    pub rows: Vec<Vec<u32>>,
    pub start: Vec<(usize, usize)>,
}

impl Case {
    /// The partners to start from.
    pub fn partners(&self) -> Partners {
        let mut partners = vec![None; self.rows.len()];
        for &(one, two) in &self.start {
            partners[one] = Some(two);
            partners[two] = Some(one);
        }
        partners
    }

    /// The lines that the program has to print.
    fn lines(&self) -> String {
        let mut lines = String::new();
        let mut partners = self.partners();
        loop {
            match search(&self.rows, &partners).outcome {
                Outcome::Found(new) => {
                    // From anything else than a larger pairing a search might never end.
                    assert!(is_larger(&new, &partners), "{}: {new:?}", self.name);
                    partners = new;
                    let _ = writeln!(lines, "{}: found\npairs{}", self.name, pairs(&partners));
                }
                Outcome::Stuck(witness) => {
                    let over: String = witness.iter().map(|v| format!(" {v}")).collect();
                    let _ = writeln!(lines, "{}: stuck\npairs{}\nover{over}", self.name, pairs(&partners));
                    return lines;
                }
            }
        }
    }
}

/// All that the program has to print.
pub fn stdout() -> String {
    cases().iter().map(Case::lines).collect()
}

/// Every layout, in the program's order.
pub fn cases() -> Vec<Case> {
    vec![
        case("two joined", layouts::path(2), &[]),
        case("path of three", layouts::path(3), &[]),
        case("path of four", layouts::path(4), &[(1, 2)]),
        case("claw", layouts::claw(), &[]),
        case("triangle", layouts::cycle(3), &[]),
        case("five-cycle with a tail", tailed(), &[(0, 1), (2, 3)]),
        case("ten routes", layouts::ten(), &[(1, 2), (3, 4), (5, 6), (7, 8)]),
        case("three triangles on a hub", hub(), &[(0, 1), (2, 3), (4, 5), (7, 8)]),
        case("ring within a ring", within(), &[(1, 3), (2, 4)]),
        case("path from the inner ring", inner(), &[(0, 4), (2, 5)]),
        case("three rings nested", nested(), &[(1, 2), (3, 4), (5, 6), (7, 8), (9, 10)]),
        case("all of 4", all_joined(4), &[(0, 1)]),
        Case { name: "all of 257", rows: all_joined(257), start: (0..128).map(|k| (2 * k, 2 * k + 1)).collect() },
    ]
}

fn case(name: &'static str, rows: Vec<Vec<u32>>, start: &[(usize, usize)]) -> Case {
    Case { name, rows, start: start.to_vec() }
}

/// A ring of five, with a sixth route joined to 0.
fn tailed() -> Vec<Vec<u32>> {
    layouts::joined(6, &[(0, 1), (1, 2), (2, 3), (3, 4), (4, 0), (0, 5)])
}

/// 0 joined to the first route of each of three triangles.
fn hub() -> Vec<Vec<u32>> {
    let triangle = |v| [(0, v), (v, v + 1), (v, v + 2), (v + 1, v + 2)];
    layouts::joined(10, &[triangle(1), triangle(4), triangle(7)].concat())
}

/// The triangle 0 2 4, whose 0 and 4 are joined to a pair, and a route at that.
fn within() -> Vec<Vec<u32>> {
    layouts::joined(6, &[(0, 2), (2, 4), (4, 0), (0, 1), (1, 3), (3, 4), (1, 5)])
}

/// Two triangles with one route in common, 1, and a route at one of them.
fn inner() -> Vec<Vec<u32>> {
    layouts::joined(6, &[(1, 0), (0, 4), (4, 1), (1, 2), (2, 5), (5, 1), (4, 3)])
}

/// A triangle with two rungs above it, and a path of five from the upper one on.
fn nested() -> Vec<Vec<u32>> {
    let ladder = [(0, 1), (0, 2), (1, 2), (1, 3), (2, 4), (3, 4), (3, 5), (4, 6), (5, 6)];
    let path = [(5, 7), (7, 8), (8, 9), (9, 10), (10, 11)];
    layouts::joined(12, &[&ladder[..], &path[..]].concat())
}

/// Whether these are partners both ways, and two routes more have one.
fn is_larger(new: &[Option<usize>], old: &[Option<usize>]) -> bool {
    let mutual = new.iter().enumerate().all(|(v, w)| w.is_none_or(|w| new[w] == Some(v)));
    mutual && new.iter().flatten().count() == old.iter().flatten().count() + 2
}

fn pairs(partners: &[Option<usize>]) -> String {
    let lower = partners.iter().enumerate().filter_map(|(v, w)| Some((v, (*w)?)));
    lower.filter(|(v, w)| v < w).map(|(v, w)| format!(" {v}-{w}")).collect()
}
