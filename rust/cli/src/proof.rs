//! What a proof sheet says: the set, and the pieces into which the other routes fall without it.
use crate::improved::fault;
use crate::plan::{self, Plan};
use crate::table::Table;
use crate::trouble::Trouble;
use std::collections::BTreeMap;
use wisharek::NONE;

/// Routes that hang together by pairs of the table when the set is taken away, and how the plan uses them.
pub struct Piece {
    pub routes: Vec<String>,
    /// The pairs of the plan within it.
    pub pairs: Vec<(String, String)>,
    /// The route that a route of the set takes, and that one.
    pub taken: Option<(String, String)>,
    /// The route that is left over.
    pub over: Option<String>,
}

impl Piece {
    /// Whether one route of it cannot have its partner inside.
    pub fn odd(&self) -> bool {
        self.routes.len() % 2 == 1
    }
}

/// All that a proof sheet says.
pub struct Proof {
    /// What the table is called on the sheet.
    pub title: String,
    pub routes: usize,
    pub table_pairs: usize,
    pub plan: Plan,
    pub set: Vec<String>,
    /// First the odd pieces of which the set takes a route, then the other odd ones, then the even ones; those of a
    /// kind stand in the order of the table.
    pub pieces: Vec<Piece>,
}

impl Proof {
    /// The proof sheet of a plan that the library's checker has accepted.
    pub fn new(title: String, table: &Table, plan: &Plan) -> Result<Proof, Trouble> {
        let set = plan.set.clone().ok_or_else(|| fault("the plan has no set"))?;
        let witness = plan::witness(table, &set).ok_or_else(|| fault("the set names no route of the table"))?;
        let mut parts = vec![0; 4 * table.routes()];
        let counted = wisharek::parts(&table.sheet, &witness, &mut parts).map_err(|r| fault(&r.to_string()))?;
        let mut pieces = grouped(table.names(), &parts);
        assign(&mut pieces, plan)?;
        pieces.sort_by_key(|piece| (!piece.odd(), piece.taken.is_none()));
        let odd = pieces.iter().filter(|piece| piece.odd()).count() as u64;
        if (odd, set.len() as u64) != (counted.odd, counted.set) {
            return Err(fault("the pieces do not add up to the library's count"));
        }
        let (routes, table_pairs) = (table.routes(), table.pairs());
        Ok(Proof { title, routes, table_pairs, plan: plan.clone(), set, pieces })
    }

    /// How many pieces are odd.
    pub fn odd(&self) -> usize {
        self.pieces.iter().filter(|piece| piece.odd()).count()
    }
}

/// The pieces of a table of parts, by their first route.
fn grouped(names: &[String], parts: &[u8]) -> Vec<Piece> {
    let mut routes: BTreeMap<u32, Vec<String>> = BTreeMap::new();
    for (name, four) in names.iter().zip(parts.chunks_exact(4)) {
        let least = four.iter().rev().fold(0, |least, &byte| least << 8 | u32::from(byte));
        if least != NONE {
            routes.entry(least).or_default().push(name.clone());
        }
    }
    let piece = |routes| Piece { routes, pairs: Vec::new(), taken: None, over: None };
    routes.into_values().map(piece).collect()
}

/// Whether all routes of the piece are paired inside but for one of an odd piece, which is taken or left over.
fn settled(piece: &Piece) -> bool {
    let apart = usize::from(piece.taken.is_some()) + usize::from(piece.over.is_some());
    apart == usize::from(piece.odd()) && 2 * piece.pairs.len() + apart == piece.routes.len()
}

/// Puts each session of the plan where it belongs: into a piece, between a piece and the set, or left over.
fn assign(pieces: &mut [Piece], plan: &Plan) -> Result<(), Trouble> {
    let mut home = BTreeMap::new();
    for (place, piece) in pieces.iter().enumerate() {
        home.extend(piece.routes.iter().map(|name| (name.clone(), place)));
    }
    for (one, other) in &plan.pairs {
        let pair = (one.clone(), other.clone());
        let taken = match (home.get(one), home.get(other)) {
            (Some(place), Some(same)) if place == same => {
                pieces[*place].pairs.push(pair);
                None
            }
            (Some(place), None) => pieces[*place].taken.replace(pair),
            (None, Some(place)) => pieces[*place].taken.replace((pair.1, pair.0)),
            _ => return Err(fault("a pair joins two pieces, or two routes of the set")),
        };
        if taken.is_some() {
            return Err(fault("two routes of one piece are taken by the set"));
        }
    }
    for name in &plan.singles {
        let place = home.get(name).ok_or_else(|| fault("a route of the set is left over"))?;
        if pieces[*place].over.replace(name.clone()).is_some() {
            return Err(fault("two routes of one piece are left over"));
        }
    }
    if pieces.iter().all(settled) {
        return Ok(());
    }
    Err(fault("the routes of a piece do not add up"))
}

#[cfg(test)]
mod tests {
    use super::*;

    /// What becomes of a plan for a ring of three and a route alone, with this set.
    fn proof_of(pairs: &[(&str, &str)], singles: &[&str], set: &[&str]) -> Result<Vec<usize>, Trouble> {
        let table = Table::read("t", b"A,B\nB,C\nC,A\nD").unwrap();
        let strings = |names: &[&str]| names.iter().map(|name| name.to_string()).collect();
        let pairs = pairs.iter().map(|(one, other)| (one.to_string(), other.to_string())).collect();
        let plan = Plan { pairs, singles: strings(singles), set: Some(strings(set)) };
        Proof::new(String::new(), &table, &plan)
            .map(|proof| proof.pieces.iter().map(|piece| piece.routes.len()).collect())
    }

    #[test]
    fn plan_does_not_fit_its_pieces() {
        assert_eq!(proof_of(&[("A", "B")], &["C", "D"], &[]), Ok(vec![3, 1]));
        let wrong = |words: &str| Err(fault(words));
        assert_eq!(
            proof_of(&[("A", "D")], &["B", "C"], &[]),
            wrong("a pair joins two pieces, or two routes of the set")
        );
        assert_eq!(proof_of(&[], &["A", "B", "C", "D"], &[]), wrong("two routes of one piece are left over"));
        assert_eq!(proof_of(&[("B", "C")], &["A", "D"], &["A"]), wrong("a route of the set is left over"));
        assert_eq!(
            proof_of(&[("A", "C")], &["B", "D"], &["A", "C"]),
            wrong("a pair joins two pieces, or two routes of the set")
        );
        let unsettled = "the routes of a piece do not add up";
        assert_eq!(proof_of(&[("A", "B")], &["C", "D"], &["A"]), wrong(unsettled));
        assert_eq!(proof_of(&[("A", "B")], &["C"], &[]), wrong(unsettled));
        assert_eq!(proof_of(&[("A", "B")], &["D"], &["A"]), wrong(unsettled));
        assert_eq!(proof_of(&[], &["C", "D"], &[]), wrong(unsettled));
    }
}
