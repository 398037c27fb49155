//! A second look at what is to be printed, by name, in the table's own text. It shares nothing with the first but the
//! text: no numbers, no rows.
use crate::plan::Plan;
use crate::proof::Proof;
use crate::table::{sheet_row, Own, Table};
use std::collections::{HashMap, HashSet};

/// Every line of the table as names: one, or two that may stand together.
fn read_again(table: &Table) -> Vec<Vec<String>> {
    match &table.own {
        Own::Text(text) => {
            let lines = text.lines().filter(|line| !line.starts_with('#') && !line.trim().is_empty());
            lines.map(|line| line.split(',').map(str::to_string).collect()).collect()
        }
        Own::Sheet(bytes) => {
            let n = table.routes();
            let called = |route: usize| format!("route {route}");
            let pairs = (0..n).flat_map(|one| sheet_row(bytes, n, one).into_iter().map(move |other| (one, other)));
            let both = pairs.map(|(one, other)| vec![called(one), called(other)]);
            (0..n).map(|route| vec![called(route)]).chain(both).collect()
        }
    }
}

/// Whether each pair of the plan stands in the table, and each route of the table in exactly one session. If not, what
/// is wrong.
pub fn plan(table: &Table, plan: &Plan) -> Result<(), String> {
    let again = read_again(table);
    let lines: HashSet<&[String]> = again.iter().map(Vec::as_slice).collect();
    for (one, other) in &plan.pairs {
        let ways = [[one.clone(), other.clone()], [other.clone(), one.clone()]];
        if !ways.iter().any(|way| lines.contains(way.as_slice())) {
            return Err(format!("the pair of \"{one}\" and \"{other}\" is not in the table's text"));
        }
    }
    let mut due: HashSet<&str> = again.iter().flatten().map(String::as_str).collect();
    let tested = plan.pairs.iter().flat_map(|(one, other)| [one, other]).chain(&plan.singles);
    for name in tested {
        if !due.remove(name.as_str()) {
            return Err(format!("\"{name}\" has two sessions, or is not in the table's text"));
        }
    }
    match due.iter().next() {
        Some(name) => Err(format!("\"{name}\" has no session")),
        None => Ok(()),
    }
}

/// Whether the proof sheet's count holds: each route is in the set or in one piece, no pair of the table joins two
/// pieces, and the odd pieces less the set's routes are the routes left over. If not, what is wrong.
pub fn proof(table: &Table, proof: &Proof) -> Result<(), String> {
    let mut home: HashMap<&str, usize> = proof.set.iter().map(|name| (name.as_str(), 0)).collect();
    for (before, piece) in proof.pieces.iter().enumerate() {
        home.extend(piece.routes.iter().map(|name| (name.as_str(), before + 1)));
    }
    let listed = proof.set.len() + proof.pieces.iter().map(|piece| piece.routes.len()).sum::<usize>();
    let again = read_again(table);
    let names: HashSet<&str> = again.iter().flatten().map(String::as_str).collect();
    if listed != names.len() || home.len() != names.len() || names.iter().any(|name| !home.contains_key(name)) {
        return Err("the set and the pieces do not hold each route once".to_string());
    }
    for line in &again {
        let homes: Vec<usize> = line.iter().map(|name| home[name.as_str()]).collect();
        if !homes.contains(&0) && homes.first() != homes.last() {
            return Err(format!("the pair \"{}\" joins two pieces", line.join("\" and \"")));
        }
    }
    let odd = proof.pieces.iter().filter(|piece| piece.routes.len() % 2 == 1).count();
    if odd != proof.set.len() + proof.plan.singles.len() {
        return Err("the odd pieces less the routes of the set are not the routes left over".to_string());
    }
    Ok(())
}

#[cfg(test)]
mod tests {
    use super::*;
    use crate::proof::Piece;

    fn strings(names: &[&str]) -> Vec<String> {
        names.iter().map(|name| name.to_string()).collect()
    }

    fn plan_of(pairs: &[(&str, &str)], singles: &[&str]) -> Plan {
        let pairs = pairs.iter().map(|(one, other)| (one.to_string(), other.to_string())).collect();
        Plan { pairs, singles: strings(singles), set: Some(Vec::new()) }
    }

    /// A path of three, and a route alone; as text and as a sheet.
    fn tables() -> [(Table, [&'static str; 4]); 2] {
        let text = Table::read("t", b"# a path\r\nA,B\r\nC,B\r\n\r\nD").unwrap();
        let sheet = sheets::write(&sheets::layouts::joined(4, &[(0, 1), (1, 2)]));
        let names = ["route 0", "route 1", "route 2", "route 3"];
        [(text, ["A", "B", "C", "D"]), (Table::read_sheet("s", sheet).unwrap(), names)]
    }

    #[test]
    fn wrong_plan_is_printed() {
        for (table, [a, b, c, d]) in tables() {
            assert_eq!(plan(&table, &plan_of(&[(a, b)], &[c, d])), Ok(()));
            assert_eq!(plan(&table, &plan_of(&[(b, c)], &[d, a])), Ok(()));
            let no_pair = plan(&table, &plan_of(&[(a, c)], &[b, d]));
            assert_eq!(no_pair, Err(format!("the pair of \"{a}\" and \"{c}\" is not in the table's text")));
            assert_eq!(plan(&table, &plan_of(&[(a, b)], &[c])), Err(format!("\"{d}\" has no session")));
            let twice = |name: &str| Err(format!("\"{name}\" has two sessions, or is not in the table's text"));
            assert_eq!(plan(&table, &plan_of(&[(a, b), (b, c)], &[d])), twice(b));
            assert_eq!(plan(&table, &plan_of(&[(a, b)], &[c, d, "E"])), twice("E"));
        }
    }

    /// A proof sheet with this set, these pieces and these routes left over.
    fn proof_of(set: &[&str], pieces: &[&[&str]], singles: &[&str]) -> Proof {
        let piece = |routes: &&[&str]| Piece { routes: strings(routes), pairs: Vec::new(), taken: None, over: None };
        Proof {
            title: String::new(),
            routes: 4,
            table_pairs: 2,
            plan: plan_of(&[], singles),
            set: strings(set),
            pieces: pieces.iter().map(piece).collect(),
        }
    }

    #[test]
    fn wrong_proof_is_printed() {
        for (table, [a, b, c, d]) in tables() {
            assert_eq!(proof(&table, &proof_of(&[b], &[&[a], &[c], &[d]], &[c, d])), Ok(()));
            assert_eq!(proof(&table, &proof_of(&[], &[&[a, b, c], &[d]], &[c, d])), Ok(()));
            let not_once = Err("the set and the pieces do not hold each route once".to_string());
            assert_eq!(proof(&table, &proof_of(&[b], &[&[a], &[c]], &[c])), not_once);
            assert_eq!(proof(&table, &proof_of(&[b], &[&[a], &[c, a], &[d]], &[d])), not_once);
            assert_eq!(proof(&table, &proof_of(&[b], &[&[a], &[c], &["E"]], &[c, d])), not_once);
            let joined = proof(&table, &proof_of(&[], &[&[a, b], &[c], &[d]], &[c, d])).unwrap_err();
            assert!(joined.starts_with("the pair ") && joined.ends_with(" joins two pieces"), "{joined}");
            let sum = Err("the odd pieces less the routes of the set are not the routes left over".to_string());
            assert_eq!(proof(&table, &proof_of(&[b], &[&[a], &[c], &[d]], &[c])), sum);
        }
    }
}
