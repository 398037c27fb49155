//! The proof sheets of the examples, recounted by the steps that each of them lists, from the sheet and the table
//! alone. A sheet with one thing changed does not pass.
mod support;
use std::collections::BTreeMap;
use std::fs;
use support::{example, sessions, Plain, EXAMPLES};

/// A proof sheet as it reads.
struct Sheet {
    set: Vec<String>,
    /// Whether it is ticked, the number of routes that it is said to have, and its routes.
    pieces: Vec<(bool, usize, Vec<String>)>,
    sum: Vec<usize>,
    sessions: Vec<Vec<String>>,
}

/// The lines of one part of a sheet, without the line that names it.
fn part<'a>(text: &'a str, letter: &str) -> Vec<&'a str> {
    let begin = format!("{letter}. ");
    text.lines().skip_while(|line| !line.starts_with(&begin)).skip(1).take_while(|line| !line.is_empty()).collect()
}

fn names(line: &str) -> Vec<String> {
    line.trim().trim_end_matches(',').split(", ").map(str::to_string).collect()
}

fn read(text: &str) -> Sheet {
    let mut pieces: Vec<(bool, usize, Vec<String>)> = Vec::new();
    for line in part(text, "C") {
        match line.strip_prefix("   [") {
            Some(head) => {
                let routes = head.split(", ").nth(1).and_then(|said| said.split(' ').next()).unwrap();
                pieces.push((head.starts_with('x'), routes.parse().unwrap(), Vec::new()));
            }
            None => pieces.last_mut().unwrap().2.extend(names(line)),
        }
    }
    let set = part(text, "B").into_iter().flat_map(names).filter(|name| name != "none").collect();
    let number = |line: &str| line.rsplit(' ').next().and_then(|last| last.parse().ok()).unwrap();
    let sum = part(text, "D").into_iter().map(number).collect();
    Sheet { set, pieces, sum, sessions: sessions(&part(text, "A").join("\n")) }
}

/// The steps of part F. What is wrong, if something is.
fn recount(text: &str, table: &Plain) -> Result<(), &'static str> {
    let Sheet { set, pieces, sum, sessions } = read(text);
    let mut home: BTreeMap<&str, usize> = BTreeMap::new();
    for (place, (_, _, routes)) in pieces.iter().enumerate() {
        home.extend(routes.iter().map(|name| (name.as_str(), place)));
    }
    let left = table.pairs.iter().filter(|(one, other)| !set.contains(one) && !set.contains(other));
    for (one, other) in left {
        if !home.contains_key(one.as_str()) || home.get(one.as_str()) != home.get(other.as_str()) {
            return Err("a line that is left joins two pieces");
        }
    }
    let mut listed: Vec<&String> = set.iter().chain(pieces.iter().flat_map(|piece| &piece.2)).collect();
    listed.sort();
    if !listed.iter().copied().eq(table.names.iter()) {
        return Err("a route does not stand once, in the set or in one piece");
    }
    if pieces.iter().any(|(ticked, said, routes)| *said != routes.len() || *ticked != (routes.len() % 2 == 1)) {
        return Err("a piece is counted or ticked wrongly");
    }
    let pairs = sessions.iter().filter(|session| session.len() == 2);
    if pairs.clone().any(|pair| !table.pairs.contains(&(pair[0].clone(), pair[1].clone()))) {
        return Err("a pair of the plan is no line of the table");
    }
    let mut tested: Vec<&String> = sessions.iter().flatten().collect();
    tested.sort();
    if !tested.iter().copied().eq(table.names.iter()) {
        return Err("a route does not stand in the plan once");
    }
    let odd = pieces.iter().filter(|piece| piece.0).count();
    let over = sessions.len() - pairs.count();
    if sum != [odd, set.len(), over, over] || odd - set.len() != over {
        return Err("the sum is wrong");
    }
    Ok(())
}

fn sheet_of(name: &str) -> String {
    fs::read_to_string(example(&format!("{name}.proof.txt"))).unwrap()
}

#[test]
fn proof_sheet_cannot_be_recounted() {
    for name in EXAMPLES {
        assert_eq!(recount(&sheet_of(name), &Plain::of_example(name)), Ok(()), "{name}");
    }
}

#[test]
fn wrong_proof_sheet_passes() {
    let (sheet, table) = (sheet_of("yard"), Plain::of_example("yard"));
    let edits = [
        ("\n   Lead\n", "\n   W1\n", "a line that is left joins two pieces"),
        ("E1, E2, E3\n", "E1, E2, E3, Dock\n", "a route does not stand once, in the set or in one piece"),
        ("[x] odd 2, 3 routes", "[ ] odd 2, 3 routes", "a piece is counted or ticked wrongly"),
        ("[x] odd 2, 3 routes", "[x] odd 2, 5 routes", "a piece is counted or ticked wrongly"),
        ("E1, E2\n", "E1, W2\n", "a pair of the plan is no line of the table"),
        ("   6  E3   <- left over\n", "", "a route does not stand in the plan once"),
        ("odd pieces                     3", "odd pieces                     4", "the sum is wrong"),
    ];
    for (was, now, wrong) in edits {
        assert!(sheet.contains(was), "{was}");
        assert_eq!(recount(&sheet.replacen(was, now, 1), &table), Err(wrong), "{was} -> {now}");
    }
}
