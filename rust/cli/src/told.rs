//! What is printed: a plan, a verdict, a proof sheet.
use crate::improved::{Improved, Verdict};
use crate::plan::Plan;
use crate::proof::{Piece, Proof};
use crate::table::Table;
use std::fmt::Write;

/// The longest line of a paragraph, in characters.
const WIDTH: usize = 90;

/// A plan, and whether it is a shortest one.
pub fn plan(title: &str, table: &Table, improved: &Improved) -> String {
    let plan = &improved.plan;
    let mut text =
        format!("{title}: {}, {}\n", count(table.routes(), "route"), count(table.pairs(), "compatible pair"));
    let _ = writeln!(text, "{}\n", sum_of_sessions(plan));
    sessions(&mut text, plan, "");
    if plan.sessions() > 0 {
        text.push('\n');
    }
    let words = match plan.set {
        Some(_) => {
            "No plan for this table has fewer sessions: the checker has accepted this one. Each pair was found in the \
             table's text."
                .to_string()
        }
        None => format!(
            "Not shown to be a shortest plan: the budget ended after {}, and one more can be added.",
            count(improved.added as usize, "pair")
        ),
    };
    text.push_str(&paragraph("", &words));
    text
}

/// How many sessions there are, of which kind.
fn sum_of_sessions(plan: &Plan) -> String {
    let (pairs, singles) = (plan.pairs.len(), plan.singles.len());
    format!("{}: {pairs} with two routes, {singles} with one", count(plan.sessions(), "session"))
}

/// The sessions, numbered, pairs first. A name holds no comma, so the line can be read in one way.
fn sessions(text: &mut String, plan: &Plan, behind_single: &str) {
    for (before, (one, other)) in plan.pairs.iter().enumerate() {
        let _ = writeln!(text, "{:4}  {one}, {other}", before + 1);
    }
    for (before, name) in plan.singles.iter().enumerate() {
        let _ = writeln!(text, "{:4}  {name}{behind_single}", plan.pairs.len() + before + 1);
    }
}

/// What the checker says of a plan file. `what` says of which, and for which table.
pub fn verdict(what: &str, plan: &Plan, verdict: &Verdict, surplus: Option<i64>) -> String {
    let (what, over) = (format!("{what} with {}", count(plan.sessions(), "session")), plan.singles.len());
    let words = match (verdict, surplus) {
        (Verdict::Shown, _) => format!(
            "accepted: {what}, and no plan has fewer. It leaves {} over, and its witness shows that no plan leaves \
             fewer.",
            count(over, "route")
        ),
        (Verdict::NotShown, Some(surplus)) => format!(
            "not shown, number 12: {what}, and its witness does not show that no plan has fewer. The plan leaves {} \
             over; the witness shows that every plan leaves {} or more.",
            count(over, "route"),
            surplus.max(0)
        ),
        (Verdict::NotShown, None) => {
            format!("not shown: {what}, and it holds no witness, so nothing shows that no plan has fewer.")
        }
    };
    paragraph("", &words)
}

/// The proof sheet.
pub fn proof(proof: &Proof) -> String {
    let mut text = format!("PROOF SHEET: {}\n", proof.title);
    let _ = writeln!(text, "{}, {}\n", count(proof.routes, "route"), count(proof.table_pairs, "compatible pair"));
    let _ = writeln!(text, "A. The plan: {}", sum_of_sessions(&proof.plan));
    sessions(&mut text, &proof.plan, "   <- left over");
    set(&mut text, proof);
    pieces(&mut text, proof);
    sum(&mut text, proof);
    why(&mut text, proof);
    text.push_str(PENCIL);
    text
}

/// How the sheet is checked by hand.
const PENCIL: &str = "
F. To check this sheet with a pencil, take the table and nothing else
   1. Strike out every line of the table in which a route of the set stands.
   2. In every line that is left, both routes stand in the same piece of C.
   3. Every route of the table stands once: in the set, or in one piece.
   4. Count the routes of each piece: those with a tick are odd, the others even.
   5. Every pair of A is a line of the table, and every route stands in A once.
   6. Do the sum of D.
";

/// The routes of the set.
fn set(text: &mut String, proof: &Proof) {
    let _ = writeln!(text, "\nB. The set: {}", count(proof.set.len(), "route"));
    text.push_str(&match proof.set.len() {
        0 => "   none\n".to_string(),
        _ => list("   ", &proof.set),
    });
}

/// The pieces, odd ones ticked and numbered.
fn pieces(text: &mut String, proof: &Proof) {
    text.push_str("\nC. The pieces: without the set, the other routes fall into these\n");
    for (before, piece) in proof.pieces.iter().enumerate() {
        let head = if piece.odd() { format!("[x] odd {}", before + 1) } else { "[ ] even".to_string() };
        let _ = writeln!(text, "   {head}, {}: {}", count(piece.routes.len(), "route"), fate(piece));
        text.push_str(&list("         ", &piece.routes));
    }
    if proof.pieces.is_empty() {
        text.push_str("   none\n");
    }
}

/// What becomes of the piece's routes in the plan.
fn fate(piece: &Piece) -> String {
    let inside = count(piece.pairs.len(), "pair");
    match (&piece.taken, &piece.over) {
        (Some((route, by)), _) => format!("{inside} inside; {route} is taken by {by} of the set"),
        (None, Some(route)) => format!("{inside} inside; {route} is left over"),
        (None, None) => format!("{inside} inside"),
    }
}

/// The sum.
fn sum(text: &mut String, proof: &Proof) {
    text.push_str("\nD. The sum\n");
    let _ = writeln!(text, "   odd pieces                  {:4}", proof.odd());
    let _ = writeln!(text, "   less routes in the set    - {:4}", proof.set.len());
    let _ = writeln!(text, "   routes left over at least = {:4}", proof.odd() - proof.set.len());
    let _ = writeln!(text, "   the plan leaves over        {:4}", proof.plan.singles.len());
}

/// Why no plan can do better, in words.
fn why(text: &mut String, proof: &Proof) {
    text.push_str("\nE. Why no plan can do better\n");
    let over = proof.plan.singles.len();
    let sessions = count(proof.plan.sessions(), "session");
    if over == 0 {
        let words = format!(
            "The plan leaves no route over: every session tests two routes. No plan has fewer than {sessions}."
        );
        text.push_str(&paragraph("   ", &words));
        return;
    }
    let first = "A route of a piece may stand with routes of its own piece and with routes of the set, and with no \
                 others. In an odd piece the routes do not pair off among themselves: each odd piece leaves one route \
                 over, unless one of the set's routes takes it.";
    let set = match proof.set.len() {
        0 => "The set is empty, so no route takes one.".to_string(),
        1 => "The set has 1 route, which takes one route at most.".to_string(),
        set => format!("The set has {set} routes, and each of them takes one route at most."),
    };
    let second = format!(
        "So of {} at least {over} {} a route over, in every plan, and the plan in A leaves over no more. A plan has \
         one session for each pair and one for each route left over: no plan for these {} has fewer than {sessions}.",
        count(proof.odd(), "odd piece"),
        if over == 1 { "leaves" } else { "leave" },
        count(proof.routes, "route"),
    );
    text.push_str(&paragraph("   ", first));
    text.push_str(&paragraph("   ", &format!("{set} {second}")));
}

/// A count and its noun.
pub fn count(number: usize, noun: &str) -> String {
    format!("{number} {noun}{}", if number == 1 { "" } else { "s" })
}

/// A paragraph in lines that are not too long, each with this in front.
fn paragraph(front: &str, words: &str) -> String {
    wrapped(front, words.split(' ').map(str::to_string))
}

/// Names in lines that are not too long, apart by commas. No name is broken.
fn list(front: &str, names: &[String]) -> String {
    let last = names.len().saturating_sub(1);
    let comma = |place: usize| if place < last { "," } else { "" };
    wrapped(front, names.iter().enumerate().map(|(place, name)| format!("{name}{}", comma(place))))
}

/// Words in lines that are not too long. A single word may be longer.
fn wrapped(front: &str, words: impl Iterator<Item = String>) -> String {
    let (mut text, mut line) = (String::new(), String::new());
    for word in words {
        if !line.is_empty() && front.len() + line.chars().count() + 1 + word.chars().count() > WIDTH {
            let _ = writeln!(text, "{front}{line}");
            line.clear();
        }
        if !line.is_empty() {
            line.push(' ');
        }
        line.push_str(&word);
    }
    if !line.is_empty() {
        let _ = writeln!(text, "{front}{line}");
    }
    text
}
