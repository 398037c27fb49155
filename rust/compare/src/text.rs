//! An input as text.
use crate::ours::pairs;
use crate::{Partners, Rows};

/// The rows in brackets, and the pairs at the start.
pub fn input(rows: &Rows, start: &Partners) -> String {
    let pairs: Vec<String> = pairs(start).iter().map(|(v, w)| format!("{v}-{w}")).collect();
    let start = if pairs.is_empty() { "nothing".to_string() } else { pairs.join(", ") };
    format!("rows {}; start {start}", of_rows(rows))
}

/// The rows in brackets.
pub fn of_rows(rows: &Rows) -> String {
    let rows: Vec<String> = rows.iter().map(|row| format!("{row:?}").replace(' ', "")).collect();
    rows.join(", ")
}
