//! The sheets of the program `bad_input` (crates/bad_input), made here from rows and starts and not from that program,
//! and the lines that it has to print: what the plain reading says of each.
use crate::layouts;
use crate::plain::{self, LIMIT};
use crate::{all_joined, bytes, write};

/// A sheet with the words that stand before its reply, and what stands behind it.
pub struct Case {
    pub label: String,
    pub sheet: Vec<u8>,
    behind: String,
}

impl Case {
    /// The line that the program has to print.
    pub fn line(&self) -> String {
        let (no, a, b) = plain::reply(&self.sheet, LIMIT);
        format!("{}: {no} {a} {b}{}\n", self.label, self.behind)
    }
}

/// All that the program has to print.
pub fn stdout() -> String {
    cases().iter().map(Case::line).collect()
}

/// Every sheet, in the program's order.
pub fn cases() -> Vec<Case> {
    [few_bytes(), many_routes(), contents(), totals(), entries(), first_entry(), loops(), named(), all()]
        .into_iter()
        .flatten()
        .collect()
}

fn case(label: impl Into<String>, sheet: Vec<u8>) -> Case {
    Case { label: label.into(), sheet, behind: String::new() }
}

/// A sheet cut or filled with zero bytes to a length, which its label names.
fn in_bytes(label: &str, mut sheet: Vec<u8>, length: usize) -> Case {
    sheet.resize(length, 0);
    case(format!("{label} in {length} bytes"), sheet)
}

/// The sheet of these rows, which are its label.
fn rows(rows: &[&[u32]]) -> Case {
    let shown: Vec<String> = rows.iter().map(|row| format!("{row:?}").replace(' ', "")).collect();
    let rows: Vec<Vec<u32>> = rows.iter().map(|row| row.to_vec()).collect();
    case(format!("rows {}", shown.join(" ")), write(&rows))
}

/// Contents of these starts, which are the label, and then these entries.
fn starts(starts: &[u32], entries: &[u32]) -> Case {
    let shown: Vec<String> = starts.iter().map(u32::to_string).collect();
    let n = starts.len() as u32 - 1;
    case(format!("starts {}", shown.join(" ")), bytes(&[&[n], starts, entries].concat()))
}

fn few_bytes() -> Vec<Case> {
    let patterns = [("n = 0", bytes(&[0])), ("n = 1", bytes(&[1])), ("all bits set", vec![255; 12])];
    let every_length = |(label, sheet): &(&str, Vec<u8>)| -> Vec<Case> {
        (0..=12).map(|length| in_bytes(label, sheet.clone(), length)).collect()
    };
    patterns.iter().flat_map(every_length).collect()
}

fn many_routes() -> Vec<Case> {
    let n = |n: u32, length: usize| in_bytes(&format!("n = {n}"), bytes(&[n]), length);
    let mut cases = vec![n(512, 8), n(513, 8), n(513, 7), n(1 << 30, 8), n(u32::MAX, 8)];
    // 512 rows and no entry
    let whole = write(&vec![vec![]; 512]);
    for length in [whole.len(), whole.len() - 1, whole.len() + 1] {
        cases.push(in_bytes("n = 512", whole.clone(), length));
    }
    cases
}

fn contents() -> Vec<Case> {
    let joined = write(&[vec![1], vec![0]]);
    let mut cases: Vec<Case> =
        [24, 23, 25, 28, 16, 15].iter().map(|&length| in_bytes("two joined", joined.clone(), length)).collect();
    cases.push(starts(&[0, 2, 1], &[1]));
    cases.push(starts(&[0, 1, 0], &[]));
    cases.push(starts(&[1, 1, 2], &[1, 0]));
    cases.push(case("n = 0 starts 1", bytes(&[0, 1, 0])));
    cases.push(rows(&[&[], &[2], &[1], &[]]));
    cases
}

fn totals() -> Vec<Case> {
    // right, then wrong by one either way, the largest number, and the right one but for what 16 and 32 bits lose
    let right = 2;
    let wrong = [right + 1, right - 1, u32::MAX, right + (1 << 16), right + (1 << 30), right + (3 << 30)];
    wrong.iter().map(|&total| starts(&[0, 1, total], &[1, 0])).collect()
}

fn entries() -> Vec<Case> {
    vec![
        rows(&[&[2], &[0]]),
        rows(&[&[u32::MAX], &[0]]),
        rows(&[&[1], &[0], &[3]]),
        rows(&[&[0, 0]]),
        rows(&[&[1, 2, 1], &[0], &[]]),
        rows(&[&[1], &[0, 0]]),
        rows(&[&[1], &[]]),
        rows(&[&[], &[0]]),
    ]
}

fn first_entry() -> Vec<Case> {
    vec![
        rows(&[&[1, 1, 2], &[0], &[]]),
        rows(&[&[2, 1, 1], &[0], &[]]),
        rows(&[&[3, 1, 1, 2], &[0], &[]]),
        rows(&[&[1, 3, 1, 2], &[0], &[]]),
        rows(&[&[2, 1, 1, 3], &[0], &[]]),
        rows(&[&[1], &[2]]),
        rows(&[&[1, 1], &[]]),
        rows(&[&[2, 2], &[]]),
    ]
}

fn loops() -> Vec<Case> {
    vec![
        rows(&[&[0]]),
        rows(&[&[1], &[0, 1]]),
        rows(&[&[3], &[1], &[2], &[3, 0]]),
        rows(&[&[0, 1], &[]]),
        rows(&[&[0], &[2]]),
    ]
}

fn named() -> Vec<Case> {
    vec![case("claw", write(&layouts::claw())), case("ten routes", write(&layouts::ten()))]
}

fn all() -> Vec<Case> {
    let mut cases = Vec::new();
    for n in [256, 257, 512] {
        let rows = all_joined(n);
        let total: usize = rows.iter().map(Vec::len).sum();
        let behind = format!(" entries {total}");
        cases.push(Case { behind, ..case(format!("all of {n}"), write(&rows)) });
    }
    for (row, place, route) in [(256, 255, 257), (255, 255, 255)] {
        let mut rows = all_joined(257);
        rows[row][place] = route;
        let entry = 256 * row + place;
        cases.push(case(format!("all of 257, entry {entry} now {route}"), write(&rows)));
    }
    for route in [257, 0, 255, 256] {
        let mut rows = all_joined(257);
        rows[256].push(route);
        cases.push(case(format!("all of 257 and {route}"), write(&rows)));
    }
    cases
}
