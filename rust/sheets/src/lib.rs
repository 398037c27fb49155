//! Sheets from Rust, and what the tests of the proved code need: `write` makes a sheet from rows, `plain` reads one as
//! the format's description has it and with no regard for speed, and `calls` does the same for the calls of the
//! boundary. `largest` counts the pairs of a largest pairing. `layouts` and `random` make rows, sound and damaged ones;
//! `bad_input` is the list of sheets that the program `bad_input` hands to the proved reader; `search` is a plain model of
//! one search, and `searches` the layouts of the program of that name; `yards` are the benchmark
//! sheets; `declarations` reads signatures, and `clock` holds bars on time.
pub mod bad_input;
pub mod calls;
pub mod clock;
pub mod declarations;
pub mod largest;
pub mod layouts;
pub mod plain;
pub mod random;
pub mod search;
pub mod searches;
pub mod yards;

/// The sheet of these rows: their number, the entry number at which each begins, the entry total, then the entries.
/// The rows are written as they stand, right or wrong.
pub fn write(rows: &[Vec<u32>]) -> Vec<u8> {
    let mut numbers = vec![rows.len() as u32, 0];
    let mut total = 0;
    for row in rows {
        total += row.len() as u32;
        numbers.push(total);
    }
    numbers.extend(rows.iter().flatten());
    bytes(&numbers)
}

/// The numbers one after the other, four bytes each, lowest byte first.
pub fn bytes(numbers: &[u32]) -> Vec<u8> {
    numbers.iter().flat_map(|x| x.to_le_bytes()).collect()
}

/// The rows in which each of n routes is joined to all others.
pub fn all_joined(n: u32) -> Vec<Vec<u32>> {
    (0..n).map(|v| (0..n).filter(|&w| w != v).collect()).collect()
}
