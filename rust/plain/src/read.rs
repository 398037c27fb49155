//! A sheet read into rows, as a straightforward program would: each row's marks in one table, so that a twin and a
//! missing way back are seen at once. Refused sheets are not told apart.
use crate::NONE;

/// The sheet is refused.
#[derive(Debug, PartialEq)]
pub struct Refused;

/// The rows of a sheet, where it is a graph of at most 512 routes without loops, twins or one-sided edges.
pub fn rows(sheet: &[u8]) -> Result<Vec<Vec<u32>>, Refused> {
    let number = |k: usize| {
        let four = sheet.get(4 * k..4 * k + 4)?;
        Some(u32::from_le_bytes(four.try_into().expect("four bytes")) as usize)
    };
    let n = number(0).filter(|&n| n <= 512).ok_or(Refused)?;
    let total = number(n + 1).ok_or(Refused)?;
    if number(1) != Some(0) || sheet.len() != 8 + 4 * n + 4 * total {
        return Err(Refused);
    }
    let entries = &sheet[8 + 4 * n..];
    let mut rows = Vec::with_capacity(n);
    for row in 0..n {
        let (start, end) = (number(row + 1).ok_or(Refused)?, number(row + 2).ok_or(Refused)?);
        let stretch = if start <= end { entries.get(4 * start..4 * end) } else { None };
        rows.push(numbers(stretch.ok_or(Refused)?));
    }
    sound(&rows).then_some(rows).ok_or(Refused)
}

fn numbers(bytes: &[u8]) -> Vec<u32> {
    bytes.chunks_exact(4).map(|four| u32::from_le_bytes(four.try_into().expect("four bytes"))).collect()
}

/// Whether every entry is another route, stands once in its row, and has the row in its own.
fn sound(rows: &[Vec<u32>]) -> bool {
    let n = rows.len();
    let mut joined = vec![false; n * n];
    for (v, row) in rows.iter().enumerate() {
        for &w in row {
            let w = w as usize;
            if w >= n || w == v || joined[v * n + w] {
                return false;
            }
            joined[v * n + w] = true;
        }
    }
    rows.iter().enumerate().all(|(v, row)| row.iter().all(|&w| joined[w as usize * n + v]))
}

/// The partners that the bytes of a pairing hold, where they are a pairing of these rows.
pub fn partners(rows: &[Vec<u32>], pairing: &[u8]) -> Result<Vec<u32>, Refused> {
    let partners = numbers(pairing);
    if pairing.len() != 4 * rows.len() {
        return Err(Refused);
    }
    let fits = |v: usize| {
        let w = partners[v];
        w == NONE || (rows[v].contains(&w) && partners[w as usize] as usize == v)
    };
    (0..rows.len()).all(fits).then_some(partners).ok_or(Refused)
}
