//! A plain reading of the format: each check as the table of refusals words it, one after the other. It is the measure
//! for the proved reader and shares no code with it.

/// The most routes.
pub const LIMIT: u32 = 512;

/// The number that stands for no route.
pub const NONE: u32 = u32::MAX;

/// Number, A and B.
pub type Reply = (u32, u64, u64);

/// The reply to any bytes, where no more routes than `limit` are taken.
pub fn reply(bytes: &[u8], limit: u32) -> Reply {
    if bytes.len() < 8 {
        return (1, 0, 0);
    }
    let n = number(bytes);
    if n > limit {
        return (2, n.into(), limit.into());
    }
    match rows(bytes) {
        None => (3, 0, 0),
        Some(rows) => refused_entry(&rows).or_else(|| own_neighbour(&rows)).unwrap_or((0, 0, 0)),
    }
}

/// The first four bytes as a number.
fn number(bytes: &[u8]) -> u32 {
    u32::from_le_bytes([bytes[0], bytes[1], bytes[2], bytes[3]])
}

/// The numbers of four bytes each that stand in these bytes. What is left over at the end is no number.
pub fn numbers(bytes: &[u8]) -> Vec<u32> {
    bytes.chunks_exact(4).map(number).collect()
}

/// The rows, unless the contents are cut short, start 0 is not 0, a start falls, or the length is not 8 + 4n + 4E.
pub fn rows(bytes: &[u8]) -> Option<Vec<Vec<u32>>> {
    let n = number(bytes) as usize;
    let contents = bytes.get(4..8 + 4 * n)?;
    let starts: Vec<usize> = numbers(contents).into_iter().map(|start| start as usize).collect();
    if starts[0] != 0 || starts.windows(2).any(|two| two[0] > two[1]) {
        return None;
    }
    if bytes.len() != 8 + 4 * n + 4 * starts[n] {
        return None;
    }
    let entries = numbers(&bytes[8 + 4 * n..]);
    Some(starts.windows(2).map(|two| entries[two[0]..two[1]].to_vec()).collect())
}

/// 4, 5 and 6, tried for each entry in turn, row by row, before the next entry is looked at.
fn refused_entry(rows: &[Vec<u32>]) -> Option<Reply> {
    for (row, entries) in rows.iter().enumerate() {
        for (place, &entry) in entries.iter().enumerate() {
            if entry as usize >= rows.len() {
                return Some((4, entry.into(), 0));
            }
            if entries[place + 1..].contains(&entry) {
                return Some((5, row as u64, entry.into()));
            }
            if !rows[entry as usize].contains(&(row as u32)) {
                return Some((6, entry.into(), row as u64));
            }
        }
    }
    None
}

/// 7: the lowest route that is its own neighbour.
fn own_neighbour(rows: &[Vec<u32>]) -> Option<Reply> {
    let route = (0..rows.len()).find(|&route| rows[route].contains(&(route as u32)))?;
    Some((7, route as u64, 0))
}
