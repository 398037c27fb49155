//! Rows and starts: random ones, and all small ones.
use crate::{Partners, Rows};
use sheets::random::Random;
use wisharek::NONE;

/// From half of the most to the most.
fn upper_half(random: &mut Random, most: usize) -> usize {
    most - random.index(most / 2 + 1)
}

/// A graph of at most so many routes and not below half of that, each row in any order.
pub fn general(random: &mut Random, most: usize) -> Rows {
    let n = upper_half(random, most);
    match random.below(3) {
        0 => {
            let parts = 1 + random.below(6);
            random.rows_of(n, parts)
        }
        1 => {
            // from one neighbour on average to four
            let parts = 1 + n as u64 / (1 + random.below(4));
            random.rows_of(n, parts)
        }
        _ => clusters(random, n),
    }
}

/// Rings of three, five and seven routes, and a few edges between any two routes.
fn clusters(random: &mut Random, n: usize) -> Rows {
    let mut routes: Vec<u32> = (0..n as u32).collect();
    random.shuffle(&mut routes);
    let mut edges = Vec::new();
    let mut left = &routes[..];
    while !left.is_empty() {
        let (ring, rest) = left.split_at([1, 3, 3, 5, 7][random.index(5)].min(left.len()));
        edges.extend(ring.windows(2).map(|two| (two[0], two[1])));
        edges.push((ring[0], ring[ring.len() - 1]));
        left = rest;
    }
    for _ in 0..random.index(n + 1) {
        edges.push((random.index(n) as u32, random.index(n) as u32));
    }
    let mut rows = from_edges(n, &edges);
    shuffle(random, &mut rows);
    rows
}

/// The rows of these edges, without loops and twins, in the edges' order.
pub fn from_edges(n: usize, edges: &[(u32, u32)]) -> Rows {
    let mut rows = vec![Vec::new(); n];
    for &(v, w) in edges {
        if v != w && !rows[v as usize].contains(&w) {
            rows[v as usize].push(w);
            rows[w as usize].push(v);
        }
    }
    rows
}

/// The same on two sides, with edges from side to side only.
pub fn two_sides(random: &mut Random, most: usize) -> Rows {
    let n = upper_half(random, most);
    let side: Vec<bool> = (0..n).map(|_| random.below(2) == 0).collect();
    let parts = 1 + n as u64 / (1 + random.below(8));
    let mut rows = random.rows_of(n, parts);
    for (v, row) in rows.iter_mut().enumerate() {
        row.retain(|&w| side[v] != side[w as usize]);
    }
    rows
}

/// Each row in any order.
pub fn shuffle(random: &mut Random, rows: &mut Rows) {
    rows.iter_mut().for_each(|row| random.shuffle(row));
}

/// Each row rising.
pub fn rising(mut rows: Rows) -> Rows {
    rows.iter_mut().for_each(|row| row.sort());
    rows
}

/// Nothing paired.
pub fn nothing(rows: &Rows) -> Partners {
    vec![NONE; rows.len()]
}

/// Some of the edges, no two with a route in common.
pub fn some_pairs(random: &mut Random, rows: &Rows) -> Partners {
    let mut start = nothing(rows);
    let parts = 1 + random.below(6);
    let mut routes: Vec<usize> = (0..rows.len()).collect();
    random.shuffle(&mut routes);
    for v in routes {
        for &w in &rows[v] {
            if start[v] == NONE && start[w as usize] == NONE && random.below(parts) == 0 {
                start[v] = w;
                start[w as usize] = v as u32;
            }
        }
    }
    start
}

/// Every graph of n routes, by number, each row rising.
pub fn every_graph(n: usize) -> impl Iterator<Item = Rows> {
    let edges: Vec<(u32, u32)> = (0..n as u32).flat_map(|w| (0..w).map(move |v| (v, w))).collect();
    (0..1u64 << edges.len()).map(move |number| {
        let there: Vec<(u32, u32)> =
            edges.iter().enumerate().filter(|(bit, _)| number >> bit & 1 == 1).map(|(_, &edge)| edge).collect();
        rising(from_edges(n, &there))
    })
}

/// Hands on every pairing of these rows.
pub fn every_pairing(rows: &Rows, each: &mut impl FnMut(&Partners) -> Result<(), String>) -> Result<(), String> {
    pairings_from(rows, 0, &mut nothing(rows), each)
}

/// Every pairing that agrees with the partners below v.
fn pairings_from(
    rows: &Rows,
    v: usize,
    partners: &mut Partners,
    each: &mut impl FnMut(&Partners) -> Result<(), String>,
) -> Result<(), String> {
    if v == rows.len() {
        return each(partners);
    }
    pairings_from(rows, v + 1, partners, each)?;
    for &w in rows[v].iter().filter(|&&w| w as usize > v) {
        if partners[v] == NONE && partners[w as usize] == NONE {
            partners[v] = w;
            partners[w as usize] = v as u32;
            pairings_from(rows, v + 1, partners, each)?;
            partners[v] = NONE;
            partners[w as usize] = NONE;
        }
    }
    Ok(())
}

/// Whether a walk round an odd number of edges comes back to where it began: then the routes have no two sides.
pub fn has_odd_cycle(rows: &Rows) -> bool {
    let mut side = vec![None; rows.len()];
    for first in 0..rows.len() {
        let mut walk = vec![first];
        side[first].get_or_insert(false);
        while let Some(v) = walk.pop() {
            for &w in &rows[v] {
                let w = w as usize;
                if side[w].is_none() {
                    side[w] = side[v].map(|side: bool| !side);
                    walk.push(w);
                } else if side[w] == side[v] {
                    return true;
                }
            }
        }
    }
    false
}

/// The most pairs, found by trying: the lowest free route stays alone, or is paired with each free neighbour in turn. For
/// few routes.
pub fn most_pairs(rows: &Rows) -> usize {
    let mut most = vec![0u8; 1 << rows.len()];
    for free in 1..most.len() {
        let v = free.trailing_zeros() as usize;
        let without = free & !(1 << v);
        let paired = rows[v].iter().filter(|&&w| without >> w & 1 == 1).map(|&w| 1 + most[without & !(1 << w)]);
        most[free] = paired.fold(most[without], u8::max);
    }
    most[most.len() - 1].into()
}
