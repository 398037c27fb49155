//! The small layouts that the scope names, as rows.

/// The rows of these edges between n routes, each row rising.
pub fn joined(n: u32, edges: &[(u32, u32)]) -> Vec<Vec<u32>> {
    let neighbours = |v: u32| {
        let mut row: Vec<u32> = edges
            .iter()
            .filter_map(|&(one, other)| if one == v { Some(other) } else { (other == v).then_some(one) })
            .collect();
        row.sort();
        row
    };
    (0..n).map(neighbours).collect()
}

/// Routes one after the other, each joined to the next.
pub fn path(n: u32) -> Vec<Vec<u32>> {
    let edges: Vec<(u32, u32)> = (1..n).map(|v| (v - 1, v)).collect();
    joined(n, &edges)
}

/// A path whose ends are joined too.
pub fn cycle(n: u32) -> Vec<Vec<u32>> {
    let edges: Vec<(u32, u32)> = (0..n).map(|v| (v, (v + 1) % n)).collect();
    joined(n, &edges)
}

/// 0 joined to 1, 2 and 3.
pub fn claw() -> Vec<Vec<u32>> {
    joined(4, &[(0, 1), (0, 2), (0, 3)])
}

/// 0, 1, 2 and 3, 4, 5, all three joined and the two sides not.
pub fn two_triangles() -> Vec<Vec<u32>> {
    joined(6, &[(0, 1), (0, 2), (1, 2), (3, 4), (3, 5), (4, 5)])
}

/// The ten routes on which the Rust original goes wrong.
pub fn ten() -> Vec<Vec<u32>> {
    let rows: [&[u32]; 10] =
        [&[1], &[0, 2], &[1, 3, 6], &[2, 4, 7], &[3, 5], &[4, 6], &[2, 5, 7], &[3, 6, 8], &[7, 9], &[8]];
    rows.iter().map(|row| row.to_vec()).collect()
}
