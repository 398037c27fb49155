//! The benchmark sheets, as rows: those that are timed, and on which the steps of every search are counted.
use crate::random::Random;

const SEED: u64 = 512;
const ROUTES: usize = 512;

/// Rows and their name.
pub struct Yard {
    pub name: &'static str,
    pub rows: Vec<Vec<u32>>,
}

/// All of them.
pub fn all() -> Vec<Yard> {
    let mut random = Random::new(SEED);
    let mut yard = |name, make: &dyn Fn(&mut Random) -> Vec<Vec<u32>>| Yard { name, rows: make(&mut random) };
    vec![
        yard("random, 2 neighbours", &|random| random.rows_of(ROUTES, 256)),
        yard("random, 4 neighbours", &|random| random.rows_of(ROUTES, 128)),
        yard("random, every second edge", &|random| random.rows_of(ROUTES, 2)),
        yard("odd clusters", &clusters),
        yard("triangles, hubs with high ids", &|random| hubs(random, |route| route as u32)),
        yard("triangles, hubs with low ids", &|random| hubs(random, |route| (ROUTES - 1 - route) as u32)),
        yard("two sides, sparse", &|random| two_sides(random, 128)),
        yard("two sides, every second edge", &|random| two_sides(random, 2)),
        yard("all of 257", &|_| crate::all_joined(257)),
        yard("all of 512", &|_| crate::all_joined(512)),
    ]
}

/// The rows of these edges, without loops and twins, each in any order.
fn joined(random: &mut Random, edges: &[(u32, u32)]) -> Vec<Vec<u32>> {
    let mut rows = vec![Vec::new(); ROUTES];
    for &(v, w) in edges {
        if v != w && !rows[v as usize].contains(&w) {
            rows[v as usize].push(w);
            rows[w as usize].push(v);
        }
    }
    rows.iter_mut().for_each(|row| random.shuffle(row));
    rows
}

/// Clusters of 5, 7, 9 and 11 routes in which nearly all are joined, and one edge from each cluster to any route.
fn clusters(random: &mut Random) -> Vec<Vec<u32>> {
    let mut routes: Vec<u32> = (0..ROUTES as u32).collect();
    random.shuffle(&mut routes);
    let mut edges = Vec::new();
    let mut left = &routes[..];
    while !left.is_empty() {
        let (cluster, rest) = left.split_at([5, 7, 9, 11][random.index(4)].min(left.len()));
        for (k, &v) in cluster.iter().enumerate() {
            edges.extend(cluster[..k].iter().filter(|_| random.below(5) > 0).map(|&w| (v, w)));
        }
        edges.push((cluster[0], random.index(ROUTES) as u32));
        left = rest;
    }
    joined(random, &edges)
}

/// 140 triangles and 92 hubs, each triangle joined by its corners to three hubs. By their places the hubs come last.
fn hubs(random: &mut Random, id: impl Fn(usize) -> u32) -> Vec<Vec<u32>> {
    const TRIANGLES: usize = 140;
    let mut edges = Vec::new();
    for corner in (0..3 * TRIANGLES).step_by(3) {
        for k in 0..3 {
            edges.push((id(corner + k), id(corner + (k + 1) % 3)));
            edges.push((id(corner + k), id(3 * TRIANGLES + random.index(ROUTES - 3 * TRIANGLES))));
        }
    }
    joined(random, &edges)
}

/// Edges between even and odd routes only, one in `parts`.
fn two_sides(random: &mut Random, parts: u64) -> Vec<Vec<u32>> {
    let mut rows = random.rows_of(ROUTES, parts);
    for (v, row) in rows.iter_mut().enumerate() {
        row.retain(|&w| v as u32 % 2 != w % 2);
    }
    rows
}
