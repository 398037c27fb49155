//! The benchmark sheets, and others of as many routes as there may be, each hard on the search in one way.
use sheets::layouts::joined;
use sheets::random::Random;

/// The most routes.
pub const MOST: u32 = 512;

type Rows = Vec<Vec<u32>>;

/// A sheet with its name, and the pairs to start from.
pub struct Yard {
    pub name: String,
    pub rows: Rows,
    pub start: Vec<(u32, u32)>,
}

/// Every sheet, to start from nothing; and the ladder, to start from its rungs.
pub fn all() -> Vec<Yard> {
    let benchmark = sheets::yards::all().into_iter().map(|yard| (yard.name.to_string(), yard.rows));
    let mut yards: Vec<Yard> =
        benchmark.chain(others()).map(|(name, rows)| Yard { name, rows, start: vec![] }).collect();
    let rungs = (1..MOST - 2).step_by(2).map(|v| (v, v + 1)).collect();
    yards.push(Yard { name: "ladder on a triangle, from its rungs".to_string(), rows: ladder(), start: rungs });
    yards
}

fn others() -> Vec<(String, Rows)> {
    let mut random = Random::new(20);
    let mut yards: Vec<(String, Rows)> = vec![];
    for (name, parts) in [("very sparse", 400), ("sparse", 170), ("in between", 20)] {
        for k in 1..=3 {
            yards.push((format!("random, {name}, {k}"), random.rows_of(MOST as usize, parts)));
        }
    }
    let named = [
        ("odd clusters, joined", clusters(&[3, 5, 7, 9], 64, &mut random)),
        ("large odd clusters, joined", clusters(&[31, 63], 32, &mut random)),
        ("triangles on low hubs", hubs(3, 40, true)),
        ("triangles on high hubs", hubs(3, 40, false)),
        ("fives on low hubs", hubs(5, 20, true)),
        ("fives on high hubs", hubs(5, 20, false)),
        ("bipartite, uneven", bipartite(200, 4, &mut random)),
        ("path", sheets::layouts::path(MOST)),
        ("ring of 511 and one route", ring()),
        ("ladder on a triangle", ladder()),
        ("no edge", vec![vec![]; MOST as usize]),
        ("one edge, between the last two", joined(MOST, &[(MOST - 2, MOST - 1)])),
    ];
    yards.extend(named.map(|(name, rows)| (name.to_string(), rows)));
    yards
}

/// Clusters of these sizes in turn, all joined within, and some edges at random besides.
fn clusters(sizes: &[u32], more: usize, random: &mut Random) -> Rows {
    let mut edges = vec![];
    let mut first = 0;
    for size in sizes.iter().cycle() {
        let end = (first + size).min(MOST);
        edges.extend((first..end).flat_map(|v| (first..v).map(move |w| (w, v))));
        first = end;
        if first == MOST {
            break;
        }
    }
    for _ in 0..more {
        let (v, w) = (random.below(MOST as u64) as u32, random.below(MOST as u64) as u32);
        if v < w && !edges.contains(&(v, w)) {
            edges.push((v, w));
        }
    }
    joined(MOST, &edges)
}

/// Rings of this odd size, the first route of each joined to every hub. The hubs have the lowest ids or the highest.
fn hubs(size: u32, hubs: u32, low: bool) -> Rows {
    let hub = |k: u32| if low { k } else { MOST - 1 - k };
    let from = if low { hubs } else { 0 };
    let rings = (MOST - hubs) / size;
    let mut edges = vec![];
    for first in (0..rings).map(|k| from + size * k) {
        edges.extend((1..size).map(|k| (first + k - 1, first + k)));
        edges.push((first, first + size - 1));
        edges.extend((0..hubs).map(|k| (first, hub(k))));
    }
    joined(MOST, &edges)
}

/// One side's routes, each joined to about so many of the other's.
fn bipartite(side: u32, degree: u32, random: &mut Random) -> Rows {
    let other = (MOST - side) as u64;
    let edges: Vec<(u32, u32)> = (0..side)
        .flat_map(|v| (side..MOST).map(move |w| (v, w)))
        .filter(|_| random.below(other) < degree as u64)
        .collect();
    joined(MOST, &edges)
}

/// An odd ring, and a route that is joined to none.
fn ring() -> Rows {
    let mut rows = sheets::layouts::cycle(MOST - 1);
    rows.push(vec![]);
    rows
}

/// A triangle with rungs above it, and a route at the last one: from the rungs, each ring closes within the next.
fn ladder() -> Rows {
    let mut edges = vec![(0, 1), (0, 2)];
    for v in (1..MOST - 2).step_by(2) {
        edges.push((v, v + 1));
        edges.extend([(v, v + 2), (v + 1, v + 3)].into_iter().filter(|edge| edge.1 < MOST));
    }
    joined(MOST, &edges)
}
