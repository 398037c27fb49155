//! The two ways to find how many pairs a largest pairing has say the same, and what is known of layouts with a name.
use sheets::all_joined;
use sheets::largest::{by_rank, by_sets, of};
use sheets::layouts::{claw, cycle, joined, path, ten, two_triangles};
use sheets::random::Random;

#[test]
fn layout_with_a_name_has_another_size() {
    let known = [
        (path(0), 0),
        (path(1), 0),
        (path(2), 1),
        (path(13), 6),
        (path(14), 7),
        (cycle(3), 1),
        (cycle(14), 7),
        (claw(), 1),
        (two_triangles(), 2),
        (ten(), 5),
        (vec![vec![]; 14], 0),
        (all_joined(13), 6),
    ];
    for (rows, largest) in known {
        assert_eq!(by_sets(&rows), largest, "by sets: {rows:?}");
        assert_eq!(by_rank(&rows, &mut Random::new(1)), largest, "by rank: {rows:?}");
    }
}

#[test]
fn large_layout_has_another_size() {
    let star: Vec<(u32, u32)> = (1..512).map(|route| (0, route)).collect();
    // a triangle each, and its first route joined to one of two hubs
    let triangles: Vec<(u32, u32)> =
        (0..170).map(|k| 2 + 3 * k).flat_map(|v| [(v, v + 1), (v, v + 2), (v + 1, v + 2), (v % 2, v)]).collect();
    for (what, rows, largest) in [
        ("all of 512", all_joined(512), 256),
        ("all of 511", all_joined(511), 255),
        ("path of 512", path(512), 256),
        ("ring of 511", cycle(511), 255),
        ("star of 512", joined(512, &star), 1),
        ("triangles on two hubs", joined(512, &triangles), 172),
        ("512 alone", vec![vec![]; 512], 0),
    ] {
        assert_eq!(of(&rows), largest, "{what}");
    }
}

#[test]
fn rank_differs_from_sets_on_few_routes() {
    let mut random = Random::new(41);
    let mut graphs = 0;
    for n in 0..=6 {
        let possible: Vec<(u32, u32)> = (0..n).flat_map(|w| (0..w).map(move |v| (v, w))).collect();
        for chosen in 0..1u32 << possible.len() {
            let edges: Vec<(u32, u32)> =
                (0..possible.len()).filter(|e| chosen >> e & 1 == 1).map(|e| possible[e]).collect();
            let rows = joined(n, &edges);
            assert_eq!(by_rank(&rows, &mut random), by_sets(&rows), "{edges:?}");
            graphs += 1;
        }
    }
    assert_eq!(graphs, 33_868, "every graph of up to six routes");
}

#[test]
fn rank_differs_from_sets_on_more_routes() {
    let mut random = Random::new(42);
    for _ in 0..5000 {
        let (n, parts) = (7 + random.index(8), 1 + random.below(14));
        let rows = random.rows_of(n, parts);
        assert_eq!(by_rank(&rows, &mut random), by_sets(&rows), "{rows:?}");
    }
}
