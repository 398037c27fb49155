//! How long the calls take, in native code, on the largest layouts: all of 512, and shapes that keep a search for parts
//! or for pairs busy.
use sheets::layouts::{cycle, joined};
use sheets::random::Random;
use sheets::{clock, largest};
use std::hint::black_box;
use std::time::Duration;
use wisharek::{check, improve, parts, surplus, Parts, NONE};

const BAR: Duration = Duration::from_secs(1);

/// For the whole way from nothing to a largest pairing. The slowest of the layouts below takes about 20 ms where
/// nothing else runs.
const BAR_IMPROVE: Duration = Duration::from_millis(500);

/// 512 routes, 2k and 2k + 1 paired; with the empty set.
fn paired_off() -> Vec<u8> {
    let partners: Vec<u32> = (0..512).map(|route| route ^ 1).collect();
    sheets::bytes(&partners)
}

/// All three calls on a sheet of 512 routes that form one part, in which 2k and 2k + 1 are joined.
fn timed(what: &str, rows: &[Vec<u32>]) {
    let (sheet, pairing, witness) = (sheets::write(rows), paired_off(), [0; 512]);
    let mut table = [1; 4 * 512];
    assert_eq!(check(&sheet, &pairing, &witness), Ok(()), "{what}");
    assert_eq!(surplus(&sheet, &witness), Ok(0), "{what}");
    assert_eq!(parts(&sheet, &witness, &mut table), Ok(Parts { odd: 0, set: 0 }), "{what}");
    assert_eq!(table, [0; 4 * 512], "{what}");

    let lent = || (black_box(&sheet[..]), black_box(&pairing[..]), black_box(&witness[..]));
    clock::hold(&format!("check, {what}"), BAR, || {
        let (sheet, pairing, witness) = lent();
        let _ = black_box(check(sheet, pairing, witness));
    });
    clock::hold(&format!("surplus, {what}"), BAR, || {
        let (sheet, _, witness) = lent();
        let _ = black_box(surplus(sheet, witness));
    });
    clock::hold(&format!("parts, {what}"), BAR, || {
        let (sheet, _, witness) = lent();
        let _ = black_box(parts(sheet, witness, black_box(&mut table)));
    });
}

/// The path through these routes in turn.
fn path_through(routes: &[u32]) -> Vec<Vec<u32>> {
    let edges: Vec<(u32, u32)> = routes.windows(2).map(|two| (two[0], two[1])).collect();
    joined(routes.len() as u32, &edges)
}

#[test]
fn all_of_512_is_slow() {
    timed("all of 512", &sheets::all_joined(512));
}

#[test]
fn long_path_is_slow() {
    timed("path of 512", &path_through(&(0..512).collect::<Vec<_>>()));
}

#[test]
fn long_path_in_no_order_is_slow() {
    // pairs of routes in an order with no pattern; 0 and 1 are met in its midst
    let routes: Vec<u32> = (0..256).map(|k| (k * 89 + 31) % 256).flat_map(|k| [2 * k, 2 * k + 1]).collect();
    timed("path of 512 in no order", &path_through(&routes));
}

#[test]
fn nested_path_is_slow() {
    // from both ends to the middle: each stretch of the path is met long before it is joined to the next
    let routes: Vec<u32> = (0..128).flat_map(|k| [k, 255 - k]).flat_map(|k| [2 * k, 2 * k + 1]).collect();
    timed("path of 512 from both ends", &path_through(&routes));
}

/// The whole way from nothing to a largest pairing, which has so many pairs.
fn timed_improve(what: &str, rows: &[Vec<u32>], pairs: u64) {
    let sheet = sheets::write(rows);
    let nothing = sheets::bytes(&vec![NONE; rows.len()]);
    let (mut pairing, mut witness) = (nothing.clone(), vec![7; rows.len()]);
    let done = improve(&sheet, &mut pairing, &mut witness, u32::MAX).expect("a sound sheet");
    assert_eq!((done.added, done.size, done.finished), (pairs, pairs, true), "{what}");
    assert_eq!(check(&sheet, &pairing, &witness), Ok(()), "{what}");
    clock::hold(&format!("improve, {what}"), BAR_IMPROVE, || {
        pairing.copy_from_slice(&nothing);
        let _ = black_box(improve(black_box(&sheet), black_box(&mut pairing), black_box(&mut witness), u32::MAX));
    });
    assert_eq!(check(&sheet, &pairing, &witness), Ok(()), "{what}");
}

#[test]
fn pairing_off_all_of_512_is_slow() {
    timed_improve("all of 512", &sheets::all_joined(512), 256);
    timed_improve("all of 511", &sheets::all_joined(511), 255);
}

#[test]
fn pairing_off_a_random_graph_is_slow() {
    let mut random = Random::new(71);
    for (what, parts) in [("half of the edges of 512", 2), ("four edges for each of 512", 128)] {
        let rows = random.rows_of(512, parts);
        timed_improve(what, &rows, largest::of(&rows) as u64);
    }
}

#[test]
fn pairing_off_triangles_on_hubs_is_slow() {
    // every route of a triangle is joined to every hub; the triangles are contracted in search after search
    for hubs in [8, 128] {
        let triangles: Vec<u32> = (hubs..510).step_by(3).collect();
        let sides = triangles.iter().flat_map(|&v| [(v, v + 1), (v, v + 2), (v + 1, v + 2)]);
        let spokes = (0..hubs).flat_map(|hub| (hubs..hubs + 3 * triangles.len() as u32).map(move |v| (hub, v)));
        let rows = joined(512, &sides.chain(spokes).collect::<Vec<_>>());
        let what = format!("{} triangles on {hubs} hubs", triangles.len());
        timed_improve(&what, &rows, triangles.len() as u64 + u64::from(hubs));
    }
}

#[test]
fn pairing_off_beside_an_odd_part_is_slow() {
    // all of 255, of which one is left over, are contracted again before each of the pairs behind them is met
    let mut rows = sheets::all_joined(255);
    rows.push(vec![]);
    rows.extend((256..512).map(|route| vec![route ^ 1]));
    timed_improve("all of 255 beside 128 pairs", &rows, 127 + 128);
}

#[test]
fn pairing_off_a_path_or_a_ring_is_slow() {
    timed_improve("path of 512", &path_through(&(0..512).collect::<Vec<_>>()), 256);
    timed_improve("ring of 511", &cycle(511), 255);
}
