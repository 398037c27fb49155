//! Small layouts with their surplus as the scope gives it, and with witnesses made by hand.
use crate::support::{refused, told, Buffers, Call};
use sheets::layouts::{claw, cycle, joined, path, ten, two_triangles};
use sheets::{all_joined, plain};
use wisharek::NONE;

/// The perfect pairing of the ten routes, and the four pairs to start with, which leave 0 and 9.
const FIVE: [(u32, u32); 5] = [(0, 1), (2, 3), (4, 5), (6, 7), (8, 9)];
pub const FOUR: [(u32, u32); 4] = [(1, 2), (3, 4), (5, 6), (7, 8)];

fn surplus_is(what: &str, rows: &[Vec<u32>], set: &[u32], surplus: i64) {
    let made = told(Call::Surplus, &Buffers::of(rows, &[], set));
    assert_eq!(made.numbers(), [0, 0, 0, surplus as u64], "{what} without {set:?}");
}

#[test]
fn surplus_of_a_layout_is_wrong() {
    surplus_is("no routes", &path(0), &[], 0);
    surplus_is("one route", &path(1), &[], 1);
    surplus_is("two joined", &path(2), &[], 0);
    surplus_is("two joined", &path(2), &[0, 1], -2);
    surplus_is("triangle", &cycle(3), &[], 1);
    surplus_is("triangle", &cycle(3), &[0], -1);
    surplus_is("path of three", &path(3), &[1], 1);
    surplus_is("claw", &claw(), &[], 0);
    surplus_is("claw", &claw(), &[0], 2);
    surplus_is("five-cycle", &cycle(5), &[], 1);
    surplus_is("two triangles", &two_triangles(), &[], 2);
    surplus_is("ten routes", &ten(), &[], 0);
}

#[test]
fn surplus_does_not_reach_its_ends() {
    let all: Vec<u32> = (0..512).collect();
    surplus_is("512 alone", &vec![vec![]; 512], &[], 512);
    surplus_is("512 alone", &vec![vec![]; 512], &all, -512);
    surplus_is("all of 512", &all_joined(512), &[], 0);
    surplus_is("all of 512", &all_joined(512), &all, -512);
    surplus_is("all of 257", &all_joined(257), &[], 1);
}

fn accepted(what: &str, rows: &[Vec<u32>], pairs: &[(u32, u32)], set: &[u32]) {
    let made = told(Call::Check, &Buffers::of(rows, pairs, set));
    assert_eq!(made.numbers(), [0, 0, 0], "{what}, {pairs:?} over {set:?}");
}

fn not_shown(what: &str, rows: &[Vec<u32>], pairs: &[(u32, u32)], set: &[u32], unpaired: u64) {
    let made = told(Call::Check, &Buffers::of(rows, pairs, set));
    assert_eq!(made.numbers(), refused(Call::Check, 12, unpaired, 0), "{what}, {pairs:?} over {set:?}");
}

#[test]
fn largest_pairing_is_refused() {
    accepted("no routes", &path(0), &[], &[]);
    accepted("one route", &path(1), &[], &[]);
    accepted("two joined", &path(2), &[(0, 1)], &[]);
    accepted("two joined", &path(2), &[(0, 1)], &[0]);
    accepted("triangle", &cycle(3), &[(0, 1)], &[]);
    accepted("triangle", &cycle(3), &[(1, 2)], &[]);
    accepted("path of three", &path(3), &[(0, 1)], &[]);
    accepted("path of three", &path(3), &[(0, 1)], &[1]);
    accepted("claw", &claw(), &[(0, 1)], &[0]);
    accepted("claw", &claw(), &[(0, 3)], &[0]);
    accepted("five-cycle", &cycle(5), &[(0, 1), (2, 3)], &[]);
    accepted("two triangles", &two_triangles(), &[(0, 1), (4, 5)], &[]);
    accepted("ten routes", &ten(), &FIVE, &[]);
    accepted("ten routes", &ten(), &FIVE, &[0]);
    accepted("all of 257", &all_joined(257), &(0..128).map(|k| (2 * k, 2 * k + 1)).collect::<Vec<_>>(), &[]);
    accepted("512 alone", &vec![vec![]; 512], &[], &[]);
}

#[test]
fn witness_that_shows_nothing_is_accepted() {
    // largest pairings, with a set of too little surplus
    not_shown("one route", &path(1), &[], &[0], 1);
    not_shown("two joined", &path(2), &[(0, 1)], &[0, 1], 0);
    not_shown("triangle", &cycle(3), &[(0, 1)], &[0], 1);
    not_shown("path of three", &path(3), &[(0, 1)], &[0], 1);
    not_shown("claw", &claw(), &[(0, 1)], &[], 2);
    not_shown("claw", &claw(), &[(0, 1)], &[1], 2);
    not_shown("claw", &claw(), &[(0, 1)], &[0, 1], 2);
    not_shown("two triangles", &two_triangles(), &[(0, 1), (3, 4)], &[0], 2);
    not_shown("ten routes", &ten(), &FIVE, &[0, 1], 0);
    // the parts {0, 1}, {4, 5} and {8, 9} are even; counted all, or without the set, the set would do better
    not_shown("ten routes", &ten(), &FIVE, &[2, 3, 6, 7], 0);
}

#[test]
fn smaller_pairing_is_accepted() {
    not_shown("two joined", &path(2), &[], &[], 2);
    not_shown("two joined", &path(2), &[], &[0, 1], 2);
    not_shown("triangle", &cycle(3), &[], &[], 3);
    not_shown("triangle", &cycle(3), &[], &[0], 3);
    not_shown("path of three", &path(3), &[], &[1], 3);
    not_shown("claw", &claw(), &[], &[0], 4);
    not_shown("five-cycle", &cycle(5), &[(0, 1)], &[], 3);
    not_shown("two triangles", &two_triangles(), &[(0, 1)], &[], 4);
    not_shown("ten routes", &ten(), &FOUR, &[], 2);
    not_shown("all of 257", &all_joined(257), &[], &[], 257);
}

fn parts_are(what: &str, rows: &[Vec<u32>], set: &[u32], parts: &[u32], odd: u64) {
    let made = told(Call::Parts, &Buffers::of(rows, &[], set));
    assert_eq!(made.numbers(), [0, 0, 0, odd, set.len() as u64], "{what} without {set:?}");
    assert_eq!(made.parts(), parts, "{what} without {set:?}");
}

#[test]
fn parts_of_a_layout_are_wrong() {
    parts_are("no routes", &path(0), &[], &[], 0);
    parts_are("one route", &path(1), &[], &[0], 1);
    parts_are("one route", &path(1), &[0], &[NONE], 0);
    parts_are("two joined", &path(2), &[0, 1], &[NONE, NONE], 0);
    parts_are("triangle", &cycle(3), &[0], &[NONE, 1, 1], 0);
    parts_are("path of three", &path(3), &[1], &[0, NONE, 2], 2);
    parts_are("claw", &claw(), &[], &[0, 0, 0, 0], 0);
    parts_are("claw", &claw(), &[0], &[NONE, 1, 2, 3], 3);
    parts_are("two triangles", &two_triangles(), &[], &[0, 0, 0, 3, 3, 3], 2);
    parts_are("two triangles", &two_triangles(), &[0, 5], &[NONE, 1, 1, 3, 3, NONE], 0);
    let none = NONE;
    parts_are("ten routes", &ten(), &[2, 3, 6, 7], &[0, 0, none, none, 4, 4, none, none, 8, 8], 0);
    parts_are("ten routes", &ten(), &[2, 3], &[0, 0, none, none, 4, 4, 4, 4, 4, 4], 0);
}

#[test]
fn least_route_is_not_found_when_it_is_met_last() {
    // the path 4 - 5 - 3 - 0 - 1 and the path 7 - 6 - 2, each met at its highest routes first
    let rows = vec![vec![3, 1], vec![0], vec![6], vec![5, 0], vec![5], vec![4, 3], vec![7, 2], vec![6]];
    parts_are("two paths", &rows, &[], &[0, 0, 2, 0, 0, 0, 2, 2], 2);
    parts_are("two paths", &rows, &[3], &[0, 0, 2, NONE, 4, 4, 2, 2], 1);
    parts_are("two paths", &rows, &[0, 2], &[NONE, 1, NONE, 3, 3, 3, 6, 6], 2);
}

#[test]
fn last_of_512_routes_has_no_part() {
    let parts = |last: [u32; 2]| [vec![0; 510], last.to_vec()].concat();
    parts_are("path of 512", &path(512), &[], &parts([0, 0]), 0);
    parts_are("path of 512", &path(512), &[511], &parts([0, NONE]), 1);
    parts_are("path of 512", &path(512), &[510], &parts([NONE, 511]), 1);
}

#[test]
fn surplus_is_not_what_the_parts_say() {
    for rows in [path(0), path(7), cycle(7), claw(), two_triangles(), ten()] {
        let n = rows.len();
        for marks in 0..1u32 << n {
            let set: Vec<u32> = (0..n as u32).filter(|route| marks >> route & 1 == 1).collect();
            let lent = Buffers::of(&rows, &[], &set);
            let surplus = told(Call::Surplus, &lent).numbers()[3] as i64;
            let parts = told(Call::Parts, &lent);
            assert_eq!(surplus, parts.numbers()[3] as i64 - set.len() as i64, "{rows:?} without {set:?}");
            // counted from the table, as one does by hand
            let least = plain::numbers(&parts.left.parts);
            let routes = |part: u32| least.iter().filter(|&&l| l == part).count();
            let odd = (0..n as u32).filter(|&part| routes(part) % 2 == 1).count();
            assert_eq!(odd as u64, parts.numbers()[3], "{rows:?} without {set:?}");
        }
    }
}

/// Every pairing of these edges.
pub fn pairings(edges: &[(u32, u32)]) -> Vec<Vec<(u32, u32)>> {
    let Some((&(v, w), rest)) = edges.split_first() else { return vec![vec![]] };
    let without = pairings(rest);
    let apart: Vec<(u32, u32)> =
        rest.iter().copied().filter(|&(x, y)| [x, y].iter().all(|&end| end != v && end != w)).collect();
    let with = pairings(&apart).into_iter().map(|pairs| [vec![(v, w)], pairs].concat());
    without.into_iter().chain(with).collect()
}

#[test]
fn acceptance_is_not_being_largest() {
    // every graph of up to five routes, every pairing of it, every set
    let (mut accepted, mut not_shown) = (0, 0);
    for n in 0..=5 {
        let possible: Vec<(u32, u32)> = (0..n).flat_map(|w| (0..w).map(move |v| (v, w))).collect();
        for chosen in 0..1u32 << possible.len() {
            let edges: Vec<(u32, u32)> =
                (0..possible.len()).filter(|e| chosen >> e & 1 == 1).map(|e| possible[e]).collect();
            let (rows, pairings) = (joined(n, &edges), pairings(&edges));
            let largest = pairings.iter().map(Vec::len).max();
            for pairs in pairings {
                let set = |marks: u32| (0..n).filter(|route| marks >> route & 1 == 1).collect::<Vec<_>>();
                let shown = |marks: u32| told(Call::Check, &Buffers::of(&rows, &pairs, &set(marks))).number == 0;
                let witnesses = (0..1u32 << n).filter(|&marks| shown(marks)).count();
                assert_eq!(witnesses > 0, Some(pairs.len()) == largest, "{edges:?} paired {pairs:?}");
                accepted += witnesses;
                not_shown += (1 << n) - witnesses;
            }
        }
    }
    println!("every graph of up to 5 routes, every pairing, every set: {accepted} accepted, {not_shown} not shown");
}
