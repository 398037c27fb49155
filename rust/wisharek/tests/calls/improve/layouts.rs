//! The layouts that the scope names, with their numbers, and every graph of up to five routes from every pairing of it.
use super::held::told;
use crate::layouts::{pairings, FOUR};
use crate::support::{Buffers, Made};
use sheets::layouts::{claw, cycle, joined, path, ten, two_triangles};
use sheets::{all_joined, bytes, plain};
use wisharek::NONE;

/// A witness byte that stands in no witness. It is lent, so that one that is not written shows.
const STALE: u8 = 7;

/// These pairs to start with, and a witness that means nothing yet.
fn from(rows: &[Vec<u32>], pairs: &[(u32, u32)]) -> Buffers {
    Buffers { witness: vec![STALE; rows.len()], ..Buffers::of(rows, pairs, &[]) }
}

/// Added, size, finished and sessions of a call that was accepted.
fn numbers(made: &Made) -> [u64; 4] {
    let numbers = made.numbers();
    assert_eq!(numbers[..3], [0, 0, 0]);
    numbers[3..].try_into().expect("four numbers more")
}

fn improves(what: &str, rows: &[Vec<u32>], pairs: &[(u32, u32)], budget: u32, due: [u64; 4]) {
    assert_eq!(numbers(&told(&from(rows, pairs), budget)), due, "{what} from {pairs:?} with the budget {budget}");
}

#[test]
fn claw_takes_another_way() {
    let nothing = from(&claw(), &[]);
    // budget 0 adds nothing, is not finished, and writes no byte but those of the answer
    let made = told(&nothing, 0);
    assert_eq!(numbers(&made), [0, 0, 0, 4]);
    assert_eq!((&made.left.pairing, &made.left.witness), (&bytes(&[NONE; 4]), &vec![STALE; 4]));
    // budget 1 adds the one pair; {0} is the only set that shows it
    let made = told(&nothing, 1);
    assert_eq!(numbers(&made), [1, 1, 1, 3]);
    assert_eq!(plain::numbers(&made.left.pairing), [1, 0, NONE, NONE]);
    assert_eq!(made.left.witness, [1, 0, 0, 0]);
    // and once more there is nothing to add, whatever the budget and the witness lent
    for budget in [0, 1, u32::MAX] {
        for witness in [vec![1, 0, 0, 0], vec![STALE; 4], vec![0; 4]] {
            let again = told(&Buffers { witness, ..made.left.clone() }, budget);
            assert_eq!(numbers(&again), [0, 1, 1, 3], "budget {budget}");
            assert_eq!(again.left, Buffers { answer: again.left.answer.clone(), ..made.left.clone() });
        }
    }
}

#[test]
fn five_pairs_of_ten_routes_are_not_reached() {
    improves("ten routes", &ten(), &FOUR, 0, [0, 4, 0, 6]);
    improves("ten routes", &ten(), &FOUR, 1, [1, 5, 1, 5]);
    improves("ten routes", &ten(), &FOUR, u32::MAX, [1, 5, 1, 5]);
    improves("ten routes", &ten(), &[], 4, [4, 4, 0, 6]);
    improves("ten routes", &ten(), &[], 5, [5, 5, 1, 5]);
}

#[test]
fn budget_of_many_bits_is_cut() {
    for budget in (3..32).map(|k| 1 << k) {
        improves("ten routes", &ten(), &FOUR, budget, [1, 5, 1, 5]);
        improves("ten routes", &ten(), &[], budget, [5, 5, 1, 5]);
    }
}

#[test]
fn small_layout_is_paired_otherwise() {
    let all = u32::MAX;
    improves("no routes", &path(0), &[], 0, [0, 0, 1, 0]);
    improves("no routes", &path(0), &[], all, [0, 0, 1, 0]);
    improves("one route", &path(1), &[], 0, [0, 0, 1, 1]);
    improves("one route", &path(1), &[], all, [0, 0, 1, 1]);
    improves("two joined", &path(2), &[], 0, [0, 0, 0, 2]);
    improves("two joined", &path(2), &[], all, [1, 1, 1, 1]);
    improves("two joined", &path(2), &[(0, 1)], 0, [0, 1, 1, 1]);
    improves("triangle", &cycle(3), &[], all, [1, 1, 1, 2]);
    improves("triangle", &cycle(3), &[(1, 2)], 0, [0, 1, 1, 2]);
    improves("path of three", &path(3), &[], all, [1, 1, 1, 2]);
    improves("path of four from its middle", &path(4), &[(1, 2)], 0, [0, 1, 0, 3]);
    improves("path of four from its middle", &path(4), &[(1, 2)], 1, [1, 2, 1, 2]);
    improves("five-cycle", &cycle(5), &[], 1, [1, 1, 0, 4]);
    improves("five-cycle", &cycle(5), &[], all, [2, 2, 1, 3]);
    improves("two triangles", &two_triangles(), &[], all, [2, 2, 1, 4]);
    improves("two triangles", &two_triangles(), &[(4, 5)], 1, [1, 2, 1, 4]);
    improves("six alone", &vec![vec![]; 6], &[], all, [0, 0, 1, 6]);
}

#[test]
fn all_joined_is_not_paired_off() {
    for (n, entries, pairs) in [(256, 65_280, 128), (257, 65_792, 128), (511, 260_610, 255), (512, 261_632, 256)] {
        let rows = all_joined(n);
        assert_eq!(rows.iter().map(Vec::len).sum::<usize>(), entries);
        let sessions = u64::from(n) - pairs;
        improves(&format!("all of {n}"), &rows, &[], u32::MAX, [pairs, pairs, 1, sessions]);
        improves(&format!("all of {n}"), &rows, &[], 1, [1, 1, 0, u64::from(n) - 1]);
        improves(&format!("all of {n}"), &rows, &[], pairs as u32, [pairs, pairs, 1, sessions]);
    }
}

#[test]
fn path_of_512_is_not_walked_to_its_end() {
    // all paired but the two ends, so that the one pair more changes every partner
    let inner: Vec<(u32, u32)> = (0..255).map(|k| (2 * k + 1, 2 * k + 2)).collect();
    let made = told(&from(&path(512), &inner), 1);
    assert_eq!(numbers(&made), [1, 256, 1, 256]);
    let partners: Vec<u32> = (0..512).map(|route| route ^ 1).collect();
    assert_eq!(plain::numbers(&made.left.pairing), partners);
}

#[test]
fn small_graph_is_improved_otherwise() {
    // every graph of up to five routes, every pairing of it, and budgets from none to more than there is room for
    let (mut calls, mut finished) = (0, 0);
    for n in 0..=5 {
        let possible: Vec<(u32, u32)> = (0..n).flat_map(|w| (0..w).map(move |v| (v, w))).collect();
        for chosen in 0..1u32 << possible.len() {
            let edges: Vec<(u32, u32)> =
                (0..possible.len()).filter(|e| chosen >> e & 1 == 1).map(|e| possible[e]).collect();
            let (rows, pairings) = (joined(n, &edges), pairings(&edges));
            let largest = pairings.iter().map(Vec::len).max().expect("the empty pairing");
            for pairs in pairings {
                for budget in 0..=3 {
                    let added = (largest - pairs.len()).min(budget);
                    let size = pairs.len() + added;
                    let due = [added, size, (size == largest).into(), n as usize - size].map(|number| number as u64);
                    improves("small graph", &rows, &pairs, budget as u32, due);
                    calls += 1;
                    finished += due[2];
                }
            }
        }
    }
    println!("every graph of up to 5 routes, every pairing, budgets 0 to 3: {calls} calls, {finished} finished");
}
