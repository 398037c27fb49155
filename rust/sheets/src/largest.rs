//! How many pairs a largest pairing has, found in two ways. Neither of them looks for a path, so they share nothing
//! with the search that they are the measure for.
use crate::random::Random;

/// The most routes that `by_sets` takes.
pub const FEW: usize = 14;

/// 2^61 - 1, which is prime. `by_rank` counts modulo this number.
const PRIME: u64 = (1 << 61) - 1;

/// By all sets where there are few routes, and by rank where there are more.
pub fn of(rows: &[Vec<u32>]) -> usize {
    if rows.len() <= FEW {
        by_sets(rows)
    } else {
        by_rank(rows, &mut Random::new(61))
    }
}

/// By all sets of routes, the smaller ones first. The lowest route of a set has no partner, or one of its neighbours in
/// the set.
pub fn by_sets(rows: &[Vec<u32>]) -> usize {
    assert!(rows.len() <= FEW, "{} routes have too many sets", rows.len());
    let neighbours: Vec<usize> = rows.iter().map(|row| row.iter().fold(0, |set, &route| set | 1 << route)).collect();
    let mut most = vec![0u8; 1 << rows.len()];
    for set in 1..most.len() {
        let others = set & (set - 1);
        let mut partners = others & neighbours[set.trailing_zeros() as usize];
        most[set] = most[others];
        while partners != 0 {
            let partner = partners & partners.wrapping_neg();
            most[set] = most[set].max(1 + most[others - partner]);
            partners -= partner;
        }
    }
    most[most.len() - 1].into()
}

/// By the rank of a matrix with a random x at (v, w) and -x at (w, v) for each edge, and 0 elsewhere (Tutte, Lovász).
///
/// Half of its rank is never more than the pairs of a largest pairing, whatever the numbers are. So a layout of which
/// this says k has k pairs, and a pairing with fewer is not a largest one: that is certain. Less than the largest is
/// said with a chance of at most n in 2^61. A test that also asks for a witness of its size rests on no chance: the
/// witness shows that there are not more pairs, and the rank that there are not fewer.
pub fn by_rank(rows: &[Vec<u32>], random: &mut Random) -> usize {
    let mut matrix = vec![vec![0; rows.len()]; rows.len()];
    for (v, row) in rows.iter().enumerate() {
        for w in row.iter().map(|&w| w as usize).filter(|&w| w < v) {
            let x = 1 + random.below(PRIME - 1);
            matrix[v][w] = x;
            matrix[w][v] = PRIME - x;
        }
    }
    let rank = rank(matrix);
    assert_eq!(rank % 2, 0, "the rank of such a matrix is even");
    rank / 2
}

/// The rank, by elimination: column after column is cleared below a row that has something there.
fn rank(mut matrix: Vec<Vec<u64>>) -> usize {
    let mut done = 0;
    for column in 0..matrix.len() {
        let Some(pivot) = (done..matrix.len()).find(|&row| matrix[row][column] != 0) else { continue };
        matrix.swap(done, pivot);
        let (above, below) = matrix.split_at_mut(done + 1);
        let clearing = &above[done][column..];
        let inverse = power(clearing[0], PRIME - 2);
        for row in below.iter_mut().filter(|row| row[column] != 0) {
            // what is added clears the column
            let factor = PRIME - times(row[column], inverse);
            for (cell, &by) in row[column..].iter_mut().zip(clearing) {
                *cell = reduced(u128::from(*cell) + u128::from(factor) * u128::from(by));
            }
        }
        done += 1;
    }
    done
}

/// The rest modulo 2^61 - 1 of a number below 2^123. A multiple of 2^61 has the rest of its factor.
fn reduced(x: u128) -> u64 {
    let folded = (x as u64 & PRIME) + (x >> 61) as u64;
    let again = (folded & PRIME) + (folded >> 61);
    if again >= PRIME {
        again - PRIME
    } else {
        again
    }
}

fn times(x: u64, y: u64) -> u64 {
    reduced(u128::from(x) * u128::from(y))
}

/// x to the power e, by squares.
fn power(x: u64, e: u64) -> u64 {
    let (mut result, mut square, mut left) = (1, x, e);
    while left > 0 {
        if left % 2 == 1 {
            result = times(result, square);
        }
        square = times(square, square);
        left /= 2;
    }
    result
}
