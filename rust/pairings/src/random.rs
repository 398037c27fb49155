//! Random operations, and ways to damage a pairing; the same on every run from the same seed.
use crate::operation::{Operation, IDS};
use sheets::random::Random;

/// Numbers that are no ids, among them some that are one again when they are cut to 16 bits.
const NO_IDS: [u32; 8] = [IDS, IDS + 1, 600, 65_535, 65_536, 65_539, 1 << 31, u32::MAX];

/// One of these.
pub fn one_of<T: Copy>(random: &mut Random, things: &[T]) -> T {
    things[random.index(things.len())]
}

/// Yes, one time in so many.
pub fn once_in(random: &mut Random, times: u64) -> bool {
    random.below(times) == 0
}

/// An operation on these ids. With `strange`, numbers that are no ids are among them.
pub fn operation(random: &mut Random, ids: &[u32], longest: usize, strange: bool) -> Operation {
    let mut path = match random.below(100) {
        0..=5 => return Operation::Order,
        6..=13 => return Operation::Edges,
        14..=24 => return Operation::HasNode(id(random, ids, strange)),
        25..=35 => return Operation::Mate(id(random, ids, strange)),
        36..=69 => return Operation::Pair(id(random, ids, strange), id(random, ids, strange)),
        _ => path(random, ids, longest),
    };
    if strange && !path.is_empty() && once_in(random, 20) {
        let position = random.index(path.len());
        path[position] = one_of(random, &NO_IDS);
    }
    Operation::Augment(path)
}

fn id(random: &mut Random, ids: &[u32], strange: bool) -> u32 {
    if strange && once_in(random, 40) {
        return one_of(random, &NO_IDS);
    }
    one_of(random, ids)
}

/// A path over these ids. An id stands beside itself now and then, and twice in the path often; some counts are odd.
fn path(random: &mut Random, ids: &[u32], longest: usize) -> Vec<u32> {
    let mut path = Vec::new();
    for _ in 0..random.index(longest / 2 + 1) {
        let first = one_of(random, ids);
        let mut second = one_of(random, ids);
        while second == first && !once_in(random, 40) {
            second = one_of(random, ids);
        }
        path.extend([first, second]);
    }
    if once_in(random, 12) {
        path.push(one_of(random, ids));
    }
    path
}

/// One thing wrong with a pairing: a partner or the kept count changed.
pub fn damage(random: &mut Random, partners: &mut [u32], count: &mut u32) {
    let (id, other) = (random.index(partners.len()), random.index(partners.len()));
    match random.below(6) {
        0 => partners[id] = one_of(random, &NO_IDS),
        1 => partners[id] = id as u32,
        2 => partners[id] = other as u32,
        3 => partners.swap(id, other),
        4 => *count = count.wrapping_add(1 + random.below(2) as u32),
        _ => *count = one_of(random, &[0, 1, 2, 511, 512, 513, 65_536, u32::MAX]),
    }
}
