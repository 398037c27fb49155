//! Random calls, the same on every run: sound ones and ones in which the sheet, the pairing, the witness or the length of
//! a buffer is damaged. Half of the layouts are made around a set that shows their pairing to be a largest one, so that
//! acceptance is met at every size.
use crate::support::{make, Buffers, Call};
use sheets::random::Random;
use wisharek::NONE;

/// A graph, a pairing of it and a set, all sound.
pub struct Layout {
    pub rows: Vec<Vec<u32>>,
    pub partners: Vec<u32>,
    pub marks: Vec<u8>,
}

impl Layout {
    /// n routes and nothing else.
    pub fn new(n: usize) -> Layout {
        Layout { rows: vec![vec![]; n], partners: vec![NONE; n], marks: vec![0; n] }
    }

    pub fn join(&mut self, v: usize, w: usize) {
        if v != w && !self.rows[v].contains(&(w as u32)) {
            self.rows[v].push(w as u32);
            self.rows[w].push(v as u32);
        }
    }

    fn pair(&mut self, v: usize, w: usize) {
        self.partners[v] = w as u32;
        self.partners[w] = v as u32;
    }

    /// Pairs unpaired routes as they come, each with its first neighbour that is free: all that can be with `kept` 4, and
    /// fewer with less.
    pub fn pair_some(&mut self, random: &mut Random, kept: u64) {
        let mut order: Vec<usize> = (0..self.rows.len()).collect();
        random.shuffle(&mut order);
        for v in order {
            let free = self.rows[v].iter().find(|&&w| self.partners[w as usize] == NONE).copied();
            if let (Some(w), NONE, true) = (free, self.partners[v], random.below(5) <= kept) {
                self.pair(v, w as usize);
            }
        }
    }
}

/// Any graph; some routes paired as they come; a set that is empty, has a few routes, half of them, or all.
fn any(random: &mut Random, n: usize) -> Layout {
    let parts = 1 + random.below(6 + n as u64);
    let rows = random.rows_of(n, parts);
    let mut layout = Layout { rows, ..Layout::new(n) };
    let kept = random.below(5);
    layout.pair_some(random, kept);
    let (some, of) = [(0, 1), (1, 6), (1, 2), (1, 1)][random.index(4)];
    layout.marks = (0..n).map(|_| (random.below(of) < some).into()).collect();
    layout
}

/// A graph made around a set. Each part that is left without it is a path and some more edges; an even one is paired off
/// along the path, and of an odd one a route is left over. Each route of the set is paired with the one that is left over
/// in some odd part, a different part for each, and is joined to any others. So the bound is met.
pub fn around_a_set(random: &mut Random, n: usize) -> Layout {
    let mut layout = Layout::new(n);
    let mut order: Vec<usize> = (0..n).collect();
    random.shuffle(&mut order);
    let mut set: Vec<usize> = order.split_off(n - random.index(n / 3 + 1));
    let longest = [1, 3, 6, n.max(1)][random.index(4)];
    let mut parts: Vec<Vec<usize>> = vec![];
    while !order.is_empty() {
        let routes = (1 + random.index(longest)).min(order.len());
        parts.push(order.split_off(order.len() - routes));
    }
    while parts.iter().filter(|part| part.len() % 2 == 1).count() < set.len() {
        parts.extend(set.pop().map(|route| vec![route]));
    }
    let mut unused = set.iter();
    for part in &parts {
        let over = if part.len() % 2 == 1 { 2 * random.index(part.len() / 2 + 1) } else { part.len() };
        part.windows(2).for_each(|two| layout.join(two[0], two[1]));
        for _ in 0..random.index(part.len()) {
            let (v, w) = (random.index(part.len()), random.index(part.len()));
            layout.join(part[v], part[w]);
        }
        // the routes before the one left over, and those behind it
        for stretch in [&part[..over], part.get(over + 1..).unwrap_or(&[])] {
            stretch.chunks(2).for_each(|two| layout.pair(two[0], two[1]));
        }
        if let (Some(&left), true) = (part.get(over), part.len() % 2 == 1) {
            if let Some(&route) = unused.next() {
                layout.join(route, left);
                layout.pair(route, left);
            }
        }
    }
    for &route in &set {
        layout.marks[route] = 1;
        for _ in 0..random.index(8) {
            layout.join(route, random.index(n));
        }
    }
    layout.rows.iter_mut().for_each(|row| random.shuffle(row));
    layout
}

/// One thing wrong with the partners, or with their length.
pub fn damage_pairing(random: &mut Random, pairing: &mut Vec<u8>) {
    let n = pairing.len() / 4;
    if n == 0 || random.below(6) == 0 {
        return damage_length(random, pairing);
    }
    let mut set = |route: usize, partner: u32| {
        pairing[4 * route..4 * route + 4].copy_from_slice(&partner.to_le_bytes());
    };
    let (v, w) = (random.index(n), random.index(n));
    match random.below(7) {
        0 => set(v, n as u32 + random.below(3) as u32),
        1 => set(v, [NONE - 1, 1 << 31, w as u32 | 1 << 16, w as u32 | 1 << 30][random.index(4)]),
        2 => set(v, v as u32),
        3 => set(v, NONE),
        4 => set(v, w as u32),
        5 => set(v, 0),
        _ => {
            set(v, w as u32);
            set(w, v as u32);
        }
    }
}

/// One thing wrong with the witness: a byte above 1, a route more or less, or its length.
fn damage_witness(random: &mut Random, witness: &mut Vec<u8>) {
    if witness.is_empty() || random.below(6) == 0 {
        return damage_length(random, witness);
    }
    let at = random.index(witness.len());
    match random.below(3) {
        0 => witness[at] = [2, 3, 128, 254, 255][random.index(5)],
        1 => witness[at] = 2 + random.below(254) as u8,
        _ => witness[at] ^= 1,
    }
}

/// Some bytes more or fewer, or none left.
pub fn damage_length(random: &mut Random, buffer: &mut Vec<u8>) {
    let length = match random.below(6) {
        0 => 0,
        1 => random.index(buffer.len() + 1),
        2 => buffer.len().saturating_sub(1),
        3 => buffer.len().saturating_sub(4),
        4 => buffer.len() + 1,
        _ => buffer.len() + 4,
    };
    buffer.resize(length, 0);
}

/// The buffers of one round. Each of them is damaged in some of the rounds.
fn round(random: &mut Random, n: usize) -> Buffers {
    let mut layout = if random.below(2) == 0 { any(random, n) } else { around_a_set(random, n) };
    let sheet_damaged = random.below(3) == 0;
    if sheet_damaged {
        (0..random.below(3)).for_each(|_| random.damage_rows(&mut layout.rows));
    }
    let mut lent = Buffers::new(&layout.rows, &layout.partners, &layout.marks);
    if sheet_damaged {
        (0..random.below(2)).for_each(|_| random.damage_bytes(&mut lent.sheet));
    }
    if random.below(4) == 0 {
        damage_pairing(random, &mut lent.pairing);
    }
    if random.below(4) == 0 {
        damage_witness(random, &mut lent.witness);
    }
    if random.below(16) == 0 {
        damage_length(random, &mut lent.parts);
    }
    lent
}

/// Calls compared, counted by call and by number. An answer of a wrong length is counted by itself.
#[derive(Default)]
struct Seen {
    numbers: [[u64; 13]; 3],
    answers: u64,
}

impl Seen {
    /// All three calls on the buffers of each round.
    fn rounds(&mut self, seed: u64, rounds: usize, routes: impl Fn(&mut Random) -> usize) {
        let mut random = Random::new(seed);
        for _ in 0..rounds {
            let n = routes(&mut random);
            let lent = round(&mut random, n);
            for call in Call::ALL {
                self.one(call, &lent, &mut random);
            }
        }
    }

    fn one(&mut self, call: Call, lent: &Buffers, random: &mut Random) {
        let right = 8 * call.numbers();
        let lengths = [0, 8, right - 1, right + 1, 24, 32, 40, 56];
        let bytes = if random.below(16) == 0 { lengths[random.index(8)] } else { right };
        let made = make(call, &lent.answering(bytes), random.index(8));
        if bytes == right {
            self.numbers[call as usize][made.number as usize] += 1;
        } else {
            assert_eq!(made.number, 9);
            self.answers += 1;
        }
    }

    fn total(&self) -> u64 {
        self.numbers.iter().flatten().sum::<u64>() + self.answers
    }

    fn print(&self, what: &str) {
        println!(
            "{what}: {} calls, {} of them with an answer of a wrong length, by number 0 to 12:",
            self.total(),
            self.answers
        );
        for call in Call::ALL {
            println!("  {call:?}: {:?}", self.numbers[call as usize]);
        }
    }

    /// Each number that a call can give was given at least so often.
    fn assert_each(&self, times: u64) {
        assert!(self.answers >= times, "too few answers of a wrong length");
        for call in Call::ALL {
            for number in [vec![0], call.refusals()].concat() {
                let seen = self.numbers[call as usize][number as usize];
                assert!(seen >= times, "{call:?}: number {number} was seen {seen} times");
            }
        }
    }
}

#[test]
fn calls_differ_on_few_routes() {
    let mut seen = Seen::default();
    seen.rounds(31, 100_000, |random| random.index(13));
    seen.print("0 to 12 routes");
    assert!(seen.total() >= 100_000);
    seen.assert_each(100);
}

#[test]
fn calls_differ_on_more_routes() {
    let mut seen = Seen::default();
    seen.rounds(32, 10_000, |random| 13 + random.index(48));
    seen.print("13 to 60 routes");
    seen.assert_each(5);
}

#[test]
fn calls_differ_on_most_routes() {
    let mut seen = Seen::default();
    seen.rounds(33, 200, |random| 512 - random.index(2));
    seen.print("511 and 512 routes");
    assert!(seen.numbers.iter().all(|numbers| numbers[0] >= 10), "too few are accepted");
}
