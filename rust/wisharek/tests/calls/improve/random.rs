//! Random calls of `improve`, the same on every run: sound ones, and ones in which the sheet, the pairing or the length
//! of a buffer is damaged. Each is made as exported, as wrapped, and in two calls, and held to all that is promised of
//! it. What was met is counted, and each count has a least number, so that the test cannot become hollow.
use super::graphs::{graph, KINDS};
use super::held::{one_and_two, Known, Start, NUMBERS};
use crate::random::{damage_length, damage_pairing};
use crate::support::{Buffers, Made};
use sheets::largest::FEW;
use sheets::plain;
use sheets::random::Random;
use std::collections::BTreeMap;
use wisharek::NONE;

/// One thing wrong with the sheet, of every kind that the refusals know.
fn damage_sheet(random: &mut Random, rows: &mut [Vec<u32>]) -> Vec<u8> {
    let kind = random.below(8);
    if kind < 4 {
        (0..=random.below(2)).for_each(|_| random.damage_rows(rows));
    }
    let mut sheet = sheets::write(rows);
    match kind {
        0..=3 => {}
        4 => sheet.truncate(random.index(8)),
        5 => {
            let n = [513, 513 + random.below(1 << 16), 1 << 31, u32::MAX.into()][random.index(4)] as u32;
            sheet[..4].copy_from_slice(&n.to_le_bytes());
        }
        _ => random.damage_bytes(&mut sheet),
    }
    sheet
}

/// Bytes for a witness buffer. They may be anything: they are not read.
fn witness(random: &mut Random, n: usize) -> Vec<u8> {
    match random.below(3) {
        0 => vec![7; n],
        1 => (0..n).map(|_| random.below(2) as u8).collect(),
        _ => (0..n).map(|_| random.below(256) as u8).collect(),
    }
}

/// The buffers of one round, and the kind of their graph. Each of them is damaged in some of the rounds.
fn round(random: &mut Random, n: usize) -> (&'static str, Buffers) {
    let (kind, mut layout) = graph(random, n);
    let kept = random.below(6);
    // 5 stands for nothing to start with, or nothing more than the graph was made with
    if kept < 5 {
        layout.pair_some(random, kept);
    }
    let marks = witness(random, n);
    let mut lent = Buffers::new(&layout.rows, &layout.partners, &marks);
    if random.below(6) == 0 {
        lent.sheet = damage_sheet(random, &mut layout.rows);
    }
    if random.below(5) == 0 {
        damage_pairing(random, &mut lent.pairing);
    }
    if random.below(12) == 0 {
        damage_length(random, &mut lent.witness);
    }
    let lengths = [0, 8, 24, 32, 40, 55, 57, 64];
    let answer = if random.below(32) == 0 { lengths[random.index(8)] } else { 8 * NUMBERS };
    (kind, lent.answering(answer))
}

/// A budget cut in two, where there is room for so many pairs.
fn budgets(random: &mut Random, room: u32) -> (u32, u32) {
    let whole = match random.below(10) {
        0 => 0,
        1 => 1,
        2 => room,
        3 => room + 1,
        4 => room.saturating_sub(1),
        5 | 6 => random.below(u64::from(room) + 3) as u32,
        7 => random.below(1 << 32) as u32,
        // nothing would be left of it in fewer bits
        8 => 1 << (8 + random.below(24)),
        _ => u32::MAX,
    };
    let first = match random.below(5) {
        0 => 0,
        1 => whole,
        2 => whole.min(room),
        _ => random.below(u64::from(whole.min(room + 2)) + 1) as u32,
    };
    (first, whole - first)
}

/// How often each thing was met.
#[derive(Default)]
struct Met(BTreeMap<String, u64>);

impl Met {
    fn count(&mut self, what: impl Into<String>, met: bool) {
        *self.0.entry(what.into()).or_default() += u64::from(met);
    }

    fn of(&self, what: &str) -> u64 {
        self.0.get(what).copied().unwrap_or(0)
    }

    /// One round after the other, with so many routes.
    fn rounds(&mut self, seed: u64, rounds: usize, routes: impl Fn(&mut Random) -> usize) {
        let mut random = Random::new(seed);
        for _ in 0..rounds {
            let n = routes(&mut random);
            let (kind, lent) = round(&mut random, n);
            let known = Known::of(&lent);
            let room = if let Known::Taken(start) = &known { start.room() as u32 } else { random.below(9) as u32 };
            let (first, second) = budgets(&mut random, room);
            let made = one_and_two(&known, &lent, (first, second), random.index(8));
            self.count("calls", true);
            self.count(format!("calls on more than {FEW} routes"), n > FEW);
            match &known {
                Known::Unanswered => self.count("answer of a wrong length", true),
                Known::Refused((number, ..)) => self.refused(*number, &lent, &made),
                Known::Taken(start) => self.taken(kind, start, (first, second), &made),
            }
        }
    }

    fn refused(&mut self, number: u32, lent: &Buffers, made: &Made) {
        self.count(format!("refusal {number:2}"), true);
        if number == 10 {
            let (route, partner) = (made.numbers()[1] as usize, made.numbers()[2] as usize);
            let rows = plain::rows(&lent.sheet).expect("an accepted sheet");
            let cause = match rows.get(partner) {
                None => "no route",
                Some(_) if partner == route => "the route itself",
                Some(row) if !row.contains(&(route as u32)) => "not a neighbour",
                Some(_) => "does not name it back",
            };
            self.count(format!("refusal 10: {cause}"), true);
        }
    }

    fn taken(&mut self, kind: &str, start: &Start, (first, second): (u32, u32), made: &Made) {
        let (n, room, budget) = (start.rows.len(), start.room() as u64, u64::from(first + second));
        let finished = made.numbers()[5] == 1;
        self.count("accepted", true);
        self.count(format!("accepted on more than {FEW} routes"), n > FEW);
        self.count("accepted on 512 routes", n == 512);
        self.count("accepted on no routes", n == 0);
        self.count("finished", finished);
        self.count(format!("finished on more than {FEW} routes"), finished && n > FEW);
        self.count("not finished", !finished);
        self.count(format!("not finished on more than {FEW} routes"), !finished && n > FEW);
        self.count(format!("kind: {kind}"), true);
        self.count(format!("kind with pairs to add: {kind}"), room > 0);
        self.count("start: nothing, with pairs to add", room > 0 && start.size() == 0);
        self.count("start: some pairs, with more to add", room > 0 && start.size() > 0);
        self.count("start: already a largest one", room == 0 && start.size() > 0);
        self.count("start: every route paired", n > 0 && 2 * start.size() == n);
        self.count("budget: 0, with pairs to add", room > 0 && budget == 0);
        self.count("budget: one too few", room > 0 && budget + 1 == room);
        self.count("budget: exactly what is missing", room > 0 && budget == room);
        self.count("budget: one more than is missing", room > 0 && budget == room + 1);
        self.count("budget: 4294967295", budget == u64::from(u32::MAX));
        self.count("budget: 2^8 to 2^31, with pairs to add", room > 0 && budget >= 256 && budget.is_power_of_two());
        self.count("two calls: both add", first > 0 && u64::from(first) < room && second > 0);
        self.count("two calls: the first one finishes", room > 0 && u64::from(first) >= room && second > 0);
        self.count("a route has another partner than before", other_partner(start, made));
        self.count("the witness leaves an odd part of 3 or more", finished && odd_part_of_three(made));
    }

    /// Each was met at least so often.
    fn at_least(&self, least: &[(&str, u64)]) {
        for &(what, times) in least {
            assert!(self.of(what) >= times, "{what}: met {} times, and not {times}", self.of(what));
        }
    }
}

/// Whether a pair was changed on the way, and not only pairs of free routes added.
fn other_partner(start: &Start, made: &Made) -> bool {
    let now = plain::numbers(&made.left.pairing);
    start.partners.iter().zip(now).any(|(&before, now)| before != NONE && before != now)
}

/// Whether an odd part of three routes or more is left without the witness's set. There a search has to contract.
fn odd_part_of_three(made: &Made) -> bool {
    let mut parts = vec![0; made.left.pairing.len()];
    wisharek::parts(&made.left.sheet, &made.left.witness, &mut parts).expect("a sound witness");
    let least = plain::numbers(&parts);
    let routes = |part: u32| least.iter().filter(|&&other| other == part).count();
    (0..least.len() as u32).any(|part| routes(part) >= 3 && routes(part) % 2 == 1)
}

/// How often things have to be met at least, about half as often as they are.
const LEAST: [(&str, u64); 28] = [
    ("calls on more than 14 routes", 5_000),
    ("answer of a wrong length", 1_500),
    ("accepted", 50_000),
    ("accepted on no routes", 150),
    ("accepted on more than 14 routes", 2_000),
    ("accepted on 512 routes", 50),
    ("finished", 30_000),
    ("finished on more than 14 routes", 1_000),
    ("not finished", 6_000),
    ("not finished on more than 14 routes", 500),
    ("start: nothing, with pairs to add", 5_000),
    ("start: some pairs, with more to add", 10_000),
    ("start: already a largest one", 10_000),
    ("start: every route paired", 2_000),
    ("budget: 0, with pairs to add", 3_000),
    ("budget: one too few", 3_500),
    ("budget: exactly what is missing", 3_000),
    ("budget: one more than is missing", 2_000),
    ("budget: 4294967295", 3_000),
    ("budget: 2^8 to 2^31, with pairs to add", 1_500),
    ("two calls: both add", 1_000),
    ("two calls: the first one finishes", 2_500),
    ("a route has another partner than before", 4_000),
    ("the witness leaves an odd part of 3 or more", 6_000),
    ("refusal 10: no route", 1_000),
    ("refusal 10: the route itself", 1_000),
    ("refusal 10: not a neighbour", 1_000),
    ("refusal 10: does not name it back", 1_500),
];

#[test]
fn improve_differs() {
    let mut met = Met::default();
    // the larger of two numbers, so that there are not too many layouts of hardly a route
    met.rounds(51, 95_000, |random| random.index(FEW + 1).max(random.index(FEW + 1)));
    met.rounds(52, 4_000, |random| FEW + 1 + random.index(50));
    met.rounds(53, 700, |random| 65 + random.index(191));
    met.rounds(54, 300, |random| if random.below(2) == 0 { 512 } else { 256 + random.index(257) });
    met.0.iter().for_each(|(what, times)| println!("{times:7} {what}"));

    assert_eq!(met.of("calls"), 100_000);
    met.at_least(&LEAST);
    for number in 1..=10 {
        met.at_least(&[(&format!("refusal {number:2}"), 450)]);
    }
    for kind in KINDS.map(|(name, _)| name).into_iter().chain(["around a set"]) {
        met.at_least(&[(&format!("kind: {kind}"), 2_000)]);
        let to_add = if kind == "no edges" { 0 } else { 350 };
        met.at_least(&[(&format!("kind with pairs to add: {kind}"), to_add)]);
    }
}
