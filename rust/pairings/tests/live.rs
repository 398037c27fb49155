//! The proved operations beside gamma's `Pairing`: a million random operations, compared after each of them. A refused
//! operation is held to the plain reading and to the pairing before it, and is not asked of gamma.
#![cfg(gamma)]
mod drive;

use drive::{answer, Answer, State};
use pairings::gamma::Pairing;
use pairings::operation::{numbers, Operation, IDS, NAMES, NONE};
use pairings::plain;
use pairings::random::{damage, once_in, one_of, operation};
use sheets::random::Random;
use std::thread;
use std::time::Instant;

/// Each by itself, beside the others.
const SEEDS: [u64; 2] = [512, 513];
/// For each seed.
const ROUNDS: usize = 500;
const OPERATIONS: usize = 1000;

/// Both pairings, the operations that led to them from fresh ones, and what the proved ones said.
struct Both {
    proved: State,
    gamma: Pairing,
    led: Vec<Operation>,
    said: Vec<u64>,
    answers: Vec<u64>,
}

/// What was counted.
#[derive(Default)]
struct Seen {
    answered: [u64; 6],
    /// by operation and by number
    refused: [[u64; 17]; 6],
    /// the first of each of these: number, code, the operation
    first: Vec<(u64, u32, String)>,
    repeated: u64,
    damaged: u64,
}

impl Both {
    fn new() -> Both {
        let (led, said) = (vec![], vec![]);
        Both { proved: State::fresh(), gamma: Pairing::new(), led, answers: vec![0; 2000], said }
    }

    /// Ends the run, with the operations since the round began.
    fn differ(&self, what: &str, ours: &dyn std::fmt::Debug, theirs: &dyn std::fmt::Debug) -> ! {
        let led: Vec<String> = self.led.iter().map(Operation::to_string).collect();
        panic!("{what}: proved {ours:?}, expected {theirs:?}; from a fresh pairing by\n{}", led.join("\n"));
    }

    fn same<T: PartialEq + std::fmt::Debug>(&self, what: &str, ours: T, theirs: T) {
        if ours != theirs {
            self.differ(what, &ours, &theirs);
        }
    }

    /// An operation on both, and then all that can be seen of them.
    fn step(&mut self, operation: Operation, seen: &mut Seen) {
        self.led.push(operation.clone());
        let was = self.proved.clone();
        let list = [operation.clone(), Operation::Order, Operation::Edges];
        let done = self.proved.drive(&numbers(&list), &mut self.answers);
        self.same("how many operations", done, list.len());
        let (said, behind) = answer(&self.answers, operation.code());
        let (order, behind) = answer(behind, 0);
        let (edges, _) = answer(behind, 3);
        self.said.extend(&self.answers[..4 + 2 * said.pairs.len()]);

        let refusal = plain::refusal(&was.partners(), was.count(), &operation);
        seen.count(&operation, refusal);
        if refusal.is_some() && self.proved != was {
            self.differ("a refused operation, and the bytes of the pairing", &self.proved.partners(), &was.partners());
        }
        let expected = match refusal {
            Some(reply) => Answer { reply, value: 0, pairs: vec![] },
            None => self.ask_gamma(&operation),
        };
        self.same("answer", said, expected);
        self.compare(order, edges);
    }

    /// An operation that is not refused, on gamma's pairing alone.
    fn ask_gamma(&mut self, operation: &Operation) -> Answer {
        let gamma = &mut self.gamma;
        let mut pairs = vec![];
        let value = match operation {
            Operation::Order => gamma.order(),
            Operation::HasNode(id) => gamma.has_node(*id as usize).into(),
            Operation::Mate(id) => gamma.mate(*id as usize),
            Operation::Edges => {
                pairs = self.edges_of_gamma();
                pairs.len()
            }
            Operation::Pair(a, b) => {
                gamma.pair(*a as usize, *b as usize);
                0
            }
            Operation::Augment(path) => {
                gamma.augment(path.iter().map(|&id| id as usize).collect());
                0
            }
        };
        Answer { reply: (0, 0, 0), value: value as u64, pairs }
    }

    /// They come in hash order, so they are sorted.
    fn edges_of_gamma(&self) -> Vec<(u64, u64)> {
        let mut edges: Vec<(u64, u64)> =
            self.gamma.edges().map(|(lower, upper)| (lower as u64, upper as u64)).collect();
        edges.sort();
        edges
    }

    /// Every id's partner, the order, and the edges.
    fn compare(&self, order: Answer, edges: Answer) {
        for id in 0..IDS as usize {
            let partner = if self.gamma.has_node(id) { self.gamma.mate(id) as u32 } else { NONE };
            if self.proved.number(id) != partner {
                self.differ(&format!("partner of {id}"), &self.proved.number(id), &partner);
            }
        }
        let theirs = self.gamma.order() as u64;
        self.same("kept count", u64::from(self.proved.count()), theirs);
        self.same("order", order, Answer { reply: (0, 0, 0), value: theirs, pairs: vec![] });
        let pairs = self.edges_of_gamma();
        self.same("edges", edges, Answer { reply: (0, 0, 0), value: pairs.len() as u64, pairs });
    }

    /// All operations of the round once more, in one call from a fresh pairing.
    fn once_more(&self) {
        let mut proved = State::fresh();
        let mut answers = vec![0; self.said.len() + 1];
        let done = proved.drive(&numbers(&self.led), &mut answers);
        self.same("how many operations in one call", done, self.led.len());
        self.same("last number in one call", answers.pop(), Some(0));
        self.same("answers in one call", &answers, &self.said);
        self.same("pairing in one call", &proved.0, &self.proved.0);
    }

    /// The pairing with one thing wrong, which every operation has to refuse alike.
    fn damaged(&self, random: &mut Random, seen: &mut Seen) {
        let (mut partners, mut count) = (self.proved.partners(), self.proved.count());
        damage(random, &mut partners, &mut count);
        let Some(reply) = plain::bad_pairing(&partners, count) else { return };
        seen.damaged += 1;
        let mut damaged = State::of(&partners, count);
        let was = damaged.clone();
        let path = vec![0, 1, 2, 3];
        let all = [
            Operation::Order,
            Operation::HasNode(0),
            Operation::Pair(0, 1),
            Operation::Edges,
            Operation::Augment(path),
            Operation::Mate(0),
        ];
        let mut answers = [0; 24];
        self.same("how many operations", damaged.drive(&numbers(&all), &mut answers), all.len());
        for said in answers.chunks_exact(4) {
            self.same(
                "answer to a damaged pairing",
                (said[0], said[1], said[2], said[3]),
                (reply.0, reply.1, reply.2, 0),
            );
        }
        self.same("bytes of a damaged pairing", &damaged.0, &was.0);
    }
}

impl Seen {
    fn count(&mut self, operation: &Operation, refusal: Option<plain::Reply>) {
        let code = operation.code() as usize;
        let Some((number, _, _)) = refusal else {
            self.answered[code] += 1;
            let mut ids = operation.ids();
            ids.sort();
            self.repeated += u64::from(ids.windows(2).any(|two| two[0] == two[1]));
            return;
        };
        self.refused[code][number as usize] += 1;
        if self.refused[code][number as usize] == 1 {
            self.first.push((number, operation.code(), operation.to_string()));
        }
    }

    /// What another run has counted too; of each kind of refusal the first is kept.
    fn add(&mut self, other: Seen) {
        for code in 0..NAMES.len() {
            self.answered[code] += other.answered[code];
            for (ours, theirs) in self.refused[code].iter_mut().zip(other.refused[code]) {
                *ours += theirs;
            }
        }
        for kind in other.first {
            if !self.first.iter().any(|first| (first.0, first.1) == (kind.0, kind.1)) {
                self.first.push(kind);
            }
        }
        self.repeated += other.repeated;
        self.damaged += other.damaged;
    }

    fn print(&mut self) {
        for (code, name) in NAMES.iter().enumerate() {
            let by_number: Vec<String> = (10..17)
                .filter(|&no| self.refused[code][no] > 0)
                .map(|no| format!("{no}: {}", self.refused[code][no]))
                .collect();
            let refused: u64 = self.refused[code].iter().sum();
            println!("  {name}: {} answered, {refused} refused ({})", self.answered[code], by_number.join(", "));
        }
        println!("  {} paths were answered in which an id stands twice", self.repeated);
        println!("  {} damaged pairings were refused with 10 by all six operations", self.damaged);
        println!("  refused, so not asked of gamma, the first of each kind:");
        self.first.sort();
        for (number, code, operation) in &self.first {
            println!("    {number}, {} times: {operation}", self.refused[*code as usize][*number as usize]);
        }
    }
}

/// All rounds from one seed.
fn rounds(seed: u64) -> Seen {
    let mut random = Random::new(seed);
    let mut seen = Seen::default();
    for _ in 0..ROUNDS {
        let mut both = Both::new();
        // few ids, so that they meet again; now and then all of them
        let limit = one_of(&mut random, &[2, 3, 4, 5, 6, 8, 12, 16, 24, 40, 100, 512]);
        let ids: Vec<u32> = if once_in(&mut random, 4) { (IDS - limit..IDS).collect() } else { (0..limit).collect() };
        let longest = one_of(&mut random, &[2, 4, 6, 8, 12, 40]);
        for _ in 0..OPERATIONS {
            both.step(operation(&mut random, &ids, longest, true), &mut seen);
            if once_in(&mut random, 50) {
                both.damaged(&mut random, &mut seen);
            }
        }
        both.once_more();
    }
    seen
}

#[test]
fn proved_pairing_differs_from_gammas() {
    let begun = Instant::now();
    let mut seen = Seen::default();
    thread::scope(|scope| {
        let runs = SEEDS.map(|seed| scope.spawn(move || rounds(seed)));
        for run in runs {
            seen.add(run.join().expect("a difference, which the run has said"));
        }
    });
    let total: u64 = seen.answered.iter().sum::<u64>() + seen.refused.iter().flatten().sum::<u64>();
    assert_eq!(total, (SEEDS.len() * ROUNDS * OPERATIONS) as u64);
    println!(
        "beside gamma: {total} operations from seeds {SEEDS:?}, compared after each, no difference, {:.1?}",
        begun.elapsed()
    );
    seen.print();
    assert!(seen.answered.iter().all(|&times| times >= 10_000), "an operation that is answered too seldom");
    for number in 13..17 {
        assert!(
            seen.refused.iter().map(|by| by[number]).sum::<u64>() >= 1000,
            "a refusal that is given too seldom: {number}"
        );
    }
}
