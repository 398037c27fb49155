//! One call of `improve` and the same in two calls, every lent buffer between guard bytes, held to what is known of the
//! buffers before it is made: the refusal that is due, or how many pairs a largest pairing has.
use crate::support::{long_bytes, numbered, raw, same, AllGuarded, Buffers, Made};
use sheets::plain::{self, Reply};
use sheets::{calls, largest};
use wisharek::{Improved, NONE};

/// The numbers of the answer: number, A, B, added, size, finished, sessions.
pub const NUMBERS: usize = 7;

/// What is known of lent buffers.
#[derive(Clone, Debug)]
pub enum Known {
    /// The answer has a wrong length: 9 is returned, and no byte is written.
    Unanswered,
    /// The refusal that is due.
    Refused(Reply),
    /// The start that is accepted.
    Taken(Start),
}

/// An accepted sheet and a sound pairing of it.
#[derive(Clone, Debug)]
pub struct Start {
    pub rows: Vec<Vec<u32>>,
    pub partners: Vec<u32>,
    /// The pairs of a largest pairing, by a method that is no search for paths. Above 14 routes it is too low with a very
    /// small chance. A call can then be held to it in vain, but none passes that should not: one that is due to be
    /// finished has to show by its witness that no pairing is larger, and one that is not has fewer pairs than there are.
    pub largest: usize,
}

impl Start {
    /// The pairs to start with.
    pub fn size(&self) -> usize {
        pairs(&self.partners)
    }

    /// The pairs that are missing.
    pub fn room(&self) -> usize {
        self.largest.checked_sub(self.size()).expect("no pairing is larger than a largest one")
    }
}

impl Known {
    pub fn of(lent: &Buffers) -> Known {
        if lent.answer.len() != 8 * NUMBERS {
            return Known::Unanswered;
        }
        match calls::start(&lent.sheet, &lent.pairing, &lent.witness) {
            Err(reply) => Known::Refused(reply),
            Ok((rows, partners)) => {
                let largest = largest::of(&rows);
                Known::Taken(Start { rows, partners, largest })
            }
        }
    }

    /// What is known of the buffers that a call has left, which it was held to: a refusal stays, and a pairing is
    /// written over.
    fn after(&self, made: &Made) -> Known {
        match self {
            Known::Taken(start) => {
                let partners = plain::numbers(&made.left.pairing);
                Known::Taken(Start { partners, ..start.clone() })
            }
            other => other.clone(),
        }
    }
}

/// How many pairs these partners make.
fn pairs(partners: &[u32]) -> usize {
    partners.iter().filter(|&&partner| partner != NONE).count() / 2
}

/// By the exported function.
fn exported(lent: &Buffers, budget: u32, shift: usize) -> Made {
    let mut guarded = AllGuarded::new(lent, shift);
    let [sheet, pairing, witness, _, answer] = guarded.lend();
    let number = raw::improve(sheet, pairing, witness, budget, answer);
    Made { number, left: guarded.back() }
}

/// By the safe wrapper. What it answers is written as the answer's numbers.
fn wrapped(lent: &Buffers, budget: u32, shift: usize) -> Made {
    let mut guarded = AllGuarded::new(lent, shift);
    let [sheet, pairing, witness, _, answer] = guarded.lend();
    let after = wisharek::improve(sheet, pairing, witness, budget)
        .map(|Improved { added, size, finished, sessions }| vec![added, size, finished.into(), sessions]);
    let numbers = numbered(NUMBERS, after);
    answer.copy_from_slice(&long_bytes(&numbers));
    Made { number: numbers[0] as u32, left: guarded.back() }
}

/// All that is promised of a call that was made.
fn hold(known: &Known, lent: &Buffers, budget: u32, made: &Made) {
    match known {
        Known::Unanswered => {
            let due = Made { number: 9, left: lent.clone() };
            same(made, &due, "improve: made, due with an answer of a wrong length", lent);
        }
        &Known::Refused((number, a, b)) => {
            let answer = long_bytes(&[number.into(), a, b, 0, 0, 0, 0]);
            let due = Made { number, left: Buffers { answer, ..lent.clone() } };
            same(made, &due, "improve: made, due with a refusal", lent);
        }
        Known::Taken(start) => hold_taken(start, lent, budget, made),
    }
}

/// A call that is accepted adds the smaller of its budget and the pairs that are missing.
fn hold_taken(start: &Start, lent: &Buffers, budget: u32, made: &Made) {
    let added = start.room().min(budget as usize);
    let size = start.size() + added;
    let finished = size == start.largest;
    let due = [0, 0, 0, added, size, finished.into(), start.rows.len() - size].map(|number| number as u64);
    let what = || format!("improve with the budget {budget}; lent was {lent:?}");
    assert_eq!(made.number, 0, "number returned, {}", what());
    assert_eq!(made.numbers(), due, "numbers of the answer, {}", what());
    assert_eq!((&made.left.sheet, &made.left.parts), (&lent.sheet, &lent.parts), "bytes not its own, {}", what());

    let partners = plain::numbers(&made.left.pairing);
    assert_eq!(calls::paired(&start.rows, &partners), Ok(()), "no pairing is left: {partners:?}, {}", what());
    assert_eq!(pairs(&partners), size, "not the size of what is left: {partners:?}, {}", what());
    let lost = (0..partners.len()).find(|&route| start.partners[route] != NONE && partners[route] == NONE);
    assert_eq!(lost, None, "a route that had a partner has none: {partners:?}, {}", what());

    let Buffers { sheet, pairing, witness, .. } = &made.left;
    if finished {
        // the proved checker and the plain one
        assert_eq!(wisharek::check(sheet, pairing, witness), Ok(()), "{}", what());
        assert_eq!(calls::check(sheet, pairing, witness, &mut [0; 24]), 0, "the plain reading, {}", what());
    } else {
        assert_eq!(witness, &lent.witness, "the witness is written before the end, {}", what());
    }
}

/// One call, made as exported and as wrapped and held to what is known.
fn one(known: &Known, lent: &Buffers, budget: u32, shift: usize) -> Made {
    let made = exported(lent, budget, shift);
    hold(known, lent, budget, &made);
    // the wrapper's own answer always has the right length
    if !matches!(known, Known::Unanswered) {
        same(&wrapped(lent, budget, shift), &made, "improve: wrapped, exported", lent);
    }
    made
}

/// One call with the sum of two budgets, and then two calls, all held to what is known. The two leave what the one
/// leaves, byte for byte, and have added as many.
pub fn one_and_two(known: &Known, lent: &Buffers, (first, second): (u32, u32), shift: usize) -> Made {
    let whole = one(known, lent, first + second, shift);
    let half = exported(lent, first, shift + 1);
    hold(known, lent, first, &half);
    let between = half.left.answering(lent.answer.len());
    let rest = exported(&between, second, shift + 2);
    hold(&known.after(&half), &between, second, &rest);

    let mut sum = rest.clone();
    if let Known::Taken(_) = known {
        let mut numbers = rest.numbers();
        numbers[3] += half.numbers()[3];
        sum.left.answer = long_bytes(&numbers);
    }
    same(&sum, &whole, &format!("improve with {first} and then {second}: in two calls, in one"), lent);
    whole
}

/// The call on these buffers with an answer of the right length; also in two calls, cut in the middle.
pub fn told(lent: &Buffers, budget: u32) -> Made {
    let lent = lent.answering(8 * NUMBERS);
    one_and_two(&Known::of(&lent), &lent, (budget / 2, budget - budget / 2), 0)
}
