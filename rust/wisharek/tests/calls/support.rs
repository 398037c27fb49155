//! One call made three ways: by the exported function with every buffer between guard bytes, by the safe wrapper
//! likewise, and by the plain reading. Number and all bytes that are left have to be the same.
use sheets::{calls, plain};
use wisharek::{Parts, Refusal, NONE};

#[path = "../../src/raw.rs"]
pub mod raw;

/// What the buffers that are only written hold before a call, so that a byte that is not written shows.
const STALE: u8 = 0xa7;

#[derive(Clone, Copy, Debug, PartialEq)]
pub enum Call {
    Check,
    Surplus,
    Parts,
}

impl Call {
    pub const ALL: [Call; 3] = [Call::Check, Call::Surplus, Call::Parts];

    /// The numbers of its answer.
    pub fn numbers(self) -> usize {
        match self {
            Call::Check => 3,
            Call::Surplus => 4,
            Call::Parts => 5,
        }
    }

    /// The refusals that it can give.
    pub fn refusals(self) -> Vec<u32> {
        match self {
            Call::Check => (1..=12).collect(),
            Call::Surplus | Call::Parts => (1..=7).chain([9, 11]).collect(),
        }
    }
}

/// The buffers of a call. It is lent those that it takes; the others stay as they are.
#[derive(Clone, Debug, PartialEq)]
pub struct Buffers {
    pub sheet: Vec<u8>,
    pub pairing: Vec<u8>,
    pub witness: Vec<u8>,
    pub parts: Vec<u8>,
    pub answer: Vec<u8>,
}

impl Buffers {
    /// The buffers for these rows, these partners and these marks, with a parts buffer of 4n bytes. The answer has no
    /// byte yet.
    pub fn new(rows: &[Vec<u32>], partners: &[u32], marks: &[u8]) -> Buffers {
        Buffers {
            sheet: sheets::write(rows),
            pairing: sheets::bytes(partners),
            witness: marks.to_vec(),
            parts: vec![STALE; 4 * rows.len()],
            answer: vec![],
        }
    }

    /// The same with these pairs, and with this set of routes.
    pub fn of(rows: &[Vec<u32>], pairs: &[(u32, u32)], set: &[u32]) -> Buffers {
        let mut partners = vec![NONE; rows.len()];
        for &(one, other) in pairs {
            partners[one as usize] = other;
            partners[other as usize] = one;
        }
        let marks: Vec<u8> = (0..rows.len() as u32).map(|route| set.contains(&route).into()).collect();
        Buffers::new(rows, &partners, &marks)
    }

    /// The same with an answer of so many bytes.
    pub fn answering(&self, bytes: usize) -> Buffers {
        Buffers { answer: vec![STALE; bytes], ..self.clone() }
    }
}

/// A call that was made: the number returned, and what it left in the buffers.
#[derive(Clone, Debug, PartialEq)]
pub struct Made {
    pub number: u32,
    pub left: Buffers,
}

impl Made {
    /// The numbers of the answer.
    pub fn numbers(&self) -> Vec<u64> {
        self.left.answer.chunks_exact(8).map(|eight| u64::from_le_bytes(eight.try_into().unwrap())).collect()
    }

    /// The table of parts.
    pub fn parts(&self) -> Vec<u32> {
        plain::numbers(&self.left.parts)
    }
}

/// Bytes to lend, with guards before and behind them. They begin `shift` bytes off the beginning of a word.
struct Guarded {
    memory: Vec<u8>,
    before: usize,
    behind: usize,
}

impl Guarded {
    const GUARD: usize = 64;

    fn new(bytes: &[u8], shift: usize) -> Guarded {
        let before = Guarded::GUARD + shift % 8;
        let behind = before + bytes.len();
        let mut memory: Vec<u8> = (0..behind + Guarded::GUARD).map(Guarded::guard).collect();
        memory[before..behind].copy_from_slice(bytes);
        Guarded { memory, before, behind }
    }

    /// The guard byte at a place. Neighbours differ, and none is 0.
    fn guard(place: usize) -> u8 {
        (place % 251) as u8 + 1
    }

    fn lend(&mut self) -> &mut [u8] {
        &mut self.memory[self.before..self.behind]
    }

    /// The bytes that were lent, as they are now. The guards have to be as they were.
    fn back(self, what: &str) -> Vec<u8> {
        let memory = std::hint::black_box(self.memory);
        for (place, &byte) in memory.iter().enumerate() {
            if place < self.before || self.behind <= place {
                assert_eq!(byte, Guarded::guard(place), "{what}: byte {place}, outside of what was lent, is written");
            }
        }
        memory[self.before..self.behind].to_vec()
    }
}

/// All five buffers between guards.
pub struct AllGuarded([Guarded; 5]);

impl AllGuarded {
    pub fn new(lent: &Buffers, shift: usize) -> AllGuarded {
        let Buffers { sheet, pairing, witness, parts, answer } = lent;
        let mut shift = shift;
        AllGuarded([sheet, pairing, witness, parts, answer].map(|bytes| {
            shift += 1;
            Guarded::new(bytes, shift)
        }))
    }

    pub fn lend(&mut self) -> [&mut [u8]; 5] {
        self.0.each_mut().map(Guarded::lend)
    }

    pub fn back(self) -> Buffers {
        let [sheet, pairing, witness, parts, answer] = self.0;
        Buffers {
            sheet: sheet.back("sheet"),
            pairing: pairing.back("pairing"),
            witness: witness.back("witness"),
            parts: parts.back("parts"),
            answer: answer.back("answer"),
        }
    }
}

/// By the exported function.
fn exported(call: Call, lent: &Buffers, shift: usize) -> Made {
    let mut guarded = AllGuarded::new(lent, shift);
    let [sheet, pairing, witness, parts, answer] = guarded.lend();
    let number = match call {
        Call::Check => raw::check(sheet, pairing, witness, answer),
        Call::Surplus => raw::surplus(sheet, witness, answer),
        Call::Parts => raw::parts(sheet, witness, parts, answer),
    };
    Made { number, left: guarded.back() }
}

/// By the safe wrapper. What it answers is written as the answer's numbers.
fn wrapped(call: Call, lent: &Buffers, shift: usize) -> Made {
    let mut guarded = AllGuarded::new(lent, shift);
    let [sheet, pairing, witness, parts, answer] = guarded.lend();
    let after = match call {
        Call::Check => wisharek::check(sheet, pairing, witness).map(|()| vec![]),
        Call::Surplus => wisharek::surplus(sheet, witness).map(|surplus| vec![surplus as u64]),
        Call::Parts => wisharek::parts(sheet, witness, parts).map(|Parts { odd, set }| vec![odd, set]),
    };
    let numbers = numbered(call.numbers(), after);
    answer.copy_from_slice(&long_bytes(&numbers));
    Made { number: numbers[0] as u32, left: guarded.back() }
}

/// What the wrapper answers, as so many numbers of an answer: zeros after B where it is refused.
pub fn numbered(numbers: usize, answer: Result<Vec<u64>, Refusal>) -> Vec<u64> {
    match answer {
        Ok(after) => [vec![0, 0, 0], after].concat(),
        Err(Refusal { number, a, b }) => {
            let mut told = vec![number.into(), a, b];
            told.resize(numbers, 0);
            told
        }
    }
}

/// The numbers of an answer, eight bytes each, lowest byte first.
pub fn long_bytes(numbers: &[u64]) -> Vec<u8> {
    numbers.iter().flat_map(|x| x.to_le_bytes()).collect()
}

/// By the plain reading.
fn plainly(call: Call, lent: &Buffers) -> Made {
    let mut left = lent.clone();
    let Buffers { sheet, pairing, witness, parts, answer } = &mut left;
    let number = match call {
        Call::Check => calls::check(sheet, pairing, witness, answer),
        Call::Surplus => calls::surplus(sheet, witness, answer),
        Call::Parts => calls::parts(sheet, witness, parts, answer),
    };
    Made { number, left }
}

/// Two ways of making a call, compared. The difference comes first in the message, the buffers last: they may be long.
pub fn same(made: &Made, plain: &Made, what: &str, lent: &Buffers) {
    if made == plain {
        return;
    }
    assert_eq!(made.number, plain.number, "{what}, number returned; lent was {lent:?}");
    assert_eq!(made.numbers(), plain.numbers(), "{what}, numbers of the answer; lent was {lent:?}");
    assert_eq!(made.left.parts, plain.left.parts, "{what}, parts; lent was {lent:?}");
    assert_eq!(made.left, plain.left, "{what}, bytes left; lent was {lent:?}");
}

/// The call on these buffers, made in all ways that there are. Their beginnings are moved by `shift` bytes.
pub fn make(call: Call, lent: &Buffers, shift: usize) -> Made {
    let plain = plainly(call, lent);
    let made = exported(call, lent, shift);
    same(&made, &plain, &format!("{call:?}: exported, plain"), lent);
    // the wrapper's own answer always has the right length
    if lent.answer.len() == 8 * call.numbers() {
        same(&wrapped(call, lent, shift), &plain, &format!("{call:?}: wrapped, plain"), lent);
    }
    made
}

/// The call on these buffers, with an answer of the right length.
pub fn told(call: Call, lent: &Buffers) -> Made {
    make(call, &lent.answering(8 * call.numbers()), 0)
}

/// A refusal, as the numbers of the call's answer: zeros after B.
pub fn refused(call: Call, number: u64, a: u64, b: u64) -> Vec<u64> {
    let mut numbers = vec![number, a, b];
    numbers.resize(call.numbers(), 0);
    numbers
}
