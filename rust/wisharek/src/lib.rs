//! Is this pairing shown to be a largest one? Safe calls of the proved library `wisharek`, for Rust programs.
//!
//! Routes are numbered from 0. A **sheet** lists for each of them the routes that it may stand together with, a
//! **pairing** gives each route a partner or none, and a **witness** is a set of routes. When the routes of the set are
//! taken away, the rest falls into parts. Of each part with an odd number of routes one stays unpaired or is paired into
//! the set, so every pairing leaves at least as many routes unpaired as there are odd parts, less the routes in the set:
//! the **surplus**. A pairing that leaves exactly so many is a largest one, whoever made it.
//!
//! | buffer | bytes | what it holds |
//! |---|---|---|
//! | sheet | 8 + 4n + 4E | n, at most 512; n + 1 starts, the entry number at which each row begins and the entry total E; E entries, the neighbours row after row |
//! | pairing | 4n | for each route its partner, or [`NONE`] |
//! | witness | n | for each route 1 in the set, 0 outside it |
//! | parts | 4n | written by [`parts`]: for each route the least route of its part, or [`NONE`] for one of the set |
//!
//! All numbers have four bytes, the lowest first. Any bytes are answered: a call accepts, or gives the one [`Refusal`]
//! that is due. What a call may write is lent to it as `&mut`, so memory that overlaps cannot be lent.
//!
//! ```
//! let bytes = |numbers: &[u32]| -> Vec<u8> { numbers.iter().flat_map(|x| x.to_le_bytes()).collect() };
//!
//! // four routes; 0 may stand together with each of 1, 2 and 3
//! let sheet = bytes(&[4, 0, 3, 4, 5, 6, 1, 2, 3, 0, 0, 0]);
//! // 0 and 1 are paired
//! let none = wisharek::NONE;
//! let pairing = bytes(&[1, 0, none, none]);
//!
//! // without 0 there are three parts of one route each; 3 - 1 are left unpaired at least, and no more are
//! assert_eq!(wisharek::check(&sheet, &pairing, &[1, 0, 0, 0]), Ok(()));
//!
//! // the empty set does not show it
//! let refusal = wisharek::check(&sheet, &pairing, &[0, 0, 0, 0]).unwrap_err();
//! assert_eq!((refusal.number, refusal.a), (12, 2));
//! ```
#![deny(unsafe_code)]
#![warn(missing_docs)]

#[allow(unsafe_code)]
mod raw;
mod refusal;

pub use refusal::Refusal;

/// The number that stands for no route. Zero is a route.
pub const NONE: u32 = u32::MAX;

/// What is left when the set of a witness is taken away, in numbers.
#[derive(Clone, Copy, Debug, PartialEq, Eq, Hash)]
pub struct Parts {
    /// The parts with an odd number of routes.
    pub odd: u64,
    /// The routes in the set.
    pub set: u64,
}

/// What a call of [`improve`] has done.
#[derive(Clone, Copy, Debug, PartialEq, Eq, Hash)]
pub struct Improved {
    /// The pairs that were added.
    pub added: u64,
    /// The size of the pairing that is left.
    pub size: u64,
    /// Whether no pairing is larger. Then the witness shows it.
    pub finished: bool,
    /// The test sessions that the pairing left leads to: the routes less the pairs.
    pub sessions: u64,
}

/// Adds pairs to the pairing, at most `budget` of them, and as many as there are. Every route that had a partner has
/// one afterwards, though it may be another. When no pairing is larger, the answer is finished and `witness` is written
/// over with a set that shows it to [`check`]; until then `witness` stays as it is. A refusal leaves both as they are.
///
/// Two calls in a row leave what one call with the sum of their budgets leaves.
///
/// Refusals: 1 to 10.
///
/// ```
/// // a path of four, 0 - 1 - 2 - 3, from its middle pair: the one pair more changes both partners
/// let bytes = |numbers: &[u32]| -> Vec<u8> { numbers.iter().flat_map(|x| x.to_le_bytes()).collect() };
/// let sheet = bytes(&[4, 0, 1, 3, 5, 6, 1, 0, 2, 1, 3, 2]);
/// let none = wisharek::NONE;
/// let mut pairing = bytes(&[none, 2, 1, none]);
/// let mut witness = [9; 4];
/// let done = wisharek::improve(&sheet, &mut pairing, &mut witness, 1)?;
/// assert_eq!((done.added, done.size, done.finished, done.sessions), (1, 2, true, 2));
/// assert_eq!(pairing, bytes(&[1, 0, 3, 2]));
/// assert_eq!(wisharek::check(&sheet, &pairing, &witness), Ok(()));
/// # Ok::<(), wisharek::Refusal>(())
/// ```
pub fn improve(sheet: &[u8], pairing: &mut [u8], witness: &mut [u8], budget: u32) -> Result<Improved, Refusal> {
    let mut answer = Answer::<56>::new();
    let number = raw::improve(sheet, pairing, witness, budget, &mut answer.bytes);
    answer.accepted(number)?;
    Ok(Improved {
        added: answer.number(3),
        size: answer.number(4),
        finished: answer.number(5) == 1,
        sessions: answer.number(6),
    })
}

/// Accepts exactly when the pairing leaves as many routes unpaired as the surplus of the witness's set says. Then no
/// pairing of the sheet is larger.
///
/// Refusals: 1 to 12.
///
/// ```
/// // two routes that may stand together; paired, and with the empty set
/// let sheet: Vec<u8> = [2, 0, 1, 2, 1, 0u32].iter().flat_map(|x| x.to_le_bytes()).collect();
/// let pairing: Vec<u8> = [1, 0u32].iter().flat_map(|x| x.to_le_bytes()).collect();
/// assert!(wisharek::check(&sheet, &pairing, &[0, 0]).is_ok());
/// ```
pub fn check(sheet: &[u8], pairing: &[u8], witness: &[u8]) -> Result<(), Refusal> {
    let mut answer = Answer::<24>::new();
    let number = raw::check(sheet, pairing, witness, &mut answer.bytes);
    answer.accepted(number)
}

/// The surplus of the witness's set: the odd parts that are left without it, less the routes in it. It may be below
/// zero.
///
/// Refusals: 1 to 7, 9 and 11.
///
/// ```
/// // a triangle: one odd part; without route 0 an even one
/// let numbers = [3, 0, 2, 4, 6, 1, 2, 0, 2, 0, 1u32];
/// let sheet: Vec<u8> = numbers.iter().flat_map(|x| x.to_le_bytes()).collect();
/// assert_eq!(wisharek::surplus(&sheet, &[0, 0, 0]), Ok(1));
/// assert_eq!(wisharek::surplus(&sheet, &[1, 0, 0]), Ok(-1));
/// ```
pub fn surplus(sheet: &[u8], witness: &[u8]) -> Result<i64, Refusal> {
    let mut answer = Answer::<32>::new();
    let number = raw::surplus(sheet, witness, &mut answer.bytes);
    answer.accepted(number)?;
    Ok(answer.number(3) as i64)
}

/// Writes for each route the least route of its part, or [`NONE`] for a route of the set, and counts the odd parts and
/// the routes in the set. With this table a witness can be checked by hand. A refusal leaves `parts` as it is.
///
/// Refusals: 1 to 7, 9 and 11.
///
/// ```
/// // a path of three, 0 - 1 - 2, without its middle
/// let numbers = [3, 0, 1, 3, 4, 1, 0, 2, 1u32];
/// let sheet: Vec<u8> = numbers.iter().flat_map(|x| x.to_le_bytes()).collect();
/// let mut parts = [0; 12];
/// let counted = wisharek::parts(&sheet, &[0, 1, 0], &mut parts)?;
/// assert_eq!((counted.odd, counted.set), (2, 1));
/// let least: Vec<u32> = parts.chunks(4).map(|four| u32::from_le_bytes(four.try_into().unwrap())).collect();
/// assert_eq!(least, [0, wisharek::NONE, 2]);
/// # Ok::<(), wisharek::Refusal>(())
/// ```
///
/// The bytes that are written cannot be lent a second time:
///
/// ```compile_fail,E0502
/// let mut bytes = [0; 8];
/// let _ = wisharek::parts(&[], &bytes, &mut bytes);
/// ```
pub fn parts(sheet: &[u8], witness: &[u8], parts: &mut [u8]) -> Result<Parts, Refusal> {
    let mut answer = Answer::<40>::new();
    let number = raw::parts(sheet, witness, parts, &mut answer.bytes);
    answer.accepted(number)?;
    Ok(Parts { odd: answer.number(3), set: answer.number(4) })
}

/// An answer buffer: numbers of eight bytes each, lowest first. The first three are the reply's number, A and B.
struct Answer<const BYTES: usize> {
    bytes: [u8; BYTES],
}

impl<const BYTES: usize> Answer<BYTES> {
    fn new() -> Self {
        Answer { bytes: [0; BYTES] }
    }

    /// Number k of the answer.
    fn number(&self, k: usize) -> u64 {
        let mut eight = [0; 8];
        eight.copy_from_slice(&self.bytes[8 * k..8 * k + 8]);
        u64::from_le_bytes(eight)
    }

    /// The refusal, where the number that the call returned is one.
    fn accepted(&self, number: u32) -> Result<(), Refusal> {
        match number {
            0 => Ok(()),
            number => Err(Refusal { number, a: self.number(1), b: self.number(2) }),
        }
    }
}
