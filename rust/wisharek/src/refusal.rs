//! A refusal and its words.
use std::error::Error;
use std::fmt;

/// Why a call was refused: the number of the one check that failed first, and its two details. A detail that has no
/// meaning for that number is 0.
///
/// | number | given when | a, b |
/// |---|---|---|
/// | 1 | the sheet has fewer than 8 bytes | |
/// | 2 | the sheet has more than 512 routes | routes, 512 |
/// | 3 | contents cut short, start 0 not 0, a start falls, or the length is not 8 + 4n + 4E | |
/// | 4 | an entry is not a route | entry |
/// | 5 | the same neighbour stands again later in the row | row, entry |
/// | 6 | the neighbour's row lacks this route | entry, row |
/// | 7 | a route is its own neighbour | lowest such route |
/// | 8 | the pairing does not have 4n bytes | |
/// | 9 | the witness does not have n bytes, or the parts not 4n | |
/// | 10 | a partner is no route, or the route itself, or not a neighbour, or does not name the route back | lowest such route, its partner |
/// | 11 | a witness byte is above 1 | lowest position, byte |
/// | 12 | the bound is not met | unpaired routes |
///
/// Printed, it says this in words:
///
/// ```
/// // rows [1] and []: route 0 names 1, and 1 does not name 0
/// let sheet: Vec<u8> = [2, 0, 1, 1, 1u32].iter().flat_map(|x| x.to_le_bytes()).collect();
/// let refusal = wisharek::surplus(&sheet, &[0, 0]).unwrap_err();
/// assert_eq!((refusal.number, refusal.a, refusal.b), (6, 1, 0));
/// assert_eq!(refusal.to_string(), "refusal 6: route 0 names 1 as its neighbour, and the row of 1 lacks 0");
/// ```
#[derive(Clone, Copy, Debug, PartialEq, Eq, Hash)]
pub struct Refusal {
    /// Which check failed, from 1 on.
    pub number: u32,
    /// The first detail.
    pub a: u64,
    /// The second detail.
    pub b: u64,
}

impl fmt::Display for Refusal {
    fn fmt(&self, f: &mut fmt::Formatter<'_>) -> fmt::Result {
        let Refusal { number, a, b } = *self;
        write!(f, "refusal {number}: ")?;
        match number {
            1 => write!(f, "the sheet has fewer than 8 bytes"),
            2 => write!(f, "the sheet has {a} routes, and no more than {b} are taken"),
            3 => write!(
                f,
                "the contents of the sheet are cut short, do not begin with 0 or fall, or its length is not the one \
                 that they give"
            ),
            4 => write!(f, "the sheet names {a} as a neighbour, and there is no such route"),
            5 => write!(f, "route {a} names its neighbour {b} more than once"),
            6 => write!(f, "route {b} names {a} as its neighbour, and the row of {a} lacks {b}"),
            7 => write!(f, "route {a} is its own neighbour"),
            8 => write!(f, "the pairing does not have 4 bytes for each route"),
            9 => write!(f, "the witness does not have 1 byte for each route, or the parts do not have 4"),
            10 => write!(
                f,
                "route {a} has the partner {b}, which is no route, or {a} itself, or no neighbour of {a}, or does not \
                 name {a} back"
            ),
            11 => write!(f, "the witness has {b} for route {a}, and only 0 and 1 are taken"),
            12 => write!(
                f,
                "the pairing is not shown to be a largest one: it leaves {a} unpaired, which is not the surplus of the \
                 witness"
            ),
            _ => write!(f, "of another kind, with {a} and {b}"),
        }
    }
}

impl Error for Refusal {}
