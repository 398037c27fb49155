//! Counts the steps of every search that the proved library makes on a sheet. The archive target/native/libsteps.a, which
//! tools/steps writes, is the proved library with calls of the three functions below put into the functions of the
//! search. A step is a visit to the head of a loop: one for each turn, and one for the test that ends the loop. Filling
//! a local table with one value is no loop of the source, and is not counted; it costs a search the same every time.
pub mod yards;

use std::cell::RefCell;

#[cfg(not(archive))]
compile_error!("target/native/libsteps.a is not there: run tools/steps at the top of the repository first");

/// The loops that are counted, one to a line: number, function, block.
const LISTED: &str = include_str!("../../../target/native/steps.loops");

/// More loops than there are.
const ROOM: usize = 64;

/// The steps of one search, loop by loop, and its contractions.
#[derive(Clone)]
pub struct Count {
    by_loop: [u64; ROOM],
    pub contractions: u64,
}

impl Count {
    /// All steps of the search.
    pub fn steps(&self) -> u64 {
        self.by_loop.iter().sum()
    }

    /// The function whose loop takes the most steps, and how many they are.
    pub fn heaviest(&self) -> (&'static str, u64) {
        let most = (0..ROOM).max_by_key(|&k| self.by_loop[k]).unwrap_or(0);
        (function(most), self.by_loop[most])
    }

    /// 8 · (E + n · contractions + n), for a sheet of n routes and E entries.
    pub fn bound(&self, rows: &[Vec<u32>]) -> u64 {
        let entries: usize = rows.iter().map(Vec::len).sum();
        let n = rows.len() as u64;
        8 * (entries as u64 + n * self.contractions + n)
    }
}

/// The functions of the loops, by the loop's number.
pub fn functions() -> Vec<&'static str> {
    LISTED.lines().filter_map(|line| line.split(' ').nth(1)).collect()
}

fn function(number: usize) -> &'static str {
    functions().get(number).copied().unwrap_or("no loop")
}

thread_local! {
    static COUNTS: RefCell<Vec<Count>> = const { RefCell::new(vec![]) };
}

/// The archive says: a search begins.
#[no_mangle]
extern "C" fn wisharek_search() {
    COUNTS.with_borrow_mut(|counts| counts.push(Count { by_loop: [0; ROOM], contractions: 0 }));
}

/// The archive says: a ring becomes a group.
#[no_mangle]
extern "C" fn wisharek_contraction() {
    change(|count| count.contractions += 1);
}

/// The archive says: a step, at the head of this loop.
#[no_mangle]
extern "C" fn wisharek_step(number: u32) {
    change(|count| count.by_loop[number as usize] += 1);
}

fn change(how: impl FnOnce(&mut Count)) {
    COUNTS.with_borrow_mut(|counts| how(counts.last_mut().expect("a step before any search")));
}

#[link(name = "steps", kind = "static")]
extern "C" {
    fn wisharek_improve(
        sheet: *const u8,
        sheet_len: usize,
        pairing: *mut u8,
        pairing_len: usize,
        witness: *mut u8,
        witness_len: usize,
        budget: u32,
        answer: *mut u8,
        answer_len: usize,
    ) -> u32;
}

/// What improvement without limit brings from these pairs: how many more, and the count of each search, the last of which
/// finds nothing.
pub fn improved(rows: &[Vec<u32>], start: &[(u32, u32)]) -> (u64, Vec<Count>) {
    let sheet = sheets::write(rows);
    let mut partners = vec![sheets::plain::NONE; rows.len()];
    for &(one, two) in start {
        partners[one as usize] = two;
        partners[two as usize] = one;
    }
    let mut pairing = sheets::bytes(&partners);
    let mut witness = vec![0; rows.len()];
    let mut answer = [0; 56];
    COUNTS.with_borrow_mut(Vec::clear);
    // SAFETY: each pointer and length are those of one slice, lent for the call, and no two overlap.
    let number = unsafe {
        wisharek_improve(
            sheet.as_ptr(),
            sheet.len(),
            pairing.as_mut_ptr(),
            pairing.len(),
            witness.as_mut_ptr(),
            witness.len(),
            u32::MAX,
            answer.as_mut_ptr(),
            answer.len(),
        )
    };
    assert_eq!(number, 0, "the sheet is refused");
    let added = u64::from_le_bytes(answer[24..32].try_into().expect("eight bytes"));
    (added, COUNTS.with_borrow_mut(std::mem::take))
}
