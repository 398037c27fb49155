//! The proved operations, as the archive target/native/libdrive.a exports them (crates/drive_c).
use pairings::operation::{IDS, NONE};

#[cfg(not(drive))]
compile_error!("target/native/libdrive.a is not there: run tools/staticlib drive at the top of the repository first");

#[link(name = "drive", kind = "static")]
extern "C" {
    fn drive_pairing(
        state: *mut u8,
        state_len: usize,
        ops: *const u32,
        ops_len: usize,
        answers: *mut u64,
        answers_len: usize,
    ) -> usize;
}

/// A pairing as bytes: the partners, then the kept count.
#[derive(Clone, PartialEq)]
pub struct State(pub Vec<u8>);

#[allow(dead_code)]
impl State {
    pub fn fresh() -> State {
        State::of(&[NONE; IDS as usize], 0)
    }

    pub fn of(partners: &[u32], count: u32) -> State {
        State(sheets::bytes(&[partners, &[count]].concat()))
    }

    /// Number k: the partner of id k, or past the ids the kept count.
    pub fn number(&self, k: usize) -> u32 {
        u32::from_le_bytes(self.0[4 * k..4 * k + 4].try_into().unwrap())
    }

    pub fn partners(&self) -> Vec<u32> {
        (0..IDS as usize).map(|k| self.number(k)).collect()
    }

    pub fn count(&self) -> u32 {
        self.number(IDS as usize)
    }

    /// The operations applied in turn; the answer is how many they are.
    pub fn drive(&mut self, ops: &[u32], answers: &mut [u64]) -> usize {
        let state = &mut self.0;
        // SAFETY: each pointer and length are those of one slice, lent for the call; the three do not overlap.
        unsafe {
            drive_pairing(state.as_mut_ptr(), state.len(), ops.as_ptr(), ops.len(), answers.as_mut_ptr(), answers.len())
        }
    }
}

/// What one operation answered: number, A and B, a value, and the pairs behind them.
#[derive(Clone, Debug, PartialEq)]
pub struct Answer {
    pub reply: (u64, u64, u64),
    pub value: u64,
    pub pairs: Vec<(u64, u64)>,
}

/// The answer that stands first, to an operation with this code, and the numbers behind it.
#[allow(dead_code)]
pub fn answer(numbers: &[u64], code: u32) -> (Answer, &[u64]) {
    let value = numbers[3];
    let pairs = if code == 3 { value as usize } else { 0 };
    let (here, behind) = numbers[4..].split_at(2 * pairs);
    let pairs = here.chunks_exact(2).map(|pair| (pair[0], pair[1])).collect();
    (Answer { reply: (numbers[0], numbers[1], numbers[2]), value, pairs }, behind)
}
