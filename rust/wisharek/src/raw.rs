//! The exported functions of the archive target/native/libwisharek.a (crates/wisharek_c), and all that is unsafe about
//! calling them. Lent memory must not overlap; nothing else is asked, whatever the lengths and the bytes.

#[cfg(not(archive))]
compile_error!(
    "target/native/libwisharek.a is not there: run tools/staticlib wisharek at the top of the repository first"
);

extern "C" {
    fn wisharek_improve(
        sheet: *const u8,
        sheet_len: usize,
        pairing: *mut u8,
        pairing_len: usize,
        witness: *mut u8,
        witness_len: usize,
        budget: u32,
        answer: *mut u8,
        answer_len: usize,
    ) -> u32;
    fn wisharek_check(
        sheet: *const u8,
        sheet_len: usize,
        pairing: *const u8,
        pairing_len: usize,
        witness: *const u8,
        witness_len: usize,
        answer: *mut u8,
        answer_len: usize,
    ) -> u32;
    fn wisharek_surplus(
        sheet: *const u8,
        sheet_len: usize,
        witness: *const u8,
        witness_len: usize,
        answer: *mut u8,
        answer_len: usize,
    ) -> u32;
    fn wisharek_parts(
        sheet: *const u8,
        sheet_len: usize,
        witness: *const u8,
        witness_len: usize,
        parts: *mut u8,
        parts_len: usize,
        answer: *mut u8,
        answer_len: usize,
    ) -> u32;
}

/// `wisharek_improve`. The answer takes 7 numbers.
pub fn improve(sheet: &[u8], pairing: &mut [u8], witness: &mut [u8], budget: u32, answer: &mut [u8]) -> u32 {
    // SAFETY: as for `check`.
    unsafe {
        wisharek_improve(
            sheet.as_ptr(),
            sheet.len(),
            pairing.as_mut_ptr(),
            pairing.len(),
            witness.as_mut_ptr(),
            witness.len(),
            budget,
            answer.as_mut_ptr(),
            answer.len(),
        )
    }
}

/// `wisharek_check`. The answer takes 3 numbers.
pub fn check(sheet: &[u8], pairing: &[u8], witness: &[u8], answer: &mut [u8]) -> u32 {
    // SAFETY: each pointer and length are those of one slice, which is lent for the call. What is written is lent as
    // `&mut`, so it overlaps nothing else. An empty slice has a pointer that is not null, and no byte behind it is used.
    unsafe {
        wisharek_check(
            sheet.as_ptr(),
            sheet.len(),
            pairing.as_ptr(),
            pairing.len(),
            witness.as_ptr(),
            witness.len(),
            answer.as_mut_ptr(),
            answer.len(),
        )
    }
}

/// `wisharek_surplus`. The answer takes 4 numbers.
pub fn surplus(sheet: &[u8], witness: &[u8], answer: &mut [u8]) -> u32 {
    // SAFETY: as for `check`.
    unsafe {
        wisharek_surplus(
            sheet.as_ptr(),
            sheet.len(),
            witness.as_ptr(),
            witness.len(),
            answer.as_mut_ptr(),
            answer.len(),
        )
    }
}

/// `wisharek_parts`. The answer takes 5 numbers.
pub fn parts(sheet: &[u8], witness: &[u8], parts: &mut [u8], answer: &mut [u8]) -> u32 {
    // SAFETY: as for `check`.
    unsafe {
        wisharek_parts(
            sheet.as_ptr(),
            sheet.len(),
            witness.as_ptr(),
            witness.len(),
            parts.as_mut_ptr(),
            parts.len(),
            answer.as_mut_ptr(),
            answer.len(),
        )
    }
}
