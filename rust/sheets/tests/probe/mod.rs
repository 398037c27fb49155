//! The proved reader, as the archive target/native/libprobe.a exports it (crates/probe_c).

#[cfg(not(probe))]
compile_error!("target/native/libprobe.a is not there: run tools/staticlib probe at the top of the repository first");

#[link(name = "probe", kind = "static")]
extern "C" {
    fn probe_number(sheet: *const u8, sheet_len: usize) -> u32;
    fn probe_a(sheet: *const u8, sheet_len: usize) -> u64;
    fn probe_b(sheet: *const u8, sheet_len: usize) -> u64;
}

/// The number of the proved reader's reply.
#[allow(dead_code)]
pub fn number(sheet: &[u8]) -> u32 {
    // SAFETY: pointer and length are those of one slice, which is lent for the call and only read.
    unsafe { probe_number(sheet.as_ptr(), sheet.len()) }
}

/// Number, A and B of the proved reader's reply.
#[allow(dead_code)]
pub fn reply(sheet: &[u8]) -> sheets::plain::Reply {
    // SAFETY: as above.
    unsafe { (number(sheet), probe_a(sheet.as_ptr(), sheet.len()), probe_b(sheet.as_ptr(), sheet.len())) }
}
