//! How long the proved reader takes, in native code: the largest sheet, and sheets of 16 MB made to keep a reader busy.
//! A row with more entries than there are routes repeats one of them or has an entry that is none, so a long row is
//! refused within its first 513 entries. What can be made long is the way to that answer: the rest of the row, which a
//! plain reader runs through for each of those entries. The long row comes first, or last after rows that are as long as
//! sound rows can be.
mod probe;

use sheets::clock;
use sheets::plain::Reply;
use std::hint::black_box;
use std::time::Duration;

const LARGEST: Duration = Duration::from_millis(20);
const HOSTILE: Duration = Duration::from_secs(1);

/// The numbers of a sheet of 16 MB.
const NUMBERS: usize = 4 << 20;

/// The sheet's answer asserted, and the time that it takes held to the bar.
fn timed(what: &str, sheet: &[u8], reply: Reply, bar: Duration) {
    assert_eq!(probe::reply(sheet), reply, "{what}");
    let what = format!("{what}: {} bytes, answer {reply:?}", sheet.len());
    clock::hold(&what, bar, || {
        black_box(probe::number(black_box(sheet)));
    });
}

/// A star: 0 joined to all of 1 to 511.
fn star() -> Vec<Vec<u32>> {
    let mut rows = vec![vec![0]; 512];
    rows[0] = (1..512).collect();
    rows
}

/// The sheet of these rows, one of them made longer until the sheet has 16 MB: filling, and then a last entry.
fn filled(mut rows: Vec<Vec<u32>>, row: usize, filling: impl Fn(usize) -> u32, last: u32) -> Vec<u8> {
    let numbers = 2 + rows.len() + rows.iter().map(Vec::len).sum::<usize>();
    rows[row].extend((numbers + 1..NUMBERS).map(filling));
    rows[row].push(last);
    sheets::write(&rows)
}

/// Routes in an order with no pattern.
fn scattered(i: usize) -> u32 {
    (i as u32).wrapping_mul(2_654_435_761) >> 23
}

#[test]
fn largest_sheet_is_slow() {
    timed("all of 512", &sheets::write(&sheets::all_joined(512)), (0, 0, 0), LARGEST);
}

#[test]
fn largest_sheet_with_loops_is_slow() {
    let mut rows = sheets::all_joined(512);
    rows.iter_mut().enumerate().for_each(|(v, row)| row.push(v as u32));
    timed("all of 512 and every loop", &sheets::write(&rows), (7, 0, 0), LARGEST);
}

#[test]
fn late_twin_of_the_first_entry_is_slow() {
    let sheet = filled(star(), 0, |_| u32::MAX, 1);
    timed("twin of the first entry at the end", &sheet, (5, 0, 1), HOSTILE);
}

#[test]
fn late_twin_of_the_last_sound_entry_is_slow() {
    let sheet = filled(star(), 0, |_| u32::MAX, 511);
    timed("511 sound entries, twin of the last at the end", &sheet, (5, 0, 511), HOSTILE);
}

#[test]
fn long_rest_without_a_twin_is_slow() {
    let sheet = filled(star(), 0, |_| 512, 512);
    timed("511 sound entries, then no route", &sheet, (4, 512, 0), HOSTILE);
}

#[test]
fn long_first_row_of_routes_is_slow() {
    let sheet = filled(star(), 0, scattered, 511);
    timed("first row of scattered routes", &sheet, (5, 0, 1), HOSTILE);
}

#[test]
fn long_row_of_one_loop_is_slow() {
    let sheet = filled(star(), 0, |_| 0, 0);
    timed("511 sound entries, then the row's own route", &sheet, (5, 0, 0), HOSTILE);
}

#[test]
fn only_the_last_row_lacks_a_route() {
    // all of 512, but row 511 lacks 510; in its place stands 511 itself, millions of times
    let mut rows = sheets::all_joined(512);
    rows[511].pop();
    let sheet = filled(rows, 511, |_| 511, 511);
    timed("last row lacks a route and goes on", &sheet, (6, 511, 510), HOSTILE);
}

#[test]
fn only_the_last_sound_entry_is_lacked() {
    // all of 512, but row 510 names itself in place of 511, which the last row finds at its 511th entry
    let mut rows = sheets::all_joined(512);
    rows[510][510] = 510;
    let sheet = filled(rows, 511, |_| u32::MAX, u32::MAX);
    timed("last row names a row that lacks it, and goes on", &sheet, (6, 510, 511), HOSTILE);
}

#[test]
fn long_last_row_after_sound_ones_is_slow() {
    // every row before the last is as long as a sound row can be
    let sheet = filled(sheets::all_joined(512), 511, scattered, 0);
    timed("all of 512, last row goes on with scattered routes", &sheet, (5, 511, 0), HOSTILE);
}

#[test]
fn entry_total_far_too_large_is_slow() {
    let mut sheet = filled(star(), 0, scattered, 511);
    let total = 4 * 513;
    sheet[total..total + 4].copy_from_slice(&u32::MAX.to_le_bytes());
    timed("entry total of 4294967295", &sheet, (3, 0, 0), HOSTILE);
}

#[test]
fn too_many_routes_are_slow() {
    let mut sheet = filled(star(), 0, scattered, 511);
    sheet[0..4].copy_from_slice(&u32::MAX.to_le_bytes());
    timed("n of 4294967295", &sheet, (2, u32::MAX.into(), 512), HOSTILE);
}
