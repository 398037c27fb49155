//! How long the proved calls take, natively compiled, beside a plain Rust program of the same search and beside gamma. In
//! rust/:
//!
//!     cargo run --release --offline --bin bench
//!
//! All are run in turn, so that what else the machine does meets all of them, and of each the quickest of 41 runs is
//! shown. The status is 0 where improvement takes no more than three times the plain program and the check no more than
//! improvement, on every sheet.
mod original;
#[path = "../../sheets/tests/probe/mod.rs"]
mod probe;

use sheets::yards::{self, Yard};
use std::hint::black_box;
use std::process::ExitCode;
use std::time::{Duration, Instant};

const RUNS: usize = 41;

const HEADING: &str = "\
improve   wisharek_improve from nothing to the end: the sheet read and checked, all searches, pairing and witness written
plain     the same by the plain Rust program (rust/plain): the sheet read and checked into rows, all searches
searches  the plain program's searches alone, on rows that are read before
check     wisharek_check of what improvement left: the sheet read and checked again, then the parts
read      the proved reader alone (crates/probe)
reads     the plain program's reader alone
gamma     gamma's maximum_matching from nothing, on a graph that is read before, once; where it ends, with as many pairs

| sheet | routes | entries | pairs | improve | plain | improve/plain | searches | improve/searches | check | check/improve | read | reads | gamma |
|---|---|---|---|---|---|---|---|---|---|---|---|---|---|";

/// The quickest run of each.
#[derive(Clone, Copy)]
struct Times {
    improve: Duration,
    plain: Duration,
    searches: Duration,
    check: Duration,
    read: Duration,
    reads: Duration,
}

fn main() -> ExitCode {
    let words: Vec<String> = std::env::args().skip(1).collect();
    if let [word, name] = &words[..] {
        assert_eq!(word, "gamma", "bench, or bench gamma SHEET");
        original::run(yards::all().into_iter().find(|yard| yard.name == name).expect("a sheet of that name"));
        return ExitCode::SUCCESS;
    }
    println!("{HEADING}");
    let held: Vec<bool> = yards::all().iter().map(bench).collect();
    match held.iter().all(|&held| held) {
        true => ExitCode::SUCCESS,
        false => {
            println!("over a bar: improve/plain above 3, or check/improve above 1");
            ExitCode::FAILURE
        }
    }
}

/// One sheet: its line, and whether it is within the bars.
fn bench(yard: &Yard) -> bool {
    let sheet = sheets::write(&yard.rows);
    let (pairing, witness) = improved(&sheet);
    let pairs = sheets::plain::numbers(&pairing).iter().filter(|&&partner| partner != plain::NONE).count() / 2;
    assert_eq!((pairing.clone(), witness.clone()), plainly(&sheet), "{}: proved and plain", yard.name);
    assert_eq!(wisharek::check(&sheet, &pairing, &witness), Ok(()), "{}", yard.name);
    let times = times(yard, &sheet, &pairing, &witness);
    let entries: usize = yard.rows.iter().map(Vec::len).sum();
    let (over_plain, over_searches) = (ratio(times.improve, times.plain), ratio(times.improve, times.searches));
    let over_improve = ratio(times.check, times.improve);
    println!(
        "| {} | {} | {entries} | {pairs} | {} | {} | {over_plain:.2} | {} | {over_searches:.2} | {} | {over_improve:.2} | {} | {} | {} |",
        yard.name,
        yard.rows.len(),
        shown(times.improve),
        shown(times.plain),
        shown(times.searches),
        shown(times.check),
        shown(times.read),
        shown(times.reads),
        original::timed(yard, pairs)
    );
    over_plain <= 3.0 && over_improve <= 1.0
}

/// All in turn, so many times; the quickest of each.
fn times(yard: &Yard, sheet: &[u8], pairing: &[u8], witness: &[u8]) -> Times {
    let nothing = vec![plain::NONE; yard.rows.len()];
    let run = || Times {
        improve: time(|| improved(black_box(sheet))),
        plain: time(|| plainly(black_box(sheet))),
        searches: time(|| plain::improve(black_box(&yard.rows), &nothing, u32::MAX)),
        check: time(|| wisharek::check(black_box(sheet), pairing, witness)),
        read: time(|| probe::number(black_box(sheet))),
        reads: time(|| plain::rows(black_box(sheet))),
    };
    (1..RUNS).map(|_| run()).fold(run(), |best, now| Times {
        improve: best.improve.min(now.improve),
        plain: best.plain.min(now.plain),
        searches: best.searches.min(now.searches),
        check: best.check.min(now.check),
        read: best.read.min(now.read),
        reads: best.reads.min(now.reads),
    })
}

fn time<T>(work: impl FnOnce() -> T) -> Duration {
    let begun = Instant::now();
    black_box(work());
    begun.elapsed()
}

/// The proved call, from nothing to the end.
fn improved(sheet: &[u8]) -> (Vec<u8>, Vec<u8>) {
    let n = sheet[0] as usize + 256 * sheet[1] as usize;
    let (mut pairing, mut witness) = (vec![255; 4 * n], vec![0; n]);
    let said = wisharek::improve(sheet, &mut pairing, &mut witness, u32::MAX).expect("a sound sheet");
    assert!(said.finished, "improvement without limit is finished");
    (pairing, witness)
}

/// The plain program, from the same bytes to the same bytes.
fn plainly(sheet: &[u8]) -> (Vec<u8>, Vec<u8>) {
    let rows = plain::rows(sheet).expect("a sound sheet");
    let start = plain::partners(&rows, &vec![255; 4 * rows.len()]).expect("a sound start");
    let improved = plain::improve(&rows, &start, u32::MAX);
    (sheets::bytes(&improved.pairing), improved.witness.expect("finished"))
}

fn ratio(one: Duration, other: Duration) -> f64 {
    one.as_secs_f64() / other.as_secs_f64()
}

/// A time in milliseconds.
fn shown(time: Duration) -> String {
    format!("{:.3} ms", 1e3 * time.as_secs_f64())
}
