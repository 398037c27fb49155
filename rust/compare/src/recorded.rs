//! Recorded answers of gamma, as the files of crates/replay/data/ hold them: in `rising` each row rises, in `other` it stands
//! in any order. A line is one input and what gamma said of it:
//!
//!     the numbers of the sheet | how many pairs at the start, the pairs | what gamma said
//!     2 0 1 2 1 0 | 0 | 0 1 1 0 1
//!
//! The sheet's numbers are those of the sheet's bytes, four bytes each: n, n + 1 starts, the entries. What gamma said is one
//! of these:
//!
//!     1, number, A, B                        its reader refuses the rows: the refusal with its kind and ids
//!     0, 1, how many pairs, the pairs        it finishes, and no cycle is odd: these are its pairs, by lower id
//!     0, 0, how many pairs                   it finishes with so many
//!
//! A line that begins with `#` is passed over. Bars stand for the eye alone: each part says how long it is. No number is
//! above 1000, so that a reader of text needs no wide ones.
use crate::ours::Pairs;
use crate::Rows;
use sheets::plain::Reply;
use std::fmt::Write;
use std::path::PathBuf;

/// The files, by whether each row rises.
pub const FILES: [(&str, bool); 2] = [("rising", true), ("other", false)];

/// One line.
#[derive(Clone, Debug, PartialEq)]
pub struct Line {
    pub rows: Rows,
    pub start: Pairs,
    pub said: Said,
}

/// What gamma said.
#[derive(Clone, Debug, PartialEq)]
pub enum Said {
    Refused(Reply),
    /// No cycle is odd: the pairs.
    Pairs(Pairs),
    /// How many pairs.
    Size(usize),
}

/// The crate of the program that replays them too.
fn replay() -> PathBuf {
    PathBuf::from(env!("CARGO_MANIFEST_DIR")).join("../../crates/replay")
}

/// Where a file stands.
pub fn place(file: &str) -> PathBuf {
    replay().join("data").join(file)
}

/// What the program that replays them has to print.
pub fn expected() -> String {
    std::fs::read_to_string(replay().join("stdout")).expect("crates/replay/stdout")
}

const HEADING: &str = "# gamma 0.9.0: what it says of rows and starts. rust/compare/src/recorded.rs has the form.\n";

/// The text of a file.
pub fn write(lines: &[Line]) -> String {
    let mut text = HEADING.to_string();
    for line in lines {
        let sheet = sheets::plain::numbers(&sheets::write(&line.rows));
        let mut start = vec![line.start.len()];
        start.extend(flat(&line.start));
        writeln!(text, "{} | {} | {}", join(&sheet), join(&start), join(&said(&line.said))).expect("a text");
    }
    text
}

fn said(said: &Said) -> Vec<u64> {
    match said {
        Said::Refused((number, a, b)) => vec![1, (*number).into(), *a, *b],
        Said::Pairs(pairs) => {
            let mut numbers = vec![0, 1, pairs.len() as u64];
            numbers.extend(flat(pairs).map(|id| id as u64));
            numbers
        }
        Said::Size(size) => vec![0, 0, *size as u64],
    }
}

fn flat(pairs: &Pairs) -> impl Iterator<Item = usize> + '_ {
    pairs.iter().flat_map(|&(v, w)| [v, w])
}

fn join<T: ToString>(numbers: &[T]) -> String {
    numbers.iter().map(T::to_string).collect::<Vec<_>>().join(" ")
}

/// The lines of a file.
pub fn read(text: &str) -> Vec<Line> {
    text.lines().filter(|line| !line.starts_with('#')).map(read_line).collect()
}

fn read_line(line: &str) -> Line {
    let number = |word: &str| word.parse::<usize>().unwrap_or_else(|_| panic!("a number: {word}"));
    let parts: Vec<Vec<usize>> = line.split('|').map(|part| part.split_whitespace().map(number).collect()).collect();
    let [sheet, start, said] = &parts[..] else { panic!("three parts: {line}") };
    let sheet: Vec<u32> = sheet.iter().map(|&x| x as u32).collect();
    Line {
        rows: sheets::plain::rows(&sheets::bytes(&sheet)).unwrap_or_else(|| panic!("a sheet: {line}")),
        start: pairs(start),
        said: match said[..] {
            [1, number, a, b] => Said::Refused((number as u32, a as u64, b as u64)),
            [0, 1, ..] => Said::Pairs(pairs(&said[2..])),
            [0, 0, size] => Said::Size(size),
            _ => panic!("what gamma said: {line}"),
        },
    }
}

/// How many, and the pairs.
fn pairs(numbers: &[usize]) -> Pairs {
    assert_eq!(numbers.len(), 1 + 2 * numbers[0], "how many pairs: {numbers:?}");
    numbers[1..].chunks_exact(2).map(|pair| (pair[0], pair[1])).collect()
}

/// Writes both files anew.
#[cfg(gamma)]
pub fn record() -> Result<(), String> {
    for (file, rising) in FILES {
        let place = place(file);
        std::fs::write(&place, write(&make(rising))).map_err(|error| format!("{}: {error}", place.display()))?;
    }
    Ok(())
}

/// The lines of a file made anew: 300 inputs from a fixed seed, on which gamma finishes, or which its reader refuses.
#[cfg(gamma)]
pub fn make(rising: bool) -> Vec<Line> {
    const SEED: u64 = 23;
    const LINES: usize = 300;
    let mut random = sheets::random::Random::new(SEED);
    let mut lines: Vec<Line> = Vec::new();
    while lines.len() < LINES {
        let refused = lines.len() % 6 == 5;
        let most = match lines.len() {
            k if k % 25 == 24 => 60,
            k if k % 10 == 0 => k / 10 % 6,
            _ => 14,
        };
        lines.extend(line(&mut random, refused, most, rising));
    }
    lines
}

/// One line of random rows, unless it is not of the kind that is asked for.
#[cfg(gamma)]
fn line(random: &mut sheets::random::Random, refused: bool, most: usize, rising: bool) -> Option<Line> {
    use crate::{graphs, ours, reading};
    use gamma::steps::{self, End};
    let mut rows = match random.below(3) {
        0 => graphs::two_sides(random, most),
        _ => graphs::general(random, most),
    };
    if refused {
        random.damage_rows(&mut rows);
    }
    if rising {
        rows = graphs::rising(rows);
    }
    let reply = reading::theirs(&rows).expect("a reply to rows");
    let narrow = rows.iter().flatten().all(|&entry| entry <= 1000);
    let looped = (0..rows.len()).any(|v| rows[v].contains(&(v as u32)));
    if refused {
        let line = Line { rows, start: vec![], said: Said::Refused(reply) };
        return (reply.0 != 0 && narrow && !looped).then_some(line);
    }
    let start = match random.below(2) {
        0 => vec![],
        _ => ours::pairs(&graphs::some_pairs(random, &rows)),
    };
    let run = steps::run(&crate::worker::graph(&rows), &start, 1000);
    let said = match graphs::has_odd_cycle(&rows) {
        true => Said::Size(run.last().len()),
        false => Said::Pairs(run.last().to_vec()),
    };
    (run.end == End::Finished).then_some(Line { rows, start, said })
}
