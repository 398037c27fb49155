//! A recorded sample of gamma's answers, as crates/replay_pairing/data/sample holds it. A line is one operation and what
//! gamma said of it:
//!
//!     code, how many ids, the ids | 1 if gamma panicked, the value | the order then, the pairs then by lower id
//!
//! The value is what `order`, `has_node` (0 or 1) and `mate` answered, for `edges` the number of pairs, and else 0. Each
//! line goes on from the pairing that the line before it left; the first begins with a fresh one.
use crate::operation::{Operation, NAMES};
use std::fmt::Write;

/// One line.
#[derive(Clone, Debug, PartialEq)]
pub struct Line {
    pub operation: Operation,
    pub panicked: bool,
    pub value: u32,
    pub order: u32,
    pub pairs: Vec<(u32, u32)>,
}

const HEADING: &str =
    "# gamma 0.9.0: what its Pairing says. README.md beside this folder has the form and how it was made.\n";

/// The file of these lines.
pub fn write(lines: &[Line]) -> String {
    let mut text = HEADING.to_string();
    for line in lines {
        let numbers: Vec<String> = line.operation.numbers().iter().map(u32::to_string).collect();
        write!(text, "{} | {} {} | {}", numbers.join(" "), u32::from(line.panicked), line.value, line.order).unwrap();
        for (lower, upper) in &line.pairs {
            write!(text, " {lower} {upper}").unwrap();
        }
        text.push('\n');
    }
    text
}

/// The lines of a file.
pub fn read(text: &str) -> Vec<Line> {
    text.lines().filter(|line| !line.starts_with('#')).map(read_line).collect()
}

fn read_line(line: &str) -> Line {
    let parts: Vec<Vec<u32>> = line.split('|').map(|part| part.split_whitespace().map(number).collect()).collect();
    let [asked, said, left] = &parts[..] else { panic!("three parts: {line}") };
    assert_eq!(asked.len(), 2 + asked[1] as usize, "how many ids there are: {line}");
    Line {
        operation: Operation::of(asked[0], &asked[2..]).unwrap_or_else(|| panic!("an operation: {line}")),
        panicked: said[0] == 1,
        value: said[1],
        order: left[0],
        pairs: left[1..].chunks_exact(2).map(|pair| (pair[0], pair[1])).collect(),
    }
}

fn number(word: &str) -> u32 {
    word.parse().unwrap_or_else(|_| panic!("a number: {word}"))
}

/// What the program `replay_pairing` has to print, where nothing differs.
pub fn stdout(lines: &[Line]) -> String {
    let mut text = String::new();
    let count = |test: &dyn Fn(&Line) -> bool| lines.iter().filter(|line| test(line)).count();
    for (code, name) in NAMES.iter().enumerate() {
        let here = |line: &Line| line.operation.code() as usize == code;
        let answered = count(&|line| here(line) && !line.panicked);
        let refused = count(&|line| here(line) && line.panicked);
        writeln!(text, "{name}: {answered} answered, {refused} refused").unwrap();
    }
    writeln!(text, "operations: {}", lines.len()).unwrap();
    text.push_str("differences: 0\n");
    text
}

/// The sample made anew: random operations on few ids, and what gamma answers.
#[cfg(gamma)]
pub fn make() -> Vec<Line> {
    use crate::random;
    use sheets::random::Random;
    const SEED: u64 = 3;
    const OPERATIONS: usize = 3000;
    let ids: Vec<u32> = (0..12).chain([255, 256, 510, 511]).collect();
    let mut source = Random::new(SEED);
    let mut gamma = crate::gamma::Pairing::new();
    let mut lines = Vec::new();
    while lines.len() < OPERATIONS {
        let operation = random::operation(&mut source, &ids, 8, false);
        // gamma makes an id its own partner, and no pairing is left to compare
        if operation.ids().chunks_exact(2).any(|pair| pair[0] == pair[1]) {
            continue;
        }
        lines.push(ask(&mut gamma, operation));
    }
    lines
}

/// One operation on gamma's pairing.
#[cfg(gamma)]
fn ask(gamma: &mut crate::gamma::Pairing, operation: Operation) -> Line {
    let said = crate::gamma::asked(|| match &operation {
        Operation::Order => gamma.order() as u32,
        Operation::HasNode(id) => gamma.has_node(*id as usize).into(),
        Operation::Pair(a, b) => {
            gamma.pair(*a as usize, *b as usize);
            0
        }
        Operation::Edges => gamma.edges().count() as u32,
        Operation::Augment(path) => {
            gamma.augment(path.iter().map(|&id| id as usize).collect());
            0
        }
        Operation::Mate(id) => gamma.mate(*id as usize) as u32,
    });
    let mut pairs: Vec<(u32, u32)> = gamma.edges().map(|(lower, upper)| (lower as u32, upper as u32)).collect();
    pairs.sort();
    Line { operation, panicked: said.is_none(), value: said.unwrap_or(0), order: gamma.order() as u32, pairs }
}
