//! Damaged tables, damaged plan files and bytes without any sense, the same on every run. Whatever is read, the
//! program ends with 0, 1 or 2, and no pair is planned or accepted that the table's text does not have.
mod support;
use sheets::random::Random;
use std::collections::BTreeSet;
use std::process::Command;
use support::{hold, run, Folder, Plain, Ran};

const TABLES: usize = 100_000;
const PLANS: usize = 6_000;
const SHEETS: usize = 6_000;
const PROCESSES: usize = 200;

/// Names as they come, with some that differ in spaces, case or letters that are not ASCII.
const NAMES: [&str; 16] =
    ["A", "B", "C", "D1", "E 2", "F", "G-7", "Haupt", "N1", "n1", "N 1", "Süd", "süd", "K+L", "with", "M, N"];

/// Pieces of text that belong where they stand, or do not.
const SCRAPS: [&str; 24] = [
    ",",
    ",,",
    "\n",
    "\r\n",
    "\r",
    " ",
    "  ",
    "#",
    "# x\n",
    "\"",
    ";",
    "\t",
    "\u{feff}",
    "\u{200b}",
    "\u{a0}",
    "\0",
    "A",
    "A,B",
    "B,A\n",
    "pair,",
    "over,",
    "end\n",
    "no witness\n",
    "ſ",
];

/// A table in which nothing is wrong, most of the time.
fn table(random: &mut Random) -> Vec<u8> {
    let routes = 2 + random.index(NAMES.len() - 7);
    let mut pairs = BTreeSet::new();
    let mut text = String::new();
    for _ in 0..random.index(2 * routes) {
        let (one, other) = (random.index(routes), random.index(routes));
        if one != other && pairs.insert((one.min(other), one.max(other))) {
            text += &format!("{},{}\n", NAMES[one], NAMES[other]);
        }
    }
    if random.below(3) == 0 {
        text += &format!("# alone\nAlone {}\n", random.below(9));
    }
    text.into_bytes()
}

/// One thing changed: a bit, a byte, a scrap or a name put in, some bytes out, a line twice, two lines swapped.
fn damage(random: &mut Random, text: &mut Vec<u8>) {
    let at = random.index(text.len() + 1);
    let to = (at + random.index(9)).min(text.len());
    match random.below(8) {
        0 if at < text.len() => text[at] ^= 1 << random.below(8),
        1 if at < text.len() => text[at] = random.below(256) as u8,
        2 => drop(text.splice(at..at, SCRAPS[random.index(SCRAPS.len())].bytes())),
        3 => drop(text.drain(at..to)),
        4 => text.truncate(at),
        5 | 6 => {
            let mut lines: Vec<Vec<u8>> = text.split_inclusive(|&byte| byte == b'\n').map(<[u8]>::to_vec).collect();
            if !lines.is_empty() {
                let (one, other) = (random.index(lines.len()), random.index(lines.len()));
                if random.below(2) == 0 {
                    lines.swap(one, other);
                } else {
                    lines.insert(one, lines[other].clone());
                }
                *text = lines.concat();
            }
        }
        _ => drop(text.splice(at..at, NAMES[random.index(NAMES.len())].bytes())),
    }
}

/// Bytes without any sense.
fn noise(random: &mut Random) -> Vec<u8> {
    let length = random.index(200);
    let most = [256, 128, 16][random.index(3)];
    (0..length).map(|_| random.below(most) as u8).collect()
}

/// Holds what was said to the rules that no input breaks.
fn hold_said(ran: &Ran) {
    assert!(ran.status <= 2, "{ran:?}");
    let refused = ran.err.starts_with("wisharek: refused, number ") && ran.err.ends_with('\n');
    assert_eq!(ran.status == 2, refused, "{ran:?}");
    assert_eq!(ran.status == 2, ran.out.is_empty(), "{ran:?}");
    assert!(!ran.err.contains("fault of the program"), "{ran:?}");
}

#[test]
fn damaged_table_is_planned_wrongly() {
    let (folder, mut random) = (Folder::new("fuzz-tables"), Random::new(2024));
    let mut counts = [0; 3];
    for round in 0..TABLES {
        let mut bytes = if round % 20 == 0 { noise(&mut random) } else { table(&mut random) };
        for _ in 0..1 + random.index(3) {
            damage(&mut random, &mut bytes);
        }
        let path = folder.file("t.csv", &bytes);
        let ran = match random.below(4) {
            0 => run(&["explain", &path, "--svg", &folder.gone("svg")]),
            1 => run(&["plan", &path, "--budget", &random.below(4).to_string()]),
            _ => run(&["plan", &path]),
        };
        hold_said(&ran);
        counts[ran.status as usize] += 1;
        if ran.status < 2 {
            let plain = Plain::new(std::str::from_utf8(&bytes).expect("a table that is planned is UTF-8"));
            let sessions = hold(&plain, &ran.out);
            assert!(ran.status == 1 || plain.names.len() > 12 || sessions == plain.fewest(), "{ran:?}");
        }
    }
    println!("{TABLES} damaged tables: {} planned, {} not finished, {} refused", counts[0], counts[1], counts[2]);
    assert!(counts.iter().all(|&count| count > TABLES / 50), "{counts:?}");
}

/// The table or the plan file is changed after the plan was written: damaged, or a line more or less in the table.
fn change(random: &mut Random, table: &mut Vec<u8>, plan: &mut Vec<u8>) {
    match random.below(4) {
        0 => damage(random, table),
        1 => table.extend(format!("{},{}\n", NAMES[random.index(8)], NAMES[random.index(8)]).bytes()),
        2 => {
            let mut lines: Vec<&[u8]> = table.split_inclusive(|&byte| byte == b'\n').collect();
            if !lines.is_empty() {
                lines.remove(random.index(lines.len()));
            }
            *table = lines.concat();
        }
        _ if random.below(20) == 0 => *plan = noise(random),
        _ => damage(random, plan),
    }
}

#[test]
fn plan_file_is_taken_for_another_plan() {
    let (folder, mut random) = (Folder::new("fuzz-plans"), Random::new(4202));
    let mut counts = [0; 3];
    for _ in 0..PLANS {
        let mut text = table(&mut random);
        let (path, plan) = (folder.file("t.csv", &text), folder.gone("p"));
        if run(&["plan", &path, "--out", &plan]).status != 0 {
            continue;
        }
        let mut filed = folder.read("p").into_bytes();
        change(&mut random, &mut text, &mut filed);
        folder.file("t.csv", &text);
        folder.file("p", &filed);
        let ran = run(&["check", &path, "--plan", &plan]);
        hold_said(&ran);
        counts[ran.status as usize] += 1;
        let started = run(&["plan", &path, "--start", &plan]);
        hold_said(&started);
        assert_eq!(ran.status == 2, started.status == 2, "{ran:?} {started:?}");
        hold_said(&run(&["explain", &path, "--plan", &plan]));
        if ran.status < 2 {
            let plain = Plain::new(std::str::from_utf8(&text).expect("a table that is read is UTF-8"));
            hold_file(&plain, &filed);
            hold(&plain, &started.out);
        }
    }
    println!(
        "changed since the plan was written: {} accepted, {} not shown, {} refused",
        counts[0], counts[1], counts[2]
    );
    assert!(counts.iter().all(|&count| count > 20), "{counts:?}");
}

/// Holds a plan file that is taken to the table, by a plain reading of its lines.
fn hold_file(table: &Plain, bytes: &[u8]) {
    let text = std::str::from_utf8(bytes).expect("a plan file that is taken is UTF-8");
    let mut due = table.names.clone();
    for line in text.lines() {
        let names: Vec<String> = line.split(',').map(str::to_string).collect();
        if let [_, one, other] = &names[..] {
            assert!(line.starts_with('#') || table.pairs.contains(&(one.clone(), other.clone())), "{text}");
        }
        if names[0] == "pair" || names[0] == "single" {
            assert!(names[1..].iter().all(|name| due.remove(name)), "{text}");
        }
    }
    assert!(due.is_empty(), "{due:?}: {text}");
}

#[test]
fn damaged_sheet_is_planned_wrongly() {
    let (folder, mut random) = (Folder::new("fuzz-sheets"), Random::new(77));
    let mut counts = [0; 3];
    for _ in 0..SHEETS {
        let mut rows = random.rows();
        if random.below(3) == 0 {
            random.damage_rows(&mut rows);
        }
        let mut bytes = sheets::write(&rows);
        if random.below(3) == 0 {
            random.damage_bytes(&mut bytes);
        }
        let path = folder.file("t", &bytes);
        let ran = run(&["plan", &path, "--sheet"]);
        hold_said(&ran);
        counts[ran.status as usize] += 1;
        if ran.status == 0 {
            let n = u32::from_le_bytes(bytes[..4].try_into().unwrap());
            let entry = |k: usize| u32::from_le_bytes(bytes[4 * k..4 * k + 4].try_into().unwrap());
            let row = |v: usize| (entry(1 + v)..entry(2 + v)).map(move |e| entry(2 + n as usize + e as usize));
            let pairs = (0..n as usize).flat_map(|v| row(v).map(move |w| (format!("route {v}"), format!("route {w}"))));
            hold(&Plain { names: (0..n).map(|v| format!("route {v}")).collect(), pairs: pairs.collect() }, &ran.out);
        }
    }
    println!("{SHEETS} sheets: {} planned, {} refused", counts[0], counts[2]);
    assert!(counts[0] > SHEETS / 10 && counts[1] == 0 && counts[2] > SHEETS / 10, "{counts:?}");
}

#[test]
fn program_itself_panics() {
    let (folder, mut random) = (Folder::new("fuzz-processes"), Random::new(31));
    let mut counts = [0; 3];
    for round in 0..PROCESSES {
        let mut bytes = if round % 4 == 0 { noise(&mut random) } else { table(&mut random) };
        damage(&mut random, &mut bytes);
        let path = folder.file("t.csv", &bytes);
        let arguments = match random.below(3) {
            0 => vec!["plan", &path],
            1 => vec!["plan", &path, "--sheet"],
            _ => vec!["explain", &path],
        };
        let output = Command::new(env!("CARGO_BIN_EXE_wisharek")).args(&arguments).output().unwrap();
        let text = |bytes: Vec<u8>| String::from_utf8(bytes).unwrap();
        let status = output.status.code().and_then(|code| u8::try_from(code).ok()).expect("an exit code");
        let ran = Ran { status, out: text(output.stdout), err: text(output.stderr) };
        hold_said(&ran);
        assert_eq!(ran, run(&arguments));
        counts[status as usize] += 1;
    }
    assert!(counts[0] > 0 && counts[2] > 0, "{counts:?}");
}
