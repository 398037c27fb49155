//! The planner's program, crates/plan/out/plan at the top of the repository, which `rt ci` leaves and `rt run` in
//! crates/plan makes. Its text is read back: the pairs and the set in it have to pass the plain checker, and the text has
//! to be the one that they give.
use sheets::{calls, layouts, plain, random::Random};
use std::{
    fs,
    io::Write,
    path::{Path, PathBuf},
    process::{Command, Stdio},
};

fn top() -> PathBuf {
    Path::new(env!("CARGO_MANIFEST_DIR")).join("../..")
}

/// The program. `rt` links programs for x86-64 alone.
fn program() -> Command {
    Command::new(top().join("crates/plan/out/plan"))
}

/// What the program writes for an input.
fn plan(input: &[u8]) -> String {
    let mut child = program().stdin(Stdio::piped()).stdout(Stdio::piped()).spawn().expect("rt run in crates/plan");
    child.stdin.take().expect("its input").write_all(input).expect("to be read");
    let output = child.wait_with_output().expect("its output");
    assert!(output.status.success());
    String::from_utf8(output.stdout).expect("text")
}

/// The numbers of a line.
fn numbers(line: &str) -> Vec<u32> {
    line.split(' ').filter_map(|word| word.parse().ok()).collect()
}

/// The text of n routes with these pairs and this set.
fn text(n: usize, pairs: &[Vec<u32>], set: &[u32]) -> String {
    let size = pairs.len();
    let mut text = format!("routes {n} pairs {size} unpaired {} sessions {}\n", n - 2 * size, n - size);
    for pair in pairs {
        text += &format!("{} {}\n", pair[0], pair[1]);
    }
    text += "over";
    for route in set {
        text += &format!(" {route}");
    }
    text + "\n"
}

/// A text has to show a largest pairing of these rows.
fn shows(rows: &[Vec<u32>], said: &str) {
    let lines: Vec<&str> = said.lines().collect();
    let pairs: Vec<Vec<u32>> = lines[1..lines.len() - 1].iter().map(|line| numbers(line)).collect();
    let set = numbers(lines[lines.len() - 1]);
    assert_eq!(said, text(rows.len(), &pairs, &set));
    assert!(pairs.iter().all(|pair| pair[0] < pair[1]), "lower id first: {said}");
    assert!(pairs.windows(2).all(|two| two[0][0] < two[1][0]), "by lower id: {said}");
    assert!(set.windows(2).all(|two| two[0] < two[1]), "the set rises: {said}");

    let mut partners = vec![u32::MAX; rows.len()];
    let mut witness = vec![0; rows.len()];
    for pair in &pairs {
        partners[pair[0] as usize] = pair[1];
        partners[pair[1] as usize] = pair[0];
    }
    for &route in &set {
        witness[route as usize] = 1;
    }
    assert_eq!(calls::check(&sheets::write(rows), &sheets::bytes(&partners), &witness, &mut [0; 24]), 0, "{said}");
}

/// 126 routes that are all joined, 60 pairs, and 266 lone routes: 65,536 bytes.
fn longest() -> Vec<Vec<u32>> {
    let mut edges: Vec<(u32, u32)> = (0..126).flat_map(|v| (v + 1..126).map(move |w| (v, w))).collect();
    edges.extend((0..60).map(|k| (126 + 2 * k, 127 + 2 * k)));
    layouts::joined(512, &edges)
}

#[test]
fn examples_are_not_the_layouts() {
    for (name, rows) in [("claw", layouts::claw()), ("ten", layouts::ten())] {
        let file = top().join("examples").join(name).with_extension("sheet");
        let sheet = fs::read(&file).expect("an example");
        assert_eq!(sheet, sheets::write(&rows), "{name}");
        shows(&rows, &plan(&sheet));
    }
    assert_eq!(plan(&sheets::write(&layouts::claw())), "routes 4 pairs 1 unpaired 2 sessions 3\n0 1\nover 0\n");
}

#[test]
fn pairs_or_set_are_not_shown() {
    let mut random = Random::new(8);
    for _ in 0..500 {
        let rows = random.rows();
        shows(&rows, &plan(&sheets::write(&rows)));
    }
}

#[test]
fn refusals_are_not_the_plain_readings() {
    for sheet in [b"".to_vec(), sheets::bytes(&[513, 0]), sheets::write(&[vec![0]]), sheets::write(&[vec![1], vec![]])]
    {
        let reply = plain::reply(&sheet, 512);
        assert_eq!(plan(&sheet), format!("refused {} {} {}\n", reply.0, reply.1, reply.2));
    }
}

#[test]
fn one_byte_too_many_is_looked_at() {
    let mut sheet = sheets::write(&longest());
    assert_eq!(sheet.len(), 65_536);
    shows(&longest(), &plan(&sheet));
    sheet.push(0);
    assert_eq!(plan(&sheet), "too long\n");
}
