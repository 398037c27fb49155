//! gamma on a sheet, in a process of its own, which is ended when it is past the limit: a run that never ends cannot be
//! ended in a thread, and one that goes too deep takes the process with it.
use sheets::yards::Yard;
use std::env;
use std::process::{Command, Stdio};
use std::thread::sleep;
use std::time::{Duration, Instant};

const LIMIT: Duration = Duration::from_secs(60);

/// The status of the process, where gamma panicked.
const PANICKED: i32 = 3;

/// What is said of gamma's run: its time, or why there is none. Where it ends, it must have so many pairs.
pub fn timed(yard: &Yard, pairs: usize) -> String {
    if cfg!(not(gamma)) {
        return "left out".to_string();
    }
    let program = env::current_exe().expect("this program");
    let mut process = Command::new(program)
        .args(["gamma", yard.name])
        .stdout(Stdio::piped())
        .stderr(Stdio::null())
        .spawn()
        .expect("a process for gamma");
    let begun = Instant::now();
    while begun.elapsed() < LIMIT {
        if process.try_wait().expect("the process of gamma").is_some() {
            let output = process.wait_with_output().expect("what gamma said");
            let said = String::from_utf8_lossy(&output.stdout).into_owned();
            let Some((time, size)) = said.trim().split_once(", ") else {
                let words = if output.status.code() == Some(PANICKED) { "panics" } else { "is ended by the system" };
                return words.to_string();
            };
            assert_eq!(size, pairs.to_string(), "{}: the pairs of gamma, and the most", yard.name);
            return time.to_string();
        }
        sleep(Duration::from_millis(10));
    }
    process.kill().expect("an end to gamma");
    process.wait().expect("an end to gamma");
    format!("over {} s", LIMIT.as_secs())
}

/// The run itself, in the process made for it: from nothing to the end on a graph that is read before, on a large stack, as
/// gamma goes one call deeper with each pair.
#[cfg(gamma)]
pub fn run(yard: Yard) {
    use gamma::graph::DefaultGraph;
    use gamma::matching::{maximum_matching, Pairing};
    let work = move || {
        let rows: Vec<Vec<usize>> = yard.rows.iter().map(|row| row.iter().map(|&w| w as usize).collect()).collect();
        let graph = DefaultGraph::try_from(rows).expect("sound rows");
        let begun = Instant::now();
        let mut pairing = Pairing::new();
        maximum_matching(&graph, &mut pairing);
        println!("{}, {}", crate::shown(begun.elapsed()), pairing.order() / 2);
    };
    let thread = std::thread::Builder::new().stack_size(1 << 30).spawn(work).expect("a thread for gamma");
    if thread.join().is_err() {
        std::process::exit(PANICKED);
    }
}

#[cfg(not(gamma))]
pub fn run(_: Yard) {
    println!("{}", gamma::LEFT_OUT);
}
