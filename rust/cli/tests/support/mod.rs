//! What the tests share: the program run in this process, files to run it on, and a plain reading of tables that has
//! nothing in common with the program's own.
#![allow(dead_code)]
use std::collections::{BTreeMap, BTreeSet};
use std::ffi::OsString;
use std::fs;
use std::path::{Path, PathBuf};
use std::sync::atomic::{AtomicU32, Ordering};

/// The layouts under examples/.
pub const EXAMPLES: [&str; 3] = ["junction", "yard", "throat"];

/// What a run of the program has said.
#[derive(Debug, PartialEq, Eq)]
pub struct Ran {
    pub status: u8,
    pub out: String,
    pub err: String,
}

/// Runs the program in this process.
pub fn run<S: AsRef<std::ffi::OsStr>>(arguments: &[S]) -> Ran {
    let arguments: Vec<OsString> = arguments.iter().map(|argument| argument.as_ref().to_os_string()).collect();
    let (mut out, mut err) = (Vec::new(), Vec::new());
    let status = wisharek_cli::run(&arguments, &mut out, &mut err);
    let text = |bytes: Vec<u8>| String::from_utf8(bytes).expect("the program prints UTF-8");
    Ran { status, out: text(out), err: text(err) }
}

/// The top of the repository.
pub fn top() -> PathBuf {
    Path::new(env!("CARGO_MANIFEST_DIR")).join("../..")
}

/// A file under examples/.
pub fn example(file: &str) -> String {
    top().join("examples").join(file).display().to_string()
}

/// An empty folder, which is gone when its test has passed.
pub struct Folder(PathBuf);

/// How many folders this process has made.
static FOLDERS: AtomicU32 = AtomicU32::new(0);

impl Folder {
    pub fn new(test: &str) -> Folder {
        let (process, before) = (std::process::id(), FOLDERS.fetch_add(1, Ordering::Relaxed));
        let folder = Path::new(env!("CARGO_TARGET_TMPDIR")).join(format!("{test}-{process}-{before}"));
        let _ = fs::remove_dir_all(&folder);
        fs::create_dir_all(&folder).unwrap();
        Folder(folder)
    }

    pub fn path(&self, file: &str) -> String {
        self.0.join(file).display().to_string()
    }

    /// Writes a file and answers its path.
    pub fn file(&self, file: &str, bytes: impl AsRef<[u8]>) -> String {
        let path = self.gone(file);
        fs::write(&path, bytes).unwrap();
        path
    }

    /// The path of a file that is not there any longer. A file that is written over waits for the disk, a new one does
    /// not.
    pub fn gone(&self, file: &str) -> String {
        let path = self.path(file);
        let _ = fs::remove_file(&path);
        path
    }

    pub fn read(&self, file: &str) -> String {
        fs::read_to_string(self.path(file)).unwrap()
    }
}

impl Drop for Folder {
    fn drop(&mut self) {
        if !std::thread::panicking() {
            let _ = fs::remove_dir_all(&self.0);
        }
    }
}

/// A table, read plainly.
pub struct Plain {
    pub names: BTreeSet<String>,
    /// Both ways round.
    pub pairs: BTreeSet<(String, String)>,
}

impl Plain {
    pub fn new(text: &str) -> Plain {
        let (mut names, mut pairs) = (BTreeSet::new(), BTreeSet::new());
        for line in text.trim_start_matches('\u{feff}').lines().filter(|line| !line.starts_with('#')) {
            let line: Vec<String> = line.split(',').map(str::to_string).collect();
            if let [one, other] = &line[..] {
                pairs.insert((one.clone(), other.clone()));
                pairs.insert((other.clone(), one.clone()));
            }
            names.extend(line.into_iter().filter(|name| !name.trim().is_empty()));
        }
        Plain { names, pairs }
    }

    pub fn of_example(example_name: &str) -> Plain {
        Plain::new(&fs::read_to_string(example(&format!("{example_name}.csv"))).unwrap())
    }

    /// The fewest sessions, by trying: the first route that is left is tested alone, or with each partner that is left.
    pub fn fewest(&self) -> usize {
        let names: Vec<&String> = self.names.iter().collect();
        let joined = |v: usize, w: usize| self.pairs.contains(&(names[v].clone(), names[w].clone()));
        let rows: Vec<Vec<usize>> =
            (0..names.len()).map(|v| (v + 1..names.len()).filter(|&w| joined(v, w)).collect()).collect();
        fewest_of((1 << names.len()) - 1, &rows, &mut BTreeMap::new())
    }
}

fn fewest_of(left: u32, rows: &[Vec<usize>], known: &mut BTreeMap<u32, usize>) -> usize {
    if left == 0 {
        return 0;
    }
    if let Some(&fewest) = known.get(&left) {
        return fewest;
    }
    let first = left.trailing_zeros() as usize;
    let rest = left & !(1 << first);
    let with = rows[first].iter().filter(|&&w| rest >> w & 1 == 1).map(|&w| rest & !(1 << w));
    let fewest = with.chain([rest]).map(|rest| 1 + fewest_of(rest, rows, known)).min().unwrap();
    known.insert(left, fewest);
    fewest
}

/// The sessions of a printed plan: the names of each line that begins with four places for its number.
pub fn sessions(printed: &str) -> Vec<Vec<String>> {
    let mut found: Vec<Vec<String>> = Vec::new();
    for line in printed.lines() {
        let number = (found.len() + 1).to_string();
        if let Some(names) = line.strip_prefix(&format!("{number:>4}  ")) {
            let names = names.strip_suffix("   <- left over").unwrap_or(names);
            found.push(names.split(", ").map(str::to_string).collect());
        }
    }
    found
}

/// Holds printed sessions to a table: pairs first, each of them in the table, and each route once. Answers how many
/// sessions there are.
pub fn hold(table: &Plain, printed: &str) -> usize {
    let sessions = sessions(printed);
    let mut due = table.names.clone();
    let mut singles = false;
    for session in &sessions {
        match &session[..] {
            [name] => {
                singles = true;
                assert!(due.remove(name), "{name} has a second session, or is no route:\n{printed}");
            }
            [one, other] => {
                assert!(!singles, "a pair behind a single route:\n{printed}");
                assert!(table.pairs.contains(&(one.clone(), other.clone())), "{one}, {other} is no pair:\n{printed}");
                assert!(due.remove(one) && due.remove(other), "{one} or {other} has a second session:\n{printed}");
            }
            more => panic!("a session of {}:\n{printed}", more.len()),
        }
    }
    assert!(due.is_empty(), "no session for {due:?}:\n{printed}");
    sessions.len()
}
