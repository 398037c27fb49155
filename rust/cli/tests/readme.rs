//! README.md and docs/TABLES.md: each command of the program works as printed, each link leads somewhere, the tables of
//! refusals are complete. (The Rust lines of README.md are compiled and run as a test of the library's documentation.)
mod support;
use std::fs;
use std::path::Path;
use std::process::Command;
use support::{example, top, Folder};

fn document(file: &str) -> String {
    fs::read_to_string(top().join(file)).unwrap()
}

/// The blocks of a document that are tagged so.
fn blocks(text: &str, tag: &str) -> Vec<String> {
    let begin = format!("\n```{tag}\n");
    text.split(&begin).skip(1).map(|rest| rest[..rest.find("```").unwrap()].to_string()).collect()
}

/// The commands of a document and what is printed below each.
fn commands(text: &str) -> Vec<(String, String)> {
    let mut found: Vec<(String, String)> = Vec::new();
    for line in blocks(text, "console").iter().flat_map(|block| block.lines()) {
        match line.strip_prefix("$ ") {
            Some(command) => found.push((command.to_string(), String::new())),
            None => found.last_mut().unwrap().1 += &format!("{line}\n"),
        }
    }
    found
}

#[test]
fn command_of_the_readme_prints_something_else() {
    let folder = Folder::new("readme");
    fs::create_dir(folder.path("examples")).unwrap();
    fs::copy(example("yard.csv"), folder.path("examples/yard.csv")).unwrap();
    let mut ran = 0;
    for (command, printed) in commands(&document("README.md")) {
        let words: Vec<&str> = command.split(' ').collect();
        if words[0] != "wisharek" && words[0] != "./wisharek" {
            assert!(top().join(words[0]).is_file() || words[0] == "cargo", "{command}");
            continue;
        }
        let program = env!("CARGO_BIN_EXE_wisharek");
        let output = Command::new(program).args(&words[1..]).current_dir(folder.path("")).output().unwrap();
        assert!(output.status.success(), "{command}: {output:?}");
        let out = String::from_utf8(output.stdout).unwrap();
        assert!(out == printed || printed.is_empty(), "{command} prints\n{out}");
        ran += 1;
    }
    assert_eq!(ran, 4);
    assert_eq!(folder.read("yard.svg"), fs::read_to_string(example("yard.svg")).unwrap());
    assert_eq!(folder.read("yard.plan"), fs::read_to_string(example("yard.plan")).unwrap());
}

#[test]
fn table_of_the_readme_is_another() {
    let table = fs::read_to_string(example("yard.csv")).unwrap();
    assert!(blocks(&document("README.md"), "text").contains(&table));
}

#[test]
fn link_leads_nowhere() {
    for file in ["README.md", "docs/TABLES.md"] {
        let (text, folder) = (document(file), top().join(Path::new(file).parent().unwrap()));
        let links: Vec<&str> = text.split("](").skip(1).map(|rest| &rest[..rest.find(')').unwrap()]).collect();
        assert!(!links.is_empty(), "{file}");
        for link in links {
            assert!(folder.join(link).exists(), "{file}: {link}");
        }
    }
}

/// The numbers that a document's tables give, in a column by themselves or in one with others.
fn numbered(text: &str, number: u32) -> bool {
    let rows = text.lines().filter(|line| line.starts_with('|'));
    rows.flat_map(|row| row.split('|')).any(|cell| cell.trim().split(", ").any(|one| one == number.to_string()))
}

#[test]
fn refusal_is_not_in_the_documents() {
    let source = document("rust/cli/src/trouble.rs");
    let numbers = source.lines().filter_map(|line| line.trim().strip_prefix("pub const "));
    let numbers = numbers.map(|rest| rest[rest.find("= ").unwrap() + 2..].trim_end_matches(';').parse().unwrap());
    let numbers: Vec<u32> = numbers.collect();
    assert_eq!(numbers.len(), 17);
    for number in numbers.iter().copied().chain(1..=16) {
        assert!(numbered(&document("README.md"), number), "{number} is not in README.md");
    }
    let files = numbers.iter().copied().filter(|&number| number != 101 && number != 102);
    for number in files {
        assert!(numbered(&document("docs/TABLES.md"), number), "{number} is not in docs/TABLES.md");
    }
}
