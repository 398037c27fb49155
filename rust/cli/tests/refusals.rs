//! Everything that is refused: the exit code, the number, the file, the line and the name. Nothing is printed then, and
//! nothing is written.
mod support;
use std::path::Path;
use support::{run, Folder, Ran};

/// The table is refused with this number at this line, in these words.
fn refused(table: impl AsRef<[u8]>, number: u32, line: usize, words: &str) {
    let folder = Folder::new(&format!("refused-{number}-{line}-{}", words.len()));
    let path = folder.file("t.csv", &table);
    let out = folder.path("out");
    let ran = run(&["plan", &path, "--out", &out]);
    let begins = format!("wisharek: refused, number {number}: {path}, line {line}");
    let shown = String::from_utf8_lossy(table.as_ref()).into_owned();
    assert_eq!((ran.status, ran.out.as_str()), (2, ""), "{shown}");
    assert!(ran.err.starts_with(&begins), "{shown}: {}", ran.err);
    assert!(ran.err.contains(words), "{shown}: {}", ran.err);
    assert!(!Path::new(&out).exists(), "{shown}");
}

#[test]
fn repeated_pair_is_merged() {
    refused("A,B\nB,C\nA,B\n", 5, 3, "the pair of \"A\" and \"B\" stands in line 1 already");
    refused("A,B\n\n# again\nB,A\n", 5, 4, "the pair of \"B\" and \"A\" stands in line 1 already");
}

#[test]
fn route_is_its_own_partner() {
    refused("A,B\nC,C\n", 7, 2, "\"C\" is paired with itself");
}

#[test]
fn names_that_look_alike_are_merged() {
    refused("N 1,B\nN1,C\n", 108, 2, "\"N1\" equals \"N 1\" of line 1 but for spaces or case");
    refused("Nord,B\nC,NORD\n", 108, 2, "\"NORD\" equals \"Nord\" of line 1 but for spaces or case");
    refused("Gleis ä,B\nGLEIS Ä\n", 108, 2, "\"GLEIS Ä\" equals \"Gleis ä\" of line 1");
    refused("Straße,B\nSTRASSE,C\n", 108, 2, "\"STRASSE\" equals \"Straße\" of line 1");
    refused("a,A\n", 108, 1, "\"A\" equals \"a\" of line 1");
    // the sign for kelvin, whose small form is the letter k
    refused("K1,B\nC,\u{212a}1\n", 108, 2, "\" equals \"K1\" of line 1");
}

#[test]
fn route_alone_has_a_partner() {
    refused("A\nA,B\n", 109, 2, "\"A\" has a partner here, and line 1 names it alone");
    refused("A,B\nB\n", 109, 2, "\"B\" is named alone here, and stands in line 1 already");
    refused("A\nA\n", 109, 2, "\"A\" is named alone here, and stands in line 1 already");
}

#[test]
fn line_has_an_empty_name_or_too_many() {
    refused("A,B\nC,\n", 105, 2, "a name is empty");
    refused(",C\n", 105, 1, "a name is empty");
    refused(",\n", 105, 1, "a name is empty");
    refused("A,B,\n", 105, 1, "a name is empty");
    refused("A,B,C\n", 105, 1, "3 names");
}

#[test]
fn spaces_around_a_name_are_dropped() {
    refused("A, B\n", 106, 1, "a space before or after the name \"B\"");
    refused("A,B \n", 106, 1, "a space before or after the name \"B\"");
    refused("A, \n", 106, 1, "a space before or after the name \"\"");
    refused(" # no comment\n", 106, 1, "a space before or after the name \"# no comment\"");
}

#[test]
fn other_separators_make_one_long_name() {
    refused("A;B\n", 104, 1, "the name \"A;B\" holds a semicolon; two names stand apart by a comma");
    refused("A\tB\n", 104, 1, "holds a tab; two names stand apart by a comma");
    refused("\"A\",\"B\"\n", 104, 1, "holds a quote; names stand without quotes");
    refused("A,B # why\n", 104, 1, "holds a #; a comment has a line of its own");
}

#[test]
fn characters_that_are_not_seen_make_two_names() {
    for unseen in ["\u{200b}", "\u{ad}", "\u{a0}", "\u{3000}", "e\u{301}", "\u{202e}", "\u{fffd}", "\u{feff}"] {
        refused(format!("A,B\nA{unseen}x,C\n"), 104, 2, "which is not seen or looks like another");
    }
}

#[test]
fn line_ends_of_another_kind_hide_lines() {
    refused("# table\rA,B\rC,D\r", 104, 1, "the control character U+000D");
    refused("# table\u{2028}A,B\n", 104, 1, "the control character U+2028");
    refused("A,B\n# table\u{b}C,D\n", 104, 2, "the control character U+000B");
    refused("A,B\r", 104, 1, "the control character U+000D");
}

#[test]
fn binary_sheet_is_taken_for_a_table() {
    let sheet = sheets::write(&sheets::layouts::claw());
    refused(&sheet, 104, 1, "the control character U+0004; a binary sheet is read with --sheet");
    refused(sheets::write(&sheets::all_joined(150)), 103, 1, "not UTF-8 text (a binary sheet is read with --sheet)");
    refused(b"A,B\nC,\xff\n", 103, 2, "not UTF-8 text");
}

#[test]
fn name_is_too_long() {
    let (fits, long) = ("x".repeat(64), "x".repeat(65));
    assert_eq!(run_on("long-name", &fits).status, 0);
    refused(format!("A,{long}\n"), 107, 1, "has more than 64 characters");
}

fn run_on(test: &str, table: impl AsRef<[u8]>) -> Ran {
    let folder = Folder::new(test);
    run(&["plan", &folder.file("t.csv", table)])
}

#[test]
fn more_than_512_routes_are_planned() {
    let routes = |n: usize| (1..=n).map(|route| format!("R{route}\n")).collect::<String>();
    let most = run_on("most", routes(512));
    assert_eq!(most.status, 0, "{most:?}");
    assert!(most
        .out
        .starts_with("t.csv: 512 routes, 0 compatible pairs\n512 sessions: 0 with two routes, 512 with one\n"));
    let words = "\"R513\" is route number 513, and no more than 512 are taken";
    refused(format!("# head\n{}", routes(513)), 2, 514, words);
    refused(routes(600), 2, 513, words);
    refused(routes(100_000), 2, 513, words);
}

#[test]
fn plain_forms_of_a_table_are_refused() {
    let plain = run_on("plain-forms", "A,B\nC\n");
    assert_eq!(plain.status, 0, "{plain:?}");
    for same in ["\u{feff}A,B\nC\n", "A,B\r\nC\r\n", "\n# c, \"d\"; e\n   \nA,B\n\n\nC", "#\nA,B\nC\n#"] {
        assert_eq!(run_on("plain-forms", same), plain, "{same:?}");
    }
    let spaced = run_on("plain-forms", "Up Main  4/b,Süd-Gleis 12 (alt) & 'x' + y\n");
    assert_eq!(spaced.status, 0, "{spaced:?}");
    assert!(spaced.out.contains("   1  Up Main  4/b, Süd-Gleis 12 (alt) & 'x' + y\n"), "{spaced:?}");
}

#[test]
fn empty_table_has_sessions() {
    for empty in ["", "\n\n", "# nothing\n", "\u{feff}"] {
        let ran = run_on("empty-table", empty);
        assert_eq!(ran.status, 0, "{ran:?}");
        assert!(ran
            .out
            .starts_with("t.csv: 0 routes, 0 compatible pairs\n0 sessions: 0 with two routes, 0 with one\n"));
    }
}

/// The sheet is refused with this number, in these words.
fn sheet_refused(sheet: Vec<u8>, number: u32, words: &str) {
    let folder = Folder::new(&format!("sheet-refused-{number}-{}", words.len()));
    let path = folder.file("t", sheet);
    let ran = run(&["explain", &path, "--sheet"]);
    let expected = format!("wisharek: refused, number {number}: {path}: {words}\n");
    assert_eq!((ran.status, ran.out.as_str(), ran.err.as_str()), (2, "", expected.as_str()));
}

#[test]
fn damaged_sheet_is_planned() {
    sheet_refused(vec![0; 7], 1, "the sheet has fewer than 8 bytes");
    sheet_refused(b"A,B\n".to_vec(), 1, "the sheet has fewer than 8 bytes");
    sheet_refused(b"A,B\nC,D\n".to_vec(), 2, "the sheet has 172108865 routes, and no more than 512 are taken");
    let contents =
        "the contents of the sheet are cut short, do not begin with 0 or fall, or its length is not the one \
                    that they give";
    sheet_refused(sheets::bytes(&[1, 0, 0, 9]), 3, contents);
    sheet_refused(sheets::write(&[vec![4]]), 4, "the sheet names 4 as a neighbour, and there is no such route");
    sheet_refused(sheets::write(&[vec![1, 1], vec![0]]), 5, "route 0 names its neighbour 1 more than once");
    sheet_refused(sheets::write(&[vec![1], vec![]]), 6, "route 0 names 1 as its neighbour, and the row of 1 lacks 0");
    sheet_refused(sheets::write(&[vec![0]]), 7, "route 0 is its own neighbour");
}

#[test]
fn command_line_is_guessed() {
    let cases: [(&[&str], &str); 12] = [
        (&[], "a command is missing: plan, check or explain"),
        (&["draw", "t"], "there is no command \"draw\""),
        (&["plan"], "the table is missing"),
        (&["plan", "a", "b"], "one table is read, and \"b\" is more"),
        (&["plan", "t", "--svg", "x"], "there is no option \"--svg\" here"),
        (&["check", "t"], "check needs --plan FILE"),
        (&["check", "t", "--plan"], "--plan needs something behind it"),
        (&["plan", "t", "--budget", "-1"], "--budget \"-1\" is not a number from 0 to 4294967295"),
        (&["plan", "t", "--budget", "4294967296"], "is not a number from 0 to 4294967295"),
        (&["plan", "t", "--budget", ""], "--budget \"\" is not a number"),
        (&["plan", "t", "--budget", "+1"], "--budget \"+1\" is not a number"),
        (&["plan", "t", "--sheet", "--sheet"], "--sheet is given twice"),
    ];
    for (arguments, words) in cases {
        let ran = run(arguments);
        assert_eq!((ran.status, ran.out.as_str()), (2, ""), "{arguments:?}");
        let begins = "wisharek: refused, number 101: the command line: ";
        assert!(ran.err.starts_with(begins) && ran.err.contains(words), "{arguments:?}: {}", ran.err);
    }
}

#[test]
fn help_is_missing() {
    let texts: Vec<String> = [&["--help"][..], &["plan", "--help"], &["check", "x", "--help"], &["explain", "-h"]]
        .into_iter()
        .map(|arguments| {
            let ran = run(arguments);
            assert_eq!((ran.status, ran.err.as_str()), (0, ""), "{arguments:?}");
            ran.out
        })
        .collect();
    for (text, holds) in texts.iter().zip(["wisharek COMMAND --help", "--budget N", "--plan FILE", "--svg FILE"]) {
        assert!(text.contains(holds) && text.contains("Exit codes: 0 "), "{text}");
    }
}

#[test]
fn files_that_are_not_there_are_a_panic() {
    let folder = Folder::new("no-file");
    let (missing, table) = (folder.path("missing"), folder.file("t.csv", "A,B\n"));
    let lost = folder.path("no/such/folder");
    for arguments in [
        vec!["plan", &missing],
        vec!["plan", &folder.path("")],
        vec!["plan", &table, "--start", &missing],
        vec!["check", &table, "--plan", &missing],
        vec!["plan", &table, "--out", &lost],
        vec!["explain", &table, "--svg", &lost],
    ] {
        let ran = run(&arguments);
        assert_eq!((ran.status, ran.out.as_str()), (2, ""), "{arguments:?}");
        assert!(ran.err.starts_with("wisharek: refused, number 102: "), "{arguments:?}: {}", ran.err);
    }
}

#[test]
fn input_is_written_over() {
    let folder = Folder::new("written-over");
    let (table, plan) = (folder.file("t.csv", "A,B\n"), folder.path("p"));
    assert_eq!(run(&["plan", &table, "--out", &plan]).status, 0);
    let before = folder.read("p");
    let roundabout =
        format!("{}/../{}/t.csv", folder.path(""), Path::new(&folder.path("")).file_name().unwrap().to_str().unwrap());
    for arguments in [
        vec!["plan", &table, "--out", &table],
        vec!["plan", &table, "--out", &roundabout],
        vec!["plan", &table, "--start", &plan, "--out", &plan],
        vec!["explain", &table, "--svg", &table],
        vec!["explain", &table, "--plan", &plan, "--svg", &plan],
    ] {
        let ran = run(&arguments);
        assert_eq!((ran.status, ran.out.as_str()), (2, ""), "{arguments:?}");
        assert!(ran.err.contains("it is one of the files that were read"), "{arguments:?}: {}", ran.err);
        assert_eq!((folder.read("t.csv").as_str(), &folder.read("p")), ("A,B\n", &before), "{arguments:?}");
    }
}

/// An output that takes nothing.
struct Closed;

impl std::io::Write for Closed {
    fn write(&mut self, _: &[u8]) -> std::io::Result<usize> {
        Err(std::io::ErrorKind::BrokenPipe.into())
    }

    fn flush(&mut self) -> std::io::Result<()> {
        Ok(())
    }
}

#[test]
fn closed_output_is_a_panic() {
    let mut err = Vec::new();
    assert_eq!(wisharek_cli::run(&["--help".into()], &mut Closed, &mut err), 2);
    assert!(String::from_utf8(err).unwrap().starts_with("wisharek: refused, number 102: standard output: "));
    assert_eq!(wisharek_cli::run(&["--help".into()], &mut Closed, &mut Closed), 2);
}
