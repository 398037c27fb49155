//! Plan files: written and read again by name, for the same table and for a table that was edited in between. What is
//! read is never taken for something else.
mod support;
use support::{hold, run, Folder, Plain, Ran};

/// Two groups of three, and a pair.
const TABLE: &str = "A1,A2\nA2,A3\nA3,A1\nB1,B2\nB2,B3\nB3,B1\nC1,C2\n";

/// A plan file for the table, from the program.
fn made(folder: &Folder, table: &str) -> String {
    let (table, plan) = (folder.file("made.csv", table), folder.path("made.plan"));
    assert_eq!(run(&["plan", &table, "--out", &plan]).status, 0);
    folder.read("made.plan")
}

/// The plan checked with the table.
fn checked(folder: &Folder, table: &str, plan: &str) -> Ran {
    run(&["check", &folder.file("t.csv", table), "--plan", &folder.file("p.plan", plan)])
}

/// The plan is refused with this number, in these words; by check, by explain, and as a start.
fn refused(folder: &Folder, table: &str, plan: &str, number: u32, words: &str) {
    let begins = format!("wisharek: refused, number {number}: {}", folder.path("p.plan"));
    let first = checked(folder, table, plan);
    let (table, file) = (folder.path("t.csv"), folder.path("p.plan"));
    for ran in [first, run(&["explain", &table, "--plan", &file]), run(&["plan", &table, "--start", &file])] {
        assert_eq!((ran.status, ran.out.as_str()), (2, ""), "{ran:?}");
        assert!(ran.err.starts_with(&begins) && ran.err.contains(words), "{ran:?}");
    }
}

#[test]
fn own_plan_is_not_accepted() {
    let folder = Folder::new("own-plan");
    let plan = made(&folder, TABLE);
    let ran = checked(&folder, TABLE, &plan);
    assert_eq!((ran.status, ran.err.as_str()), (0, ""), "{ran:?}");
    assert!(
        ran.out.starts_with("accepted: p.plan is a plan for t.csv with 5 sessions, and no plan has fewer."),
        "{ran:?}"
    );
    assert!(!ran.out.contains("Note: "), "{ran:?}");
}

#[test]
fn edited_table_is_not_noticed() {
    let folder = Folder::new("edited");
    let plan = made(&folder, TABLE);
    // a route more, a route less, a route renamed, a name's case changed, a pair of the plan taken out
    refused(&folder, &format!("{TABLE}D1\n"), &plan, 113, "it does not name the route \"D1\" of ");
    refused(&folder, &TABLE.replace("C1,C2\n", ""), &plan, 111, "does not have the route \"C1\"");
    refused(&folder, &TABLE.replace("C2", "C3"), &plan, 111, "line 5: ");
    refused(&folder, &TABLE.replace("C2", "c2"), &plan, 111, "does not have the route \"C2\"; it has \"c2\"");
    let parted = TABLE.replace("C1,C2\n", "C1,A1\nC2,A2\n");
    refused(&folder, &parted, &plan, 10, "does not have \"C1\" and \"C2\" as a pair");
}

#[test]
fn edited_table_is_read_by_numbers() {
    let folder = Folder::new("renumbered");
    let plan = made(&folder, TABLE);
    // the same table in another order, where every route has another number
    let turned: String = TABLE.lines().rev().map(|line| format!("{line}\n")).collect();
    let ran = checked(&folder, &turned, &plan);
    assert_eq!(ran.status, 0, "{ran:?}");
    assert!(!ran.out.contains("Note: "), "{ran:?}");
    // a pair more, with which the plan is still a shortest one: said, and judged by the table as it is
    let ran = checked(&folder, &TABLE.replace("C1,C2\n", "C1,C2\nC1,A1\n"), &plan);
    assert_eq!(ran.status, 0, "{ran:?}");
    assert!(ran.out.contains("Note: the table has changed since the plan file was written."), "{ran:?}");
    // a pair more between the groups: one pair more is possible, and the plan is not shown any longer
    let ran = checked(&folder, &format!("{TABLE}A1,B1\n"), &plan);
    assert_eq!(ran.status, 1, "{ran:?}");
    assert!(ran.out.starts_with("not shown, number 12: "), "{ran:?}");
    assert!(ran.out.contains("leaves 2 routes") && ran.out.contains("Note: the table has changed"), "{ran:?}");
}

#[test]
fn damaged_plan_file_is_read() {
    let folder = Folder::new("damaged");
    let plan = made(&folder, TABLE);
    let edits = [
        ("single,A3\n", "single,A3\nsingle,A3\n", 112, "\"A3\" has a session in line 6 already"),
        ("single,A3\n", "single,A1\n", 112, "\"A1\" has a session in line 3 already"),
        ("single,A3\n", "", 113, "it does not name the route \"A3\""),
        ("pair,A1,A2\n", "pair,A1,A1\n", 112, "\"A1\" has a session in line 3 already"),
        ("pair,A1,A2\n", "pair,A1,B2\n", 10, "does not have \"A1\" and \"B2\" as a pair"),
        ("pair,A1,A2\n", "pair,A1\n", 110, "is expected, and here stands \"pair,A1\""),
        ("pair,A1,A2\n", "pair,A1, A2\n", 106, "a space before or after the name \"A2\""),
        ("pair,A1,A2\n", "A1,A2\n", 110, "is expected, and here stands \"A1,A2\""),
        ("wisharek plan 1\n", "", 110, "a plan file begins with \"wisharek plan 1\""),
        ("wisharek plan 1\n", "wisharek plan 2\n", 110, "a plan file begins with \"wisharek plan 1\""),
        ("witness\n", "witness\nover,Z\n", 111, "does not have the route \"Z\""),
        ("witness\n", "witness\nover,A1\nover,A1\n", 112, "\"A1\" stands over the rest in line 9 already"),
        ("witness\n", "witness\nA1\n", 110, "\"over\" or \"end\" is expected"),
        ("witness\n", "no witness\nover,A1\n", 110, "\"end\" stands behind \"no witness\""),
        ("end\n", "", 110, "the plan file is cut short"),
        ("end\n", "end\nsingle,A3\n", 110, "something stands behind \"end\""),
        ("table ", "table 0", 110, "with 16 digits is expected"),
        ("table ", "sheet ", 114, "it was not made from "),
    ];
    for (was, now, number, words) in edits {
        assert!(plan.contains(was), "{was:?} in {plan}");
        refused(&folder, TABLE, &plan.replacen(was, now, 1), number, words);
    }
    refused(&folder, TABLE, TABLE, 110, "a plan file begins with");
    refused(&folder, TABLE, "", 110, "the plan file is cut short");
}

#[test]
fn false_witness_is_accepted() {
    let folder = Folder::new("false-witness");
    let plan = made(&folder, TABLE);
    let ran = checked(&folder, TABLE, &plan.replace("witness\n", "witness\nover,A1\n"));
    assert_eq!(ran.status, 1, "{ran:?}");
    assert!(ran.out.starts_with("not shown, number 12: p.plan is a plan for "), "{ran:?}");
    let ran = checked(&folder, TABLE, &plan.replace("witness\n", "no witness\n"));
    assert_eq!(ran.status, 1, "{ran:?}");
    assert!(ran.out.starts_with("not shown: ") && ran.out.contains("it holds no witness"), "{ran:?}");
    // a plan by hand that tests two routes apart which it could pair
    let loose = plan.replace("pair,C1,C2\n", "single,C1\nsingle,C2\n");
    for command in ["check", "explain"] {
        let ran = run(&[command, &folder.file("t.csv", TABLE), "--plan", &folder.file("p.plan", &loose)]);
        assert_eq!(ran.status, 1, "{ran:?}");
        let said = ran.out.replace('\n', " ");
        assert!(said.contains("leaves 4 routes") && said.contains("every plan leaves 2 or more"), "{said}");
    }
}

#[test]
fn plan_made_by_hand_is_not_accepted() {
    let folder = Folder::new("by-hand");
    let sessions = "pair,A3,A2\nsingle,A1\npair,B1,B3\nsingle,B2\npair,C2,C1\n";
    let plan = format!("# by hand\nwisharek plan 1\nno mark\n\n{sessions}witness\nend\n");
    let ran = checked(&folder, TABLE, &plan);
    assert_eq!(ran.status, 0, "{ran:?}");
    assert!(!ran.out.contains("Note: "), "{ran:?}");
}

#[test]
fn budget_is_not_kept() {
    let (folder, plain) = (Folder::new("budget"), Plain::new(TABLE));
    let table = folder.file("t.csv", TABLE);
    let (one, two) = (folder.path("one"), folder.path("two"));
    let ran = run(&["plan", &table, "--budget", "0"]);
    assert_eq!((ran.status, hold(&plain, &ran.out)), (1, 8), "{ran:?}");
    let ran = run(&["plan", &table, "--budget", "1", "--out", &one]);
    assert_eq!((ran.status, hold(&plain, &ran.out)), (1, 7), "{ran:?}");
    assert!(ran.out.contains("Not shown to be a shortest plan: the budget ended after 1 pair"), "{ran:?}");
    assert!(folder.read("one").contains("\nno witness\n"));
    let ran = run(&["plan", &table, "--start", &one, "--budget", "2", "--out", &two]);
    assert_eq!((ran.status, hold(&plain, &ran.out)), (0, 5), "{ran:?}");
    let whole = run(&["plan", &table, "--out", &one]);
    assert_eq!((whole.status, &whole.out), (0, &ran.out));
    assert_eq!(folder.read("one"), folder.read("two"));
    assert_eq!(run(&["plan", &table, "--start", &two, "--budget", "0"]).status, 0);
}

#[test]
fn start_is_thrown_away() {
    let folder = Folder::new("start");
    let table = folder.file("t.csv", "A,B\nB,C\nC,D\n");
    let start = "wisharek plan 1\nno mark\npair,C,B\nsingle,A\nsingle,D\nno witness\nend\n";
    let start = folder.file("start", start);
    let kept = run(&["plan", &table, "--start", &start, "--budget", "0"]);
    assert_eq!(kept.status, 1, "{kept:?}");
    assert!(kept.out.contains("\n   1  B, C\n   2  A\n   3  D\n"), "{kept:?}");
    let ran = run(&["plan", &table, "--start", &start]);
    assert_eq!(ran.status, 0, "{ran:?}");
    assert!(ran.out.contains("\n   1  A, B\n   2  C, D\n"), "{ran:?}");
}

#[test]
fn sheet_is_read_by_other_numbers() {
    let folder = Folder::new("sheets");
    let claw = folder.file("claw", sheets::write(&sheets::layouts::claw()));
    let plan = folder.path("claw.plan");
    let ran = run(&["plan", &claw, "--sheet", "--out", &plan]);
    assert_eq!((ran.status, ran.err.as_str()), (0, ""), "{ran:?}");
    assert!(ran.out.contains("\n   1  route 0, route 1\n   2  route 2\n   3  route 3\n"), "{ran:?}");
    assert_eq!(run(&["check", &claw, "--sheet", "--plan", &plan]).status, 0);
    assert!(run(&["explain", &claw, "--sheet", "--plan", &plan]).out.contains("\nB. The set: 1 route\n   route 0\n"));
    // the same claw with other numbers: the pairs would fit, and the routes are others
    let other = folder.file("other", sheets::write(&sheets::layouts::joined(4, &[(1, 0), (1, 2), (1, 3)])));
    let table = folder.file("t.csv", "route 0,route 1\nroute 0,route 2\nroute 0,route 3\n");
    let by_hand = folder.file("hand", folder.read("claw.plan").replace("sheet ", "no mark\n# "));
    for arguments in [
        vec!["check", &other, "--sheet", "--plan", &plan],
        vec!["check", &table, "--plan", &plan],
        vec!["check", &claw, "--sheet", "--plan", &by_hand],
        vec!["plan", &other, "--sheet", "--start", &plan],
    ] {
        let ran = run(&arguments);
        assert_eq!(ran.status, 2, "{arguments:?}: {ran:?}");
        assert!(ran.err.contains("refused, number 114: ") && ran.err.contains("it was not made from "), "{ran:?}");
    }
}
