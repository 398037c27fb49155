//! The command line: which command, which files, which options.
use crate::trouble::{number, Refused};
use std::ffi::{OsStr, OsString};

/// What a command is asked.
#[derive(Debug, Default, PartialEq, Eq)]
pub struct Asked {
    pub table: OsString,
    /// Whether the table is a binary sheet.
    pub sheet: bool,
    pub start: Option<OsString>,
    pub budget: Option<u32>,
    pub out: Option<OsString>,
    pub plan: Option<OsString>,
    pub svg: Option<OsString>,
}

/// A command with what it is asked, or the help that was asked for.
#[derive(Debug, PartialEq, Eq)]
pub enum Command {
    Help(&'static str),
    Plan(Asked),
    Check(Asked),
    Explain(Asked),
}

const HELP: &str = "\
wisharek: test sessions for routes that may stand together, and why there cannot be fewer

  wisharek plan TABLE       the test sessions, by route name
  wisharek check TABLE      whether a plan file is a shortest plan for the table
  wisharek explain TABLE    the proof sheet: why no plan has fewer sessions
  wisharek COMMAND --help   more about one of them

TABLE is a text file: two route names a line, apart by a comma, if the two may stand
together; one name alone for a route with no partner; # begins a comment line.
With --sheet it is a binary sheet instead, and its routes are called route 0, route 1, ..

Exit codes: 0 done; 1 not shown to be a shortest plan; 2 input refused, with a number and
its meaning in words.
";

const PLAN: &str = "\
wisharek plan TABLE [--sheet] [--start FILE] [--budget N] [--out FILE]

Prints the test sessions by route name: pairs first, then single routes. Each pair is looked
up in the table's text before it is printed, and a finished plan has passed the checker.

  --sheet        TABLE is a binary sheet
  --start FILE   begin with the pairs of this plan file; without it begin with none
  --budget N     add N pairs at most; without it as many as there are
  --out FILE     write pairs and witness to this file, by name, for check and explain

Exit codes: 0 no plan has fewer sessions; 1 the budget ended before that was known;
2 input refused.
";

const CHECK: &str = "\
wisharek check TABLE --plan FILE [--sheet]

Says whether the plan file is a plan for the table, and whether its witness shows that no
plan has fewer sessions. Names are mapped through the table given: a name that is unknown,
missing or repeated is refused, and so is a pair that the table does not have.

  --plan FILE    the plan file, from wisharek plan --out, or made by hand
  --sheet        TABLE is a binary sheet

Exit codes: 0 accepted; 1 not shown; 2 input refused.
";

const EXPLAIN: &str = "\
wisharek explain TABLE [--sheet] [--plan FILE] [--svg FILE]

Prints the proof sheet: the plan, the routes of the set, the pieces that the rest falls into
without them, the sum, and in words why no plan has fewer sessions. It can be recounted with
a pencil from the table alone.

  --sheet        TABLE is a binary sheet
  --plan FILE    explain this plan file; without it make a plan first
  --svg FILE     draw the proof sheet as well, as a picture for grey print

Exit codes: 0 explained; 1 the plan file is not shown to be a shortest plan; 2 input refused.
";

/// Reads the arguments that follow the program's name.
pub fn read(arguments: &[OsString]) -> Result<Command, Refused> {
    let Some((first, rest)) = arguments.split_first() else {
        return Err(refused("a command is missing: plan, check or explain (wisharek --help says more)".to_string()));
    };
    match first.to_str() {
        Some("--help" | "-h" | "help") => Ok(Command::Help(HELP)),
        Some("plan") => asked(rest, PLAN, &["--sheet", "--start", "--budget", "--out"], Command::Plan),
        Some("check") => match asked(rest, CHECK, &["--sheet", "--plan"], Command::Check)? {
            Command::Check(asked) if asked.plan.is_none() => Err(refused("check needs --plan FILE".to_string())),
            command => Ok(command),
        },
        Some("explain") => asked(rest, EXPLAIN, &["--sheet", "--plan", "--svg"], Command::Explain),
        _ => Err(refused(format!("there is no command {} (wisharek --help lists them)", quoted(first)))),
    }
}

/// The options of one command, of those that it takes.
fn asked(
    arguments: &[OsString],
    help: &'static str,
    taken: &[&str],
    command: fn(Asked) -> Command,
) -> Result<Command, Refused> {
    if arguments.iter().any(|argument| argument == "--help" || argument == "-h") {
        return Ok(Command::Help(help));
    }
    let (mut asked, mut seen, mut table) = (Asked::default(), Vec::new(), None);
    let mut rest = arguments.iter();
    while let Some(argument) = rest.next() {
        match argument.to_str() {
            Some(option) if option.starts_with('-') => {
                if !taken.contains(&option) {
                    return Err(refused(format!("there is no option {} here", quoted(argument))));
                }
                if seen.contains(&option) {
                    return Err(refused(format!("{option} is given twice")));
                }
                seen.push(option);
                take(&mut asked, option, &mut rest)?;
            }
            _ if table.is_some() => {
                return Err(refused(format!("one table is read, and {} is more", quoted(argument))))
            }
            _ => table = Some(argument.clone()),
        }
    }
    asked.table = table.ok_or_else(|| refused("the table is missing".to_string()))?;
    Ok(command(asked))
}

/// Takes one option, with the argument behind it if it has one.
fn take<'a>(asked: &mut Asked, option: &str, rest: &mut impl Iterator<Item = &'a OsString>) -> Result<(), Refused> {
    if option == "--sheet" {
        asked.sheet = true;
        return Ok(());
    }
    let value = rest.next().ok_or_else(|| refused(format!("{option} needs something behind it")))?;
    match option {
        "--start" => asked.start = Some(value.clone()),
        "--out" => asked.out = Some(value.clone()),
        "--plan" => asked.plan = Some(value.clone()),
        "--svg" => asked.svg = Some(value.clone()),
        _ => asked.budget = Some(budget(value)?),
    }
    Ok(())
}

/// A count of pairs, in digits alone.
fn budget(value: &OsStr) -> Result<u32, Refused> {
    let digits = value.to_str().filter(|text| text.bytes().all(|byte| byte.is_ascii_digit()));
    let words = || refused(format!("--budget {} is not a number from 0 to {}", quoted(value), u32::MAX));
    digits.and_then(|digits| digits.parse().ok()).ok_or_else(words)
}

fn refused(words: String) -> Refused {
    Refused::at(number::COMMAND, "the command line", words)
}

fn quoted(argument: &OsStr) -> String {
    format!("\"{}\"", argument.to_string_lossy().escape_debug())
}
