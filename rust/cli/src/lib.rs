//! The program `wisharek`: a table of compatible routes by name, and what the proved library says about it.
//!
//! `table` reads the table, `filed` reads and writes plan files, `lines` is what both formats have in common. `plan`
//! holds a plan by name. `improved` asks the library for a plan and has it checked; `proof` asks it for the pieces;
//! `recount` then holds both to the table's own text once more, by name. `told` and `picture` say it to people.
//!
//! None of this is proved. So a number stands for a route only between here and a call of the library: in files, in
//! what is printed and from one module to the next routes go by name.
#![forbid(unsafe_code)]
#![warn(missing_docs)]

mod commands;
mod filed;
mod files;
mod improved;
mod lines;
mod options;
mod picture;
mod plan;
mod proof;
mod recount;
mod table;
mod told;
mod trouble;

use options::Command;
use std::ffi::OsString;
use std::io::Write;
use trouble::Trouble;

/// The Rust lines of README.md, which are run as a test.
#[cfg(doctest)]
#[doc = include_str!("../../../README.md")]
struct Readme;

/// Done: the plan is a shortest one, the plan file is accepted, or help was asked for.
pub const DONE: u8 = 0;
/// The plan is not shown to be a shortest one.
pub const NOT_SHOWN: u8 = 1;
/// The input is refused, with a number and its meaning.
pub const REFUSED: u8 = 2;

/// What a command has to say, and its exit code.
struct Said {
    status: u8,
    text: String,
}

/// Runs the program with the arguments that follow its name, and answers the exit code. Answers go to `out`, and what
/// is refused to `err`.
pub fn run(arguments: &[OsString], out: &mut dyn Write, err: &mut dyn Write) -> u8 {
    let said = match options::read(arguments) {
        Ok(Command::Help(text)) => Ok(Said { status: DONE, text: text.to_string() }),
        Ok(Command::Plan(asked)) => commands::plan(&asked),
        Ok(Command::Check(asked)) => commands::check(&asked),
        Ok(Command::Explain(asked)) => commands::explain(&asked),
        Err(refused) => Err(Trouble::Refused(refused)),
    };
    match said {
        Ok(Said { status, text }) => match out.write_all(text.as_bytes()).and_then(|()| out.flush()) {
            Ok(()) => status,
            Err(error) => complain(err, &files::unwritten("standard output", &error).into()),
        },
        Err(trouble) => complain(err, &trouble),
    }
}

/// Says what is wrong. Where even that cannot be written, the exit code still says it.
fn complain(err: &mut dyn Write, trouble: &Trouble) -> u8 {
    let _ = writeln!(err, "wisharek: {trouble}");
    match trouble {
        Trouble::Refused(_) => REFUSED,
        Trouble::Fault(_) => NOT_SHOWN,
    }
}
