//! The program `wisharek`. All of it is in the library beside it; here it meets the command line.
use std::ffi::OsString;
use std::io;
use std::process::ExitCode;

fn main() -> ExitCode {
    let arguments: Vec<OsString> = std::env::args_os().skip(1).collect();
    ExitCode::from(wisharek_cli::run(&arguments, &mut io::stdout(), &mut io::stderr()))
}
