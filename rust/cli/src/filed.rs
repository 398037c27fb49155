//! A plan file: a plan and its witness as text by route name, for later checking.
//!
//! ```text
//! wisharek plan 1
//! table 90ab12cd34ef5678      (or: sheet .., or: no mark)
//! pair,NAME,NAME
//! single,NAME
//! witness                     (or: no witness)
//! over,NAME
//! end
//! ```
//!
//! Names are mapped through the table that the file is read with. Each route of the table stands in it once, and no
//! other name does, so a file for another table is refused and not misread.
use crate::lines::{self, Line};
use crate::plan::Plan;
use crate::table::{Mark, Table};
use crate::trouble::{number, Refused};
use std::collections::HashMap;
use std::fmt::Write;

const FIRST: &str = "wisharek plan 1";

/// A plan as it was read, and whether the table has changed since it was written.
pub struct Filed {
    pub plan: Plan,
    pub changed: bool,
}

/// The text of a plan file.
pub fn write(table: &Table, plan: &Plan) -> String {
    let Mark { sheet, digest } = table.mark();
    let kind = if sheet { "sheet" } else { "table" };
    let mut text = format!("{FIRST}\n{kind} {digest:016x}\n");
    for (one, other) in &plan.pairs {
        let _ = writeln!(text, "pair,{one},{other}");
    }
    for name in &plan.singles {
        let _ = writeln!(text, "single,{name}");
    }
    match &plan.set {
        None => text.push_str("no witness\n"),
        Some(set) => {
            text.push_str("witness\n");
            for name in set {
                let _ = writeln!(text, "over,{name}");
            }
        }
    }
    text.push_str("end\n");
    text
}

/// Reads a plan file for a table.
pub fn read(table: &Table, file: &str, bytes: &[u8]) -> Result<Filed, Refused> {
    let text = lines::text(file, bytes)?;
    let mut reader = Reader::new(table, file);
    for line in lines::lines(file, text)? {
        reader.line(&line)?;
    }
    reader.finish()
}

/// How far a plan file has been read.
#[derive(PartialEq, Eq)]
enum At {
    Start,
    Mark,
    Sessions,
    Set,
    NoSet,
    End,
}

/// A plan file while it is read, line after line.
struct Reader<'a> {
    table: &'a Table,
    file: &'a str,
    at: At,
    mark: Option<Mark>,
    plan: Plan,
    /// The line in which each route has its session.
    tested: HashMap<String, usize>,
    /// The line of each route of the set.
    over: HashMap<String, usize>,
}

impl<'a> Reader<'a> {
    fn new(table: &'a Table, file: &'a str) -> Reader<'a> {
        let plan = Plan { pairs: Vec::new(), singles: Vec::new(), set: None };
        Reader { table, file, at: At::Start, mark: None, plan, tested: HashMap::new(), over: HashMap::new() }
    }

    /// Takes one line, or refuses it.
    fn line(&mut self, line: &Line) -> Result<(), Refused> {
        match (&self.at, line.text) {
            (At::Start, FIRST) => self.at = At::Mark,
            (At::Start, _) => return Err(self.form(line, &format!("a plan file begins with \"{FIRST}\""))),
            (At::Mark, _) => {
                self.mark = self.read_mark(line)?;
                self.at = At::Sessions;
            }
            (At::Sessions, "witness") => {
                self.plan.set = Some(Vec::new());
                self.at = At::Set;
            }
            (At::Sessions, "no witness") => self.at = At::NoSet,
            (At::Sessions, _) => self.session(line)?,
            (At::Set | At::NoSet, "end") => self.at = At::End,
            (At::Set, _) => self.set(line)?,
            (At::NoSet, _) => return Err(self.form(line, "\"end\" stands behind \"no witness\"")),
            (At::End, _) => return Err(self.form(line, "something stands behind \"end\"")),
        }
        Ok(())
    }

    fn refused(&self, number: u32, line: &Line, words: String) -> Refused {
        Refused::in_line(number, self.file, line.number, words)
    }

    fn form(&self, line: &Line, words: &str) -> Refused {
        self.refused(number::FORM, line, format!("{words}, and here stands \"{}\"", line.text.escape_debug()))
    }

    /// The mark of the table from which the file was made. A plan made by hand has none.
    fn read_mark(&self, line: &Line) -> Result<Option<Mark>, Refused> {
        if line.text == "no mark" {
            return Ok(None);
        }
        let (kind, hex) = line.text.split_once(' ').unwrap_or_default();
        let digits = hex.len() == 16 && hex.bytes().all(|byte| byte.is_ascii_hexdigit());
        match (kind, digits, u64::from_str_radix(hex, 16)) {
            ("table", true, Ok(digest)) => Ok(Some(Mark { sheet: false, digest })),
            ("sheet", true, Ok(digest)) => Ok(Some(Mark { sheet: true, digest })),
            _ => Err(self.form(line, "\"table\" or \"sheet\" with 16 digits is expected, or \"no mark\"")),
        }
    }

    /// A session: two routes, or one.
    fn session(&mut self, line: &Line) -> Result<(), Refused> {
        match lines::names(self.file, line)?[..] {
            ["pair", one, other] => {
                self.once(one, line)?;
                self.once(other, line)?;
                if !self.table.joined(one, other) {
                    let words = format!("{} does not have \"{one}\" and \"{other}\" as a pair", self.table.file);
                    return Err(self.refused(number::PARTNER, line, words));
                }
                self.plan.pairs.push((one.to_string(), other.to_string()));
            }
            ["single", name] => {
                self.once(name, line)?;
                self.plan.singles.push(name.to_string());
            }
            _ => return Err(self.form(line, "\"pair\", \"single\", \"witness\" or \"no witness\" is expected")),
        }
        Ok(())
    }

    /// A route of the set.
    fn set(&mut self, line: &Line) -> Result<(), Refused> {
        let ["over", name] = lines::names(self.file, line)?[..] else {
            return Err(self.form(line, "\"over\" or \"end\" is expected"));
        };
        self.known(name, line)?;
        if let Some(before) = self.over.insert(name.to_string(), line.number) {
            let words = format!("\"{name}\" stands over the rest in line {before} already");
            return Err(self.refused(number::AGAIN, line, words));
        }
        self.plan.set.get_or_insert_with(Vec::new).push(name.to_string());
        Ok(())
    }

    /// A name that has its session here, and in no line before.
    fn once(&mut self, name: &str, line: &Line) -> Result<(), Refused> {
        self.known(name, line)?;
        match self.tested.insert(name.to_string(), line.number) {
            None => Ok(()),
            Some(before) => {
                let words = format!("\"{name}\" has a session in line {before} already");
                Err(self.refused(number::AGAIN, line, words))
            }
        }
    }

    /// A name of the table.
    fn known(&self, name: &str, line: &Line) -> Result<(), Refused> {
        if self.table.number(name).is_some() {
            return Ok(());
        }
        let hint = self.table.alike(name).map_or(String::new(), |known| format!("; it has \"{known}\""));
        let words = format!("{} does not have the route \"{name}\"{hint}", self.table.file);
        Err(self.refused(number::UNKNOWN, line, words))
    }

    /// The plan, if the file ended in its form and every route of the table has its session.
    fn finish(self) -> Result<Filed, Refused> {
        if self.at != At::End {
            let words = "the plan file is cut short: it ends before its line \"end\"";
            return Err(Refused::at(number::FORM, self.file, words));
        }
        if let Some(name) = self.table.names().iter().find(|name| !self.tested.contains_key(*name)) {
            let words = format!("it does not name the route \"{name}\" of {}", self.table.file);
            return Err(Refused::at(number::MISSING, self.file, words));
        }
        let now = self.table.mark();
        if self.mark != Some(now) && (now.sheet || self.mark.is_some_and(|mark| mark.sheet)) {
            let words =
                format!("it was not made from {}; the routes of a sheet are known by its bytes", self.table.file);
            return Err(Refused::at(number::SHEET, self.file, words));
        }
        Ok(Filed { changed: self.mark.is_some_and(|mark| mark != now), plan: self.plan })
    }
}
