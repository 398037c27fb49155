//! A table of compatible routes by name, read from text or from a binary sheet, and the sheet that the library is lent.
//!
//! Names get numbers in the order of their first appearance, and rows are written rising. The numbers are for the calls
//! of the library alone.
use crate::lines::{self, Line};
use crate::trouble::{number, Refused};
use std::collections::HashMap;

/// Reading stops behind so many routes. They are more than the library takes, and the table is refused in any case.
const ENOUGH: usize = 65_536;

/// What was read: the text without its byte order mark, or the bytes of a sheet.
pub enum Own {
    Text(String),
    Sheet(Vec<u8>),
}

/// The routes of a layout and which of them may stand together.
pub struct Table {
    /// The file, as it was named.
    pub file: String,
    /// What was read, for a second look by name.
    pub own: Own,
    /// The sheet, as the library is lent it.
    pub sheet: Vec<u8>,
    names: Vec<String>,
    /// For each route the line that names it first; for a sheet there are none.
    lines: Vec<usize>,
    numbers: HashMap<String, usize>,
    rows: Vec<Vec<usize>>,
}

impl Table {
    /// Reads a table: two names a line, which may stand together, or one name, which has no partner.
    pub fn read(file: &str, bytes: &[u8]) -> Result<Table, Refused> {
        let text = lines::text(file, bytes)?;
        let mut reader = Reader::new(file);
        for line in lines::lines(file, text)? {
            reader.line(&line)?;
            if reader.names.len() > ENOUGH {
                break;
            }
        }
        let mut rows = reader.rows;
        rows.iter_mut().for_each(|row| row.sort_unstable());
        let table = Table {
            file: file.to_string(),
            own: Own::Text(text.to_string()),
            sheet: write_sheet(&rows),
            names: reader.names,
            lines: reader.lines,
            numbers: reader.numbers,
            rows,
        };
        table.accepted()
    }

    /// Reads a binary sheet. Its routes are called `route 0`, `route 1` and so on.
    pub fn read_sheet(file: &str, bytes: Vec<u8>) -> Result<Table, Refused> {
        let n = word(&bytes, 0).unwrap_or(0);
        // an accepted sheet has more bytes than routes; of another one n may be any number
        wisharek::surplus(&bytes, &vec![0; n.min(bytes.len())]).map_err(|refusal| of_library(file, refusal))?;
        let names: Vec<String> = (0..n).map(|route| format!("route {route}")).collect();
        Ok(Table {
            file: file.to_string(),
            sheet: bytes.clone(),
            lines: Vec::new(),
            numbers: names.iter().cloned().zip(0..).collect(),
            rows: (0..n).map(|route| sheet_row(&bytes, n, route)).collect(),
            names,
            own: Own::Sheet(bytes),
        })
    }

    /// The table, if the library's reader accepts its sheet.
    fn accepted(self) -> Result<Table, Refused> {
        let Err(refusal) = wisharek::surplus(&self.sheet, &vec![0; self.routes()]) else { return Ok(self) };
        let most = refusal.b as usize;
        Err(match (refusal.number, self.lines.get(most), self.names.get(most)) {
            (2, Some(&line), Some(name)) => {
                let words = format!("\"{name}\" is route number {}, and no more than {most} are taken", most + 1);
                Refused::in_line(refusal.number, &self.file, line, words)
            }
            _ => of_library(&self.file, refusal),
        })
    }

    /// How many routes there are.
    pub fn routes(&self) -> usize {
        self.names.len()
    }

    /// How many pairs may stand together.
    pub fn pairs(&self) -> usize {
        self.rows.iter().map(Vec::len).sum::<usize>() / 2
    }

    /// The names in the order of their numbers.
    pub fn names(&self) -> &[String] {
        &self.names
    }

    /// The number of a name.
    pub fn number(&self, name: &str) -> Option<usize> {
        self.numbers.get(name).copied()
    }

    /// Whether both names are routes that may stand together.
    pub fn joined(&self, one: &str, other: &str) -> bool {
        match (self.number(one), self.number(other)) {
            (Some(one), Some(other)) => self.rows[one].contains(&other),
            _ => false,
        }
    }

    /// A name of the table that equals this one but for spaces or case.
    pub fn alike(&self, name: &str) -> Option<&str> {
        let folded = lines::folded(name);
        self.names.iter().find(|known| lines::folded(known) == folded).map(String::as_str)
    }

    /// What tells this table from others: of a text the names and pairs in no order, of a sheet its bytes.
    pub fn mark(&self) -> Mark {
        match &self.own {
            Own::Sheet(bytes) => Mark { sheet: true, digest: digest(bytes) },
            Own::Text(_) => Mark { sheet: false, digest: digest(self.sorted().as_bytes()) },
        }
    }

    /// The names, one to a line, and behind them the pairs, both sorted.
    fn sorted(&self) -> String {
        let mut names: Vec<String> = self.names.clone();
        names.sort_unstable();
        let mut pairs = Vec::new();
        for (one, row) in self.rows.iter().enumerate() {
            for &other in row {
                if self.names[one] < self.names[other] {
                    pairs.push(format!("{},{}", self.names[one], self.names[other]));
                }
            }
        }
        pairs.sort_unstable();
        names.extend(pairs);
        names.join("\n")
    }
}

/// What tells a table or sheet from others. It is there to notice an edit, and keeps no one from forging it.
#[derive(Clone, Copy, Debug, PartialEq, Eq)]
pub struct Mark {
    pub sheet: bool,
    pub digest: u64,
}

/// The 64-bit digest of Fowler, Noll and Vo (FNV-1a).
fn digest(bytes: &[u8]) -> u64 {
    bytes.iter().fold(0xcbf2_9ce4_8422_2325, |hash, &byte| (hash ^ u64::from(byte)).wrapping_mul(0x0100_0000_01b3))
}

/// A refusal of the library, at a file.
fn of_library(file: &str, refusal: wisharek::Refusal) -> Refused {
    let told = refusal.to_string();
    let words = told.split_once(": ").map_or(told.as_str(), |(_, words)| words);
    Refused::at(refusal.number, file, words)
}

/// The sheet of these rows: their number, the entry number at which each begins, the entry total, then the entries.
fn write_sheet(rows: &[Vec<usize>]) -> Vec<u8> {
    let mut numbers = vec![rows.len(), 0];
    let mut total = 0;
    for row in rows {
        total += row.len();
        numbers.push(total);
    }
    numbers.extend(rows.iter().flatten());
    numbers.iter().flat_map(|&x| (x as u32).to_le_bytes()).collect()
}

/// Number k of a sheet, if it has so many.
fn word(sheet: &[u8], k: usize) -> Option<usize> {
    let four: [u8; 4] = sheet.get(4 * k..4 * k + 4)?.try_into().ok()?;
    Some(u32::from_le_bytes(four) as usize)
}

/// The row of a route in an accepted sheet of n routes.
pub fn sheet_row(sheet: &[u8], n: usize, route: usize) -> Vec<usize> {
    let (start, end) = (word(sheet, 1 + route).unwrap_or(0), word(sheet, 2 + route).unwrap_or(0));
    (start..end).filter_map(|entry| word(sheet, 2 + n + entry)).collect()
}

/// A table while it is read, line after line.
struct Reader<'a> {
    file: &'a str,
    names: Vec<String>,
    lines: Vec<usize>,
    numbers: HashMap<String, usize>,
    folded: HashMap<String, usize>,
    rows: Vec<Vec<usize>>,
    /// The line of each pair, lower number first.
    pairs: HashMap<(usize, usize), usize>,
    /// The line of each route that is named alone.
    alone: HashMap<usize, usize>,
}

impl<'a> Reader<'a> {
    fn new(file: &'a str) -> Reader<'a> {
        Reader {
            file,
            names: Vec::new(),
            lines: Vec::new(),
            numbers: HashMap::new(),
            folded: HashMap::new(),
            rows: Vec::new(),
            pairs: HashMap::new(),
            alone: HashMap::new(),
        }
    }

    /// Takes one line, or refuses it.
    fn line(&mut self, line: &Line) -> Result<(), Refused> {
        match lines::names(self.file, line)?[..] {
            [name] => self.single(name, line.number),
            [one, other] => self.pair(one, other, line.number),
            ref names => {
                let words = format!("{} names, and a line has one or two", names.len());
                Err(self.refused(number::COUNT, line.number, words))
            }
        }
    }

    fn refused(&self, number: u32, line: usize, words: String) -> Refused {
        Refused::in_line(number, self.file, line, words)
    }

    /// A route with no partner. It stands in this line alone.
    fn single(&mut self, name: &str, line: usize) -> Result<(), Refused> {
        if let Some(&route) = self.numbers.get(name) {
            let words = format!("\"{name}\" is named alone here, and stands in line {} already", self.lines[route]);
            return Err(self.refused(number::ALONE, line, words));
        }
        let route = self.route(name, line)?;
        self.alone.insert(route, line);
        Ok(())
    }

    /// Two routes that may stand together. No line has said so before.
    fn pair(&mut self, one: &str, other: &str, line: usize) -> Result<(), Refused> {
        if one == other {
            let words = format!("\"{one}\" is paired with itself");
            return Err(self.refused(number::ITSELF, line, words));
        }
        let routes = (self.route(one, line)?, self.route(other, line)?);
        for route in [routes.0, routes.1] {
            if let Some(before) = self.alone.get(&route) {
                let words = format!("\"{}\" has a partner here, and line {before} names it alone", self.names[route]);
                return Err(self.refused(number::ALONE, line, words));
            }
        }
        let rising = (routes.0.min(routes.1), routes.0.max(routes.1));
        if let Some(before) = self.pairs.insert(rising, line) {
            let words = format!("the pair of \"{one}\" and \"{other}\" stands in line {before} already");
            return Err(self.refused(number::TWIN, line, words));
        }
        self.rows[routes.0].push(routes.1);
        self.rows[routes.1].push(routes.0);
        Ok(())
    }

    /// The number of a name, the next one if it is new. A new name equals no other but for spaces or case.
    fn route(&mut self, name: &str, line: usize) -> Result<usize, Refused> {
        if let Some(&route) = self.numbers.get(name) {
            return Ok(route);
        }
        let folded = lines::folded(name);
        if let Some(&other) = self.folded.get(&folded) {
            let (known, before) = (&self.names[other], self.lines[other]);
            let words = format!("\"{name}\" equals \"{known}\" of line {before} but for spaces or case");
            return Err(self.refused(number::ALIKE, line, words));
        }
        let route = self.names.len();
        self.folded.insert(folded, route);
        self.numbers.insert(name.to_string(), route);
        self.names.push(name.to_string());
        self.lines.push(line);
        self.rows.push(Vec::new());
        Ok(route)
    }
}
