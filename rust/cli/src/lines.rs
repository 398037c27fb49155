//! What tables and plan files have in common: lines of UTF-8 text, comments, and what may be a name.
//!
//! A name is what stands between commas and line ends, every character of it. What could be read in two ways is
//! refused: a character that is not seen, or that other programs take for a separator or a quote.
use crate::trouble::{number, Refused};

/// The most characters of a name.
const LONGEST: usize = 64;

/// A line that says something, and its number, from 1 on.
pub struct Line<'a> {
    pub number: usize,
    pub text: &'a str,
}

/// The text of a file, without a byte order mark at its start.
pub fn text<'a>(file: &str, bytes: &'a [u8]) -> Result<&'a str, Refused> {
    match std::str::from_utf8(bytes) {
        Ok(text) => Ok(text.strip_prefix('\u{feff}').unwrap_or(text)),
        Err(error) => {
            let line = 1 + bytes[..error.valid_up_to()].iter().filter(|&&byte| byte == b'\n').count();
            let words = "these bytes are not UTF-8 text (a binary sheet is read with --sheet)";
            Err(Refused::in_line(number::ENCODING, file, line, words))
        }
    }
}

/// The lines of a text that are neither empty nor comments. A line ends with a newline, or with a carriage return and a
/// newline.
pub fn lines<'a>(file: &str, text: &'a str) -> Result<Vec<Line<'a>>, Refused> {
    let mut found = Vec::new();
    for (before, text) in text.lines().enumerate() {
        let line = Line { number: before + 1, text };
        if let Some(c) = line.text.chars().find(|&c| breaks(c)) {
            return Err(Refused::in_line(number::CHARACTER, file, line.number, unprinted(c)));
        }
        if !line.text.starts_with('#') && !line.text.trim().is_empty() {
            found.push(line);
        }
    }
    Ok(found)
}

/// Whether some programs end a line here, or print nothing. In a comment it could hide the lines behind it.
fn breaks(c: char) -> bool {
    (c.is_control() && c != '\t') || c == '\u{2028}' || c == '\u{2029}'
}

/// The words for a character that breaks a line.
fn unprinted(c: char) -> String {
    let hint = if c < '\t' { "; a binary sheet is read with --sheet" } else { "" };
    format!("it holds the control character U+{:04X}{hint}", c as u32)
}

/// The names of a line, which stand apart by commas. Each is looked at by itself.
pub fn names<'a>(file: &str, line: &Line<'a>) -> Result<Vec<&'a str>, Refused> {
    let names: Vec<&str> = line.text.split(',').collect();
    for name in &names {
        if let Err((number, words)) = fits(name) {
            return Err(Refused::in_line(number, file, line.number, words));
        }
    }
    Ok(names)
}

/// Whether this may be a name; if not, the number and the words of the refusal.
fn fits(name: &str) -> Result<(), (u32, String)> {
    if name.is_empty() {
        let words = "a name is empty; a route with no partner stands alone in its line, without a comma";
        return Err((number::COUNT, words.to_string()));
    }
    if name.starts_with(' ') || name.ends_with(' ') {
        return Err((number::SPACE, format!("a space before or after the name \"{}\"", name.trim())));
    }
    if let Some(c) = name.chars().find(|&c| strange(c)) {
        return Err((number::CHARACTER, format!("the name \"{}\" holds {}", name.escape_debug(), strange_words(c))));
    }
    if name.chars().count() > LONGEST {
        return Err((number::LENGTH, format!("the name \"{name}\" has more than {LONGEST} characters")));
    }
    Ok(())
}

/// Whether a name may not hold this character.
fn strange(c: char) -> bool {
    matches!(c, '"' | ';' | '#') || (c.is_whitespace() && c != ' ') || c.is_control() || unseen(c)
}

/// What is wrong with it.
fn strange_words(c: char) -> String {
    match c {
        '"' => "a quote; names stand without quotes".to_string(),
        ';' => "a semicolon; two names stand apart by a comma".to_string(),
        '#' => "a #; a comment has a line of its own".to_string(),
        '\t' => "a tab; two names stand apart by a comma".to_string(),
        _ => format!("the character U+{:04X}, which is not seen or looks like another", c as u32),
    }
}

/// Characters that are not seen, or change how others are seen: marks that combine with the letter before them,
/// joiners, marks of direction, variants, private ones, and those that stand for what could not be read. Two names that
/// differ in them look the same.
fn unseen(c: char) -> bool {
    const RANGES: [(u32, u32); 22] = [
        (0x00ad, 0x00ad),
        (0x0300, 0x036f),
        (0x061c, 0x061c),
        (0x115f, 0x1160),
        (0x17b4, 0x17b5),
        (0x180b, 0x180f),
        (0x1ab0, 0x1aff),
        (0x1dc0, 0x1dff),
        (0x200b, 0x200f),
        (0x2028, 0x202e),
        (0x2060, 0x206f),
        (0x20d0, 0x20ff),
        (0x2800, 0x2800),
        (0x3164, 0x3164),
        (0xe000, 0xf8ff),
        (0xfe00, 0xfe0f),
        (0xfe20, 0xfe2f),
        (0xfeff, 0xfeff),
        (0xffa0, 0xffa0),
        (0xfff0, 0xffff),
        (0x1d173, 0x1d17a),
        (0xe0000, 0x10ffff),
    ];
    RANGES.iter().any(|&(first, last)| (first..=last).contains(&(c as u32)))
}

/// A name without its spaces and in one case: what two names have in common that are equal but for these. Letter by
/// letter, first up and then down, so that letters with more than one small form meet as well.
pub fn folded(name: &str) -> String {
    let seen = name.chars().filter(|c| !c.is_whitespace());
    seen.flat_map(char::to_uppercase).flat_map(char::to_lowercase).collect()
}
