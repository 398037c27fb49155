//! Exported and declared functions, read from the text of their files and brought into one form, so that a test can
//! compare them. Nothing else would notice a difference: the linker compares names alone.

/// The exported functions of a Rattle file, by name, each slice written as C is handed it: a pointer and a length.
pub fn exported(text: &str) -> Vec<String> {
    let text = without_comments(text);
    let mut signatures: Vec<String> =
        text.split("extern \"C\" fn ").skip(1).map(|rest| in_c(&format!("fn {}", signature(rest)))).collect();
    signatures.sort();
    signatures
}

/// The functions that the `extern "C"` block of a Rust file declares, by name.
pub fn declared(text: &str) -> Vec<String> {
    let text = without_comments(text);
    let block = text.split("extern \"C\" {").nth(1).expect("an extern block");
    let block = block.split('}').next().expect("its end");
    let mut signatures: Vec<String> =
        block.split("fn ").skip(1).map(|rest| format!("fn {}", signature(rest.trim().trim_end_matches(';')))).collect();
    signatures.sort();
    signatures
}

/// The functions of the block at the head of docs/BOUNDARY.md, by name, in the form of the exported ones.
pub fn documented(text: &str) -> Vec<String> {
    let block = text.split("```").nth(1).expect("a block of functions");
    let result_first = |line: &str| -> String {
        let (result, rest) = line.split_once(' ').expect("a result and a function");
        let (name, arguments) = rest.split_once('(').expect("arguments");
        in_c(&format!("fn {}({} -> {result}", name.trim(), arguments.trim()))
    };
    let mut signatures: Vec<String> = block.trim().lines().map(result_first).collect();
    signatures.sort();
    signatures
}

/// From a function's name to its result, on one line.
fn signature(text: &str) -> String {
    let (head, rest) = text.split_once(')').unwrap_or_else(|| panic!("the arguments do not end: {text}"));
    let head = one_line(head).replace("( ", "(");
    let head = head.trim_end_matches([' ', ',']);
    let mut words = rest.split_whitespace();
    match (words.next(), words.next()) {
        (Some("->"), Some(result)) => format!("{head}) -> {}", result.trim_end_matches(';')),
        _ => format!("{head})"),
    }
}

/// Each slice as a pointer and a length.
fn in_c(signature: &str) -> String {
    let (name, rest) = signature.split_once('(').expect("arguments");
    let (arguments, result) = rest.split_once(')').expect("their end");
    let arguments: Vec<String> = arguments
        .split(", ")
        .map(|argument| {
            let Some((name, form)) = argument.split_once(": ") else { return argument.to_string() };
            match (element(form, "&["), element(form, "&mut [")) {
                (Some(kind), _) => format!("{name}: *const {kind}, {name}_len: usize"),
                (_, Some(kind)) => format!("{name}: *mut {kind}, {name}_len: usize"),
                _ => argument.to_string(),
            }
        })
        .collect();
    format!("{name}({}){result}", arguments.join(", "))
}

/// What a slice that is written so has for its elements.
fn element<'a>(form: &'a str, begin: &str) -> Option<&'a str> {
    form.strip_prefix(begin)?.strip_suffix(']')
}

fn one_line(text: &str) -> String {
    text.split_whitespace().collect::<Vec<_>>().join(" ")
}

fn without_comments(text: &str) -> String {
    text.lines().map(|line| line.split("//").next().unwrap_or("")).collect::<Vec<_>>().join("\n")
}
