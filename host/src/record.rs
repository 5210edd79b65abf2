//! Finding records. The Rust keeps a finding's name and details in its message alone, between backquotes; a name may have backquotes
//! too, so a message is taken apart from its end. Only the name of an E1002 may be one that the Rust made of a variable without a row.
use crate::lists::{Names, ends};
use cyrs_diag::{DiagCode, Diagnostic};

const KINDS: [&str; 4] = ["Node", "Relationship", "Path", "Value"];
const TYPES: [&str; 10] = ["Bool", "Int", "Float", "String", "Null", "Map", "Pattern", "Node", "Relationship", "Path"];
const PLACES: [&str; 3] = ["Path", "Node", "Relationship"];
const WANTS: [&str; 3] = ["cannot index ", "cannot slice ", "cannot iterate over "];

/// `code start end name+1 one two mark`; with mark 1 the variable stands in place of the name + 1.
pub fn record(finding: &Diagnostic, names: &Names) -> String {
    let (name, one, two) = details(finding.code, &finding.message);
    let (name, mark) = match (name, finding.code) {
        (Some(name), DiagCode::E1002) => match names.given(name) {
            (index, 0) => (1 + index, 0),
            generated => generated,
        },
        (Some(name), _) => (1 + names.index(name), 0),
        (None, _) => (0, 0),
    };
    format!("{} {} {name} {one} {two} {mark}", finding.code as u32, ends(finding.span))
}

fn details(code: DiagCode, message: &str) -> (Option<&str>, usize, usize) {
    match code {
        DiagCode::E1001 | DiagCode::E1002 => (Some(name(message, 0)), 0, 0),
        DiagCode::E2007 if quoted(message, 0) == "Value" => (Some(name(message, 2)), 1, number(quoted(message, 1), &KINDS)),
        DiagCode::E2007 => (Some(name(message, 3)), 2, number(quoted(message, 2), &KINDS)),
        DiagCode::E2008 => (Some(name(message, 2)), number(quoted(message, 0), &PLACES), number(quoted(message, 1), &KINDS)),
        DiagCode::E2011 => (None, 0, number(quoted(message, 0), &TYPES)),
        DiagCode::E5010 => (None, wanted(message), number(quoted(message, 0), &TYPES)),
        DiagCode::E5011 => (None, 0, number(quoted(message, 1), &TYPES)),
    }
}

/// The quoted text with so many others after it.
fn quoted(message: &str, later: usize) -> &str {
    message.rsplit('`').nth(2 * later + 1).expect("a quoted text")
}

/// The first quoted text, with so many others after it: all between the first backquote and the one that closes it.
fn name(message: &str, later: usize) -> &str {
    let open = message.rsplitn(2 * later + 2, '`').last().expect("the text before a backquote");
    open.split_once('`').expect("a quoted name").1
}

/// The number of a text, from 1.
fn number(text: &str, texts: &[&str]) -> usize {
    1 + texts.iter().position(|t| *t == text).expect("a text of the list")
}

fn wanted(message: &str) -> usize {
    1 + WANTS.iter().position(|w| message.starts_with(w)).expect("a use that wants a list")
}
