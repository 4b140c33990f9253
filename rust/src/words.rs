//! What the command-line tool says in words. The Rattle programs measure_qcir,
//! lift_qcir and lift_qdimacs say the same (crates/command_line); tests/words.rs
//! runs them beside the tool.

use crate::answer::{Reason, Refusal, Sizes};
use crate::qcir::LONGEST;
use std::fmt::Write;
use std::io;

pub const STANDARD_INPUT: &str = "standard input";
pub const STANDARD_OUTPUT: &str = "standard output";

/// Line and column of the byte at a position, both from 1; columns are bytes. At
/// the text's end, where the next byte would stand.
pub fn place(text: &[u8], position: usize) -> (usize, usize) {
    let before = &text[..position.min(text.len())];
    let line_start = before.iter().rposition(|&byte| byte == b'\n');
    let line = before.iter().filter(|&&byte| byte == b'\n').count() + 1;
    (line, before.len() - line_start.map_or(0, |end| end + 1) + 1)
}

/// A refusal of a text, or of its table or form: the number, the place where it
/// speaks of one, and the reason.
pub fn refused(refusal: &Refusal, text: &[u8]) -> String {
    let Refusal {
        reason, position, ..
    } = *refusal;
    let number = reason.number();
    match reason {
        Reason::TooLarge => format!("refused: {number} (too many nodes)"),
        Reason::MalformedText if text.len() > LONGEST => {
            format!("refused: {number} (longer than 65,536 bytes)")
        }
        Reason::MalformedText | Reason::MisplacedName => {
            let (line, column) = place(text, position as usize);
            let word = match reason {
                Reason::MalformedText => "spelling".to_string(),
                _ => reason.to_string(),
            };
            format!("refused: {number} at line {line}, column {column} ({word})")
        }
        Reason::TooManyVariables => format!("refused: {number} at node {position} ({reason})"),
        Reason::UnboundVariable => format!("refused: {number} at variable {position} ({reason})"),
        Reason::GateNotUsedOnce => format!("refused: {number} at gate {position} ({reason})"),
        // No other is given of a text.
        _ => format!("refused: {number} ({reason})"),
    }
}

/// The sizes of a table and of its prenex form, a line for each.
pub fn figures(sizes: &Sizes) -> String {
    let figures = [
        ("nodes", sizes.n),
        ("blocks", sizes.b),
        ("bound variables", sizes.q),
        ("quantifier depth", sizes.depth),
        ("lifted: nodes", sizes.nodes),
        ("lifted: blocks", sizes.blocks),
        ("lifted: variables", sizes.entries),
    ];
    let mut text = String::new();
    for (name, figure) in figures {
        writeln!(text, "{name:<17} {figure:>5}").expect("strings take what is written");
    }
    text
}

/// A file that can't be read or written, and why in the system's words.
pub fn failed(name: &str, error: &io::Error) -> String {
    let why = error.to_string();
    let why = match error.raw_os_error() {
        Some(number) => why.trim_end_matches(&format!(" (os error {number})")),
        None => &why,
    };
    format!("{name}: {why}")
}

#[cfg(test)]
mod tests {
    use super::*;

    #[test]
    fn places_count_lines_and_bytes() {
        let text = b"ab\n\n\xc3\xa9f\n";
        let places = [
            (0, (1, 1)),
            (1, (1, 2)),
            (2, (1, 3)),
            (3, (2, 1)),
            (4, (3, 1)),
            (6, (3, 3)),
            (7, (3, 4)),
            (8, (4, 1)),
            (9, (4, 1)),
        ];
        for (position, expected) in places {
            assert_eq!(place(text, position), expected, "byte {position}");
        }
        assert_eq!(place(b"", 0), (1, 1));
    }
}
