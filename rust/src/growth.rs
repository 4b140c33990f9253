//! Growth reports in plain Rust, independent of the static library: the other
//! side of the comparison tests.

use crate::answer::{Growth, Line, Reason, Refusal};
use std::io::Write;

/// Most names, and most lines of figures.
pub const MOST_NAMES: usize = 256;
/// Most bytes of a name.
pub const LONGEST_NAME: usize = 255;

/// The names of a text: its lines but the empty ones.
pub fn names(text: &[u8]) -> Vec<&[u8]> {
    let lines = text.split(|&byte| byte == b'\n');
    lines.filter(|line| !line.is_empty()).collect()
}

/// The names of a text, if they are not refused.
pub fn accepted_names(text: &[u8]) -> Result<Vec<&[u8]>, Refusal> {
    let names = names(text);
    if names.len() > MOST_NAMES {
        return Err(Reason::TooManyNames.at(0));
    }
    if names.iter().any(|name| name.len() > LONGEST_NAME) {
        return Err(Reason::NameTooLong.at(0));
    }
    Ok(names)
}

/// The whole lines of these words, a refused one's six being zeros, or None if
/// words are left over.
fn whole_lines(words: &[u32]) -> Option<Vec<Line>> {
    let (lines, left) = words.as_chunks::<7>();
    let as_read = |&line: &Line| match line {
        [0, ..] => line,
        [number, ..] => [number, 0, 0, 0, 0, 0, 0],
    };
    left.is_empty().then(|| lines.iter().map(as_read).collect())
}

/// Nodes written and input nodes.
fn nodes(&[_, input, _, _, _, written, _]: &Line) -> [u64; 2] {
    [written.into(), input.into()]
}

/// Whether the one grew more than the other.
fn more([written, input]: [u64; 2], [other_written, other_input]: [u64; 2]) -> bool {
    u128::from(written) * u128::from(other_input) > u128::from(other_written) * u128::from(input)
}

fn totals(lines: &[Line]) -> Growth {
    let count = |wanted: fn(u32) -> bool| lines.iter().filter(|line| wanted(line[0])).count();
    let sum = |figure: usize| lines.iter().map(|line| u64::from(line[figure])).sum();
    let mut most: Option<[u64; 2]> = None;
    for line in lines.iter().filter(|line| line[1] != 0) {
        if most.is_none_or(|most| more(nodes(line), most)) {
            most = Some(nodes(line));
        }
    }
    let [written, input] = most.unwrap_or_default();
    Growth {
        read: count(|number| number != Reason::Unreadable.number()) as u64,
        refused: count(|number| number != 0) as u64,
        sums: [sum(1), sum(2), sum(3), sum(4), sum(5), sum(6)],
        written,
        input,
    }
}

/// What a report says of all files, by their lines of figures.
pub fn growth(lines: &[u32]) -> Result<Growth, Refusal> {
    let lines = whole_lines(lines).ok_or(Reason::PartialNode.at(0))?;
    if lines.len() > MOST_NAMES {
        return Err(Reason::TooManyNames.at(0));
    }
    Ok(totals(&lines))
}

fn put(text: &mut Vec<u8>, name: &[u8], figures: impl IntoIterator<Item = u64>) {
    text.extend(name);
    for figure in figures {
        write!(text, " {figure}").expect("vectors take what is written");
    }
    text.push(b'\n');
}

/// The report of the names of a text, with a line of figures for each.
pub fn report(names: &[u8], lines: &[u32]) -> Result<Vec<u8>, Refusal> {
    let names = accepted_names(names)?;
    let lines = match whole_lines(lines) {
        Some(lines) if lines.len() == names.len() => lines,
        _ => return Err(Reason::PartialNode.at(0)),
    };
    let mut text = Vec::new();
    for (name, line) in names.into_iter().zip(&lines) {
        put(&mut text, name, line.map(u64::from));
    }
    put(&mut text, b"total", totals(&lines).words());
    Ok(text)
}

#[cfg(test)]
mod tests {
    use super::*;

    #[test]
    fn names_are_lines_that_are_not_empty() {
        let all: &[&[u8]] = &[b"a", b" ", b"b\r", b"c"];
        for text in ["a\n \nb\r\nc", "\n\na\n \n\n\nb\r\nc\n\n"] {
            assert_eq!(names(text.as_bytes()), all);
        }
        assert!(names(b"").is_empty() && names(b"\n\n").is_empty());
    }

    #[test]
    fn a_report() {
        let lines = [
            [22, 9, 9, 9, 9, 9, 9],
            [0, 3, 1, 1, 1, 12, 3],
            [0, 6, 2, 2, 1, 24, 6],
        ];
        let text = report(b"a b\n\nc\nd", lines.as_flattened()).expect("accepted");
        let expected = "a b 22 0 0 0 0 0 0\nc 0 3 1 1 1 12 3\nd 0 6 2 2 1 24 6\n\
                        total 2 1 9 3 3 2 36 9 12 3\n";
        assert_eq!(String::from_utf8(text).expect("text"), expected);
    }
}
