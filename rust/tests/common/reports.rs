//! Names, lines of figures and growth reports: comparing the library with the
//! reference, and what to compare them on.

use super::{Lent, Prefill, TOO_SHORT, UNANSWERED, UNANSWERED_LONG};
use wakubinryo::answer::{growth_words, names_words, text_words};
use wakubinryo::generate::Rng;
use wakubinryo::growth as reference;
use wakubinryo::{growth, names, raw, report, report_into};
use wakubinryo::{Growth, GrowthAnswer, Line, NamesAnswer, Refusal, TextAnswer};

/// Holds the library and its wrapper to the reference's totals.
pub fn assert_same_growth(lines: &[u32]) -> Result<Growth, Refusal> {
    let expected = reference::growth(lines);
    let before = lines.to_vec();
    let mut answer = GrowthAnswer::default().map(|_| UNANSWERED_LONG);
    raw::growth(lines, &mut answer);
    assert_eq!(answer, growth_words(expected));
    assert_eq!(growth(lines), expected);
    assert!(*lines == before, "the lines have changed");
    expected
}

/// Holds the library and its wrapper to the reference's number of names.
pub fn assert_same_names(text: &[u8]) -> Result<u32, Refusal> {
    let expected = reference::accepted_names(text).map(|names| names.len() as u32);
    let before = text.to_vec();
    let mut answer = NamesAnswer::default().map(|_| UNANSWERED);
    raw::names(text, &mut answer);
    assert_eq!(answer, names_words(expected));
    assert_eq!(names(text), expected);
    assert!(*text == before, "the text has changed");
    expected
}

/// A report with its answer as words: the library's own, or the wrapper's.
type Report = fn(&[u8], &[u32], &mut [u8]) -> TextAnswer;

const LIBRARY_REPORT: Report = |names, lines, out| {
    let mut answer = TextAnswer::default().map(|_| UNANSWERED_LONG);
    raw::report(names, lines, out, &mut answer);
    answer
};

const WRAPPED_REPORT: Report = |names, lines, out| text_words(report_into(names, lines, out));

/// Writes a report into a buffer of this length and holds answer and buffer to
/// what the reference writes, the buffer being too short or not.
fn assert_report(
    write: Report,
    names: &[u8],
    lines: &[u32],
    len: usize,
    prefill: Prefill,
    expected: Result<&[u8], Refusal>,
) {
    let mut out = Lent::new(len, prefill, 0);
    let given = write(names, lines, out.lend());
    let expected = match expected {
        Ok(text) if text.len() > len => Err(TOO_SHORT),
        other => other,
    };
    let answer = text_words(expected.map(<[u8]>::len));
    assert_eq!(given, answer, "answer of report, {len} bytes");
    out.assert_holds(expected.unwrap_or(&[]), "out");
}

/// The same by the library.
pub fn assert_library_report(
    names: &[u8],
    lines: &[u32],
    len: usize,
    prefill: Prefill,
    expected: Result<&[u8], Refusal>,
) {
    assert_report(LIBRARY_REPORT, names, lines, len, prefill, expected);
}

/// Holds the library and its wrapper to the reference's report, in buffers that
/// are exact, longer by `spare` and too short.
pub fn assert_same_report(
    names: &[u8],
    lines: &[u32],
    prefill: Prefill,
    spare: usize,
) -> Result<Vec<u8>, Refusal> {
    let expected = reference::report(names, lines);
    let before = (names.to_vec(), lines.to_vec());
    let exact = expected.as_ref().map_or(0, Vec::len);
    let mut lengths = vec![0, exact, exact + spare];
    if exact > 0 {
        lengths.extend([exact - 1, exact - 1 - spare % exact]);
    }
    for write in [LIBRARY_REPORT, WRAPPED_REPORT] {
        for &len in &lengths {
            let expected = expected.as_deref().map_err(|&refusal| refusal);
            assert_report(write, names, lines, len, prefill, expected);
        }
    }
    assert_eq!(report(names, lines), expected);
    assert!(
        (names, lines) == (&before.0, &before.1),
        "input has changed"
    );
    expected
}

/// A figure: small, at the end of 32 bits, or any.
fn figure(rng: &mut Rng) -> u32 {
    match rng.below(4) {
        0 => rng.below(5) as u32,
        1 => u32::MAX - rng.below(3) as u32,
        2 => rng.below(5_000) as u32,
        _ => rng.bits() as u32,
    }
}

/// So many lines of figures, some of them refused, some with the growth of an
/// earlier one or nearly so.
pub fn some_lines(rng: &mut Rng, count: usize) -> Vec<Line> {
    let mut lines: Vec<Line> = Vec::new();
    let accepted = rng.pick(&[0, 1, 4, 4, 4, 12]);
    for _ in 0..count {
        let mut line = [0; 7].map(|_: u32| figure(rng));
        if rng.below(accepted + 1) > 0 {
            line[0] = 0;
        } else if rng.one_in(2) {
            line[0] = rng.pick(&[1, 2, 6, 10, 11, 12, 13, 20, 21, 22, 22, 22, 23]);
        }
        if !lines.is_empty() && rng.one_in(3) {
            let [_, input, _, _, _, written, _] = rng.pick(&lines);
            let factor = rng.between(1, 3) as u32;
            line[1] = input.saturating_mul(factor);
            line[5] = written
                .saturating_mul(factor)
                .saturating_sub(rng.below(2) as u32);
        }
        lines.push(line);
    }
    lines
}

/// A name of so many bytes, any but a line feed.
pub fn name(rng: &mut Rng, len: usize) -> Vec<u8> {
    let any = rng.one_in(2);
    let byte = |_| match rng.bits() as u8 {
        b'\n' => b'\r',
        byte if any => byte,
        byte => b'a' + byte % 26,
    };
    (0..len).map(byte).collect()
}

/// So many names as a text, with empty lines between them and perhaps no line
/// feed at the end.
pub fn names_text(rng: &mut Rng, names: &[Vec<u8>]) -> Vec<u8> {
    let most_empty = rng.pick(&[0, 0, 1, 4]);
    let empty_lines = |rng: &mut Rng| vec![b'\n'; rng.below(most_empty + 1)];
    let mut text = empty_lines(rng);
    for name in names {
        text.extend(name);
        text.push(b'\n');
        text.extend(empty_lines(rng));
    }
    if most_empty == 0 && rng.one_in(2) {
        text.pop();
    }
    text
}

/// So many names of so many bytes, with a line feed each.
pub fn equal_names(count: usize, bytes: usize) -> Vec<u8> {
    let mut name = vec![b'n'; bytes];
    name.push(b'\n');
    name.repeat(count)
}

/// Names, few and short but for some that are at the limits or over them.
pub fn some_names(rng: &mut Rng) -> Vec<Vec<u8>> {
    let count = match rng.below(20) {
        0 => rng.between(254, 259),
        1..4 => rng.below(256),
        _ => rng.below(12),
    };
    let long = rng.pick(&[0, 0, 0, 3]);
    let mut names = Vec::new();
    for _ in 0..count {
        let len = if rng.one_in(30) {
            rng.between(250, 255 + long)
        } else {
            rng.between(1, 20)
        };
        names.push(name(rng, len));
    }
    names
}
