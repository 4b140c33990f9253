//! The calls of growth reports: the library against the reference on lines of
//! figures, names and both together.

mod common;

use common::forms::prefill;
use common::reports::{assert_library_report, assert_same_growth};
use common::reports::{assert_same_names, assert_same_report};
use common::reports::{equal_names, names_text, some_lines, some_names};
use common::vectors::each_growth_vector;
use common::{each, Prefill};
use wakubinryo::growth::report;
use wakubinryo::Reason::{self, NameTooLong, PartialNode, TooManyNames};
use wakubinryo::{Growth, Line, Refusal, REPORT_ROOM};

const MAX: u32 = u32::MAX;

/// The totals of lines, by library and reference.
#[track_caller]
fn totals(lines: &[Line]) -> Growth {
    assert_same_growth(lines.as_flattened()).expect("accepted")
}

/// A line with these input nodes and nodes written.
fn grown(input: u32, written: u32) -> Line {
    [0, input, 0, 0, 0, written, 0]
}

/// Nodes written and input nodes of the line that grew most.
#[track_caller]
fn most(lines: &[Line]) -> [u64; 2] {
    let totals = totals(lines);
    [totals.written, totals.input]
}

#[test]
fn every_vector() {
    each_growth_vector(|vector| {
        let total = assert_same_growth(&vector.lines).expect("accepted");
        assert_eq!(total.words()[..], vector.total);
        let names = b"x\n".repeat(vector.lines.len() / 7);
        let text = assert_same_report(&names, &vector.lines, Prefill::Ones, 3);
        let figures = vector.total.iter().map(|figure| format!(" {figure}"));
        let last = format!("total{}\n", figures.collect::<String>());
        assert!(text.expect("written").ends_with(last.as_bytes()));
    });
}

/// Words that are no whole lines are refused by 1, also where there are over 256
/// lines; then more than 256 lines by 20.
#[test]
fn lengths() {
    for len in 0..=7 * 259 {
        let given = assert_same_growth(&vec![1; len]);
        let expected = match (len % 7, len / 7) {
            (1.., _) => Err(PartialNode.at(0)),
            (0, 257..) => Err(TooManyNames.at(0)),
            (0, count) => Ok(Growth {
                read: count as u64,
                refused: count as u64,
                ..Growth::default()
            }),
        };
        assert_eq!(given, expected, "{len} words");
    }
    assert_eq!(
        assert_same_growth(&vec![0; 7 * 70_000]),
        Err(TooManyNames.at(0))
    );
}

#[test]
fn largest_figures() {
    for count in [1, 2, 255, 256] {
        let given = totals(&vec![[0, MAX, MAX, MAX, MAX, MAX, MAX]; count]);
        let sum = count as u64 * u64::from(MAX);
        let expected = Growth {
            read: count as u64,
            refused: 0,
            sums: [sum; 6],
            written: MAX.into(),
            input: MAX.into(),
        };
        assert_eq!(given, expected);
    }
    // Products that differ by one, near the end of 64 bits.
    let [less, more] = [grown(MAX - 1, MAX), grown(MAX - 2, MAX - 1)];
    let expected = [u64::from(MAX) - 1, u64::from(MAX) - 2];
    assert_eq!(most(&[more, less]), expected);
    assert_eq!(most(&[less, more]), expected);
}

#[test]
fn ties_go_to_the_earlier_line() {
    for (input, written) in [(1, 1), (2, 3), (5, 23), (7, 0), (65_537, 65_536)] {
        let lines = [3, 1, 2].map(|factor| grown(factor * input, factor * written));
        for first in 0..3 {
            let mut lines = lines.to_vec();
            lines.rotate_left(first);
            let expected = [lines[0][5].into(), lines[0][1].into()];
            assert_eq!(most(&lines), expected);
            // What takes no part, or grew less, stands before.
            lines.insert(0, [22, 1, 0, 0, 0, MAX, 0]);
            lines.insert(0, grown(0, MAX));
            lines.insert(0, [10, 1, 0, 0, 0, MAX, 0]);
            if written > 0 {
                lines.insert(0, grown(MAX, 0));
            }
            assert_eq!(most(&lines), expected);
        }
    }
    assert_eq!(most(&[]), [0, 0]);
    assert_eq!(most(&[grown(0, 5), [6, 1, 0, 0, 0, 9, 0]]), [0, 0]);
    assert_eq!(most(&[grown(9, 0)]), [0, 9]);
}

#[test]
fn numbers_that_are_counted() {
    let lines = |number| [[number, 1, 2, 3, 4, 5, 6], [0, 1, 1, 1, 1, 1, 1]];
    for number in (1..=24).chain([255, 256, 1 << 16, 1 << 31, MAX]) {
        let given = totals(&lines(number));
        let read = if number == 22 { 1 } else { 2 };
        assert_eq!((given.read, given.refused), (read, 1), "number {number}");
        assert_eq!(given.sums, [1; 6]);
    }
    let given = totals(&lines(0));
    assert_eq!((given.read, given.refused), (2, 0));
    assert_eq!(given.sums, [2, 3, 4, 5, 6, 7]);
}

#[test]
fn random_lines() {
    let mut counts = [0; 3];
    each("lines of figures", 12_000, |rng, number| {
        let count = match number % 100 {
            0 => rng.between(250, 260),
            1..=4 => rng.between(13, 256),
            _ => rng.below(12),
        };
        let lines = some_lines(rng, count);
        let mut words = lines.as_flattened().to_vec();
        if rng.one_in(20) {
            words.truncate(words.len() - rng.below(words.len().min(7) + 1));
        }
        let given = assert_same_growth(&words);
        counts[match given {
            Ok(_) => 0,
            Err(Refusal {
                reason: PartialNode,
                ..
            }) => 1,
            Err(_) => 2,
        }] += 1;
        // What refused lines hold beside the number doesn't matter.
        for line in words.chunks_exact_mut(7) {
            if line[0] != 0 {
                line[1..].fill_with(|| rng.bits() as u32);
            }
        }
        assert_eq!(assert_same_growth(&words), given);
    });
    assert!(counts.iter().all(|&c| c > 30), "{counts:?}");
}

#[test]
fn limits_of_names() {
    let verdict = |text: &[u8]| {
        let given = assert_same_names(text);
        // The same without the last line feed, and with empty lines around.
        let bare = text.strip_suffix(b"\n").unwrap_or(text);
        assert_eq!(assert_same_names(bare), given);
        assert_eq!(assert_same_names(&[b"\n\n", text, b"\n"].concat()), given);
        given
    };
    assert_eq!(verdict(b""), Ok(0));
    assert_eq!(verdict(b"a"), Ok(1));
    assert_eq!(verdict(b"\r\n \n\0\n"), Ok(3));
    let (many, long) = (Err(TooManyNames.at(0)), Err(NameTooLong.at(0)));
    for (count, bytes, expected) in [
        (255, 1, Ok(255)),
        (256, 1, Ok(256)),
        (257, 1, many),
        (258, 1, many),
        (1, 255, Ok(1)),
        (1, 256, long),
        (2, 257, long),
        (256, 255, Ok(256)),
        (256, 256, long),
        (257, 255, many),
        (257, 256, many),
        (1_000, 1_000, many),
    ] {
        let text = equal_names(count, bytes);
        assert_eq!(verdict(&text), expected, "{count} names of {bytes} bytes");
    }
    // One long name, before or after others.
    let short = equal_names(255, 1);
    let name = equal_names(1, 256);
    assert_eq!(verdict(&[&*short, &name].concat()), long);
    assert_eq!(verdict(&[&*name, &short].concat()), long);
    assert_eq!(verdict(&[&*name, &short, b"x\n"].concat()), many);
    // A text may have any length.
    assert_eq!(verdict(&vec![b'\n'; 5_000_000]), Ok(0));
    assert_eq!(verdict(&vec![b'n'; 5_000_000]), long);
    assert_eq!(verdict(&equal_names(1_000_000, 1)), many);
}

#[test]
fn random_names() {
    let mut counts = [0; 3];
    each("names", 6_000, |rng, _| {
        let names = some_names(rng);
        let text = names_text(rng, &names);
        counts[match assert_same_names(&text) {
            Ok(count) => {
                assert_eq!(count as usize, names.len());
                0
            }
            Err(Refusal {
                reason: TooManyNames,
                ..
            }) => 1,
            Err(_) => 2,
        }] += 1;
    });
    assert!(counts.iter().all(|&c| c > 60), "{counts:?}");
}

#[test]
fn random_reports() {
    let mut counts = [0; 25];
    each("reports", 4_000, |rng, number| {
        let names = some_names(rng);
        let text = names_text(rng, &names);
        let wrong = rng.one_in(8);
        let count = if wrong {
            (names.len() + rng.below(3)).saturating_sub(1)
        } else {
            names.len()
        };
        let lines = some_lines(rng, count);
        let mut words = lines.as_flattened();
        if wrong && !words.is_empty() && rng.one_in(4) {
            words = &words[..words.len() - 1];
        }
        let spare = rng.between(1, 40);
        let given = assert_same_report(&text, words, prefill(number), spare);
        counts[given.map_or_else(|r| r.reason.number() as usize, |_| 0)] += 1;
    });
    let came = [0, 1, 20, 21].map(|number| counts[number]);
    assert!(came.iter().all(|&c| c > 50), "{came:?}");
    assert_eq!(came.iter().sum::<u32>(), 4_000);
}

/// The refusals of names come first, then 1, then 9.
#[test]
fn order_of_refusals() {
    let good = (equal_names(2, 3), vec![0; 14]);
    let refused = |names: &[u8], lines: &[u32], reason: Reason| {
        for prefill in Prefill::ALL {
            for len in [0, 1, 1_000, REPORT_ROOM] {
                assert_library_report(names, lines, len, prefill, Err(reason.at(0)));
            }
            assert_eq!(
                assert_same_report(names, lines, prefill, 5),
                Err(reason.at(0))
            );
        }
    };
    for words in [0, 1, 6, 7, 13, 15, 20, 21, 28, 7 * 256, 7 * 257] {
        refused(&good.0, &vec![0; words], PartialNode);
        refused(&equal_names(257, 1), &vec![0; words], TooManyNames);
        refused(&equal_names(257, 256), &vec![0; words], TooManyNames);
        refused(&equal_names(2, 256), &vec![0; words], NameTooLong);
    }
    refused(&equal_names(257, 1), &[0; 7 * 257], TooManyNames);
    refused(b"", &[0; 7], PartialNode);
    refused(b"\n\n", &[0], PartialNode);
    let text = assert_same_report(&good.0, &good.1, Prefill::Ones, 5).expect("written");
    let expected = "nnn 0 0 0 0 0 0 0\nnnn 0 0 0 0 0 0 0\ntotal 2 0 0 0 0 0 0 0 0 0\n";
    assert_eq!(String::from_utf8_lossy(&text), expected);
}

/// Every buffer that is too short, byte by byte, and some that are longer.
#[test]
fn short_buffers() {
    each("short report buffers", 30, |rng, number| {
        let names = [&b"a"[..], b"\xff\0 \r", b"name"].map(<[u8]>::to_vec);
        let names = &names[..rng.below(4)];
        let text = names_text(rng, names);
        let lines = some_lines(rng, names.len());
        let lines = lines.as_flattened();
        let expected = report(&text, lines).expect("accepted");
        for len in 0..expected.len() + 20 {
            assert_library_report(&text, lines, len, prefill(number), Ok(&expected));
        }
    });
}

/// The longest report there is, in the room that is always enough and in more.
#[test]
fn the_longest_report() {
    assert_eq!(REPORT_ROOM, 103_384);
    let names = equal_names(256, 255);
    for number in [0, MAX] {
        let lines = vec![[number, MAX, MAX, MAX, MAX, MAX, MAX]; 256];
        let lines = lines.as_flattened();
        let expected = report(&names, lines).expect("accepted");
        assert!(expected.len() <= REPORT_ROOM);
        for len in [REPORT_ROOM, REPORT_ROOM + 70_000] {
            assert_library_report(&names, lines, len, Prefill::Counting, Ok(&expected));
        }
        let given = assert_same_report(&names, lines, Prefill::Pattern, 7);
        assert_eq!(given, Ok(expected));
    }
}
