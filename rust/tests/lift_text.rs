//! From text to text in one call: the library against the reference's reader,
//! lifter and writers on many texts, good and damaged, and against its own calls
//! step by step. The largest texts are in limits.rs.

mod common;
mod programs;

use common::files;
use common::forms::prefill;
use common::texts::{
    assert_lent, assert_library, assert_other_ways, assert_refused, assert_same_lifting,
};
use common::texts::{lift_text_by_steps, reference_lift_text, Lifted};
use common::vectors::each_read_vector;
use common::{each, Prefill, TOO_SHORT};
use programs::{refused, repository, run, tool, Left};
use std::fs;
use wakubinryo::generate_qcir::{circuit, good_file, spelled, with_length, Layout, Profile};
use wakubinryo::qcir::LONGEST;
use wakubinryo::words::{self, figures};
use wakubinryo::Reason::{BufferTooShort, MalformedText, UnknownFormat};
use wakubinryo::{brute, qdimacs, read_back};
use wakubinryo::{lift_text, measure_text, Format, Refusal};

const TEXT: &[u8] = b"#QCIR-G14\nfree(1)\noutput(4)\n3=exists(2;2)\n4=xor(1,-3)\n";

/// Holds the library to the reference: the call, its wrapper, and the calls step
/// by step.
fn assert_all(text: &[u8], prefill: Prefill, spare: usize) -> Result<Lifted, Refusal> {
    let lifted = assert_same_lifting(text, prefill, spare);
    assert_other_ways(text, prefill, &lifted);
    assert_lent(text, prefill, spare, &lifted);
    lifted
}

#[test]
fn numbers_and_rooms_of_the_formats() {
    assert_eq!(Format::ALL.map(Format::number), [1, 2]);
    assert_eq!(Format::ALL.map(Format::room), [1_396_774, 2_711_620]);
}

#[test]
fn a_text_and_what_it_is_lifted_to() {
    let lifted = assert_all(TEXT, Prefill::Ones, 5).expect("accepted");
    assert_eq!(lifted.sizes.words(), [5, 1, 1, 1, 14, 2, 3]);
    let texts = Format::ALL.map(|format| String::from_utf8_lossy(lifted.text(format)));
    assert_eq!(
        texts[0],
        "#QCIR-G14\nfree(1)\nforall(4)\nexists(3, 5)\noutput(11)\n6 = xor(1, 5)\n\
         7 = xor(5, 3)\n8 = xor(3, 4)\n9 = and(-5, 8)\n10 = and(-7, -9)\n11 = and(-6, 10)\n"
    );
    // Six operators of four clauses, a not of two, and the root's.
    let start = "p cnf 12 27\ne 1 0\na 4 0\ne 3 5 6 7 8 9 10 11 12 0\n5 6 0\n-5 -6 0\n1 6 -7 0\n";
    assert!(texts[1].starts_with(start), "{}", texts[1]);
    assert!(texts[1].ends_with("\n12 0\n"), "{}", texts[1]);
}

#[test]
fn every_vector_of_reading() {
    let mut accepted = 0;
    each_read_vector(|vector| {
        for prefill in Prefill::ALL {
            let lifted = assert_all(&vector.text, prefill, 7);
            let (number, position) = match &lifted {
                Ok(_) => (0, 0),
                Err(refusal) => (refusal.reason.number(), refusal.position),
            };
            assert_eq!([number, position as u32], vector.read[..2]);
            accepted += u32::from(lifted.is_ok());
        }
    });
    assert_eq!(accepted, 4 * 227);
}

#[test]
fn good_files() {
    files::good_files(2_000, |_, text, prefill, spare| {
        assert_all(text, prefill, spare).expect("accepted");
    });
}

#[test]
fn damaged_files() {
    files::damaged_files(8_000, assert_all);
}

#[test]
fn files_with_names_exchanged() {
    files::files_with_names_exchanged(6_000, assert_same_lifting);
}

#[test]
fn files_at_the_limits_of_tables() {
    files::files_at_the_limits_of_tables(30, assert_same_lifting);
}

#[test]
fn families() {
    files::families(3, assert_same_lifting);
}

/// A text of 65,536 bytes is read, one of 65,537 refused before it is looked at.
#[test]
fn files_at_the_limit_of_length() {
    each("limit of length", 40, |rng, number| {
        let gates = rng.between(0, 300);
        let (_, text) = good_file(rng, gates);
        let longest = with_length(rng, &text, LONGEST).expect("shorter");
        let lifted = assert_all(&longest, prefill(number), 3);
        assert_eq!(lifted, reference_lift_text(&text));
        for length in [LONGEST + 1, 2 * LONGEST] {
            let longer = with_length(rng, &text, length).expect("shorter");
            let lifted = assert_all(&longer, prefill(number), 3);
            assert_eq!(lifted, Err(MalformedText.at(0)));
        }
    });
    for (byte, position) in [(b'#', 1), (b'?', 0)] {
        let refusal = Err(MalformedText.at(position));
        assert_eq!(assert_all(&[byte; LONGEST], Prefill::Ones, 3), refusal);
    }
}

/// Every buffer that is too short, byte by byte, and some that are longer.
#[test]
fn short_buffers() {
    let mut lengths = 0;
    each("short buffers", 40, |rng, number| {
        let gates = rng.between(0, 6);
        let (_, text) = good_file(rng, gates);
        let lifted = reference_lift_text(&text);
        for format in Format::ALL {
            let exact = lifted.as_ref().expect("accepted").text(format).len();
            if exact > 600 {
                continue;
            }
            for len in 0..exact + 20 {
                assert_library(&text, format, len, prefill(number), &lifted);
            }
            lengths += exact;
        }
    });
    assert!(lengths > 4_000, "only {lengths} lengths that are too short");
}

/// A buffer of the room that is always enough, and a longer one.
#[test]
fn long_buffers() {
    files::good_files(24, |_, text, prefill, spare| {
        let lifted = reference_lift_text(text);
        assert!(lifted.is_ok());
        for format in Format::ALL {
            for len in [format.room(), format.room() + 70_000 + spare] {
                assert_library(text, format, len, prefill, &lifted);
            }
        }
    });
}

/// An unknown format is refused before the text and the buffer are looked at.
#[test]
fn unknown_formats() {
    let mut texts = vec![TEXT.to_vec(), vec![b'#'; LONGEST + 1]];
    texts.extend(refused().into_iter().map(|(text, _)| text.into_bytes()));
    for text in &texts {
        for format in [0, 3, 4, 5, 6, 257, 1 << 16 | 2, 1 << 31 | 1, u32::MAX] {
            for len in [0, 1, 300] {
                for prefill in Prefill::ALL {
                    assert_refused(text, format, len, prefill, UnknownFormat.at(0));
                }
            }
        }
    }
}

/// A text that is refused is so by every buffer, also by an empty one.
#[test]
fn refusals_of_reading_come_first() {
    for (text, _) in refused() {
        let text = text.as_bytes();
        let refusal = measure_text(text).expect_err("refused");
        assert_ne!(refusal.reason, BufferTooShort);
        for format in Format::ALL {
            for len in [0, 1, 300] {
                assert_refused(text, format.number(), len, Prefill::Counting, refusal);
            }
        }
        assert_eq!(assert_all(text, Prefill::Pattern, 300), Err(refusal));
    }
    for format in Format::ALL {
        assert_refused(TEXT, format.number(), 0, Prefill::Zeros, TOO_SHORT);
    }
}

/// The QCIR text has the file's truth value, and the QDIMACS text is true exactly
/// if some valuation makes the file true, by brute force.
#[test]
fn the_texts_have_the_files_truth() {
    let mut compared = [0; 2];
    each("truth of lifted texts", 2_500, |rng, _| {
        let profile = Profile::tiny(rng);
        let circuit = circuit(rng, &profile);
        let layout = Layout::random(rng);
        let text = spelled(rng, &circuit, layout);
        let [qcir, clauses] = Format::ALL.map(|format| {
            let lifted = lift_text(&text, format);
            lifted.expect("accepted").text
        });
        let back = read_back::circuit(&qcir).expect("a file");
        if back.bound_count() > 8 || circuit.free.len() > 6 {
            return;
        }
        let mut satisfiable = false;
        for mut valuation in brute::valuations(&circuit.free) {
            let value = circuit.value(&mut valuation);
            assert_eq!(back.value(&mut valuation), value, "under {valuation:?}");
            satisfiable |= value;
        }
        let problem = qdimacs::read(&clauses).expect("a file");
        assert_eq!(problem.fault(), None);
        assert_eq!(problem.value(), satisfiable);
        compared[usize::from(satisfiable)] += 1;
    });
    assert!(compared.iter().all(|&c| c > 300), "{compared:?}");
}

/// A call keeps nothing: after another text, and in threads at once, a text has
/// the same answer.
#[test]
fn calls_at_once() {
    let calls = || {
        files::good_files(100, |_, text, _, _| {
            let lifted = lift_text_by_steps(text).expect("accepted");
            for format in Format::ALL {
                let text = lift_text(text, format).expect("accepted").text;
                assert!(text == lifted.text(format));
            }
        });
    };
    std::thread::scope(|scope| {
        for thread in [scope.spawn(calls), scope.spawn(calls), scope.spawn(calls)] {
            thread.join().expect("no panic");
        }
    });
}

/// What the tool leaves for a text that is answered so.
fn left(text: &[u8], answer: Result<Vec<u8>, Refusal>) -> Left {
    match answer {
        Ok(output) => Left::new(0, &String::from_utf8_lossy(&output), ""),
        Err(r) => Left::new(1, "", &format!("{}\n", words::refused(&r, text))),
    }
}

#[test]
fn the_tool_prints_what_the_calls_answer() {
    let assert_printed = |text: &[u8]| {
        for (name, format) in [("qcir", Format::Qcir), ("qdimacs", Format::Qdimacs)] {
            let lifted = lift_text(text, format).map(|lifted| lifted.text);
            let printed = run(tool(), &["lift", "--format", name], text);
            assert_eq!(printed, left(text, lifted));
        }
        let measured = measure_text(text).map(|sizes| figures(&sizes).into_bytes());
        assert_eq!(run(tool(), &["measure"], text), left(text, measured));
    };
    for name in ["adder_box", "comparators", "comparators_unfillable"] {
        let file = repository("examples").join(name).with_extension("qcir");
        assert_printed(&fs::read(file).expect("the example"));
    }
    files::good_files(40, |_, text, _, _| assert_printed(text));
    files::damaged_files(80, |text, _, _| {
        assert_printed(text);
        measure_text(text)
    });
}
