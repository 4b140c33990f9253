//! Lifting and measuring texts: comparing the library with the reference's
//! reader, lifter and writers, text by text.

use super::forms::FORMATS;
use super::{reference_form, reference_table, Lent, Prefill, TOO_SHORT};
use super::{UNANSWERED, UNANSWERED_LONG};
use wakubinryo::answer::{lift_text_words, measure_text_words};
use wakubinryo::{lift_text, lift_text_into, measure_text, raw};
use wakubinryo::{measure, prenex_form, read_qcir};
use wakubinryo::{Format, LiftTextAnswer, LiftedText, MeasureTextAnswer};
use wakubinryo::{Reason, Refusal, Sizes, Table, WrittenText};

const MEMORY_TOO_SHORT: Refusal = Reason::MemoryTooShort.at(0);

/// What a text is lifted to: a text in each of the two formats.
#[derive(Debug, PartialEq, Eq)]
pub struct Lifted {
    pub sizes: Sizes,
    /// In the order of `Format::ALL`, which is that of [`FORMATS`].
    texts: [Vec<u8>; 2],
}

impl Lifted {
    pub fn text(&self, format: Format) -> &[u8] {
        &self.texts[format as usize]
    }
}

pub fn sizes_of(lifted: &Result<Lifted, Refusal>) -> Result<Sizes, Refusal> {
    lifted.as_ref().map(|l| l.sizes).map_err(|r| *r)
}

/// By the reference.
pub fn reference_lift_text(text: &[u8]) -> Result<Lifted, Refusal> {
    let (read, table) = reference_table(text);
    read?;
    let (sizes, form) = reference_form(&table);
    let texts = FORMATS.map(|format| (format.reference_text)(&form).expect("written"));
    let sizes = sizes.expect("accepted");
    Ok(Lifted { sizes, texts })
}

/// By the library step by step: it reads, measures, lifts and writes.
pub fn lift_text_by_steps(text: &[u8]) -> Result<Lifted, Refusal> {
    let Table { words, list } = read_qcir(text)?;
    let sizes = measure(&words, &list)?;
    let form = prenex_form(&words, &list)?;
    let texts = FORMATS.map(|format| (format.text)(&form).expect("written"));
    Ok(Lifted { sizes, texts })
}

/// A lift of a text to the format of this number, with its answer as words: the
/// library's own, or the wrapper's.
pub type LiftText = fn(&[u8], u32, &mut [u8]) -> LiftTextAnswer;

pub const LIBRARY_LIFT_TEXT: LiftText = |text, format, out| {
    let mut answer = LiftTextAnswer::default().map(|_| UNANSWERED_LONG);
    raw::lift_text(text, format, out, &mut answer);
    answer
};

const WRAPPED_LIFT_TEXT: LiftText = |text, number, out| {
    let mut formats = Format::ALL.into_iter();
    let format = formats.find(|format| format.number() == number);
    lift_text_words(lift_text_into(text, format.expect("a format"), out))
};

/// A lift in memory lent for the form's nodes.
pub fn library_lift_text_in(
    text: &[u8],
    format: u32,
    nodes: &mut [u32],
    out: &mut [u8],
) -> LiftTextAnswer {
    let mut answer = LiftTextAnswer::default().map(|_| UNANSWERED_LONG);
    raw::lift_text_in(text, format, nodes, out, &mut answer);
    answer
}

/// Lifts in memory for so many words of nodes into a buffer of this length and
/// holds the answer, the memory and the buffer to what the reference lifts: its
/// form's nodes stand in the memory unless that is too short, or the text is
/// refused.
fn assert_lent_memory(
    text: &[u8],
    format: u32,
    memory: usize,
    len: usize,
    prefill: Prefill,
    expected: Result<(Sizes, &[u32], &[u8]), Refusal>,
) {
    let mut nodes = Lent::new(memory, prefill, 1);
    let mut out = Lent::new(len, prefill, 0);
    let given = library_lift_text_in(text, format, nodes.lend(), out.lend());
    let (answer, in_memory, in_out) = match expected {
        Err(refusal) => (Err(refusal), &[][..], &[][..]),
        Ok((_, form, _)) if form.len() > memory => (Err(MEMORY_TOO_SHORT), &[][..], &[][..]),
        Ok((_, form, lifted)) if lifted.len() > len => (Err(TOO_SHORT), form, &[][..]),
        Ok((sizes, form, lifted)) => {
            let bytes = lifted.len();
            (Ok(WrittenText { bytes, sizes }), form, lifted)
        }
    };
    let answer = lift_text_words(answer);
    assert_eq!(given, answer, "answer in {memory} words, {len} bytes");
    nodes.assert_holds(in_memory, "nodes");
    out.assert_holds(in_out, "out");
}

/// Holds the library's lift in lent memory to what the reference lifts, memory
/// and buffer being exact, longer by `spare` or too short.
pub fn assert_lent(text: &[u8], prefill: Prefill, spare: usize, lifted: &Result<Lifted, Refusal>) {
    let (_, table) = reference_table(text);
    let form = lifted
        .as_ref()
        .map_or(vec![], |_| reference_form(&table).1.nodes);
    for format in Format::ALL {
        let expected = match lifted {
            Ok(l) => Ok((l.sizes, &form[..], l.text(format))),
            Err(refusal) => Err(*refusal),
        };
        let bytes = lifted.as_ref().map_or(0, |l| l.text(format).len());
        let around = |exact: usize| [exact, exact + spare, exact.saturating_sub(1)];
        for memory in around(form.len()) {
            for len in around(bytes) {
                let number = format.number();
                assert_lent_memory(text, number, memory, len, prefill, expected);
            }
        }
    }
    for memory in [0, form.len()] {
        let refusal = Err(Reason::UnknownFormat.at(0));
        assert_lent_memory(text, 3, memory, spare, prefill, refusal);
    }
}

pub fn library_measure_text(text: &[u8]) -> MeasureTextAnswer {
    let mut answer = MeasureTextAnswer::default().map(|_| UNANSWERED);
    raw::measure_text(text, &mut answer);
    answer
}

/// Lifts into a buffer of this length and holds answer and buffer to what is
/// expected.
fn assert_lift_text(
    lift: LiftText,
    text: &[u8],
    format: u32,
    len: usize,
    prefill: Prefill,
    expected: Result<(Sizes, &[u8]), Refusal>,
) {
    let mut out = Lent::new(len, prefill, 0);
    let given = lift(text, format, out.lend());
    let written = expected.map(|(sizes, text)| WrittenText {
        bytes: text.len(),
        sizes,
    });
    let answer = lift_text_words(written);
    assert_eq!(given, answer, "answer of lift_text, {format}, {len} bytes");
    out.assert_holds(expected.map_or(&[], |(_, text)| text), "out");
}

/// Lifts by the library into a buffer of this length and holds answer and buffer
/// to what the reference lifts, the buffer being too short or not.
pub fn assert_library(
    text: &[u8],
    format: Format,
    len: usize,
    prefill: Prefill,
    lifted: &Result<Lifted, Refusal>,
) {
    let expected = match lifted {
        Ok(lifted) if lifted.text(format).len() > len => Err(TOO_SHORT),
        Ok(lifted) => Ok((lifted.sizes, lifted.text(format))),
        Err(refusal) => Err(*refusal),
    };
    let lift = LIBRARY_LIFT_TEXT;
    assert_lift_text(lift, text, format.number(), len, prefill, expected);
}

/// Holds the library to a refusal, whatever the format's number.
pub fn assert_refused(text: &[u8], format: u32, len: usize, prefill: Prefill, refusal: Refusal) {
    assert_lift_text(LIBRARY_LIFT_TEXT, text, format, len, prefill, Err(refusal));
}

/// Holds the library to what the reference lifts, into buffers that are exact,
/// longer by `spare` and, for an accepted text, too short.
pub fn assert_same_lifting(text: &[u8], prefill: Prefill, spare: usize) -> Result<Lifted, Refusal> {
    let lifted = reference_lift_text(text);
    let before = text.to_vec();
    for format in Format::ALL {
        let exact = lifted.as_ref().map_or(0, |l| l.text(format).len());
        let mut lengths = vec![exact, exact + spare];
        if exact > 0 {
            lengths.extend([exact - 1, exact - 1 - spare % exact]);
        }
        for len in lengths {
            assert_library(text, format, len, prefill, &lifted);
        }
    }
    let measured = measure_text_words(sizes_of(&lifted));
    assert_eq!(library_measure_text(text), measured, "measure_text");
    assert!(*text == before, "the text has changed");
    lifted
}

/// Holds the wrapper, and the library's calls step by step, to what the reference
/// lifts.
pub fn assert_other_ways(text: &[u8], prefill: Prefill, lifted: &Result<Lifted, Refusal>) {
    assert_eq!(lift_text_by_steps(text), *lifted);
    assert_eq!(measure_text(text), sizes_of(lifted));
    for format in Format::ALL {
        let wrapped = lift_text(text, format);
        let expected = lifted.as_ref().map(|l| LiftedText {
            text: l.text(format).to_vec(),
            sizes: l.sizes,
        });
        assert_eq!(wrapped, expected.map_err(|r| *r));
        let number = format.number();
        let lift = WRAPPED_LIFT_TEXT;
        match lifted {
            Ok(l) => {
                let exact = l.text(format).len();
                let written = Ok((l.sizes, l.text(format)));
                assert_lift_text(lift, text, number, exact, prefill, written);
                assert_lift_text(lift, text, number, exact - 1, prefill, Err(TOO_SHORT));
            }
            Err(refusal) => assert_lift_text(lift, text, number, 9, prefill, Err(*refusal)),
        }
    }
}
