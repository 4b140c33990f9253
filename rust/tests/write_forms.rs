//! Writing prenex forms in either format: what is refused, and buffers of every
//! length. What the texts are is in qcir_write.rs and qdimacs.rs.

mod common;

use common::forms::{form, prefill, FORMATS, X, Y};
use common::{each, Prefill, TOO_SHORT};
use wakubinryo::answer::text_words;
use wakubinryo::form_check::HIGHEST_NAME;
use wakubinryo::generate::Rng;
use wakubinryo::generate_forms::{good_form, Profile};
use wakubinryo::Reason::*;
use wakubinryo::{Node, PrenexForm, Reason};

fn assert_refused(form: &PrenexForm, reason: Reason, position: usize) {
    for format in FORMATS {
        format.assert_refused(form, reason, position);
    }
}

#[test]
fn malformed_matrices() {
    let refused = |nodes: &[Node], position| {
        assert_refused(&form(nodes, &[], &[]), MalformedMatrix, position);
    };
    let not = |operand| [3, operand, 0, 0];
    for kind in [0, 5, 6, 7, 8, 257, 0x8000_0001, u32::MAX] {
        refused(&[[kind, 0, 0, 0]], 0);
        refused(&[X, [kind, 0, 0, 0]], 1);
    }
    for wrong in [
        [1, 2, 0, 0],
        [1, u32::MAX, 0, 0],
        [1, 0, 1, 0],
        [1, 0, 0, 1],
        [2, 0, 0, 0],
        [2, HIGHEST_NAME + 1, 0, 0],
        [2, u32::MAX, 0, 0],
        [2, 1, 1, 0],
        [2, 1, 0, 1],
        [3, 0, 1, 0],
        [3, 0, 0, 1],
        [3, 1, 0, 0],
        [3, 2, 0, 0],
        [3, 0x4000_0000, 0, 0],
        [3, u32::MAX, 0, 0],
        [4, 16, 0, 0],
        [4, u32::MAX, 0, 0],
        [4, 8, 1, 0],
        [4, 8, 0, 1],
        [4, 8, 0x4000_0000, 0],
        [4, 8, 0, u32::MAX],
    ] {
        refused(&[X, wrong], 1);
        // Before the tree test, and before later nodes.
        refused(&[X, wrong, [9, 9, 9, 9], X], 1);
    }
    // Named twice, or by none.
    refused(&[X, [4, 8, 0, 0]], 0);
    refused(&[X, X], 0);
    refused(&[X, not(0), X], 1);
    refused(&[X, Y, [4, 12, 0, 0]], 0);
    refused(&[X, not(0), not(1), X, [4, 8, 1, 3]], 1);
    // Ragged lengths.
    for length in (0..12).filter(|length| length % 4 != 0 || *length == 0) {
        let mut ragged = form(&[X, not(0), not(1)], &[], &[]);
        ragged.nodes.truncate(length);
        assert_refused(&ragged, MalformedMatrix, 0);
    }
}

#[test]
fn malformed_prefixes() {
    let refused = |prefix: &[[u32; 3]], variables: &[u32], position| {
        let form = form(&[X], prefix, variables);
        assert_refused(&form, MalformedPrefix, position);
    };
    let accepted = |prefix: &[[u32; 3]], variables: &[u32]| {
        let form = form(&[X], prefix, variables);
        for format in FORMATS {
            format.assert_written(&form, Prefill::Counting, 5);
        }
    };
    for kind in [0, 1, 4, 7, 8, 261, 0x8000_0005, u32::MAX] {
        refused(&[[kind, 0, 0]], &[], 0);
        refused(&[[5, 0, 1], [kind, 1, 1]], &[2, 3], 1);
    }
    // An empty range may begin at the end of the list, not after it.
    for length in 0..3 {
        let list = &[2, 3, 4][..length];
        accepted(&[[6, length as u32, 0]], list);
        refused(&[[6, length as u32 + 1, 0]], list, 0);
    }
    for (first, count) in [
        (0, 4),
        (1, 3),
        (3, 1),
        (u32::MAX, 0),
        (u32::MAX, 1),
        (u32::MAX, 2),
        (u32::MAX, 4),
        (u32::MAX, u32::MAX),
        (1, u32::MAX),
        (2, u32::MAX - 1),
        (0x8000_0000, 0x8000_0000),
    ] {
        refused(&[[5, first, count]], &[2, 3, 4], 0);
        refused(&[[5, 0, 0], [5, first, count]], &[2, 3, 4], 1);
    }
    // Names.
    for name in [0, HIGHEST_NAME + 1, 0x8000_0001, u32::MAX] {
        refused(&[[5, 0, 3]], &[2, 3, name], 0);
        refused(&[[5, 1, 1], [6, 0, 1]], &[name, 3], 1);
        accepted(&[[5, 1, 1]], &[name, 3]);
    }
    accepted(&[[5, 0, 2]], &[1, HIGHEST_NAME]);
    // Repeated in one block and in another, by another entry and by the same.
    refused(&[[5, 0, 1], [6, 1, 2]], &[1, 4, 4], 1);
    refused(&[[5, 0, 1], [6, 1, 0], [6, 1, 1]], &[4, 4], 2);
    refused(&[[5, 0, 2], [5, 1, 1]], &[4, 5], 1);
    accepted(&[[5, 0, 1], [6, 2, 1]], &[4, 4, 5]);
    // The first such block.
    refused(&[[5, 0, 1], [6, 0, 1], [7, 0, 0]], &[4], 1);
    // Ragged, whatever the blocks are.
    for words in [&[5][..], &[5, 0], &[7, 9, 9, 5], &[5, 0, 0, 7, 0, 0, 5]] {
        let mut ragged = form(&[X], &[], &[]);
        ragged.prefix = words.to_vec();
        assert_refused(&ragged, MalformedPrefix, 0);
    }
}

#[test]
fn order_of_refusals() {
    // 14 before 15, by length and at a node.
    let bad_prefix = [[7, 9, 9]];
    assert_refused(&form(&[], &bad_prefix, &[]), MalformedMatrix, 0);
    let nodes = [X, Y];
    assert_refused(&form(&nodes, &bad_prefix, &[]), MalformedMatrix, 0);
    let nodes = [X, [3, 0, 0, 0], [5, 0, 0, 1]];
    assert_refused(&form(&nodes, &bad_prefix, &[]), MalformedMatrix, 2);
    let mut ragged = form(&nodes, &[], &[]);
    ragged.prefix = vec![5];
    assert_refused(&ragged, MalformedMatrix, 2);
    // Both before 9.
    for (form, refusal) in [
        (form(&[X, X], &[], &[]), MalformedMatrix.at(0)),
        (
            form(&[X], &[[5, 0, 0], [5, 1, 0]], &[]),
            MalformedPrefix.at(1),
        ),
        (form(&[X], &[[5, 0, 1]], &[2]), TOO_SHORT),
    ] {
        for format in FORMATS {
            let answer = (format.library)(&form, &mut []);
            assert_eq!(answer, text_words(Err(refusal)), "{}", format.name);
        }
    }
}

/// Words of any kind, short and long.
#[test]
fn arbitrary_words() {
    let words = |rng: &mut Rng, most: usize, values: &[u32]| -> Vec<u32> {
        let length = rng.between(0, most);
        (0..length).map(|_| rng.pick(values)).collect()
    };
    let mut written = 0;
    each("arbitrary words", 60_000, |rng, number| {
        let form = PrenexForm {
            nodes: match rng.below(3) {
                0 => words(rng, 9, &[0, 1, 2, 3, 4, u32::MAX]),
                _ => [2, 1, 0, 0].to_vec(),
            },
            prefix: words(rng, 9, &[0, 0, 1, 2, 5, 6, 5, 6, u32::MAX]),
            variables: words(rng, 4, &[1, 2, 3, 4, HIGHEST_NAME, 0]),
        };
        let texts = FORMATS.map(|format| format.assert_same_writing(&form, prefill(number), 3));
        assert_eq!(texts[0].as_ref().err(), texts[1].as_ref().err());
        written += u32::from(texts[0].is_ok());
    });
    assert!(written > 1_000, "only {written} written");
}

/// Every buffer that is too short, byte by byte.
#[test]
fn short_buffers() {
    each("short buffers", 100, |rng, number| {
        let nodes = rng.between(1, 40);
        let profile = Profile::random(rng, nodes);
        let form = good_form(rng, &profile);
        for format in FORMATS {
            let text = (format.text)(&form).expect("written");
            for len in 0..text.len() {
                format.assert_library(&form, len, prefill(number), Err(TOO_SHORT));
            }
            for len in text.len()..text.len() + 20 {
                format.assert_library(&form, len, prefill(number), Ok(&text));
            }
        }
    });
}
