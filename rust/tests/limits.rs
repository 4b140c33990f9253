//! What is largest: the form, a block, the free variables, the texts of a form, the
//! stack of a call.

mod common;

use common::forms::FORMATS;
use common::texts::{assert_library, assert_same_lifting, library_measure_text};
use common::texts::{library_lift_text_in, reference_lift_text, sizes_of, LIBRARY_LIFT_TEXT};
use common::{assert_free_variables, assert_same, each, library_measure, some_nodes, Case};
use common::{reference_form, reference_free_variables, reference_left, Prefill, TOO_SHORT};
use common::{LIBRARY_FREE_VARIABLES, LIBRARY_LIFT, LIBRARY_REMOVE};
use std::thread;
use wakubinryo::answer::{count_words, lift_text_words, size_words, text_words};
use wakubinryo::answer::{measure_text_words, WrittenText};
use wakubinryo::form_check::MOST_NODES;
use wakubinryo::generate::{accepted, empty_nest, largest_form, most_free_variables};
use wakubinryo::generate::{every_fourth_empty, parity_chain, Profile, Rng, Table};
use wakubinryo::generate_forms::FAMILIES;
use wakubinryo::generate_qcir::{self, largest_lift, with_length};
use wakubinryo::qcir::LONGEST;
use wakubinryo::{read_qcir, Format, PrenexForm, Sizes, NODES_ROOM, WIDTH};

#[test]
fn the_largest_form() {
    let table = largest_form();
    let sizes = assert_same(&table, &Prefill::ALL, 3);
    // 4,096 + 5 * 4,094 + 4 * 4,096 nodes, 4,094 + 1 blocks, 2 * 4,096 + 4,094
    // variables.
    let expected = [4096, 4094, 4096, 4094, 40_950, 4095, 12_286];
    assert_eq!(sizes, Ok(Sizes::from_words(expected)));
    let (_, form) = reference_form(&table);
    // Above 65,535 come names, copies and definition variables. The variable
    // node has the last name, the outermost block's.
    assert_eq!(form.variables.iter().max(), Some(&77_821));
    assert_eq!(form.nodes[..4], [2, 65_535 + 4096, 0, 0]);
}

#[test]
fn the_largest_block() {
    let list: Vec<u32> = (61_440..=65_535).collect();
    let nodes = [[2, 65_535, 0, 0], [6, 0, 4096, 0], [3, 1, 0, 0]];
    let table = Table::new(&nodes, &list);
    let sizes = assert_same(&table, &Prefill::ALL, 3);
    let expected = [3, 1, 4096, 1, 3 + 4 * 4096 + 5, 2, 2 * 4096 + 1];
    assert_eq!(sizes, Ok(Sizes::from_words(expected)));
    let (_, form) = reference_form(&table);
    assert_eq!(form.variables.last(), Some(&(65_535 + 2 * 4096 + 1)));
}

#[test]
fn the_most_free_variables() {
    let table = most_free_variables();
    assert_eq!(table.len(), 4095);
    let names: Vec<u32> = (65_535 - 2047..=65_535).collect();
    let call = LIBRARY_FREE_VARIABLES;
    for prefill in Prefill::ALL {
        assert_free_variables(call, &table, 2048, prefill, Ok(2048), &names);
        assert_free_variables(call, &table, 2047, prefill, Err(TOO_SHORT), &[]);
    }
    assert!(assert_same(&table, &Prefill::ALL, 3).is_ok());
}

/// No more than (n + 1) / 2 of n nodes are leaves, so a buffer for that many
/// names is always long enough.
#[test]
fn one_free_variable_in_two_nodes() {
    let mut full = 0;
    each("tables by their leaves", 10_000, |rng, number| {
        let nodes = some_nodes(rng, number);
        let profile = Profile::random(rng, nodes);
        let table = accepted(rng, &profile);
        let (answer, names) = reference_free_variables(&table);
        let most = nodes.div_ceil(2);
        assert!(names.len() <= most, "{} of {nodes} nodes", names.len());
        let prefill = Prefill::ALL[number as usize % 4];
        assert_free_variables(
            LIBRARY_FREE_VARIABLES,
            &table,
            most,
            prefill,
            answer,
            &names,
        );
        full += u32::from(names.len() == most);
    });
    assert!(full > 300, "only {full} with as many as there may be");
}

/// The texts of the largest form of a text, as it is and with 65,536 bytes, into
/// buffers of every sort and into the room that is always enough.
#[test]
fn the_largest_texts() {
    let text = largest_lift();
    let longest = with_length(&mut Rng::new(1), &text, LONGEST).expect("shorter");
    for (text, prefill) in [(text, Prefill::Counting), (longest, Prefill::Pattern)] {
        let lifted = assert_same_lifting(&text, prefill, 9);
        for format in Format::ALL {
            assert_library(&text, format, format.room(), prefill, &lifted);
        }
        let lifted = lifted.expect("accepted");
        // 4,095 + 5 * 4,094 + 4 * 4,095 nodes and 1 + 2 * 4,095 + 4,094
        // variables: the root block adds none but its own variable.
        let expected = [4096, 4095, 4096, 4095, 40_945, 4095, 12_285];
        assert_eq!(lifted.sizes, Sizes::from_words(expected));
        let bytes = Format::ALL.map(|format| lifted.text(format).len());
        assert_eq!(bytes, [663_335, 1_973_545]);
    }
}

/// The stack that include/wakubinryo.h says a thread must have for a call about
/// tables, for one that reads or writes a text or lifts one in lent memory, and
/// for one that lifts a text in memory of its own.
const STACK: usize = 256 * 1024;
const STACK_OF_TEXTS: usize = 704 * 1024;
const STACK_OF_LIFTING_A_TEXT: usize = 1_344 * 1024;

/// Makes calls in a thread with no more stack than this.
fn with_stack<T: Send + 'static>(stack: usize, calls: impl FnOnce() -> T + Send + 'static) -> T {
    let thread = thread::Builder::new().stack_size(stack).spawn(calls);
    thread.expect("a thread").join().expect("no panic")
}

#[test]
fn stack_of_the_calls() {
    for table in [largest_form(), most_free_variables()] {
        let (sizes, expected) = reference_form(&table);
        let (count, expected_names) = reference_free_variables(&table);
        let mut form = PrenexForm::with_sizes(&sizes.expect("accepted"));
        let mut names = vec![0; expected_names.len()];
        let given = with_stack(STACK, move || {
            let measured = library_measure(&table);
            let PrenexForm {
                nodes,
                prefix,
                variables,
            } = &mut form;
            let lifted = LIBRARY_LIFT(&table, nodes, prefix, variables);
            let listed = LIBRARY_FREE_VARIABLES(&table, &mut names);
            (measured, lifted, form, listed, names)
        });
        let sizes = size_words(sizes);
        let counts = count_words(count);
        assert!(given == (sizes, sizes, expected, counts, expected_names));
    }
}

#[test]
fn stack_of_removing_empty_blocks() {
    for table in [
        empty_nest(4096),
        every_fourth_empty(parity_chain, 4096),
        largest_form(),
    ] {
        let expected = reference_left(&table).expect("not refused");
        let count = count_words(Ok((expected.len() / WIDTH) as u32));
        let mut nodes = vec![0; expected.len()];
        let given = with_stack(STACK, move || {
            let left = LIBRARY_REMOVE(&table, &mut nodes);
            (left, nodes)
        });
        assert!(given == (count, expected));
    }
}

#[test]
fn stack_of_writing() {
    for format in FORMATS {
        for (name, family) in FAMILIES {
            let _case = Case(name, 0);
            let form = family(MOST_NODES);
            let expected = (format.reference_text)(&form).expect("written");
            let mut text = vec![0; expected.len()];
            let given = with_stack(STACK_OF_TEXTS, move || {
                let answer = (format.library)(&form, &mut text);
                (answer, text)
            });
            assert!(given == (text_words(Ok(expected.len())), expected));
        }
    }
}

#[test]
fn stack_of_lifting_a_text() {
    let mut texts = vec![largest_lift()];
    texts.extend(generate_qcir::FAMILIES.map(|(_, family)| family(LONGEST)));
    for text in texts {
        let lifted = reference_lift_text(&text);
        let sizes = sizes_of(&lifted);
        for format in Format::ALL {
            let expected = lifted.as_ref().map_or(vec![], |l| l.text(format).to_vec());
            let bytes = expected.len();
            let answer = lift_text_words(sizes.map(|sizes| WrittenText { bytes, sizes }));
            let buffers = || (text.clone(), vec![0; bytes]);
            let (own, mut out) = buffers();
            let given = with_stack(STACK_OF_LIFTING_A_TEXT, move || {
                let answer = LIBRARY_LIFT_TEXT(&own, format.number(), &mut out);
                (answer, out)
            });
            assert!(given == (answer, expected.clone()), "{format:?}");
            let (lent, mut out) = buffers();
            let given = with_stack(STACK_OF_TEXTS, move || {
                let mut nodes = vec![0; NODES_ROOM];
                let answer = library_lift_text_in(&lent, format.number(), &mut nodes, &mut out);
                (answer, out)
            });
            assert!(given == (answer, expected), "{format:?} in lent memory");
        }
        let read = text.clone();
        let table = with_stack(STACK_OF_TEXTS, move || read_qcir(&read).map(|_| ()));
        assert_eq!(table, sizes.map(|_| ()));
        let measured = with_stack(STACK_OF_TEXTS, move || library_measure_text(&text));
        assert_eq!(measured, measure_text_words(sizes));
    }
}
