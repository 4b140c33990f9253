//! Document 01's "Formulas to try", with the results that it gives.

mod common;

use common::{assert_lift, assert_operations, assert_refused, assert_removal, assert_used_by};
use common::{library_measure, reference_form, reference_free_variables, Prefill};
use common::{LIBRARY_LIFT, NOTHING, TOO_SHORT};
use wakubinryo::brute::{self, Valuation};
use wakubinryo::generate::Table;
use wakubinryo::{Node, PrenexForm, Reason, Sizes};

/// Holds library and reference to a form.
fn assert_form(table: &Table, sizes: [u32; 7], form: &PrenexForm, names: &[u32]) {
    let sizes = Ok(Sizes::from_words(sizes));
    assert_eq!(reference_form(table), (sizes, form.clone()));
    assert_eq!(reference_free_variables(table).1, names);
    assert_operations(table, sizes, form, names, &Prefill::ALL, 7);
}

fn form(nodes: &[Node], prefix: &[[u32; 3]], variables: &[u32]) -> PrenexForm {
    PrenexForm {
        nodes: nodes.concat(),
        prefix: prefix.concat(),
        variables: variables.to_vec(),
    }
}

/// Truth values of table and form, which must agree.
fn truth(table: &Table, form: &PrenexForm, valuation: &[u32]) -> bool {
    let mut valuation: Valuation = valuation.iter().copied().collect();
    let value = brute::table_value(&table.words, &table.list, &mut valuation);
    let of_form = brute::form_value(&form.nodes, &form.prefix, &form.variables, &mut valuation);
    assert_eq!(value, of_form);
    value
}

fn words(words: &[u32]) -> Table {
    Table {
        words: words.to_vec(),
        list: Vec::new(),
    }
}

/// n nodes: a variable and nots.
fn nots(nodes: u32) -> Table {
    let mut table = Table::new(&[[2, 1, 0, 0]], &[]);
    for i in 1..nodes {
        table.push([3, i - 1, 0, 0]);
    }
    table
}

#[test]
fn no_words_or_five() {
    assert_refused(&words(&[]), Reason::PartialNode, 0);
    assert_refused(&words(&[1, 1, 0, 0, 0]), Reason::PartialNode, 0);
}

#[test]
fn nodes_at_the_limit() {
    assert_refused(&nots(4097), Reason::TooLarge, 0);
    let table = nots(4096);
    let same = PrenexForm {
        nodes: table.words.clone(),
        ..PrenexForm::default()
    };
    assert_form(&table, [4096, 0, 0, 0, 4096, 0, 0], &same, &[1]);
}

#[test]
fn list_at_the_limit() {
    let mut table = words(&[1, 1, 0, 0]);
    table.list = vec![0; 4097];
    assert_refused(&table, Reason::TooLarge, 0);
    table.list.pop();
    assert_form(
        &table,
        [1, 0, 0, 0, 1, 0, 0],
        &form(&[[1, 1, 0, 0]], &[], &[]),
        &[],
    );
}

#[test]
fn a_constant() {
    let table = words(&[1, 1, 0, 0]);
    let expected = form(&[[1, 1, 0, 0]], &[], &[]);
    assert_form(&table, [1, 0, 0, 0, 1, 0, 0], &expected, &[]);
    assert!(truth(&table, &expected, &[]));
}

/// Holds library and reference to refusal 16 at node 1, and removal to the nodes
/// given, which have this value where variables are false.
fn assert_empty_block(table: &Table, left: &[Node], value: bool) {
    assert_refused(table, Reason::EmptyBlock, 1);
    let left = Table::new(left, &table.list);
    assert_removal(table, Ok(&left.words), &Prefill::ALL, 7);
    for Table { words, list } in [table, &left] {
        let given = brute::table_value(words, list, &mut Valuation::new());
        assert_eq!(given, value);
    }
}

#[test]
fn an_empty_block_at_the_root() {
    let table = Table::new(&[[1, 0, 0, 0], [5, 0, 0, 0]], &[]);
    assert_empty_block(&table, &[[1, 0, 0, 0]], false);
}

#[test]
fn an_empty_block_below_a_not() {
    let table = Table::new(&[[1, 1, 0, 0], [5, 0, 0, 0], [3, 1, 0, 0]], &[]);
    assert_empty_block(&table, &[[1, 1, 0, 0], [3, 0, 0, 0]], false);
}

/// Variable 1 xor (exists 2: 2 and 1), and its form.
fn exists_below_xor() -> (Table, PrenexForm) {
    let nodes = [
        [2, 1, 0, 0],
        [2, 2, 0, 0],
        [2, 1, 0, 0],
        [4, 8, 1, 2],
        [5, 0, 1, 3],
        [4, 6, 0, 4],
    ];
    let written = [
        [2, 1, 0, 0],
        [2, 3, 0, 0],
        [2, 1, 0, 0],
        [4, 8, 1, 2],
        [2, 5, 0, 0],
        [4, 6, 0, 4],
        [2, 5, 0, 0],
        [4, 9, 6, 3],
        [2, 3, 0, 0],
        [2, 4, 0, 0],
        [4, 9, 8, 9],
        [2, 5, 0, 0],
        [4, 14, 11, 10],
        [4, 8, 7, 12],
        [4, 8, 5, 13],
    ];
    let expected = form(&written, &[[6, 0, 1], [5, 1, 2]], &[4, 3, 5]);
    (Table::new(&nodes, &[2]), expected)
}

#[test]
fn exists_below_an_operator() {
    let (table, expected) = exists_below_xor();
    assert_form(&table, [6, 1, 1, 1, 15, 2, 3], &expected, &[1]);
    assert!(!truth(&table, &expected, &[]));
    assert!(!truth(&table, &expected, &[1]));
}

#[test]
fn room_of_59_words_and_of_60() {
    let (table, expected) = exists_below_xor();
    let done = Ok(Sizes::from_words([6, 1, 1, 1, 15, 2, 3]));
    let assert_room = |words, prefill, answer, form| {
        let lengths = [words, 100, 100];
        assert_lift(LIBRARY_LIFT, &table, lengths, prefill, answer, form);
    };
    for prefill in Prefill::ALL {
        assert_room(59, prefill, Err(TOO_SHORT), &NOTHING);
        assert_room(60, prefill, done, &expected);
    }
    let measured = [0, 0, 0, 0, 6, 1, 1, 1, 15, 2, 3];
    assert_eq!(library_measure(&table), measured);
}

#[test]
fn one_number_bound_twice() {
    let nodes = [
        [2, 1, 0, 0],
        [2, 1, 0, 0],
        [6, 0, 1, 1],
        [4, 8, 0, 2],
        [5, 0, 1, 3],
    ];
    let table = Table::new(&nodes, &[1]);
    let written = [
        [2, 3, 0, 0],
        [2, 2, 0, 0],
        [2, 5, 0, 0],
        [4, 8, 0, 2],
        [2, 5, 0, 0],
        [4, 9, 4, 1],
        [2, 2, 0, 0],
        [2, 4, 0, 0],
        [4, 9, 6, 7],
        [2, 5, 0, 0],
        [4, 11, 9, 8],
        [4, 8, 5, 10],
        [4, 11, 11, 3],
    ];
    let expected = form(&written, &[[5, 0, 2], [6, 2, 2]], &[3, 4, 2, 5]);
    assert_form(&table, [5, 2, 2, 2, 13, 2, 4], &expected, &[]);
    assert!(!truth(&table, &expected, &[]));
}

#[test]
fn a_node_named_twice() {
    let table = Table::new(&[[2, 1, 0, 0], [4, 9, 0, 0]], &[]);
    assert_used_by(&table, 0, [1, 1]);
}

#[test]
fn the_lower_node_is_refused_first() {
    let table = Table::new(&[[2, 0, 0, 0], [3, 1, 0, 0]], &[]);
    assert_refused(&table, Reason::MalformedNode, 0);
}

#[test]
fn a_range_at_the_end_of_the_list() {
    let table = Table::new(&[[2, 1, 0, 0], [5, 1, 1, 0]], &[1]);
    assert_refused(&table, Reason::RangePastEnd, 1);
    let table = Table::new(&[[2, 1, 0, 0], [5, 1, 0, 0]], &[1]);
    assert_empty_block(&table, &[[2, 1, 0, 0]], false);
}

#[test]
fn a_number_twice_in_a_range() {
    let table = Table::new(&[[2, 1, 0, 0], [5, 0, 2, 0]], &[2, 2]);
    assert_refused(&table, Reason::BadVariable, 1);
}

#[test]
fn two_blocks_of_2049_over_one_range() {
    let list: Vec<u32> = (1..=2049).collect();
    let table = Table::new(&[[2, 1, 0, 0], [5, 0, 2049, 0], [6, 0, 2049, 1]], &list);
    assert_refused(&table, Reason::TooManyVariables, 2);
}

#[test]
fn the_highest_variable() {
    let table = words(&[2, 65_535, 0, 0]);
    let expected = form(&[[2, 65_535, 0, 0]], &[], &[]);
    assert_form(&table, [1, 0, 0, 0, 1, 0, 0], &expected, &[65_535]);
    assert_refused(&words(&[2, 65_536, 0, 0]), Reason::MalformedNode, 0);
}

/// Sums of 32-bit fields are exact: nothing wraps.
#[test]
fn ranges_at_the_edges_of_32_bits() {
    for (first, count) in [
        (u32::MAX, 0),
        (u32::MAX, 1),
        (u32::MAX, 2),
        (u32::MAX, u32::MAX),
        (1, u32::MAX),
        (0x8000_0000, 0x8000_0000),
        (2, u32::MAX - 1),
    ] {
        let table = Table::new(&[[2, 1, 0, 0], [5, first, count, 0]], &[1, 2]);
        assert_refused(&table, Reason::RangePastEnd, 1);
    }
}
