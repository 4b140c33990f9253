//! Writing prenex forms as QDIMACS files: the cases of vectors/qdimacs.txt, and
//! the library against the reference on many forms, good and damaged.

mod common;

use common::forms::{self, form, function, nots, open_names, QDIMACS, TRUE, X, Y};
use common::forms::{form_is_satisfiable, table_is_satisfiable};
use common::vectors::each_form_vector;
use common::Prefill;
use wakubinryo::brute;
use wakubinryo::form_check::{HIGHEST_NAME, MOST_NODES};
use wakubinryo::qdimacs::{self, Problem};
use wakubinryo::Reason::*;
use wakubinryo::{PrenexForm, WIDTH};

const VECTORS: &str = include_str!("../vectors/qdimacs.txt");

/// Reads a written file and holds it to what is owed of every one.
fn assert_file(text: &[u8]) -> Problem {
    let problem = qdimacs::read(text).expect("a file");
    assert_eq!(problem.fault(), None);
    problem
}

#[test]
fn reference_and_library_give_every_vector() {
    let mut counts = [0; 16];
    each_form_vector(VECTORS, 340, |vector| {
        QDIMACS.assert_writing(&vector.form, vector.expected(), &Prefill::ALL, 7);
        counts[vector.write[0] as usize] += 1;
        if vector.write[0] == 0 {
            assert_file(&vector.text);
        }
    });
    assert_eq!([counts[0], counts[14], counts[15]], [256, 53, 31]);
}

/// The form's value under each valuation of its open names, and the file's.
#[test]
fn forms_and_files_have_the_truth_given() {
    let mut counts = [0; 2];
    each_form_vector(VECTORS, 340, |vector| {
        let Some(over) = &vector.over else {
            return;
        };
        assert!(open_names(&vector.form).iter().all(|x| over.contains(x)));
        let mut names = brute::variables_at_nodes(&vector.form.nodes);
        names.extend(over);
        let names: Vec<u32> = names.into_iter().collect();
        let of_form = function(&vector.form, &names);
        assert_eq!(vector.truth.len(), 1 << over.len());
        for (valuation, &value) in brute::valuations(over).zip(&vector.truth) {
            assert_eq!(u32::from(of_form.value(&valuation)), value);
        }
        let value = vector.truth.contains(&1);
        assert_eq!(assert_file(&vector.text).value(), value);
        counts[usize::from(value)] += 1;
    });
    assert_eq!(counts[0] + counts[1], 254);
    assert!(counts.iter().all(|&count| count > 60), "{counts:?}");
}

fn assert_text(form: &PrenexForm, text: &str) {
    QDIMACS.assert_writing(form, Ok(text.as_bytes()), &Prefill::ALL, 5);
    let problem = assert_file(text.as_bytes());
    let expected = form_is_satisfiable(form).expect("few variables");
    assert_eq!(problem.value(), expected);
}

/// The sixteen operators: over two names, over one name twice, and over a name
/// and its opposite, which is a gate.
#[test]
fn every_operator() {
    for truth_table in 0..16 {
        let sign = |row: u32| if truth_table >> row & 1 == 1 { "" } else { "-" };
        let [s0, s1, s2, s3] = [0, 1, 2, 3].map(sign);
        let node = |left, right| [4, truth_table, left, right];
        let text = format!(
            "p cnf 3 5\ne 1 2 3 0\n1 2 {s0}3 0\n1 -2 {s1}3 0\n-1 2 {s2}3 0\n-1 -2 {s3}3 0\n3 0\n"
        );
        assert_text(&form(&[X, Y, node(0, 1)], &[], &[]), &text);
        // The right operand is the first node.
        let text = format!(
            "p cnf 3 5\ne 1 2 3 0\n2 1 {s0}3 0\n2 -1 {s1}3 0\n-2 1 {s2}3 0\n-2 -1 {s3}3 0\n3 0\n"
        );
        assert_text(&form(&[X, Y, node(1, 0)], &[], &[]), &text);
        let text = format!("p cnf 2 3\ne 1 2 0\n1 {s0}2 0\n-1 {s3}2 0\n2 0\n");
        assert_text(&form(&[X, X, node(0, 1)], &[], &[]), &text);
        let text = format!(
            "p cnf 3 7\na 1 0\ne 2 3 0\n1 2 0\n-1 -2 0\n\
             1 2 {s0}3 0\n1 -2 {s1}3 0\n-1 2 {s2}3 0\n-1 -2 {s3}3 0\n3 0\n"
        );
        let nodes = [X, X, [3, 1, 0, 0], node(0, 2)];
        assert_text(&form(&nodes, &[[6, 0, 1]], &[1]), &text);
    }
}

#[test]
fn gates_and_roots() {
    // A variable root has a gate, equal to it; no other variable has.
    assert_text(
        &form(&[X], &[], &[]),
        "p cnf 2 3\ne 1 2 0\n1 -2 0\n-1 2 0\n2 0\n",
    );
    let text = "p cnf 8 3\na 7 0\ne 8 0\n7 -8 0\n-7 8 0\n8 0\n";
    assert_text(&form(&[[2, 7, 0, 0]], &[[6, 0, 1]], &[7]), text);
    // Constants.
    assert_text(&form(&[TRUE], &[], &[]), "p cnf 1 2\ne 1 0\n1 0\n1 0\n");
    assert_text(
        &form(&[[1, 0, 0, 0]], &[], &[]),
        "p cnf 1 2\ne 1 0\n-1 0\n1 0\n",
    );
    // Nots of nots.
    let text = "p cnf 3 5\ne 1 2 3 0\n1 2 0\n-1 -2 0\n2 3 0\n-2 -3 0\n3 0\n";
    assert_text(&nots(3), text);
    // Gates in the order of nodes, not of a walk.
    let nodes = [TRUE, X, Y, [4, 8, 2, 1], [4, 8, 3, 0]];
    let text = "p cnf 5 10\ne 1 2 3 4 5 0\n3 0\n\
                2 1 -4 0\n2 -1 -4 0\n-2 1 -4 0\n-2 -1 4 0\n\
                4 3 -5 0\n4 -3 -5 0\n-4 3 -5 0\n-4 -3 5 0\n5 0\n";
    assert_text(&form(&nodes, &[], &[]), text);
    // What an operator ignores has its open names and counts for the gates.
    let nodes = [X, [2, 9, 0, 0], [4, 12, 0, 1]];
    let text = "p cnf 10 5\ne 1 9 10 0\n1 9 -10 0\n1 -9 -10 0\n-1 9 10 0\n-1 -9 10 0\n10 0\n";
    assert_text(&form(&nodes, &[], &[]), text);
}

#[test]
fn prefixes() {
    let clauses = |gate: u32| format!("1 -{gate} 0\n-1 {gate} 0\n{gate} 0\n");
    let assert_lines = |prefix: &[[u32; 3]], list: &[u32], gate: u32, lines: &str| {
        let text = format!("p cnf {gate} 3\n{lines}{}", clauses(gate));
        assert_text(&form(&[X], prefix, list), &text);
    };
    // Ranges in any order, entries that no block covers, empty blocks.
    let list = [0, 7, 8, u32::MAX, 3, 9];
    let blocks = [[5, 6, 0], [6, 4, 2], [5, 0, 0], [5, 1, 2], [5, 3, 0]];
    assert_lines(&blocks, &list, 10, "e 1 0\na 3 9 0\ne 7 8 10 0\n");
    // Neighbours of one kind are joined once empty blocks have gone; names stay
    // in the order of the blocks.
    let blocks = [[6, 2, 1], [5, 0, 0], [6, 0, 2], [5, 1, 0], [6, 3, 1]];
    assert_lines(&blocks, &[5, 1, 6, 2], 7, "a 6 5 1 2 0\ne 7 0\n");
    // The open names with a first exists block, the gates with a last one.
    assert_lines(&[[5, 0, 2]], &[4, 3], 5, "e 1 4 3 5 0\n");
    assert_lines(&[[6, 0, 1], [5, 1, 1]], &[1, 4], 5, "a 1 0\ne 4 5 0\n");
    let blocks = [[5, 0, 1], [6, 1, 1], [5, 2, 1]];
    assert_lines(&blocks, &[4, 1, 2], 5, "e 4 0\na 1 0\ne 2 5 0\n");
    // No names at all.
    let text = "p cnf 1 2\ne 1 0\n1 0\n1 0\n";
    assert_text(&form(&[TRUE], &[[6, 0, 0]; 3], &[4]), text);
    // A prefix name that is the highest in use and stands in no clause.
    let text = "p cnf 51 2\na 50 0\ne 51 0\n51 0\n51 0\n";
    assert_text(&form(&[TRUE], &[[6, 0, 1]], &[50]), text);
    // An entry that no block covers is not in use.
    assert_lines(&[[5, 0, 0]], &[50], 2, "e 1 2 0\n");
}

/// A matrix of names from the highest down under one operator from left to
/// right.
fn highest_names(truth_table: u32, nodes: usize) -> PrenexForm {
    let mut matrix = form(&[[2, HIGHEST_NAME, 0, 0]], &[], &[]);
    for k in 1..nodes as u32 / 2 {
        matrix.nodes.extend([2, HIGHEST_NAME - k, 0, 0]);
        matrix.nodes.extend([4, truth_table, 2 * k - 2, 2 * k - 1]);
    }
    matrix
}

#[test]
fn forms_at_the_limits() {
    let highest = [2, HIGHEST_NAME, 0, 0];
    let text = "p cnf 77824 3\ne 77823 77824 0\n77823 -77824 0\n-77823 77824 0\n77824 0\n";
    assert_text(&form(&[highest], &[], &[]), text);

    // The most nodes, and one more.
    let text = QDIMACS.assert_written(&nots(MOST_NODES), Prefill::Ones, 9);
    let problem = assert_file(&text);
    assert_eq!(problem.variables as usize, MOST_NODES);
    assert_eq!(problem.clauses.len(), 2 * (MOST_NODES - 1) + 1);
    QDIMACS.assert_refused(&nots(MOST_NODES + 1), MalformedMatrix, 0);
    // The highest gate variable: only the lowest node has no gate.
    let mut longest = nots(MOST_NODES);
    longest.nodes[1] = HIGHEST_NAME;
    let text = QDIMACS.assert_written(&longest, Prefill::Zeros, 9);
    assert_eq!(assert_file(&text).variables, 118_782);
    longest.nodes[..WIDTH].copy_from_slice(&TRUE);
    longest.prefix = vec![6, 0, 1];
    longest.variables = vec![HIGHEST_NAME];
    let text = QDIMACS.assert_written(&longest, Prefill::Zeros, 9);
    assert!(text.starts_with(b"p cnf 118783 81920\na 77823 0\ne 77824 77825 "));
    assert!(text.ends_with(b"\n-118782 -118783 0\n118783 0\n"));
    assert_eq!(assert_file(&text).variables, 118_783);

    // All names in one block, and in a block each, ascending and descending.
    let mut names: Vec<u32> = (1..=HIGHEST_NAME).collect();
    for _ in 0..2 {
        for kind in [5, 6] {
            let one = form(&[X], &[[kind, 0, HIGHEST_NAME]], &names);
            let text = QDIMACS.assert_written(&one, Prefill::Pattern, 9);
            let lines = assert_file(&text).blocks.len();
            assert_eq!(lines, kind as usize - 4);
        }
        let mut each = form(&[X], &[], &names);
        each.prefix = (0..HIGHEST_NAME).flat_map(|k| [5 + k % 2, k, 1]).collect();
        let text = QDIMACS.assert_written(&each, Prefill::Pattern, 9);
        let lines = assert_file(&text).blocks.len();
        assert_eq!(lines, HIGHEST_NAME as usize);
        // One name more.
        each.variables.push(1);
        each.prefix.extend([5, HIGHEST_NAME, 1]);
        QDIMACS.assert_refused(&each, MalformedPrefix, HIGHEST_NAME as usize);
        names.reverse();
    }

    // The longest clauses, with the highest names and numbers; with operator 0
    // each gate's literal has a minus sign. Names are leaves, and constants are.
    let mut longest = highest_names(0, MOST_NODES);
    let text = QDIMACS.assert_written(&longest, Prefill::Ones, 9);
    let last_gate = HIGHEST_NAME + MOST_NODES as u32 / 2 - 1;
    assert_eq!(assert_file(&text).variables, last_gate);
    for node in longest.nodes.chunks_exact_mut(WIDTH) {
        if node[0] == 2 {
            node.copy_from_slice(&[1, 0, 0, 0]);
        }
    }
    longest.prefix = vec![5, 0, 1];
    longest.variables = vec![HIGHEST_NAME];
    let text = QDIMACS.assert_written(&longest, Prefill::Ones, 9);
    assert_eq!(
        assert_file(&text).variables,
        HIGHEST_NAME + MOST_NODES as u32 - 1
    );
}

#[test]
fn many_empty_blocks() {
    forms::many_empty_blocks(
        &QDIMACS,
        "p cnf 2 3\ne 1 2 0\n1 -2 0\n-1 2 0\n2 0\n",
        "p cnf 2 3\na 1 0\ne 2 0\n1 -2 0\n-1 2 0\n2 0\n",
    );
}

#[test]
fn good_forms() {
    forms::good_forms(&QDIMACS, |text| {
        assert_file(text);
    });
}

#[test]
fn damaged_forms() {
    forms::damaged_forms(&QDIMACS, |text| {
        assert_file(text);
    });
}

/// The file is true exactly if some valuation of the open names makes the form
/// true.
#[test]
fn the_file_has_the_forms_truth() {
    let mut counts = [0; 2];
    let mut with_prefix = 0;
    forms::tiny_forms(&QDIMACS, |form, text| {
        let problem = assert_file(text);
        let expected = form_is_satisfiable(form).expect("few variables");
        assert_eq!(problem.value(), expected, "{form:?}");
        counts[usize::from(expected)] += 1;
        with_prefix += u32::from(problem.blocks.len() > 2);
    });
    assert!(counts.iter().all(|&count| count > 2_000), "{counts:?}");
    assert!(with_prefix > 2_500, "only {with_prefix} with three blocks");
}

#[test]
fn lifted_forms() {
    let mut counts = [0; 2];
    forms::lifted_forms(&QDIMACS, |table, form, text| {
        let problem = assert_file(text);
        let Some(expected) = form_is_satisfiable(form) else {
            return;
        };
        assert_eq!(problem.value(), expected);
        assert_eq!(table_is_satisfiable(table), expected);
        counts[usize::from(expected)] += 1;
    });
    assert!(counts.iter().all(|&count| count > 400), "{counts:?}");
}

#[test]
fn families() {
    forms::families(&QDIMACS, |text| {
        assert_file(text);
    });
}
