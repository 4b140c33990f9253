//! Writing prenex forms as QCIR files: the cases of vectors/qcir-write.txt, and
//! the library against the reference on many forms, good and damaged.

mod common;

use common::forms::{self, form, function, nots, open_names, QCIR, TRUE, X, Y};
use common::vectors::each_form_vector;
use common::Prefill;
use wakubinryo::brute;
use wakubinryo::circuit::{Circuit, Operation};
use wakubinryo::form_check::{HIGHEST_NAME, MOST_NODES};
use wakubinryo::reference::LIMIT;
use wakubinryo::write_qcir::text_without_limits;
use wakubinryo::Reason::*;
use wakubinryo::{qcir, qcir_text, read_back, read_qcir, PrenexForm, WIDTH};

const VECTORS: &str = include_str!("../vectors/qcir-write.txt");

/// The form of a file that the library reads: the blocks at the root end are
/// the prefix. None if the file passes the limits of reading.
fn read_by_library(text: &[u8], circuit: &Circuit) -> Option<PrenexForm> {
    let gates = circuit.gates.iter().map(|gate| gate.name);
    let lists = circuit.prefix.iter().flat_map(|(_, names)| names);
    let highest = gates.chain(lists.chain(&circuit.free).copied()).max();
    let within = text.len() <= qcir::LONGEST
        && highest.unwrap_or(0) <= 65_535
        && circuit.node_count() <= LIMIT
        && circuit.bound_count() <= LIMIT;
    let read = read_qcir(text);
    assert_eq!(read.is_ok(), within, "reading back: {:?}", read.err());
    let mut table = read.ok()?;
    let mut prefix = Vec::new();
    while let [.., kind @ (5 | 6), first, count, _] = *table.words {
        prefix.extend([kind, first, count]);
        table.words.truncate(table.words.len() - WIDTH);
    }
    Some(PrenexForm {
        nodes: table.words,
        prefix,
        variables: table.list,
    })
}

/// What is read back from a written file.
struct ReadBack {
    circuit: Circuit,
    form: PrenexForm,
    /// Whether the library has read it too.
    by_library: bool,
}

/// Reads a written file back, by the library where it is within its limits,
/// and writes it again.
fn assert_round_trip(text: &[u8]) -> ReadBack {
    let circuit = read_back::circuit(text).expect("a file");
    assert!(read_back::is_good(&circuit), "a name misplaced");
    for gate in &circuit.gates {
        match gate.operation {
            Operation::And => assert!(matches!(gate.inputs.len(), 0 | 2)),
            Operation::Xor => assert!(gate.inputs.iter().all(|input| !input.negated)),
            _ => panic!("neither and nor xor"),
        }
    }
    let form = read_back::form(&circuit);
    let again = text_without_limits(&form).expect("well-formed");
    assert!(again == text, "written again");
    if form.nodes.len() <= WIDTH * MOST_NODES {
        assert!(qcir_text(&form).as_deref() == Ok(text), "by the library");
    }
    let read = read_by_library(text, &circuit);
    if let Some(read) = &read {
        assert!(read.nodes == form.nodes, "nodes read back");
        assert_eq!(read.prefix.len(), form.prefix.len());
        assert!(qcir_text(read).as_deref() == Ok(text), "by the library");
    }
    let by_library = read.is_some();
    ReadBack {
        circuit,
        form,
        by_library,
    }
}

/// Compares the values of a form, of its file and of the form read back under
/// all valuations of the open names. False if there are too many variables.
fn assert_same_truth(form: &PrenexForm, back: &ReadBack) -> bool {
    let names: Vec<u32> = brute::variables_at_nodes(&form.nodes).into_iter().collect();
    let open = open_names(form);
    if names.len() > 12 || open.len() > 6 || back.circuit.bound_count() > 8 {
        return false;
    }
    let of_form = function(form, &names);
    let of_form_read = function(&back.form, &names);
    for mut valuation in brute::valuations(&open) {
        let value = of_form.value(&valuation);
        assert_eq!(back.circuit.value(&mut valuation), value, "{valuation:?}");
        assert_eq!(of_form_read.value(&valuation), value, "{valuation:?}");
    }
    true
}

#[test]
fn reference_and_library_give_every_vector() {
    let mut counts = [0; 16];
    each_form_vector(VECTORS, 340, |vector| {
        QCIR.assert_writing(&vector.form, vector.expected(), &Prefill::ALL, 7);
        counts[vector.write[0] as usize] += 1;
        if vector.write[0] == 0 {
            assert_round_trip(&vector.text);
        }
    });
    assert_eq!([counts[0], counts[14] + counts[15]], [240, 100]);
}

#[test]
fn forms_and_files_have_the_truth_given() {
    let mut checked = 0;
    each_form_vector(VECTORS, 340, |vector| {
        let Some(over) = &vector.over else {
            return;
        };
        let back = assert_round_trip(&vector.text);
        let mut names = brute::variables_at_nodes(&vector.form.nodes);
        names.extend(over);
        let names: Vec<u32> = names.into_iter().collect();
        if names.len() > 20 {
            return;
        }
        let functions = [&vector.form, &back.form].map(|form| function(form, &names));
        assert_eq!(vector.truth.len(), 1 << over.len());
        for (mut valuation, &value) in brute::valuations(over).zip(&vector.truth) {
            for function in &functions {
                assert_eq!(u32::from(function.value(&valuation)), value);
            }
            if back.circuit.bound_count() <= 12 {
                assert_eq!(u32::from(back.circuit.value(&mut valuation)), value);
            }
            checked += 1;
        }
    });
    assert!(checked > 300, "only {checked} values compared");
}

fn assert_text(form: &PrenexForm, text: &str) {
    QCIR.assert_writing(form, Ok(text.as_bytes()), &Prefill::ALL, 5);
    let back = assert_round_trip(text.as_bytes());
    assert!(assert_same_truth(form, &back));
}

/// The sixteen operators over plain and over negated operands.
#[test]
fn every_operator() {
    let rows = [
        ["output(-1)|1 = and()", "output(-1)|1 = and()"],
        ["output(3)|3 = and(-1, -2)", "output(3)|3 = and(1, 2)"],
        ["output(3)|3 = and(-1, 2)", "output(3)|3 = and(1, -2)"],
        ["output(-1)", "output(1)"],
        ["output(3)|3 = and(1, -2)", "output(3)|3 = and(-1, 2)"],
        ["output(-2)", "output(2)"],
        ["output(3)|3 = xor(1, 2)", "output(3)|3 = xor(1, 2)"],
        ["output(-3)|3 = and(1, 2)", "output(-3)|3 = and(-1, -2)"],
        ["output(3)|3 = and(1, 2)", "output(3)|3 = and(-1, -2)"],
        ["output(-3)|3 = xor(1, 2)", "output(-3)|3 = xor(1, 2)"],
        ["output(2)", "output(-2)"],
        ["output(-3)|3 = and(1, -2)", "output(-3)|3 = and(-1, 2)"],
        ["output(1)", "output(-1)"],
        ["output(-3)|3 = and(-1, 2)", "output(-3)|3 = and(1, -2)"],
        ["output(-3)|3 = and(-1, -2)", "output(-3)|3 = and(1, 2)"],
        ["output(1)|1 = and()", "output(1)|1 = and()"],
    ];
    for (truth_table, [plain, negated]) in (0..).zip(rows) {
        let free = match truth_table {
            0 | 15 => "",
            3 | 12 => "free(1)\n",
            5 | 10 => "free(2)\n",
            _ => "free(1, 2)\n",
        };
        let text = |lines: &str| format!("#QCIR-G14\n{free}{}\n", lines.replace('|', "\n"));
        let nodes = [X, Y, [4, truth_table, 0, 1]];
        assert_text(&form(&nodes, &[], &[]), &text(plain));
        let nodes = [X, [3, 0, 0, 0], Y, [3, 2, 0, 0], [4, truth_table, 1, 3]];
        assert_text(&form(&nodes, &[], &[]), &text(negated));
    }
}

#[test]
fn signs_constants_and_what_is_ignored() {
    // One sign moved out of an xor.
    let nodes = [X, [3, 0, 0, 0], Y, [4, 6, 1, 2]];
    let text = "#QCIR-G14\nfree(1, 2)\noutput(-3)\n3 = xor(1, 2)\n";
    assert_text(&form(&nodes, &[], &[]), text);
    // Constants are not shared, and an ignored one is not written.
    let nodes = [TRUE, [1, 0, 0, 0], [4, 8, 0, 1], TRUE, [4, 12, 2, 3]];
    let text = "#QCIR-G14\noutput(3)\n1 = and()\n2 = and()\n3 = and(1, -2)\n";
    assert_text(&form(&nodes, &[], &[]), text);
    // Of what hangs on an ignored operand, nothing is written; gates are
    // numbered above names that are written, and above all of the prefix.
    let high = [2, 50, 0, 0];
    let nodes = [high, X, [4, 8, 0, 1], X, Y, [4, 8, 3, 4], [4, 10, 2, 5]];
    let text = "#QCIR-G14\nfree(1, 2)\noutput(3)\n3 = and(1, 2)\n";
    assert_text(&form(&nodes, &[], &[]), text);
    let text = "#QCIR-G14\nfree(1)\nforall(2, 60)\noutput(61)\n61 = and(1, 2)\n";
    assert_text(&form(&nodes, &[[6, 0, 2]], &[2, 60]), text);
    // Nots of nots.
    let nodes = [X, [3, 0, 0, 0], [3, 1, 0, 0], [3, 2, 0, 0]];
    assert_text(&form(&nodes, &[], &[]), "#QCIR-G14\nfree(1)\noutput(-1)\n");
    // Gates in the order of nodes, not of a walk.
    let nodes = [TRUE, X, Y, [4, 8, 2, 1], [4, 8, 3, 0]];
    let text = "#QCIR-G14\nfree(1, 2)\noutput(5)\n3 = and()\n4 = and(2, 1)\n5 = and(4, 3)\n";
    assert_text(&form(&nodes, &[], &[]), text);
}

#[test]
fn prefixes() {
    // Ranges in any order, entries that no block covers, empty blocks.
    let list = [0, 7, 8, u32::MAX, 3, 9];
    let blocks = [[5, 6, 0], [6, 4, 2], [5, 0, 0], [5, 1, 2], [5, 3, 0]];
    let text = "#QCIR-G14\nfree(1)\nforall(3, 9)\nexists(7, 8)\noutput(1)\n";
    assert_text(&form(&[X], &blocks, &list), text);
    let text = "#QCIR-G14\nexists(2)\nexists(1)\noutput(1)\n";
    assert_text(&form(&[X], &[[5, 1, 1], [5, 0, 1]], &[1, 2]), text);
    let text = "#QCIR-G14\nfree(1)\noutput(1)\n";
    assert_text(&form(&[X], &[[5, 0, 0]; 3], &[]), text);
}

#[test]
fn forms_at_the_limits() {
    assert_text(&nots(MOST_NODES), "#QCIR-G14\nfree(1)\noutput(-1)\n");
    QCIR.assert_refused(&nots(MOST_NODES + 1), MalformedMatrix, 0);
    // Length is tested before any node.
    let mut faulty = nots(MOST_NODES + 1);
    faulty.nodes[4] = 9;
    QCIR.assert_refused(&faulty, MalformedMatrix, 0);
    faulty.nodes.truncate(WIDTH * MOST_NODES);
    QCIR.assert_refused(&faulty, MalformedMatrix, 1);

    let highest = [2, HIGHEST_NAME, 0, 0];
    let text = "#QCIR-G14\nfree(77823)\noutput(77823)\n";
    assert_text(&form(&[highest], &[], &[]), text);
    let nodes = [highest, X, [4, 6, 0, 1]];
    let text = "#QCIR-G14\nfree(1)\nexists(77823)\noutput(77824)\n77824 = xor(77823, 1)\n";
    assert_text(&form(&nodes, &[[5, 0, 1]], &[HIGHEST_NAME]), text);

    // All names in one block, and in a block each, ascending and descending.
    let mut names: Vec<u32> = (1..=HIGHEST_NAME).collect();
    for _ in 0..2 {
        let one = form(&[X], &[[6, 0, HIGHEST_NAME]], &names);
        let text = QCIR.assert_written(&one, Prefill::Pattern, 9);
        assert_round_trip(&text);
        let mut each = form(&[X], &[], &names);
        each.prefix = (0..HIGHEST_NAME).flat_map(|k| [5 + k % 2, k, 1]).collect();
        let text = QCIR.assert_written(&each, Prefill::Pattern, 9);
        assert_round_trip(&text);
        // One name more.
        each.variables.push(1);
        each.prefix.extend([5, HIGHEST_NAME, 1]);
        QCIR.assert_refused(&each, MalformedPrefix, HIGHEST_NAME as usize);
        names.reverse();
    }

    // The longest gate lines, with the highest names and numbers.
    let mut longest = form(&[highest], &[], &[]);
    for k in 1..MOST_NODES as u32 / 2 {
        longest.nodes.extend([2, HIGHEST_NAME - k, 0, 0]);
        longest.nodes.extend([4, 14, 2 * k - 2, 2 * k - 1]);
    }
    let text = QCIR.assert_written(&longest, Prefill::Ones, 9);
    assert_round_trip(&text);
}

#[test]
fn many_empty_blocks() {
    forms::many_empty_blocks(
        &QCIR,
        "#QCIR-G14\nfree(1)\noutput(1)\n",
        "#QCIR-G14\nforall(1)\noutput(1)\n",
    );
}

#[test]
fn good_forms() {
    let mut by_library = 0;
    let mut beyond = 0;
    forms::good_forms(&QCIR, |text| match assert_round_trip(text).by_library {
        true => by_library += 1,
        false => beyond += 1,
    });
    assert!(by_library > 5_000, "only {by_library} read by the library");
    assert!(beyond > 1_000, "only {beyond} beyond its limits");
}

#[test]
fn damaged_forms() {
    forms::damaged_forms(&QCIR, |text| {
        assert_round_trip(text);
    });
}

#[test]
fn the_file_has_the_forms_truth() {
    let mut compared = 0;
    let mut with_prefix = 0;
    forms::tiny_forms(&QCIR, |form, text| {
        let back = assert_round_trip(text);
        if assert_same_truth(form, &back) {
            compared += 1;
            with_prefix += u32::from(back.circuit.prefix.len() > 1);
        }
    });
    assert!(compared > 7_000, "only {compared} compared");
    assert!(with_prefix > 2_500, "only {with_prefix} with prefix lines");
}

#[test]
fn lifted_forms() {
    let mut compared = 0;
    forms::lifted_forms(&QCIR, |table, form, text| {
        let back = assert_round_trip(text);
        if assert_same_truth(form, &back) {
            // And the table's.
            let free = brute::free_occurrences(&table.words, &table.list);
            let free: Vec<u32> = free.into_iter().collect();
            for mut valuation in brute::valuations(&free) {
                let value = brute::table_value(&table.words, &table.list, &mut valuation);
                assert_eq!(back.circuit.value(&mut valuation), value);
            }
            compared += 1;
        }
    });
    assert!(compared > 1_200, "only {compared} compared");
}

#[test]
fn families() {
    forms::families(&QCIR, |text| {
        assert_round_trip(text);
    });
}
