//! Reading QCIR files: the cases of vectors/qcir-read.txt, and the library
//! against the reference on many files, good and damaged.

mod common;

use common::files;
use common::forms::prefill;
use common::vectors::each_read_vector;
use common::{assert_reading, assert_same_reading, each, reference_table, Prefill};
use common::{LIBRARY_READ, TOO_SHORT};
use std::thread;
use wakubinryo::answer::written_words;
use wakubinryo::brute;
use wakubinryo::circuit::Circuit;
use wakubinryo::generate_qcir::{circuit, damage_once, good_file, spelled};
use wakubinryo::generate_qcir::{with_length, Layout, Profile, FAMILIES};
use wakubinryo::Reason::*;
use wakubinryo::{measure, qcir, read_qcir, Node, Reason, Table, WIDTH};

#[test]
fn reference_and_library_give_every_vector() {
    each_read_vector(|vector| {
        let (answer, table) = reference_table(&vector.text);
        assert_eq!(written_words(answer), *vector.read);
        assert_eq!(table, vector.table);
        for prefill in Prefill::ALL {
            assert_reading(&vector.text, answer, &vector.table, prefill, 7);
        }
    });
}

#[test]
fn tables_have_the_truth_given() {
    let mut checked = 0;
    each_read_vector(|vector| {
        let Some(over) = &vector.over else {
            return;
        };
        let table = read_qcir(&vector.text).expect("a file");
        let free = brute::free_occurrences(&table.words, &table.list);
        assert!(over.iter().eq(&free), "free variables");
        assert_eq!(vector.truth.len(), 1 << over.len());
        for (mut valuation, &value) in brute::valuations(over).zip(&vector.truth) {
            let of_table = brute::table_value(&table.words, &table.list, &mut valuation);
            assert_eq!(u32::from(of_table), value, "under {valuation:?}");
            checked += 1;
        }
    });
    assert!(checked > 300, "only {checked} values compared");
}

/// The refusal that library and reference must both give.
fn assert_refused(text: &[u8], reason: Reason, position: usize) {
    for prefill in Prefill::ALL {
        let given = assert_same_reading(text, prefill, 5);
        let text = String::from_utf8_lossy(&text[..text.len().min(200)]);
        assert_eq!(given, Err(reason.at(position)), "{text:?}");
    }
}

/// The table that library and reference must both give.
fn assert_table(text: &str, nodes: &[Node], list: &[u32]) {
    for prefill in Prefill::ALL {
        let given = assert_same_reading(text.as_bytes(), prefill, 5);
        assert_eq!(given, Ok(Table::new(nodes, list)), "{text:?}");
    }
}

const X: Node = [2, 1, 0, 0];
const Y: Node = [2, 2, 0, 0];

#[test]
fn every_kind_of_gate() {
    let file = |gate: &str| format!("#QCIR-G14\nfree(1,2)\noutput(3)\n3={gate}\n");
    type Expected<'a> = (&'a str, &'a [Node], &'a [u32]);
    let cases: [Expected; 17] = [
        ("and()", &[[1, 1, 0, 0]], &[]),
        ("or()", &[[1, 0, 0, 0]], &[]),
        ("and(2)", &[Y], &[]),
        ("or(-2)", &[Y, [3, 0, 0, 0]], &[]),
        ("and(1,2)", &[X, Y, [4, 8, 0, 1]], &[]),
        ("or(2,1)", &[Y, X, [4, 14, 0, 1]], &[]),
        ("or(-1,2)", &[X, [3, 0, 0, 0], Y, [4, 14, 1, 2]], &[]),
        ("or(1,-2)", &[X, Y, [3, 1, 0, 0], [4, 14, 0, 2]], &[]),
        (
            "and(1,2,-1)",
            &[X, Y, [4, 8, 0, 1], X, [3, 3, 0, 0], [4, 8, 2, 4]],
            &[],
        ),
        ("xor(1,2)", &[X, Y, [4, 6, 0, 1]], &[]),
        ("xor(1,1)", &[X, X, [4, 6, 0, 1]], &[]),
        (
            "xor(-1,-2)",
            &[X, [3, 0, 0, 0], Y, [3, 2, 0, 0], [4, 6, 1, 3]],
            &[],
        ),
        ("exists(1;1)", &[X, [5, 0, 1, 0]], &[1]),
        ("forall(2,1;-1)", &[X, [3, 0, 0, 0], [6, 0, 2, 1]], &[2, 1]),
        ("exists(4;1)", &[X, [5, 0, 1, 0]], &[4]),
        ("forall(65535;2)", &[Y, [6, 0, 1, 0]], &[65_535]),
        ("exists(9,8,7;2)", &[Y, [5, 0, 3, 0]], &[9, 8, 7]),
    ];
    for (gate, nodes, list) in cases {
        assert_table(&file(gate), nodes, list);
    }
}

#[test]
fn prefix_lines_and_the_order_of_nodes() {
    let text = "#QCIR-G14\nexists(1)\nforall(3,2)\noutput(-9)\n\
                7=exists(5;5)\n8=or(1,-7)\n9=and(-8,2,3)\n";
    let nodes = [
        [2, 5, 0, 0],
        [5, 0, 1, 0],
        X,
        [3, 1, 0, 0],
        [4, 14, 2, 3],
        [3, 4, 0, 0],
        Y,
        [4, 8, 5, 6],
        [2, 3, 0, 0],
        [4, 8, 7, 8],
        [3, 9, 0, 0],
        [6, 1, 2, 10],
        [5, 3, 1, 11],
    ];
    assert_table(text, &nodes, &[5, 3, 2, 1]);
}

#[test]
fn headers() {
    for rest in [
        "",
        " ",
        "\t",
        " 0",
        "\t007",
        " \t 12 \t",
        " 999999999999999999999",
    ] {
        assert_table(&format!("#QCIR-G14{rest}\nfree(1)\noutput(1)"), &[X], &[]);
    }
    for (rest, at) in [
        ("1", 9),
        ("-", 9),
        ("#", 9),
        (" -1", 10),
        (" 1 2", 12),
        (" 1a", 11),
    ] {
        let text = format!("#QCIR-G14{rest}\nfree(1)\noutput(1)");
        assert_refused(text.as_bytes(), MalformedText, at);
    }
    assert_refused(b"", MalformedText, 0);
    assert_refused(b"\n#QCIR-G14\nfree(1)\noutput(1)", MalformedText, 0);
    assert_refused(b"#QCIR-G13\nfree(1)\noutput(1)", MalformedText, 8);
}

/// A header is refused at the first byte that differs, or where the text ends; one that is whole leads to the lines.
#[test]
fn a_header_byte_by_byte() {
    let text = b"#QCIR-G14\nfree(1)\noutput(1)";
    for at in 0..9 {
        assert_refused(&text[..at], MalformedText, at);
        for byte in (0..=255).filter(|&byte| byte != text[at]) {
            let mut other = text.to_vec();
            other[at] = byte;
            assert_refused(&other, MalformedText, at);
            assert_refused(&other[..=at], MalformedText, at);
        }
    }
    assert_refused(&text[..9], MalformedText, 9);
    let mut long = text.to_vec();
    long[3] = b'i';
    long.resize(65_536, b'\n');
    assert_refused(&long, MalformedText, 3);
    long.push(b'\n');
    assert_refused(&long, MalformedText, 0);
}

#[test]
fn blanks_blank_lines_and_comments() {
    for text in [
        "#QCIR-G14\nfree(1)\noutput(1)",
        "#QCIR-G14\nfree(1)\noutput(1)\n",
        "#QCIR-G14\nfree(1)\noutput(1)\n\n \t\n",
        "#QCIR-G14\nfree(1)\noutput(1)\n#",
        "#QCIR-G14\nfree(1)\noutput(1)\n \t# \r\0",
        "#QCIR-G14\n\n#QCIR-G14\n##\nfree(1)\n#\noutput(1) \t",
        "#QCIR-G14\n\t free \t( \t1 \t) \t\n\t output\t (\t 1\t )\t \n",
    ] {
        assert_table(text, &[X], &[]);
    }
    let text = "#QCIR-G14\nfree(1)\noutput(2)\n 2 = xor ( - \t1 , 1 ) ";
    assert_table(text, &[X, [3, 0, 0, 0], X, [4, 6, 1, 2]], &[]);
    for blank in ["\r", "\u{b}", "\u{c}", "\0", "\u{a0}"] {
        let text = format!("#QCIR-G14\nfree(1){blank}\noutput(1)");
        assert_refused(text.as_bytes(), MalformedText, 17);
    }
}

#[test]
fn spelling_is_refused_where_no_file_can_go_on() {
    let head = "#QCIR-G14\nfree(1)\noutput(2)\n";
    for (gate, at) in [
        ("2", 1),
        ("2 = ", 4),
        ("2 = an", 6),
        ("2 = nand(1)", 4),
        ("2 = and[1]", 7),
        ("2 = and(,1)", 8),
        ("2 = and(1,)", 10),
        ("2 = and(1;1)", 9),
        ("2 = and(- -1)", 10),
        ("2 = and(-)", 9),
        ("2 = and(1", 9),
        ("2 = and(1))", 10),
        ("2 = and(1) 3", 11),
        ("2 = and(1) #", 11),
        ("2 = xor()", 8),
        ("2 = xor(1)", 9),
        ("2 = xor(1,1,1)", 11),
        ("2 = exists()", 11),
        ("2 = exists(1)", 12),
        ("2 = exists(;1)", 11),
        ("2 = exists(-1;1)", 11),
        ("2 = exists(1;)", 13),
        ("2 = exists(1;1,1)", 14),
        ("2 = exists(1;1;1)", 14),
        ("2 = forall(1,;1)", 13),
        ("2 = for all(1;1)", 7),
        ("2 = free(1;1)", 5),
        ("2 = ite(1,1,1)", 4),
        ("2 = 1", 4),
        ("2 == and()", 3),
        ("-2 = and()", 0),
        ("free(1)", 0),
        ("output(1)", 0),
        ("0 = and()", 0),
        ("02 = and()", 0),
        ("65536 = and()", 4),
        ("99999 = and()", 4),
        ("100000 = and()", 5),
        ("6553 5 = and()", 5),
        ("2 = and(65536)", 12),
        ("2 = and(00)", 8),
        ("2 = exists(65539;1)", 15),
    ] {
        let text = format!("{head}{gate}");
        assert_refused(text.as_bytes(), MalformedText, head.len() + at);
    }
    for (line, at) in [
        ("", 0),
        ("free(1)", 7),
        ("free(1)\nfree(2)", 9),
        ("exists(1)\nfree(2)", 11),
        ("free(-1)", 5),
        ("exists()", 7),
        ("forall(1;2)", 8),
        ("output()", 7),
        ("output(1,1)", 8),
        ("output(1;1)", 8),
        ("output(--1)", 8),
        ("out put(1)", 3),
        ("OUTPUT(1)", 0),
        ("1 = and()", 0),
    ] {
        let text = format!("#QCIR-G14\n{line}");
        assert_refused(text.as_bytes(), MalformedText, 10 + at);
    }
}

#[test]
fn names_where_they_cannot_stand() {
    // The place is that of the sign @, which is not in the file.
    for text in [
        // A gate defined twice, or also in a list.
        "output(3)\n3=and()\n@3=or()\n",
        "output(3)\n3=and()\n@3=or()\n@3=or()\n",
        "free(3)\noutput(3)\n@3=and()\n",
        "exists(3)\noutput(3)\n@3=and()\n",
        "free(1)\noutput(5)\n4=exists(3;1)\n@3=and()\n5=and(3,4)\n",
        "output(4)\n3=and()\n4=exists(@3;3)\n",
        "output(4)\n4=exists(@4;1)\n",
        "output(4)\n3=and()\n4=exists(1,@3;@4)\n",
        // An input not after its definition, on this line or a later one.
        "output(3)\n3=and(@3)\n",
        "output(4)\n4=and(@3)\n3=and()\n",
        "output(4)\n4=and(@3,3)\n5=or(3)\n3=and()\n3=and()\n",
        "free(3)\noutput(4)\n4=and(1,-  @3)\n@3=and()\n",
        "output(4)\n4=exists(2;-@3)\n3=or(3)\n",
        // The first definition is what counts.
        "output(4)\n3=and()\n4=and(3)\n@3=and()\n",
        // A name twice in a list, or in the free and prefix lines together.
        "free(1,@1)\noutput(1)\n",
        "free(1,2)\nexists(@2)\nforall(@1)\noutput(1)\n",
        "exists(1)\nexists(2,@1)\noutput(1)\n",
        "exists(1)\nforall(2,@2)\noutput(1)\n",
        "output(3)\n3=exists(1,2,@1,@2;1)\n",
        // The lowest place of several.
        "free(1)\noutput(9)\n4=and(@7)\n5=exists(1,@1;1)\n@4=and()\n7=and()\n",
        "free(1)\noutput(9)\n4=exists(1,@1;1)\n5=and(@7)\n7=and()\n",
    ] {
        let text = format!("#QCIR-G14\n{text}");
        let at = text.find('@').expect("a place");
        assert_refused(text.replace('@', "").as_bytes(), MisplacedName, at);
    }
    // In two gates' lists, and in one besides a prefix line, names may stand.
    let text = "#QCIR-G14\nfree(1)\nexists(2)\noutput(4)\n3=exists(1,2;1)\n4=forall(2,1;3)\n";
    let nodes = [X, [5, 0, 2, 0], [6, 2, 2, 1], [5, 4, 1, 2]];
    assert_table(text, &nodes, &[1, 2, 2, 1, 2]);
}

#[test]
fn gates_not_used_once_and_unbound_variables() {
    for (text, reason, name) in [
        ("free(1)\noutput(1)\n3=and()\n", GateNotUsedOnce, 3),
        ("output(3)\n3=and()\n4=and(3)\n", GateNotUsedOnce, 3),
        ("output(3)\n4=or()\n3=and(4,-4)\n", GateNotUsedOnce, 4),
        ("output(9)\n4=or()\n3=or()\n9=or()\n", GateNotUsedOnce, 3),
        // 13 before 12.
        ("output(3)\n3=and(1)\n4=and()\n", GateNotUsedOnce, 4),
        ("output(1)\n", UnboundVariable, 1),
        ("output(-65535)\n", UnboundVariable, 65_535),
        ("free(2)\noutput(3)\n3=and(2,5,4)\n", UnboundVariable, 4),
        // A list binds below its own gate alone.
        ("output(5)\n4=exists(1;1)\n5=and(4,1)\n", UnboundVariable, 1),
        ("output(5)\n4=and(1)\n5=forall(2;4)\n", UnboundVariable, 1),
        (
            "output(6)\n3=and(2,1)\n4=exists(1;3)\n5=exists(2;2)\n6=or(4,5)\n",
            UnboundVariable,
            2,
        ),
        (
            "output(6)\n3=and(2)\n5=exists(2;2)\n6=or(-5,-3)\n",
            UnboundVariable,
            2,
        ),
    ] {
        assert_refused(format!("#QCIR-G14\n{text}").as_bytes(), reason, name);
    }
    // Bound two gates above, and by the inner of two.
    let text = "#QCIR-G14\noutput(6)\n3=and(2,1)\n4=exists(2;3)\n5=or(4)\n6=forall(1,2;-5)\n";
    let nodes = [Y, X, [4, 8, 0, 1], [5, 0, 1, 2], [3, 3, 0, 0], [6, 1, 2, 4]];
    assert_table(text, &nodes, &[2, 1, 2]);
}

/// A file of one gate over this many inputs named 1.
fn wide(inputs: usize, list: usize) -> String {
    let inputs = vec!["1"; inputs].join(",");
    let names: Vec<String> = (1..=list).map(|name| name.to_string()).collect();
    format!(
        "#QCIR-G14\nexists({})\noutput(60000)\n60000=and({inputs})\n",
        names.join(",")
    )
}

#[test]
fn order_of_the_last_refusals() {
    let refused = |inputs, list, reason, position| {
        assert_refused(wide(inputs, list).as_bytes(), reason, position);
    };
    // 2,047 inputs and a prefix line are 4,094 nodes.
    refused(2047, 4097, TooManyVariables, 4093);
    refused(2048, 4097, TooManyVariables, 4095);
    refused(2049, 4097, TooLarge, 0);
    refused(2049, 4096, TooLarge, 0);
    // 12 before 2, and 13 before both.
    let text = wide(2049, 4097).replace("and(1,", "and(60001,");
    assert_refused(text.as_bytes(), UnboundVariable, 60_001);
    let text = format!("{text}60002=or()\n");
    assert_refused(text.as_bytes(), GateNotUsedOnce, 60_002);
    // 2 and 6 before 9.
    for (inputs, refusal) in [(2049, TooLarge.at(0)), (2, TooManyVariables.at(3))] {
        let answer = LIBRARY_READ(wide(inputs, 4097).as_bytes(), &mut [], &mut []);
        assert_eq!(answer, written_words(Err(refusal)));
    }
    let answer = LIBRARY_READ(wide(2, 4096).as_bytes(), &mut [], &mut []);
    assert_eq!(answer, written_words(Err(TOO_SHORT)));
    // The block that brings the sum over the limit, in the order of nodes.
    let names: Vec<String> = (1..=4096).map(|name| name.to_string()).collect();
    let names = names.join(",");
    for (text, position) in [
        (
            format!("exists(1)\nforall(2)\noutput(9001)\n9001=exists({names};1)\n"),
            2,
        ),
        (
            format!("exists({names})\noutput(9001)\n9001=exists(1;1)\n"),
            2,
        ),
        (format!("exists({names})\nforall(4097)\noutput(1)\n"), 2),
        (
            format!("output(9002)\n9001=exists(1;1)\n9002=exists({names};-9001)\n"),
            3,
        ),
    ] {
        let text = format!("#QCIR-G14\n{text}");
        assert_refused(text.as_bytes(), TooManyVariables, position);
    }
}

/// Holds what is read to the circuit that a file spells.
fn assert_spells(circuit: &Circuit, text: &[u8], prefill: Prefill, spare: usize) -> Table {
    let table = assert_same_reading(text, prefill, spare).expect("accepted");
    assert_eq!(table.words.len(), WIDTH * circuit.node_count());
    assert_eq!(table.list.len(), circuit.bound_count());
    table
}

#[test]
fn good_files() {
    files::good_files(12_000, |circuit, text, prefill, spare| {
        assert_spells(circuit, text, prefill, spare);
    });
}

#[test]
fn damaged_files() {
    files::damaged_files(40_000, assert_same_reading);
}

#[test]
fn files_with_names_exchanged() {
    files::files_with_names_exchanged(30_000, assert_same_reading);
}

#[test]
fn files_at_the_limits_of_tables() {
    files::files_at_the_limits_of_tables(160, assert_same_reading);
}

#[test]
fn files_at_the_limit_of_length() {
    each("limit of length", 60, |rng, number| {
        let gates = rng.between(0, 300);
        let (circuit, text) = good_file(rng, gates);
        let longest = with_length(rng, &text, qcir::LONGEST).expect("shorter");
        assert_spells(&circuit, &longest, prefill(number), 3);
        for length in [qcir::LONGEST + 1, 2 * qcir::LONGEST] {
            let longer = with_length(rng, &text, length).expect("shorter");
            let answer = assert_same_reading(&longer, prefill(number), 3);
            assert_eq!(answer, Err(MalformedText.at(0)));
        }
    });
    // The length comes before the spelling.
    assert_refused(&[b'?'; qcir::LONGEST + 1], MalformedText, 0);
    assert_refused(&[b'#'; qcir::LONGEST], MalformedText, 1);
}

/// Every prefix of a good file is refused at its end, or is spelled as a file.
#[test]
fn every_prefix_of_good_files() {
    let mut at_end = 0;
    let mut spelled = 0;
    each("prefixes", 200, |rng, number| {
        let gates = rng.between(0, 14);
        let (_, text) = good_file(rng, gates);
        let text = &text[..text.len().min(800)];
        for end in 0..=text.len() {
            match assert_same_reading(&text[..end], prefill(number), 3) {
                Err(refusal) if refusal.reason == MalformedText => {
                    assert_eq!(refusal.position as usize, end);
                    at_end += 1;
                }
                _ => spelled += 1,
            }
        }
    });
    assert!(at_end > 20_000 && spelled > 5_000, "{at_end}, {spelled}");
}

/// What stands before the place of a spelling refusal can be completed to a
/// file, by the rest of one of these.
#[test]
fn refused_spellings_could_go_on() {
    let lines = [
        "#QCIR-G14\nfree(1,1)\nexists(1,1)\nforall(1,1)\noutput(-1)\n",
        "exists(1)\noutput(1)\n",
        "output(1)\n",
        "1=and(1,-1)\n",
        "1=or(1,-1)\n",
        "1=xor(-1,-1)\n",
        "1=exists(1,1;-1)\n",
        "1=forall(1,1;-1)\n",
    ];
    let is_file = |text: &[u8]| {
        let answer = LIBRARY_READ(text, &mut [], &mut []);
        answer[0] != MalformedText.number()
    };
    let mut completed = 0;
    each("completions", 1_500, |rng, _| {
        let gates = rng.between(0, 4);
        let (_, mut text) = good_file(rng, gates);
        text.truncate(600);
        for _ in 0..rng.pick(&[1, 2, 5]) {
            damage_once(rng, &mut text);
        }
        let Err(refusal) = read_qcir(&text) else {
            return;
        };
        if refusal.reason != MalformedText {
            return;
        }
        let before = &text[..refusal.position as usize];
        let mut rests = lines
            .iter()
            .flat_map(|line| (0..=line.len()).map(|at| &line.as_bytes()[at..]));
        assert!(
            rests.any(|rest| is_file(&[before, rest].concat())),
            "{:?}",
            String::from_utf8_lossy(before)
        );
        completed += 1;
    });
    assert!(completed > 800, "only {completed} completed");
}

/// Compares the values of circuit and table under all valuations of the free
/// line's variables. False if there are too many variables for brute force.
fn assert_same_truth(circuit: &Circuit, table: &Table) -> bool {
    let variables: Vec<u32> = brute::variables_at_nodes(&table.words)
        .into_iter()
        .collect();
    if variables.len() > 10 || circuit.bound_count() > 7 {
        return false;
    }
    let of_table = brute::table_function(&table.words, &table.list, &variables);
    for mut valuation in brute::valuations(&circuit.free) {
        let value = circuit.value(&mut valuation);
        assert_eq!(value, of_table.value(&valuation), "under {valuation:?}");
    }
    variables
        .iter()
        .filter(|variable| !circuit.free.contains(variable))
        .for_each(|&variable| assert!(!of_table.depends_on(variable)));
    true
}

#[test]
fn the_table_has_the_circuits_truth() {
    let mut compared = 0;
    let mut with_blocks = 0;
    each("truth of files", 12_000, |rng, number| {
        let profile = Profile::tiny(rng);
        let circuit = circuit(rng, &profile);
        let layout = Layout::random(rng);
        let text = spelled(rng, &circuit, layout);
        let table = assert_spells(&circuit, &text, prefill(number), 3);
        if assert_same_truth(&circuit, &table) {
            compared += 1;
            let sizes = measure(&table.words, &table.list).expect("accepted");
            with_blocks += u32::from(sizes.b > 1);
        }
    });
    assert!(compared > 9_000, "only {compared} compared");
    assert!(with_blocks > 3_000, "only {with_blocks} with blocks");
}

#[test]
fn families() {
    files::families(8, assert_same_reading);
}

/// The stack that is enough for a call, and what its thread needs besides.
const STACK: usize = 1024 * 1024 + 64 * 1024;

#[test]
fn stack_of_a_call() {
    let mut texts: Vec<Vec<u8>> = FAMILIES.iter().map(|(_, family)| family(65_536)).collect();
    texts.push(wide(2047, 4096).into_bytes());
    for text in texts {
        let (expected, table) = reference_table(&text);
        let mut words = vec![0; table.words.len()];
        let mut list = vec![0; table.list.len()];
        let call = move || {
            let answer = LIBRARY_READ(&text, &mut words, &mut list);
            (answer, Table { words, list })
        };
        let thread = thread::Builder::new().stack_size(STACK).spawn(call);
        let given = thread.expect("a thread").join().expect("no panic");
        assert!(given == (written_words(expected), table));
    }
}

/// The box of the example can be filled. One that is given bit 2 in place of
/// the half sum can't.
#[test]
fn example_file() {
    let text = include_str!("../../examples/adder_box.qcir");
    let other = text.replace("31 = xor(1, 2)", "31 = and(2)");
    assert_ne!(text, other);
    for (text, fillable) in [(text, true), (&other, false)] {
        let table = assert_same_reading(text.as_bytes(), Prefill::Ones, 9).expect("accepted");
        assert!(brute::free_occurrences(&table.words, &table.list).is_empty());
        let mut valuation = brute::Valuation::new();
        let value = brute::table_value(&table.words, &table.list, &mut valuation);
        assert_eq!(value, fillable);
    }
}
