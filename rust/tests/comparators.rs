//! The example of comparators in a row, and the plot of docs/.

mod programs;

use programs::{repository, run};
use std::fs;
use std::path::Path;
use wakubinryo::brute;
use wakubinryo::comparators::{row, split_nodes};
use wakubinryo::{measure, prenex_form, qcir_text, read_qcir, Table};

fn table(text: &[u8]) -> Table {
    read_qcir(text).expect("accepted")
}

fn value(table: &Table) -> bool {
    let mut valuation = brute::Valuation::new();
    brute::table_value(&table.words, &table.list, &mut valuation)
}

fn example(name: &str) -> String {
    fs::read_to_string(repository("examples").join(name)).expect("the example")
}

/// The example is the row of three. Its boxes can be filled; not if a box can
/// pick no right input, as in the other example. What is lifted has the same
/// truth value.
#[test]
fn example_is_a_row() {
    let text = example("comparators.qcir");
    let given = table(text.as_bytes());
    assert_eq!(given, table(&row(3).text()));
    assert!(value(&given));
    let other = text.replace("11 = and(-7, 2)", "11 = and(-7, 1)");
    let other = table(other.as_bytes());
    let unfillable = example("comparators_unfillable.qcir");
    assert_eq!(other, table(unfillable.as_bytes()));
    assert!(!value(&other));

    let lifted = |table: &Table| prenex_form(&table.words, &table.list).expect("accepted");
    let written = qcir_text(&lifted(&given)).expect("written");
    assert_eq!(written, example("comparators.lifted.qcir").as_bytes());
    for (given, expected) in [(given, true), (other, false)] {
        let written = qcir_text(&lifted(&given)).expect("written");
        assert_eq!(value(&table(&written)), expected);
    }
}

/// Lifting adds the same at each comparator, splitting more than doubles.
#[test]
fn growth_of_a_row() {
    let tables: Vec<Table> = (1..=12).map(|cells| table(&row(cells).text())).collect();
    let lifted = |table: &Table| measure(&table.words, &table.list).expect("accepted").nodes;
    let step = lifted(&tables[1]) - lifted(&tables[0]);
    for pair in tables.windows(2) {
        assert_eq!(lifted(&pair[1]) - lifted(&pair[0]), step);
        assert!(split_nodes(&pair[1]) >= 2 * split_nodes(&pair[0]));
    }
}

#[test]
fn plot_is_what_the_program_draws() {
    let committed = fs::read_to_string(repository("docs/lifting.svg")).expect("the plot");
    let nothing: [&str; 0] = [];
    let drawn = run(Path::new(env!("CARGO_BIN_EXE_plot")), &nothing, b"");
    assert_eq!(drawn.status, Some(0));
    assert!(
        drawn.output == committed,
        "docs/lifting.svg is old: cargo run --release --bin plot > ../docs/lifting.svg"
    );
}
