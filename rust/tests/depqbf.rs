//! QDIMACS files through DepQBF, a solver that has nothing to do with this
//! repository: its answers beside brute force. Where `depqbf` is not on the
//! PATH, a line says so.

mod common;
mod programs;

use common::each;
use common::forms::{form_is_satisfiable, table_is_satisfiable};
use programs::repository;
use std::fs;
use std::io::{self, ErrorKind, Write};
use std::process::{Command, Stdio};
use std::sync::OnceLock;
use std::thread::sleep;
use std::time::{Duration, Instant};
use wakubinryo::brute;
use wakubinryo::generate::{accepted, Profile as TableProfile, Rng};
use wakubinryo::generate_forms::{good_form, Profile};
use wakubinryo::generate_qcir::{circuit, Profile as FileProfile};
use wakubinryo::{lift_text, prenex_form, qdimacs_text, read_qcir, Format};

/// Longer than any answer here takes: most take some milliseconds.
const LIMIT: Duration = Duration::from_secs(30);

fn depqbf() -> Command {
    let mut command = Command::new("depqbf");
    command.stdout(Stdio::null()).stderr(Stdio::null());
    command
}

fn is_here() -> bool {
    static HERE: OnceLock<bool> = OnceLock::new();
    *HERE.get_or_init(|| match depqbf().arg("--version").status() {
        Err(e) if e.kind() == ErrorKind::NotFound => {
            // Not by a macro: what macros print is held back if a test passes.
            let line = b"depqbf is not on the PATH: no file has gone through it\n";
            let _ = io::stderr().write_all(line);
            false
        }
        run => run.is_ok(),
    })
}

/// Whether DepQBF says that a file is true.
fn answer(text: &[u8]) -> bool {
    let child = depqbf().stdin(Stdio::piped()).spawn();
    let mut child = child.expect("depqbf can be run");
    let mut input = child.stdin.take().expect("a pipe");
    input.write_all(text).expect("depqbf reads");
    drop(input);
    let start = Instant::now();
    let status = loop {
        if let Some(status) = child.try_wait().expect("a child") {
            break status;
        }
        if start.elapsed() > LIMIT {
            child.kill().expect("a child");
            child.wait().expect("a child");
            panic!("no answer in {LIMIT:?}: {}", String::from_utf8_lossy(text));
        }
        sleep(Duration::from_micros(500));
    };
    match status.code() {
        Some(10) => true,
        Some(20) => false,
        _ => panic!("{status}: {}", String::from_utf8_lossy(text)),
    }
}

/// Sends so many files through DepQBF, each given with its truth value.
fn assert_answers(name: &str, files: u64, one: impl Fn(&mut Rng) -> (Vec<u8>, bool)) {
    if !is_here() {
        return;
    }
    let mut counts = [0; 2];
    each(name, files, |rng, _| {
        let (text, expected) = one(rng);
        assert_eq!(
            answer(&text),
            expected,
            "{}",
            String::from_utf8_lossy(&text)
        );
        counts[usize::from(expected)] += 1;
    });
    assert!(counts.iter().all(|&c| c > files / 5), "{counts:?}");
}

#[test]
fn random_forms() {
    assert_answers("forms for DepQBF", 300, |rng| {
        let profile = Profile::tiny(rng);
        let form = good_form(rng, &profile);
        let expected = form_is_satisfiable(&form).expect("few variables");
        (qdimacs_text(&form).expect("written"), expected)
    });
}

/// The tables are small: DepQBF often takes long over a lift with more than
/// forty prefix variables in five blocks or more.
#[test]
fn lifts_of_random_tables() {
    assert_answers("tables for DepQBF", 200, |rng| {
        let profile = TableProfile::tiny(rng);
        let table = accepted(rng, &profile);
        let form = prenex_form(&table.words, &table.list).expect("accepted");
        let text = qdimacs_text(&form).expect("written");
        (text, table_is_satisfiable(&table))
    });
}

/// Random QCIR files, lifted in one call. Few of their variables are bound.
#[test]
fn lifts_of_random_files() {
    assert_answers("files for DepQBF", 100, |rng| loop {
        let profile = FileProfile::tiny(rng);
        let circuit = circuit(rng, &profile);
        if circuit.bound_count() > 6 {
            continue;
        }
        let mut valuations = brute::valuations(&circuit.free);
        let satisfiable = valuations.any(|mut valuation| circuit.value(&mut valuation));
        return (lifted(&circuit.text()), satisfiable);
    });
}

/// The clauses of a QCIR file, by the call from text to text.
fn lifted(text: &[u8]) -> Vec<u8> {
    let lifted = lift_text(text, Format::Qdimacs);
    lifted.expect("accepted").text
}

/// The boxes of two examples can be filled, those of the third can't.
#[test]
fn lifts_of_the_examples() {
    for (name, expected) in [
        ("comparators", true),
        ("adder_box", true),
        ("comparators_unfillable", false),
    ] {
        let file = repository("examples").join(name).with_extension("qcir");
        let text = fs::read(file).expect("the example");
        let table = read_qcir(&text).expect("accepted");
        assert_eq!(table_is_satisfiable(&table), expected);
        if is_here() {
            assert_eq!(answer(&lifted(&text)), expected);
        }
    }
}
