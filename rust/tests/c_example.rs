//! Builds the examples in C with the C compiler, runs them and reads their output.
//! All libraries linked in whole are one program.

mod programs;

use programs::{repository, run, Left};
use std::env;
use std::fs;
use std::path::{Path, PathBuf};
use std::process::Command;

const EXPECTED: &str = "\
nodes
2 1 0 0
2 3 0 0
2 1 0 0
4 8 1 2
2 5 0 0
4 6 0 4
2 5 0 0
4 9 6 3
2 3 0 0
2 4 0 0
4 9 8 9
2 5 0 0
4 14 11 10
4 8 7 12
4 8 5 13
prefix
6 0 1
5 1 2
variables
4
3
5
refused: 8 at 0, named by 1 and 1
refused: 16 at 1
nodes
2 1 0 0
3 0 0 0
prefix
variables
";

/// A library that build.rs found.
fn archive(name: &str) -> PathBuf {
    let name = format!("libwakubinryo_{name}.a");
    env::split_paths(env!("WAKUBINRYO_LIB_DIRS"))
        .map(|folder| folder.join(&name))
        .find(|archive| archive.is_file())
        .expect("a library")
}

/// Builds an example against libraries, linked in whole or as far as it needs
/// them, and gives the program's path.
fn built(example: &str, program: &str, libraries: &[&str], whole: bool) -> PathBuf {
    let archives = libraries.iter().map(|name| archive(name));
    let program = Path::new(env!("CARGO_TARGET_TMPDIR")).join(program);
    let mut command = Command::new("cc");
    command
        .args([
            "-std=c99",
            "-Wall",
            "-Wextra",
            "-Wpedantic",
            "-Werror",
            "-O2",
        ])
        .arg("-I")
        .arg(repository("include"))
        .arg(repository("examples").join(example));
    if whole {
        command.arg("-Wl,--whole-archive");
    }
    command.args(archives);
    if whole {
        command.arg("-Wl,--no-whole-archive");
    }
    let run = command.arg("-o").arg(&program).output();
    let run = run.expect("cc can be run");
    let messages = String::from_utf8_lossy(&run.stderr);
    assert!(run.status.success(), "cc failed:\n{messages}");
    program
}

const ALL: [&str; 4] = ["tables", "qcir", "texts", "reports"];

#[test]
fn lift_prints_forms_and_refusals() {
    let program = built("lift.c", "lift", &ALL, true);
    let nothing: [&str; 0] = [];
    assert_eq!(run(&program, &nothing, b""), Left::new(0, EXPECTED, ""));
}

#[test]
fn lift_text_prints_texts_and_refusals() {
    let example = |name: &str| {
        let file = repository("examples").join(name);
        fs::read_to_string(file).expect("the example")
    };
    let text = example("comparators.qcir");
    let texts = ["qcir", "qdimacs"].map(|format| example(&format!("comparators.lifted.{format}")));
    let gate = text.find("= xor").expect("a gate");
    let refused = [
        (
            text.replace("output(27)", "output(7)"),
            "refused: 13 at 27\n".into(),
        ),
        (
            text.replace("= xor", "= nor"),
            format!("refused: 10 at {}\n", gate + 2),
        ),
        ("#".repeat(70_000), "refused: 10 at 0\n".into()),
    ];
    for program in [
        built("lift_text.c", "lift_text", &["texts"], false),
        built("lift_text.c", "lift_text_all", &ALL, true),
    ] {
        for (arguments, lifted) in [(&[][..], &texts[0]), (&["qdimacs"], &texts[1])] {
            let given = run(&program, arguments, text.as_bytes());
            assert_eq!(given, Left::new(0, lifted, ""));
            for (text, error) in &refused {
                let given = run(&program, arguments, text.as_bytes());
                assert_eq!(given, Left::new(1, "", error));
            }
        }
        let usage = run(&program, &["cnf"], text.as_bytes());
        assert_eq!(usage, Left::new(2, "", "usage: lift_text [qdimacs]\n"));
    }
}
