//! The Rattle programs measure_qcir, lift_qcir and lift_qdimacs say what the tool
//! says, but of a file whose name is no text in UTF-8, which the tool alone opens.
//! They are in ../crates/NAME/out once `rt ci` has been run, or `rt run` in the
//! folder of each.

mod common;
mod programs;

use common::files;
use programs::{folder, output, rattle_program, refused, repository, run, tool, Left};
use std::fs;
use std::path::{Path, PathBuf};
use std::process::Command;
use wakubinryo::generate_qcir::largest_lift;
use wakubinryo::measure_text;

/// A Rattle program, and the tool's arguments before the file's name that ask for
/// the same.
struct Program {
    path: PathBuf,
    arguments: &'static [&'static str],
}

impl Program {
    /// What the tool says of a file.
    fn tool_on(&self, name: &str) -> Left {
        run(tool(), &[self.arguments, &[name]].concat(), b"")
    }
}

fn programs() -> [Program; 3] {
    let programs: [(&str, &[&str]); 3] = [
        ("measure_qcir", &["measure"]),
        ("lift_qcir", &["lift"]),
        ("lift_qdimacs", &["lift", "--format", "qdimacs"]),
    ];
    programs.map(|(name, arguments)| Program {
        path: rattle_program(name),
        arguments,
    })
}

/// A Rattle program has no exit status of its own.
fn said(left: Left) -> (String, String) {
    (left.output, left.error)
}

#[test]
fn refusals_agree() {
    let folder = folder("refusals_agree");
    let file = folder.join("in");
    for (text, error) in refused() {
        fs::write(&file, &text).expect("written");
        let name = file.to_str().expect("UTF-8");
        for program in programs() {
            let expected = said(program.tool_on(name));
            assert_eq!(expected, (String::new(), error.to_string()));
            let path = &program.path;
            assert_eq!(said(run(path, &[name], b"")), expected);
            assert_eq!(said(run(path, &["-"], text.as_bytes())), expected);
            let nothing: [&str; 0] = [];
            assert_eq!(said(run(path, &nothing, text.as_bytes())), expected);
        }
    }
}

#[test]
fn answers_agree() {
    for example in [
        "adder_box",
        "comparators",
        "comparators.lifted",
        "comparators_unfillable",
    ] {
        let file = repository(&format!("examples/{example}.qcir"));
        let name = file.to_str().expect("UTF-8");
        for program in programs() {
            let expected = program.tool_on(name);
            assert_eq!(expected.status, Some(0));
            assert_eq!(said(run(&program.path, &[name], b"")), said(expected));
        }
    }
}

#[test]
fn answers_to_generated_files_agree() {
    let folder = folder("answers_to_generated_files_agree");
    let file = folder.join("in");
    let name = file.to_str().expect("UTF-8");
    let assert_agree = |text: &[u8]| {
        fs::write(&file, text).expect("written");
        for program in programs() {
            let expected = said(program.tool_on(name));
            assert_eq!(said(run(&program.path, &[name], b"")), expected);
        }
    };
    files::good_files(40, |_, text, _, _| assert_agree(text));
    files::damaged_files(80, |text, _, _| {
        assert_agree(text);
        measure_text(text)
    });
}

/// The usual stack, in KiB.
const STACK: usize = 8192;

/// What a program says of a file, with so many KiB of stack.
fn said_with_stack(path: &Path, stack: usize, name: &str) -> (String, String) {
    let path = path.to_str().expect("UTF-8");
    let command = format!("ulimit -s {stack}; exec \"$0\" \"$1\"");
    said(run(Path::new("sh"), &["-c", &command, path, name], b""))
}

/// A lifting program with too little stack says so and lifts nothing.
#[test]
fn a_small_stack() {
    let file = repository("examples/comparators.qcir");
    let name = file.to_str().expect("UTF-8");
    let [measure, lifts @ ..] = programs();
    let expected = said(measure.tool_on(name));
    assert_eq!(said_with_stack(&measure.path, 1024, name), expected);
    for program in lifts {
        let message = "lifting needs 4608 KiB of stack: ulimit -s 4608\n";
        for stack in [64, 1024, 4096, 4607] {
            let left = said_with_stack(&program.path, stack, name);
            assert_eq!(left, (String::new(), message.to_string()));
        }
        let left = said_with_stack(&program.path, 4608, name);
        assert_eq!(left, said(program.tool_on(name)));
    }
}

#[test]
fn the_largest_form() {
    let folder = folder("the_largest_form");
    let file = folder.join("in");
    fs::write(&file, largest_lift()).expect("written");
    let name = file.to_str().expect("UTF-8");
    for program in programs() {
        let expected = program.tool_on(name);
        assert_eq!(expected.status, Some(0));
        for stack in [4608, STACK] {
            let left = said_with_stack(&program.path, stack, name);
            assert!(left == said(expected.clone()), "{}", program.path.display());
        }
    }
}

#[test]
fn file_errors_agree() {
    let folder = folder("file_errors_agree");
    let missing = folder.join("missing");
    for file in [&folder, &missing] {
        let name = file.to_str().expect("UTF-8");
        for program in programs() {
            let expected = program.tool_on(name);
            assert_eq!(expected.status, Some(2));
            assert_eq!(said(run(&program.path, &[name], b"")), said(expected));
        }
    }
}

/// The programs open no file whose name is no text in UTF-8, and say so.
#[cfg(unix)]
#[test]
fn a_name_not_in_utf8() {
    use std::ffi::OsStr;
    use std::os::unix::ffi::OsStrExt;
    let name = OsStr::from_bytes(b"box\xff.qcir");
    for program in programs() {
        let left = output(Command::new(&program.path).arg(name), b"");
        let message = b"box\xff.qcir: not a name in UTF-8\n".to_vec();
        assert_eq!((left.stdout, left.stderr), (Vec::new(), message));
    }
}
