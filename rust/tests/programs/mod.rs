//! Running programs, and texts that they refuse.

#![allow(dead_code)]

use std::ffi::OsStr;
use std::fs;
use std::io::{ErrorKind, Write};
use std::path::{Path, PathBuf};
use std::process::{Command, Output, Stdio};

/// What a program left: its exit status, standard output and standard error.
#[derive(Clone, Debug, PartialEq, Eq)]
pub struct Left {
    pub status: Option<i32>,
    pub output: String,
    pub error: String,
}

impl Left {
    pub fn new(status: i32, output: &str, error: &str) -> Left {
        Left {
            status: Some(status),
            output: output.into(),
            error: error.into(),
        }
    }
}

/// Runs a command with this standard input.
pub fn output(command: &mut Command, input: &[u8]) -> Output {
    let spawned = command
        .stdin(Stdio::piped())
        .stdout(Stdio::piped())
        .stderr(Stdio::piped())
        .spawn();
    let mut child = match spawned {
        Ok(child) => child,
        Err(e) => panic!("{:?} can't be run: {e}", command.get_program()),
    };
    // No output is longer than a pipe holds, unless all input is read first.
    match child.stdin.take().expect("a pipe").write_all(input) {
        Err(e) if e.kind() != ErrorKind::BrokenPipe => panic!("standard input: {e}"),
        _ => {}
    }
    child.wait_with_output().expect("the program ends")
}

/// Runs a program with these arguments and this standard input.
pub fn run<S: AsRef<OsStr>>(program: &Path, arguments: &[S], input: &[u8]) -> Left {
    let left = output(Command::new(program).args(arguments), input);
    Left {
        status: left.status.code(),
        output: String::from_utf8(left.stdout).expect("text"),
        error: String::from_utf8(left.stderr).expect("text"),
    }
}

/// The command-line tool.
pub fn tool() -> &'static Path {
    Path::new(env!("CARGO_BIN_EXE_wakubinryo"))
}

/// A Rattle program, where `rt ci` or a run of it left it.
pub fn rattle_program(name: &str) -> PathBuf {
    let path = repository("crates").join(name).join("out").join(name);
    assert!(
        path.is_file(),
        "{} is missing: run `rt run` in the repository's crates/{name}",
        path.display()
    );
    path
}

/// A file of the repository.
pub fn repository(name: &str) -> PathBuf {
    Path::new(env!("CARGO_MANIFEST_DIR")).join("..").join(name)
}

/// An empty folder of a test's own.
pub fn folder(test: &str) -> PathBuf {
    let folder = Path::new(env!("CARGO_TARGET_TMPDIR")).join(test);
    match fs::remove_dir_all(&folder) {
        Err(e) if e.kind() != ErrorKind::NotFound => panic!("{}: {e}", folder.display()),
        _ => fs::create_dir_all(&folder).expect("a new folder"),
    }
    folder
}

fn names(numbers: impl Iterator<Item = u32>) -> String {
    numbers
        .map(|n| n.to_string())
        .collect::<Vec<_>>()
        .join(", ")
}

/// Texts that are refused, each with what is said of it.
pub fn refused() -> Vec<(String, &'static str)> {
    let text = |lines: &str| format!("#QCIR-G14\n{lines}");
    vec![
        (
            text(&format!(
                "free(1)\noutput(2)\n2 = and({})\n",
                names((0..4096).map(|_| 1))
            )),
            "refused: 2 (too many nodes)\n",
        ),
        (
            text(&format!(
                "exists({})\noutput(5001)\n5001 = exists(5000; 1)\n",
                names(1..=4096)
            )),
            "refused: 6 at node 2 (too many bound variables)\n",
        ),
        (
            String::new(),
            "refused: 10 at line 1, column 1 (spelling)\n",
        ),
        (
            "#QCIR-14\n".into(),
            "refused: 10 at line 1, column 7 (spelling)\n",
        ),
        (text(""), "refused: 10 at line 2, column 1 (spelling)\n"),
        (
            text("free(1)\n\n\toutput(2)\n2 = andd(1)\n"),
            "refused: 10 at line 5, column 8 (spelling)\n",
        ),
        (
            text("free(1)\n# \u{3b1}\noutput(\u{3b1})\n"),
            "refused: 10 at line 4, column 8 (spelling)\n",
        ),
        (
            text(&"\n".repeat(65_527)),
            "refused: 10 (longer than 65,536 bytes)\n",
        ),
        (
            text(&"\n".repeat(65_526)),
            "refused: 10 at line 65528, column 1 (spelling)\n",
        ),
        (
            text("free(1)\noutput(2)\n2 = and(1)\n 2 = or(1)\n"),
            "refused: 11 at line 5, column 2 (name misplaced)\n",
        ),
        (
            text("free(1, 2, 1)\noutput(1)\n"),
            "refused: 11 at line 2, column 12 (name misplaced)\n",
        ),
        (
            text("free(1)\noutput(2)\n2 = and(1, 7)\n"),
            "refused: 12 at variable 7 (unbound variable)\n",
        ),
        (
            text("free(1)\noutput(2)\n2 = and(1)\n4 = or(1)\n"),
            "refused: 13 at gate 4 (gate not used exactly once)\n",
        ),
    ]
}
