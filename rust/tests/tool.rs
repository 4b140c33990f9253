//! The command-line tool, built and run.

mod programs;

use programs::{folder, refused, repository, run, tool, Left};
use std::fs::{self, File};
use std::path::Path;
use std::process::{Command, Stdio};

const SIZES: &str = "\
nodes                45
blocks                4
bound variables       9
quantifier depth      4
lifted: nodes        71
lifted: blocks        4
lifted: variables    15
";

fn example_called(name: &str) -> String {
    let path = repository("examples").join(name);
    path.to_str().expect("a path in UTF-8").into()
}

fn example() -> String {
    example_called("comparators.qcir")
}

fn lifted_to(format: &str) -> String {
    let name = format!("examples/comparators.lifted.{format}");
    fs::read_to_string(repository(&name)).expect("the example")
}

fn lifted() -> String {
    lifted_to("qcir")
}

#[track_caller]
fn assert_done(left: Left, output: &str) {
    assert_eq!(left.error, "");
    assert_eq!(left.output, output);
    assert_eq!(left.status, Some(0));
}

#[track_caller]
fn assert_failed(left: Left, status: i32, error: &str) {
    assert_eq!(left.error, error);
    assert_eq!(left.output, "");
    assert_eq!(left.status, Some(status));
}

/// What is in a folder.
fn files(folder: &Path) -> Vec<String> {
    let entries = fs::read_dir(folder).expect("a folder");
    let name = |entry: std::io::Result<fs::DirEntry>| entry.expect("an entry").file_name();
    let mut files: Vec<String> = entries
        .map(|entry| name(entry).into_string().expect("UTF-8"))
        .collect();
    files.sort();
    files
}

#[test]
fn help_and_version() {
    for arguments in [&["--help"][..], &["-h"], &["lift", "--help"]] {
        let left = run(tool(), arguments, b"");
        assert_eq!((left.status, &*left.error), (Some(0), ""));
        assert!(left.output.starts_with("usage: wakubinryo "));
        for word in [
            "measure",
            "lift",
            "same FILE FILE",
            "report [--plot FILE.svg] [FILE..]",
            "--format qcir",
            "--format qdimacs",
            "-o",
            "--version",
            "the same truth value",
            "highest variable numbers",
            "Exit status",
        ] {
            assert!(left.output.contains(word), "help without {word}");
        }
    }
    let version = concat!("wakubinryo ", env!("CARGO_PKG_VERSION"), "\n");
    assert_done(run(tool(), &["--version"], b""), version);
    assert_done(run(tool(), &["-V"], b""), version);
}

#[test]
fn file_or_standard_input() {
    let text = fs::read(example()).expect("the example");
    for (command, output) in [("measure", SIZES), ("lift", &lifted())] {
        assert_done(run(tool(), &[command, &example()], b""), output);
        assert_done(run(tool(), &[command, "--", &example()], b""), output);
        assert_done(run(tool(), &[command], &text), output);
        assert_done(run(tool(), &[command, "-"], &text), output);
        assert_done(run(tool(), &[command, "-o", "-", "-"], &text), output);
    }
}

#[test]
fn formats() {
    for format in ["qcir", "qdimacs"] {
        let output = lifted_to(format);
        for arguments in [
            ["lift", "--format", format, &example()],
            ["lift", &example(), "--format", format],
            ["--format", format, "lift", &example()],
        ] {
            assert_done(run(tool(), &arguments, b""), &output);
        }
    }
    let folder = folder("formats");
    let out = folder.join("out.qdimacs");
    let name = out.to_str().expect("UTF-8");
    let arguments = ["lift", "--format", "qdimacs", &example(), "-o", name];
    assert_done(run(tool(), &arguments, b""), "");
    let written = fs::read_to_string(&out).expect("written");
    assert_eq!(written, lifted_to("qdimacs"));
}

/// What was lifted is read again; none of its gates is quantified.
#[test]
fn lifted_file_is_read_again() {
    assert!(!lifted().contains(';'), "a quantified gate");
    let again = run(tool(), &["lift"], lifted().as_bytes());
    assert_eq!((again.status, &*again.error), (Some(0), ""));
    assert!(!again.output.contains(';'), "a quantified gate");
}

#[test]
fn output_file() {
    let folder = folder("output_file");
    let out = folder.join("out.qcir");
    let name = out.to_str().expect("UTF-8");
    for arguments in [
        ["lift", &example(), "-o", name],
        ["lift", "-o", name, &example()],
    ] {
        assert_done(run(tool(), &arguments, b""), "");
        assert_eq!(fs::read_to_string(&out).expect("written"), lifted());
    }
    // A shorter text over a longer one, and a name in the working folder.
    assert_done(run(tool(), &["measure", &example(), "-o", name], b""), "");
    assert_eq!(fs::read_to_string(&out).expect("written"), SIZES);
    let here = Command::new(tool())
        .args(["measure", &example(), "-o", "here"])
        .current_dir(&folder)
        .status();
    assert!(here.expect("the tool can be run").success());
    assert_eq!(
        fs::read_to_string(folder.join("here")).expect("written"),
        SIZES
    );
    assert_eq!(files(&folder), ["here", "out.qcir"]);
}

#[cfg(unix)]
#[test]
fn output_file_that_stands() {
    use std::os::unix::fs::{symlink, PermissionsExt};
    let folder = folder("output_file_that_stands");
    let (out, link) = (folder.join("out"), folder.join("link"));
    fs::write(&out, "old").expect("written");
    fs::set_permissions(&out, fs::Permissions::from_mode(0o640)).expect("set");
    symlink("out", &link).expect("linked");
    let name = link.to_str().expect("UTF-8");
    assert_done(run(tool(), &["lift", &example(), "-o", name], b""), "");
    let standing = fs::symlink_metadata(&out).expect("a file");
    assert!(standing.is_file());
    assert_eq!(standing.permissions().mode() & 0o777, 0o640);
    assert_eq!(fs::read_to_string(&out).expect("written"), lifted());
    assert!(fs::symlink_metadata(&link).expect("a link").is_symlink());
    // A device is written and stays one.
    assert_done(
        run(tool(), &["lift", &example(), "-o", "/dev/null"], b""),
        "",
    );
    assert!(!fs::metadata("/dev/null").expect("a device").is_file());
    assert_eq!(files(&folder), ["link", "out"]);
}

/// A file of one design with a free variable 9 and these numbers for its bound
/// variable and its first gate.
fn design(bound: u32, gate: u32) -> String {
    let [and, block, or] = [gate, gate + 1, gate + 2];
    format!(
        "#QCIR-G14\nfree(9)\noutput({or})\n{and} = and({bound}, 9)\n\
         {block} = exists({bound}; {and})\n{or} = or(-{block}, 9)\n"
    )
}

/// Writes a text to a file of a folder and gives its name.
fn written(folder: &Path, file: &str, text: &str) -> String {
    let path = folder.join(file);
    fs::write(&path, text).expect("written");
    path.to_str().expect("UTF-8").into()
}

#[test]
fn same_or_different() {
    let folder = folder("same_or_different");
    let first = design(2, 10);
    // Another bound variable and other gates; a highest number that is higher;
    // another operand.
    let renamed = format!("{}\n# the same\n", design(5, 20));
    let higher = design(10, 20);
    let negated = first.replace("and(2,", "and(-2,");
    for (one, other, same) in [
        (&first, &first, true),
        (&first, &renamed, true),
        (&first, &higher, false),
        (&renamed, &higher, false),
        (&first, &negated, false),
    ] {
        for (one, other) in [(one, other), (other, one)] {
            let a = &*written(&folder, "a", one);
            let b = &*written(&folder, "b", other);
            let (word, status) = if same {
                ("same\n", 0)
            } else {
                ("different\n", 1)
            };
            for left in [
                run(tool(), &["same", a, b], b""),
                run(tool(), &["same", "--", a, b], b""),
                run(tool(), &["same", "-", b], one.as_bytes()),
                run(tool(), &["same", a, "-"], other.as_bytes()),
            ] {
                assert_eq!((&*left.output, &*left.error), (word, ""));
                assert_eq!(left.status, Some(status));
            }
        }
    }
    for (name, word, status) in [
        ("comparators.qcir", "same\n", 0),
        ("comparators_renamed.qcir", "same\n", 0),
        ("comparators_unfillable.qcir", "different\n", 1),
    ] {
        let left = run(tool(), &["same", &example(), &example_called(name)], b"");
        assert_eq!((&*left.output, left.status), (word, Some(status)));
    }

    // Forms are compared and not their texts, which have no double negation.
    let plain = "#QCIR-G14\nfree(1)\noutput(1)\n";
    let doubled = "#QCIR-G14\nfree(1)\noutput(-2)\n2 = and(-1)\n";
    for text in [plain, doubled] {
        assert_done(run(tool(), &["lift"], text.as_bytes()), plain);
    }
    let plain = written(&folder, "plain", plain);
    let left = run(tool(), &["same", &plain, "-"], doubled.as_bytes());
    assert_eq!((&*left.output, left.status), ("different\n", Some(1)));
}

/// Each file that is refused is named, the first one first.
#[test]
fn refusals_of_two() {
    let folder = folder("refusals_of_two");
    let good = &*written(&folder, "good", &design(2, 10));
    for (text, error) in refused() {
        let bad = &*written(&folder, "bad", &text);
        let (named, unnamed) = (
            format!("{bad}: {error}"),
            format!("standard input: {error}"),
        );
        let text = text.as_bytes();
        for (arguments, error) in [
            (["same", bad, good], named.clone()),
            (["same", good, bad], named.clone()),
            (["same", bad, bad], named.repeat(2)),
            (["same", "-", good], unnamed.clone()),
            (["same", good, "-"], unnamed.clone()),
            (["same", "-", bad], format!("{unnamed}{named}")),
            (["same", bad, "-"], format!("{named}{unnamed}")),
        ] {
            assert_failed(run(tool(), &arguments, text), 1, &error);
        }
    }
}

#[test]
fn refusals() {
    let folder = folder("refusals");
    let (file, out) = (folder.join("in"), folder.join("out"));
    for (text, error) in refused() {
        fs::write(&file, &text).expect("written");
        let name = file.to_str().expect("UTF-8");
        for command in ["measure", "lift"] {
            assert_failed(run(tool(), &[command, name], b""), 1, error);
            assert_failed(run(tool(), &[command], text.as_bytes()), 1, error);
            let out = out.to_str().expect("UTF-8");
            let left = run(tool(), &[command, name, "-o", out], b"");
            assert_failed(left, 1, error);
        }
        let left = run(tool(), &["lift", "--format", "qdimacs", name], b"");
        assert_failed(left, 1, error);
    }
    assert_eq!(files(&folder), ["in"]);
    // A file that stands is left as it is.
    fs::write(&out, "old").expect("written");
    let left = run(tool(), &["lift", "-o", out.to_str().expect("UTF-8")], b"");
    assert_eq!(left.status, Some(1));
    assert_eq!(fs::read_to_string(&out).expect("kept"), "old");
}

#[test]
fn unreadable_file() {
    let folder = folder("unreadable_file");
    let missing = folder.join("missing");
    let cases = [
        (
            missing.to_str().expect("UTF-8"),
            "No such file or directory",
        ),
        (folder.to_str().expect("UTF-8"), "Is a directory"),
    ];
    // One that is refused is not spoken of.
    let refused = &*written(&folder, "refused", "");
    for (name, why) in cases {
        let error = format!("{name}: {why}\n");
        assert_failed(run(tool(), &["measure", name], b""), 2, &error);
        assert_failed(run(tool(), &["lift", name], b""), 2, &error);
        for other in [&*example(), refused, "-"] {
            assert_failed(run(tool(), &["same", name, other], b""), 2, &error);
            assert_failed(run(tool(), &["same", other, name], b""), 2, &error);
        }
    }
    for arguments in [&["lift"][..], &["same", "-", &example()]] {
        let input = File::open(&folder).expect("a folder");
        let left = Command::new(tool()).args(arguments).stdin(input).output();
        let left = left.expect("the tool can be run");
        assert_eq!(left.stderr, b"standard input: Is a directory\n");
        assert_eq!(left.status.code(), Some(2));
    }
}

#[test]
fn unwritable_output() {
    let folder = folder("unwritable_output");
    let missing = folder.join("missing/out");
    // Its new file can be made beside it, and not take its name.
    let long = folder.join("x".repeat(300));
    let mut cases = vec![
        (
            missing.to_str().expect("UTF-8"),
            "No such file or directory",
        ),
        (folder.to_str().expect("UTF-8"), "Is a directory"),
        (long.to_str().expect("UTF-8"), "File name too long"),
    ];
    if cfg!(target_os = "linux") {
        cases.push(("/dev/full", "No space left on device"));
    }
    for (name, why) in cases {
        let left = run(tool(), &["lift", &example(), "-o", name], b"");
        assert_failed(left, 2, &format!("{name}: {why}\n"));
        assert!(files(&folder).is_empty(), "left behind for {name}");
    }
}

#[cfg(target_os = "linux")]
#[test]
fn standard_output_full_or_unread() {
    for arguments in [
        &["lift", &*example()][..],
        &["same", &example(), &example()],
        &["report", &example()],
    ] {
        let full = File::create("/dev/full").expect("a device");
        let left = Command::new(tool())
            .args(arguments)
            .stdout(full)
            .output()
            .expect("the tool can be run");
        assert_eq!(left.stderr, b"standard output: No space left on device\n");
        assert_eq!(left.status.code(), Some(2));
    }

    // The reader is gone before the tool has read its input.
    let mut child = Command::new(tool())
        .arg("lift")
        .stdin(Stdio::piped())
        .stdout(Stdio::piped())
        .stderr(Stdio::piped())
        .spawn()
        .expect("the tool can be run");
    drop(child.stdout.take());
    let mut input = child.stdin.take().expect("a pipe");
    let text = fs::read(example()).expect("the example");
    std::io::Write::write_all(&mut input, &text).expect("the tool reads");
    drop(input);
    let left = child.wait_with_output().expect("the tool ends");
    assert_eq!(left.stderr, b"");
    assert_eq!(left.status.code(), Some(2));
}

#[test]
fn bad_usage() {
    let cases = [
        (&[][..], "no command"),
        (&["-o", "out"], "no command"),
        (&["file"], "unknown command file"),
        (&["-"], "unknown command -"),
        (&["lift", "--fast"], "unknown option --fast"),
        (&["lift", "a", "b"], "more than one file: b"),
        (&["lift", "a", "-o"], "-o without a file"),
        (&["lift", "a", "-o", "b", "-o", "c"], "-o twice"),
        (&["lift", "--format"], "--format without a name"),
        (&["lift", "--format", "cnf", "a"], "unknown format cnf"),
        (
            &["lift", "--format", "qcir", "--format", "qcir"],
            "--format twice",
        ),
        (&["measure", "--format", "qcir"], "--format without lift"),
        (&["same"], "same without two files"),
        (&["same", "a"], "same without two files"),
        (&["same", "-"], "same without two files"),
        (&["same", "a", "b", "c"], "more than two files: c"),
        (&["same", "-", "-"], "standard input twice"),
        (&["same", "a", "b", "-o", "c"], "-o with same"),
        (&["-o", "-", "same", "a", "b"], "-o with same"),
        (
            &["same", "--format", "qcir", "a", "b"],
            "--format without lift",
        ),
        (&["same", "a", "b", "--fast"], "unknown option --fast"),
        (&["report", "a", "-o", "b"], "-o with report"),
        (&["report", "--format", "qcir"], "--format without lift"),
        (&["report", "a", "--plot"], "--plot without a file"),
        (&["report", "--plot", "a", "--plot", "b"], "--plot twice"),
        (&["report", "--plot", "-"], "--plot to standard output"),
        (&["report", "a", ""], "a file without a name"),
        (&["report", "a", "b\nc"], "a line feed in a file's name"),
        (&["lift", "--plot", "a"], "--plot without report"),
        (&["measure", "--plot", "a"], "--plot without report"),
        (&["same", "a", "b", "--plot", "c"], "--plot without report"),
        (&["--plot", "a"], "no command"),
    ];
    for (arguments, words) in cases {
        let left = run(tool(), arguments, b"");
        let first = left.error.lines().next();
        assert_eq!(first, Some(&*format!("wakubinryo: {words}")));
        assert!(left.error.contains("\nusage: wakubinryo "));
        assert_eq!((left.status, &*left.output), (Some(2), ""));
    }
}
