//! Growth reports of files: the tool and the Rattle program growth_report print
//! what the reference writes. The program is in ../crates/growth_report/out once
//! `rt ci` has been run, or `rt run` in its folder.

mod common;
mod programs;

use common::reports::{equal_names, name, names_text, some_names};
use common::vectors::each_month_vector;
use common::{each, reference_table};
use programs::{folder, output, rattle_program, refused, repository, tool};
use std::ffi::OsStr;
use std::fs::{self, File};
use std::os::unix::ffi::OsStrExt;
use std::path::Path;
use std::process::{Command, Output};
use std::str::from_utf8;
use wakubinryo::answer::line;
use wakubinryo::generate::Rng;
use wakubinryo::generate_qcir::{damage_once, exchange_names, good_file};
use wakubinryo::qcir::LONGEST;
use wakubinryo::{growth, reference};
use wakubinryo::{Line, Reason};

const GOOD: &[u8] = b"#QCIR-G14\noutput(5)\n3 = exists(1; 1)\n4 = forall(2; 2)\n5 = xor(3, 4)\n";

fn path(bytes: &[u8]) -> &Path {
    Path::new(OsStr::from_bytes(bytes))
}

/// The line of figures of a file, by the reference.
fn reference_line(file: &Path) -> Line {
    let measured = match fs::read(file) {
        Err(_) => Err(Reason::Unreadable.at(0)),
        Ok(text) => match reference_table(&text) {
            (Ok(_), table) => reference::measure(&table.words, &table.list),
            (Err(refusal), _) => Err(refusal),
        },
    };
    line(measured)
}

/// What is to be printed for a text of names in a folder, and the tool's status.
fn expected(folder: &Path, input: &[u8]) -> (Vec<u8>, i32) {
    expected_of(folder, input, |_| true)
}

/// The same where only names that `opens` tells can be opened.
fn expected_of(folder: &Path, input: &[u8], opens: fn(&[u8]) -> bool) -> (Vec<u8>, i32) {
    match growth::accepted_names(input) {
        Err(refusal) => (format!("{}\n", refusal.reason.number()).into_bytes(), 2),
        Ok(names) => {
            let file = |name: &&[u8]| match opens(name) {
                true => reference_line(&folder.join(path(name))),
                false => line(Err(Reason::Unreadable.at(0))),
            };
            let lines: Vec<Line> = names.iter().map(file).collect();
            let text = growth::report(input, lines.as_flattened()).expect("accepted");
            (text, lines.iter().any(|line| line[0] != 0).into())
        }
    }
}

/// Asserts that this is all that a program printed.
#[track_caller]
fn assert_output(left: &Output, printed: &[u8]) {
    assert_eq!(String::from_utf8_lossy(&left.stderr), "");
    assert!(
        left.stdout == printed,
        "printed:\n{}\nand not:\n{}",
        String::from_utf8_lossy(&left.stdout),
        String::from_utf8_lossy(printed)
    );
}

/// The tool, to be run in a folder.
fn report_in(folder: &Path) -> Command {
    let mut command = Command::new(tool());
    command.arg("report").current_dir(folder);
    command
}

/// The Rattle program, to be run in a folder.
fn program_in(folder: &Path) -> Command {
    let mut command = Command::new(rattle_program("growth_report"));
    command.current_dir(folder);
    command
}

/// Holds the tool and the Rattle program to what is to be printed for a text of
/// names, which the tool is given on standard input and, where it can be, as
/// arguments. Gives what the tool prints and its status; the program prints the
/// same but for names that are no text in UTF-8, which it can't open.
fn assert_reported(folder: &Path, input: &[u8]) -> (Vec<u8>, i32) {
    let (text, status) = expected(folder, input);
    let mut runs = vec![output(&mut report_in(folder), input)];
    let names = growth::names(input);
    if !names.is_empty() && !input.contains(&0) {
        let arguments = names.iter().map(|name| OsStr::from_bytes(name));
        let mut command = report_in(folder);
        command.arg("--").args(arguments);
        runs.push(output(&mut command, b""));
    }
    for left in runs {
        assert_output(&left, &text);
        assert_eq!(left.status.code(), Some(status));
    }
    let (of_program, _) = expected_of(folder, input, |name| from_utf8(name).is_ok());
    assert_output(&output(&mut program_in(folder), input), &of_program);
    (text, status)
}

#[test]
fn every_vector() {
    let all = folder("every_vector_of_months");
    let mut statuses = [0; 3];
    each_month_vector(|vector| {
        let folder = all.join(vector.case.to_string());
        fs::create_dir(&folder).expect("a new folder");
        for (name, text) in &vector.files {
            fs::write(folder.join(path(name)), text).expect("written");
        }
        let (text, status) = assert_reported(&folder, &vector.input);
        assert!(text == vector.output, "not what the vector has");
        statuses[status as usize] += 1;
    });
    assert!(statuses.iter().all(|&count| count > 8), "{statuses:?}");
}

#[test]
fn limits_of_names() {
    let folder = folder("limits_of_names");
    for bytes in [1, 255] {
        let name = vec![b'n'; bytes];
        fs::write(folder.join(path(&name)), GOOD).expect("written");
    }
    let (many, long) = (b"20\n", b"21\n");
    for (count, bytes, printed) in [
        (256, 1, None),
        (257, 1, Some(many)),
        (256, 255, None),
        (257, 255, Some(many)),
        (1, 256, Some(long)),
        (256, 256, Some(long)),
        (257, 256, Some(many)),
        (1_000, 300, Some(many)),
    ] {
        let (text, status) = assert_reported(&folder, &equal_names(count, bytes));
        match printed {
            Some(number) => assert_eq!((&*text, status), (&number[..], 2)),
            None => {
                let lines = text.split(|&byte| byte == b'\n').count();
                assert_eq!((lines, status), (count + 2, 0));
            }
        }
    }
}

/// A text that is to be refused opens no file: opening a pipe would wait for a
/// writer.
#[test]
fn no_file_is_opened_before_the_verdict() {
    let folder = folder("no_file_is_opened");
    let made = Command::new("mkfifo").arg(folder.join("n")).status();
    assert!(made.expect("mkfifo can be run").success());
    let long = [&b"n\n"[..], &equal_names(1, 256)].concat();
    for (input, printed) in [(equal_names(257, 1), b"20\n"), (long, b"21\n")] {
        for command in [report_in(&folder), program_in(&folder)] {
            let mut limited = Command::new("timeout");
            limited.arg("20").arg(command.get_program());
            limited.args(command.get_args()).current_dir(&folder);
            assert_output(&output(&mut limited, &input), printed);
        }
    }
}

/// Standard input of any length is read in little memory.
#[test]
fn long_input_in_little_memory() {
    let folder = folder("long_input");
    fs::write(folder.join("a"), GOOD).expect("written");
    const LENGTH: usize = 40 << 20;
    let mut lines = vec![b'\n'; LENGTH];
    lines.extend(b"a\n");
    let mut names = b"a\n".repeat(LENGTH / 2);
    names.extend(b"\n".repeat(1_000));
    let one = b"a 0 5 2 2 1 23 6\ntotal 1 0 5 2 2 1 23 6 23 5\n";
    for (input, printed) in [
        (lines, &one[..]),
        (vec![b'a'; LENGTH], b"21\n"),
        (names, b"20\n"),
    ] {
        for command in [report_in(&folder), program_in(&folder)] {
            let mut limited = Command::new("sh");
            // In KiB: less than the input has.
            limited.args(["-c", "ulimit -v 32768; exec \"$0\" \"$@\""]);
            limited.arg(command.get_program()).args(command.get_args());
            assert_output(&output(limited.current_dir(&folder), &input), printed);
        }
    }
}

/// The number in each line of a report but the last, which begins with its name.
fn numbers(text: &[u8]) -> Vec<u32> {
    let text = String::from_utf8_lossy(text);
    let lines: Vec<&str> = text.lines().collect();
    let number = |line: &&str| line.rsplit(' ').nth(6).expect("seven figures").parse();
    let numbers = lines[..lines.len() - 1].iter().map(number);
    numbers.map(|number| number.expect("a number")).collect()
}

/// Files of every refusal, those too that can't be read, among accepted ones.
#[test]
fn every_refusal() {
    let folder = folder("every_refusal");
    fs::create_dir(folder.join("folder")).expect("a new folder");
    let mut input = b"missing\nfolder\n\0\nno\0name\ngood\0\n/\n".to_vec();
    for (number, (text, _)) in refused().iter().enumerate() {
        fs::write(folder.join(number.to_string()), text).expect("written");
        input.extend(format!("{number}\ngood\n").bytes());
    }
    fs::write(folder.join("good"), GOOD).expect("written");
    let (text, status) = assert_reported(&folder, &input);
    assert_eq!(status, 1);
    let mut came = numbers(&text);
    assert_eq!(came[..6], [22; 6]);
    came.sort_unstable();
    came.dedup();
    assert_eq!(came, [0, 2, 6, 10, 11, 12, 13, 22]);

    // Each by itself, without names that arguments can't have.
    for number in 0..refused().len() {
        let (text, status) = assert_reported(&folder, number.to_string().as_bytes());
        assert!(numbers(&text)[0] != 0 && status == 1);
    }
    for name in ["missing", "folder", "missing/good", "good/"] {
        let (text, status) = assert_reported(&folder, name.as_bytes());
        assert_eq!((numbers(&text), status), (vec![22], 1));
    }
}

#[test]
fn files_at_the_limit_of_length() {
    let folder = folder("limit_of_length");
    for length in [LONGEST, LONGEST + 1, 300_000] {
        let mut text = GOOD.to_vec();
        text.resize(length, b'\n');
        fs::write(folder.join(length.to_string()), text).expect("written");
    }
    let (text, _) = assert_reported(&folder, b"65536\n65537\n300000");
    assert_eq!(numbers(&text), [0, 10, 10]);
    // A file that has no end, and one that is empty.
    for (name, number) in [("/dev/zero", 10), ("/dev/null", 10)] {
        let figures = "0 0 0 0 0 0";
        let printed = format!("{name} {number} {figures}\ntotal 1 1 {figures} 0 0\n");
        for mut command in [report_in(&folder), program_in(&folder)] {
            let left = output(&mut command, name.as_bytes());
            assert_output(&left, printed.as_bytes());
        }
    }
}

/// Standard input that can't be read: a message, and nothing printed.
#[test]
fn standard_input_that_fails() {
    let folder = folder("standard_input_that_fails");
    for (mut command, status) in [(report_in(&folder), Some(2)), (program_in(&folder), None)] {
        let input = File::open(&folder).expect("a folder");
        let left = command.stdin(input).output().expect("it can be run");
        assert_eq!(left.stderr, b"standard input: Is a directory\n");
        assert_eq!(left.stdout, b"");
        // A Rattle program has no exit status of its own.
        assert!(status.is_none() || left.status.code() == status);
    }
}

/// A text for a file of a random folder.
fn some_text(rng: &mut Rng) -> Vec<u8> {
    let gates = match rng.below(12) {
        0 => rng.between(20, 300),
        _ => rng.below(14),
    };
    let (mut circuit, mut text) = good_file(rng, gates);
    match rng.below(8) {
        0 => {
            for _ in 0..rng.between(1, 3) {
                damage_once(rng, &mut text);
            }
        }
        1 => {
            exchange_names(rng, &mut circuit);
            text = circuit.text();
        }
        2 => {
            let mut refused = refused();
            let (refused, _) = refused.swap_remove(rng.below(refused.len()));
            text = refused.into_bytes();
        }
        _ => {}
    }
    text
}

/// Folders of random files, under names of random bytes.
#[test]
fn random_folders() {
    const FILES: usize = 10;
    let all = folder("random_folders");
    let mut statuses = [0; 3];
    let mut accepted = 0;
    each("folders", 60, |rng, number| {
        let folder = all.join(number.to_string());
        fs::create_dir(&folder).expect("a new folder");
        let missing = rng.pick(&[5, 20, 1_000]);
        let mut names = some_names(rng);
        names.retain(|name| !name.contains(&b'/'));
        let mut input = names.clone();
        for (i, name) in names.iter().enumerate() {
            // Few names have files, and most of the others are those again.
            if i >= FILES && !rng.one_in(4) {
                input[i] = names[rng.below(FILES)].clone();
            } else if i < FILES && !rng.one_in(missing) {
                // No file has a name with a NUL byte, or of over 255 bytes.
                let _ = fs::write(folder.join(path(name)), some_text(rng));
            }
        }
        match rng.below(12) {
            0 => input.insert(rng.below(input.len() + 1), name(rng, 256)),
            1 => input.resize(257, name(rng, 3)),
            _ => {}
        }
        let input = names_text(rng, &input);
        let (text, status) = assert_reported(&folder, &input);
        statuses[status as usize] += 1;
        if status < 2 {
            let numbers = numbers(&text);
            accepted += numbers.iter().filter(|&&number| number == 0).count();
        }
    });
    assert!(statuses.iter().all(|&count| count > 1), "{statuses:?}");
    assert!(accepted > 200, "{accepted}");
}

/// Asserts that a text is one element of XML, whose tags match and whose
/// attributes are in quotes.
fn assert_well_formed(svg: &str) {
    let mut open: Vec<&str> = Vec::new();
    let mut rest = svg;
    while let Some((before, tag_on)) = rest.split_once('<') {
        let text_is_plain = !before.contains(['>', '&']);
        assert!(text_is_plain && (before.trim().is_empty() || !open.is_empty()));
        let (tag, after) = tag_on.split_once('>').expect("the tag's end");
        assert!(!tag.contains(['<', '&']));
        rest = after;
        if let Some(name) = tag.strip_prefix('/') {
            assert_eq!(open.pop(), Some(name));
            assert!(!open.is_empty() || after == "\n", "more than one element");
            continue;
        }
        let (tag, ends) = match tag.strip_suffix('/') {
            Some(tag) => (tag, true),
            None => (tag, false),
        };
        let (name, attributes) = tag.split_once(' ').unwrap_or((tag, ""));
        let parts: Vec<&str> = attributes.split('"').collect();
        assert_eq!(parts.len() % 2, 1, "{tag}");
        for name in parts[..parts.len() - 1].iter().step_by(2) {
            let name = name.trim_start().strip_suffix('=').expect("an attribute");
            let letter = |c: char| c.is_ascii_alphanumeric() || c == '-';
            assert!(!name.is_empty() && name.chars().all(letter), "{tag}");
        }
        if !ends {
            open.push(name);
        }
    }
    assert!(open.is_empty() && rest == "\n", "{open:?}");
}

/// The values of an attribute.
fn values(svg: &str, attribute: &str) -> Vec<f64> {
    let start = format!(" {attribute}=\"");
    let after = svg.split(&start).skip(1);
    let value = after.map(|rest| rest.split('"').next().expect("quotes"));
    value
        .map(|value| value.parse().expect("a number"))
        .collect()
}

/// A plot has a dot for each accepted file, and one that says what dots are.
#[test]
fn plots() {
    let folder = folder("plots");
    fs::write(folder.join("good"), GOOD).expect("written");
    let example = repository("examples/comparators.qcir");
    fs::copy(example, folder.join("comparators")).expect("copied");
    fs::write(folder.join("refused"), "#QCIR-G13").expect("written");
    fs::write(folder.join("<&\">"), GOOD).expect("written");
    let cases = [
        (vec![], 0),
        (vec!["refused", "missing"], 0),
        (vec!["good"], 1),
        (vec!["good", "refused", "good", "comparators", "missing"], 3),
        (vec!["<&\">", "comparators"], 2),
        (vec!["good"; 256], 256),
    ];
    let mut plots = Vec::new();
    for (names, accepted) in cases {
        let input = names.join("\n");
        let (text, status) = expected(&folder, input.as_bytes());
        let mut command = report_in(&folder);
        let left = output(command.args(["--plot", "plot.svg"]), input.as_bytes());
        assert_output(&left, &text);
        assert_eq!(left.status.code(), Some(status));
        let svg = fs::read_to_string(folder.join("plot.svg")).expect("written");
        assert_well_formed(&svg);
        assert_eq!(values(&svg, "r").len(), accepted + 1);
        for (x, y) in values(&svg, "cx").into_iter().zip(values(&svg, "cy")) {
            assert!((80.0..=600.0).contains(&x), "{x}");
            assert!((60.0..=400.0).contains(&y) || y > 450.0, "{y}");
        }
        let title = match accepted {
            1 => "Growth of 1 accepted file:".to_string(),
            _ => format!("Growth of {accepted} accepted files:"),
        };
        assert!(svg.contains(&title) && svg.contains("n + 5b + 4q"));
        assert_eq!(svg.contains("no file is accepted"), accepted == 0);
        plots.push(svg);
    }
    // What is drawn depends on the figures alone, not on names.
    let mut command = report_in(&folder);
    let left = output(command.args(["--plot", "plot.svg", "<&\">"]), b"");
    assert_eq!(left.status.code(), Some(0));
    let svg = fs::read_to_string(folder.join("plot.svg")).expect("written");
    assert_eq!(svg, plots[2]);
}

/// No plot is written where no report is, and no report is printed where the plot
/// can't be written. A file that stands is then left as it is.
#[test]
fn plots_that_are_not_written() {
    let folder = folder("plots_that_are_not_written");
    fs::write(folder.join("n"), GOOD).expect("written");
    fs::write(folder.join("old.svg"), "old").expect("written");
    for (input, printed) in [
        (equal_names(257, 1), b"20\n"),
        (equal_names(1, 256), b"21\n"),
    ] {
        for plot in ["old.svg", "new.svg"] {
            let left = output(report_in(&folder).args(["--plot", plot]), &input);
            assert_output(&left, printed);
            assert_eq!(left.status.code(), Some(2));
        }
    }
    let left = output(
        report_in(&folder).args(["--plot", "missing/plot.svg"]),
        b"n",
    );
    assert_eq!(
        left.stderr,
        b"missing/plot.svg: No such file or directory\n"
    );
    assert_eq!((left.stdout, left.status.code()), (vec![], Some(2)));
    assert_eq!(fs::read(folder.join("old.svg")).expect("kept"), b"old");
    let count = fs::read_dir(&folder).expect("a folder").count();
    assert_eq!(count, 2, "files left behind");
}
