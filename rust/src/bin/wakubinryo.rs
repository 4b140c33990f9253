//! The command-line tool: measures a QCIR file, lifts it to a QCIR or a QDIMACS
//! file, compares the prenex forms of two, or reports the growth of many. It calls
//! the library and holds no rule of its own.

use std::borrow::Cow;
use std::ffi::{OsStr, OsString};
use std::fs::{self, File, OpenOptions};
use std::io::{self, ErrorKind, Read, Write};
use std::os::unix::ffi::OsStrExt;
use std::path::{Path, PathBuf};
use std::process::{self, ExitCode};
use wakubinryo::answer::line;
use wakubinryo::growth_plot;
use wakubinryo::name_lines::NameLines;
use wakubinryo::qcir::LONGEST;
use wakubinryo::words::{self, STANDARD_INPUT, STANDARD_OUTPUT};
use wakubinryo::{lift_text, measure_text, names, prenex_form, read_qcir, report};
use wakubinryo::{Format, Line, PrenexForm, Reason, Refusal};

const USAGE: &str = "\
usage: wakubinryo measure [FILE] [-o OUT]
       wakubinryo lift [--format qcir|qdimacs] [FILE] [-o OUT]
       wakubinryo same FILE FILE
       wakubinryo report [--plot FILE.svg] [FILE..]
       wakubinryo --help | --version
";

const HELP: &str = "
Reads QCIR files and moves all quantifiers of each into a prefix.

  measure    print the sizes of the file's table and of its prenex form
  lift       print its prenex form
  same       print same if the prenex forms of two files are equal word for
             word, and different if they are not
  report     print a line of figures for each of up to 256 files, and their total

  --format qcir
             print a prenex QCIR file with the same truth value; so too if there
             is no --format
  --format qdimacs
             print clauses that are true exactly if some valuation of the free
             variables makes the file true
  --plot FILE.svg
             draw nodes written against input nodes, with a dot for each accepted
             file, and write the drawing to this file, whole or not at all
  FILE       the file to read; standard input if it is - or left out. same has
             two, and one of them may be -. report has any number, - being a name
             like any other; if there is none, standard input has the names, one
             a line
  -o OUT     write to the file OUT, whole or not at all; standard output if OUT
             is - or there is no -o
  --help     print this text
  --version  print the version

Files that are the same are one design, with the same truth value, so a store
need keep only one of them. Two files that differ in the numbers of bound
variables and of gates alone are the same if the highest variable numbers that
they use or bind are equal, and different if not.

A line of a report has the file's name, the number of its refusal or 0, its
nodes, blocks, bound variables and quantifier depth, and the nodes and the prefix
variables written; these six are 0 if it is refused. The number is 22 if the file
can't be read. The last line has the word total, the files read, the files
refused, the six sums, and the nodes written and the input nodes of the file that
grew most. With over 256 names the number 20 is all that is printed, with a name
over 255 bytes the number 21, and no file is read.

A refusal goes to standard error: its number, its place and the reason; with
same, the file's name comes first. In a report it stands in the file's line.
Exit status: 0 done or same; 1 refused or different, or a report with a refusal;
2 wrong usage, a file that can't be read or written, or a report that is 20 or 21.
";

const VERSION: &str = concat!("wakubinryo ", env!("CARGO_PKG_VERSION"), "\n");

/// Why nothing is written.
enum Failure {
    /// The text is refused, in these words.
    Refused(String),
    /// A file can't be read or written, in these words.
    File(String),
    /// What is wrong with the arguments.
    Usage(String),
    /// Nobody reads standard output any more.
    Unread,
}

#[derive(Clone, Copy)]
enum Command {
    Measure,
    Lift,
    Same,
    Report,
}

/// The file to read and the one to write.
struct Files {
    input: OsString,
    output: OsString,
}

/// What the arguments ask for. A name that is left out is `-`.
enum Asked {
    Measure(Files),
    Lift(Format, Files),
    Same([OsString; 2]),
    Report {
        files: Vec<OsString>,
        plot: Option<OsString>,
    },
    Print(String),
}

fn main() -> ExitCode {
    let (message, status) = match run(std::env::args_os().skip(1)) {
        Ok(status) => return status,
        Err(Failure::Refused(words)) => (format!("{words}\n"), 1),
        Err(Failure::File(words)) => (format!("{words}\n"), 2),
        Err(Failure::Usage(words)) => (format!("wakubinryo: {words}\n{USAGE}"), 2),
        Err(Failure::Unread) => (String::new(), 2),
    };
    // If standard error is closed too, the status is all there is to say.
    let _ = io::stderr().write_all(message.as_bytes());
    ExitCode::from(status)
}

fn run(arguments: impl Iterator<Item = OsString>) -> Result<ExitCode, Failure> {
    match parse(arguments)? {
        Asked::Measure(files) => answer(&files, measured)?,
        Asked::Lift(format, files) => answer(&files, |text| Ok(lift_text(text, format)?.text))?,
        Asked::Same(names) => return compare(&names),
        Asked::Report { files, plot } => return report_files(&files, plot.as_deref()),
        Asked::Print(text) => print(text.as_bytes())?,
    }
    Ok(ExitCode::SUCCESS)
}

/// Reads a file and writes what is said of it.
fn answer(files: &Files, say: impl Fn(&[u8]) -> Result<Vec<u8>, Refusal>) -> Result<(), Failure> {
    let text = read(&files.input)?;
    let said = say(&text).map_err(|r| Failure::Refused(words::refused(&r, &text)))?;
    write(&files.output, &said)
}

fn measured(text: &[u8]) -> Result<Vec<u8>, Refusal> {
    Ok(words::figures(&measure_text(text)?).into_bytes())
}

fn form(text: &[u8]) -> Result<PrenexForm, Refusal> {
    let table = read_qcir(text)?;
    prenex_form(&table.words, &table.list)
}

/// Prints whether two files have the same prenex form, and gives the status that
/// says so too.
fn compare([one, other]: &[OsString; 2]) -> Result<ExitCode, Failure> {
    let texts = [read(one)?, read(other)?];
    let form_of = |name: &OsStr, text: &[u8]| {
        let refused = |r| format!("{}: {}", shown_input(name), words::refused(&r, text));
        form(text).map_err(refused)
    };
    match [form_of(one, &texts[0]), form_of(other, &texts[1])] {
        [Ok(one), Ok(other)] => {
            let (word, status) = if one == other {
                ("same\n", 0)
            } else {
                ("different\n", 1)
            };
            print(word.as_bytes())?;
            Ok(ExitCode::from(status))
        }
        forms => {
            let refusals = forms.into_iter().filter_map(Result::err);
            Err(Failure::Refused(refusals.collect::<Vec<_>>().join("\n")))
        }
    }
}

/// Prints the report of these files, or of those that standard input names, and
/// gives the status that says whether all are accepted.
fn report_files(files: &[OsString], plot: Option<&OsStr>) -> Result<ExitCode, Failure> {
    let named = if files.is_empty() {
        names_from_standard_input()?
    } else {
        names_from_arguments(files)?
    };
    let text = named.text();
    if let Err(refusal) = names(text) {
        print(format!("{}\n", refusal.reason.number()).as_bytes())?;
        return Ok(ExitCode::from(2));
    }
    let lines = text.split(|&byte| byte == b'\n');
    let lines: Vec<Line> = lines
        .filter(|name| !name.is_empty())
        .map(|name| measured_line(OsStr::from_bytes(name)))
        .collect();
    let report = report(text, lines.as_flattened()).expect("as many lines as names");
    if let Some(name) = plot {
        write(name, growth_plot::draw(&lines).as_bytes())?;
    }
    print(&report)?;
    let refused = lines.iter().any(|line| line[0] != 0);
    Ok(ExitCode::from(u8::from(refused)))
}

fn names_from_standard_input() -> Result<NameLines, Failure> {
    let mut names = NameLines::default();
    let read = io::copy(&mut io::stdin().lock(), &mut names);
    read.map_err(|e| Failure::File(words::failed(STANDARD_INPUT, &e)))?;
    Ok(names)
}

/// The arguments as lines. One that is empty or has a line feed can't be a line.
fn names_from_arguments(files: &[OsString]) -> Result<NameLines, Failure> {
    let mut names = NameLines::default();
    for file in files {
        let name = file.as_bytes();
        if name.is_empty() {
            return Err(Failure::Usage("a file without a name".into()));
        }
        if name.contains(&b'\n') {
            return Err(Failure::Usage("a line feed in a file's name".into()));
        }
        let written = names.write_all(name).and_then(|()| names.write_all(b"\n"));
        written.expect("names are kept in memory");
    }
    Ok(names)
}

/// The line of figures of a file, with number 22 if it can't be read.
fn measured_line(name: &OsStr) -> Line {
    let text = read_file(name).map_err(|_| Reason::Unreadable.at(0));
    line(text.and_then(|text| measure_text(&text)))
}

fn parse(mut arguments: impl Iterator<Item = OsString>) -> Result<Asked, Failure> {
    let wrong = |words: String| Err(Failure::Usage(words));
    let mut command = None;
    let mut format: Option<Format> = None;
    let mut inputs = Vec::new();
    let mut output = None;
    let mut plot = None;
    let mut options = true;
    while let Some(argument) = arguments.next() {
        let shown = argument.to_string_lossy();
        let is_option = options && shown.starts_with('-') && shown != "-";
        match (&*shown, is_option) {
            ("--help" | "-h", true) => return Ok(Asked::Print(format!("{USAGE}{HELP}"))),
            ("--version" | "-V", true) => return Ok(Asked::Print(VERSION.into())),
            ("--", true) => options = false,
            ("-o", true) => match arguments.next() {
                None => return wrong("-o without a file".into()),
                Some(_) if output.is_some() => return wrong("-o twice".into()),
                name => output = name,
            },
            ("--format", true) => match arguments.next() {
                None => return wrong("--format without a name".into()),
                Some(_) if format.is_some() => return wrong("--format twice".into()),
                Some(name) if name == "qcir" => format = Some(Format::Qcir),
                Some(name) if name == "qdimacs" => format = Some(Format::Qdimacs),
                Some(name) => {
                    return wrong(format!("unknown format {}", name.to_string_lossy()));
                }
            },
            ("--plot", true) => match arguments.next() {
                None => return wrong("--plot without a file".into()),
                Some(_) if plot.is_some() => return wrong("--plot twice".into()),
                Some(name) if name == "-" => return wrong("--plot to standard output".into()),
                name => plot = name,
            },
            (_, true) => return wrong(format!("unknown option {shown}")),
            ("measure", _) if command.is_none() => command = Some(Command::Measure),
            ("lift", _) if command.is_none() => command = Some(Command::Lift),
            ("same", _) if command.is_none() => command = Some(Command::Same),
            ("report", _) if command.is_none() => command = Some(Command::Report),
            _ => match (command, inputs.len()) {
                (None, _) => return wrong(format!("unknown command {shown}")),
                (Some(Command::Same), 2) => return wrong(format!("more than two files: {shown}")),
                (Some(Command::Measure | Command::Lift), 1) => {
                    return wrong(format!("more than one file: {shown}"));
                }
                _ => inputs.push(argument),
            },
        }
    }
    let files = |input: Option<OsString>, output: Option<OsString>| Files {
        input: input.unwrap_or_else(|| "-".into()),
        output: output.unwrap_or_else(|| "-".into()),
    };
    match (command, format, output) {
        (None, ..) => wrong("no command".into()),
        (Some(Command::Measure | Command::Lift | Command::Same), ..) if plot.is_some() => {
            wrong("--plot without report".into())
        }
        (Some(Command::Lift), format, output) => Ok(Asked::Lift(
            format.unwrap_or(Format::Qcir),
            files(inputs.pop(), output),
        )),
        (Some(_), Some(_), _) => wrong("--format without lift".into()),
        (Some(Command::Measure), None, output) => Ok(Asked::Measure(files(inputs.pop(), output))),
        (Some(Command::Same), None, Some(_)) => wrong("-o with same".into()),
        (Some(Command::Same), None, None) => match <[OsString; 2]>::try_from(inputs) {
            Err(_) => wrong("same without two files".into()),
            Ok(names) if names == ["-", "-"] => wrong("standard input twice".into()),
            Ok(names) => Ok(Asked::Same(names)),
        },
        (Some(Command::Report), None, Some(_)) => wrong("-o with report".into()),
        (Some(Command::Report), None, None) => Ok(Asked::Report {
            files: inputs,
            plot,
        }),
    }
}

/// Reads a file or standard input.
fn read(name: &OsStr) -> Result<Vec<u8>, Failure> {
    let text = if name == "-" {
        read_text(io::stdin().lock())
    } else {
        read_file(name)
    };
    text.map_err(|e| Failure::File(words::failed(&shown_input(name), &e)))
}

fn read_file(name: &OsStr) -> io::Result<Vec<u8>> {
    read_text(File::open(name)?)
}

/// Reads a text, or of one that is too long a byte more than it may have.
fn read_text(input: impl Read) -> io::Result<Vec<u8>> {
    let mut text = Vec::new();
    input.take(LONGEST as u64 + 1).read_to_end(&mut text)?;
    Ok(text)
}

/// What a file to read is called.
fn shown_input(name: &OsStr) -> Cow<'_, str> {
    if name == "-" {
        STANDARD_INPUT.into()
    } else {
        name.to_string_lossy()
    }
}

fn write(name: &OsStr, bytes: &[u8]) -> Result<(), Failure> {
    if name == "-" {
        return print(bytes);
    }
    let failed = |e| Failure::File(words::failed(&name.to_string_lossy(), &e));
    write_file(Path::new(name), bytes).map_err(failed)
}

fn print(bytes: &[u8]) -> Result<(), Failure> {
    let mut output = io::stdout().lock();
    let printed = output.write_all(bytes).and_then(|()| output.flush());
    printed.map_err(|e| match e.kind() {
        ErrorKind::BrokenPipe => Failure::Unread,
        _ => Failure::File(words::failed(STANDARD_OUTPUT, &e)),
    })
}

/// Writes a file whole or not at all: a new one beside it takes its name once
/// all is written. What is no regular file, as a device, is written as it is.
fn write_file(path: &Path, bytes: &[u8]) -> io::Result<()> {
    let Ok(standing) = fs::metadata(path) else {
        return replace(path, bytes, None);
    };
    if !standing.is_file() {
        return OpenOptions::new().write(true).open(path)?.write_all(bytes);
    }
    // The file itself, where the path is a link to it.
    replace(
        &fs::canonicalize(path)?,
        bytes,
        Some(standing.permissions()),
    )
}

fn replace(path: &Path, bytes: &[u8], permissions: Option<fs::Permissions>) -> io::Result<()> {
    let (new, mut file) = create_beside(path)?;
    let done = file
        .write_all(bytes)
        .and_then(|()| permissions.map_or(Ok(()), |p| file.set_permissions(p)))
        .and_then(|()| file.sync_all())
        .and_then(|()| fs::rename(&new, path));
    if done.is_err() {
        // The error that is told is the first.
        let _ = fs::remove_file(&new);
    }
    done
}

/// A new file in the folder of this one.
fn create_beside(path: &Path) -> io::Result<(PathBuf, File)> {
    let mut number = 0;
    loop {
        let name = format!(".wakubinryo-{}-{number}", process::id());
        let new = path.with_file_name(name);
        match OpenOptions::new().write(true).create_new(true).open(&new) {
            Ok(file) => return Ok((new, file)),
            Err(e) if e.kind() == ErrorKind::AlreadyExists && number < 100 => number += 1,
            Err(e) => return Err(e),
        }
    }
}
