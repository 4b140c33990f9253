//! Files of cases: each case has lines of a word and numbers, or a text.

use super::Case;
use wakubinryo::generate::Table;
use wakubinryo::{PrenexForm, Reason, Refusal};

/// A line's numbers, by its first word.
pub struct Vector {
    case: u64,
    lines: Vec<(String, Vec<u32>)>,
}

impl Vector {
    pub fn find(&self, key: &str) -> Option<&[u32]> {
        let line = self.lines.iter().find(|(k, _)| k == key);
        line.map(|(_, numbers)| numbers.as_slice())
    }

    pub fn get(&self, key: &str) -> &[u32] {
        self.find(key)
            .unwrap_or_else(|| panic!("case {}: no {key}", self.case))
    }

    fn table(&self) -> Table {
        Table {
            words: self.get("words").to_vec(),
            list: self.get("list").to_vec(),
        }
    }

    pub fn accepted(&self) -> bool {
        self.get("measure")[0] == 0
    }

    pub fn form(&self) -> PrenexForm {
        if !self.accepted() {
            return PrenexForm::default();
        }
        PrenexForm {
            nodes: self.get("nodes").to_vec(),
            prefix: self.get("prefix").to_vec(),
            variables: self.get("variables").to_vec(),
        }
    }
}

fn vectors(text: &str) -> Vec<Vector> {
    let mut vectors: Vec<Vector> = Vec::new();
    for line in text.lines() {
        if line.is_empty() || line.starts_with('#') {
            continue;
        }
        let mut words = line.split_ascii_whitespace();
        let key = words.next().expect("a word").to_string();
        let numbers: Vec<u32> = words.map(|w| w.parse().expect("a number")).collect();
        if key == "case" {
            vectors.push(Vector {
                case: numbers[0].into(),
                lines: Vec::new(),
            });
        } else {
            vectors
                .last_mut()
                .expect("a case")
                .lines
                .push((key, numbers));
        }
    }
    vectors
}

/// Runs `one` for each of so many vectors and its table.
pub fn each_vector(text: &str, cases: usize, mut one: impl FnMut(&Vector, &Table)) {
    let vectors = vectors(text);
    assert_eq!(vectors.len(), cases);
    for vector in vectors {
        let _case = Case("vectors", vector.case);
        one(&vector, &vector.table());
    }
}

/// A case over a form.
#[derive(Default)]
pub struct FormVector {
    case: u64,
    pub form: PrenexForm,
    /// Number, position and bytes.
    pub write: Vec<u64>,
    pub text: Vec<u8>,
    /// The form's value under each valuation of these, the first one's value
    /// changing slowest and all others false.
    pub over: Option<Vec<u32>>,
    pub truth: Vec<u32>,
}

fn form_vectors(text: &str) -> Vec<FormVector> {
    let mut vectors: Vec<FormVector> = Vec::new();
    for line in text.lines() {
        if line.is_empty() || line.starts_with('#') {
            continue;
        }
        let (key, rest) = line.split_once(' ').unwrap_or((line, ""));
        if key == "case" {
            vectors.push(FormVector {
                case: rest.parse().expect("a number"),
                ..FormVector::default()
            });
            continue;
        }
        let vector = vectors.last_mut().expect("a case");
        let words = || rest.split_ascii_whitespace();
        let numbers = || words().map(|n| n.parse().expect("a number")).collect();
        match key {
            "nodes" => vector.form.nodes = numbers(),
            "prefix" => vector.form.prefix = numbers(),
            "variables" => vector.form.variables = numbers(),
            "write" => vector.write = words().map(|n| n.parse().expect("a number")).collect(),
            "text" => {
                let text = rest.trim_matches('"').replace("\\n", "\n");
                assert!(!text.contains('\\'), "an escape");
                vector.text = text.into_bytes();
            }
            "over" => vector.over = Some(numbers()),
            "truth" => vector.truth = numbers(),
            _ => panic!("line {line}"),
        }
    }
    vectors
}

impl FormVector {
    pub fn expected(&self) -> Result<&[u8], Refusal> {
        match *self.write {
            [0, 0, bytes] => {
                assert_eq!(bytes as usize, self.text.len());
                Ok(&self.text)
            }
            [number, position, 0] => {
                let reason = Reason::from_number(number as u32).expect("a refusal");
                Err(reason.at(position as usize))
            }
            _ => panic!("answer {:?}", self.write),
        }
    }
}

/// Runs `one` for each of so many vectors over forms.
pub fn each_form_vector(text: &str, cases: usize, mut one: impl FnMut(&FormVector)) {
    let vectors = form_vectors(text);
    assert_eq!(vectors.len(), cases);
    for vector in vectors {
        let _case = Case("vectors", vector.case);
        one(&vector);
    }
}

/// A case over a QCIR text.
#[derive(Default)]
pub struct ReadVector {
    case: u64,
    pub text: Vec<u8>,
    /// Number, position, words and entries.
    pub read: Vec<u32>,
    pub table: Table,
    pub over: Option<Vec<u32>>,
    pub truth: Vec<u32>,
}

/// The bytes between quotes, with \n, \t, \\, \" and \xNN, and what stands after
/// the quotes.
fn quoted(line: &str) -> (Vec<u8>, &str) {
    let mut bytes = line.strip_prefix('"').expect("quotes").bytes();
    let mut text = Vec::new();
    loop {
        match bytes.next().expect("quotes") {
            b'"' => return (text, &line[line.len() - bytes.len()..]),
            b'\\' => text.push(escaped(&mut bytes)),
            byte => text.push(byte),
        }
    }
}

/// The byte that an escape stands for, after its backslash.
fn escaped(bytes: &mut std::str::Bytes) -> u8 {
    match bytes.next() {
        Some(b'n') => b'\n',
        Some(b't') => b'\t',
        Some(b'x') => {
            let pair = [bytes.next(), bytes.next()].map(|digit| digit.expect("two digits"));
            let pair = std::str::from_utf8(&pair).expect("hexadecimal").to_string();
            u8::from_str_radix(&pair, 16).expect("hexadecimal")
        }
        Some(byte @ (b'\\' | b'"')) => byte,
        other => panic!("escape {other:?}"),
    }
}

/// The bytes between the quotes of a line that has nothing else.
fn unescape(line: &str) -> Vec<u8> {
    let (text, rest) = quoted(line);
    assert_eq!(rest, "");
    text
}

fn read_vectors() -> Vec<ReadVector> {
    let mut vectors: Vec<ReadVector> = Vec::new();
    for line in include_str!("../../vectors/qcir-read.txt").lines() {
        if line.is_empty() || line.starts_with('#') {
            continue;
        }
        let (key, rest) = line.split_once(' ').unwrap_or((line, ""));
        if key == "case" {
            vectors.push(ReadVector {
                case: rest.parse().expect("a number"),
                ..ReadVector::default()
            });
            continue;
        }
        let vector = vectors.last_mut().expect("a case");
        if key == "text" {
            vector.text = unescape(rest);
            continue;
        }
        let numbers = rest.split_ascii_whitespace();
        let numbers: Vec<u32> = numbers.map(|n| n.parse().expect("a number")).collect();
        match key {
            "read" => vector.read = numbers,
            "nodes" => vector.table.words = numbers,
            "list" => vector.table.list = numbers,
            "over" => vector.over = Some(numbers),
            "truth" => vector.truth = numbers,
            _ => panic!("line {line}"),
        }
    }
    assert_eq!(vectors.len(), 420);
    vectors
}

/// Runs `one` for each vector over QCIR texts.
pub fn each_read_vector(mut one: impl FnMut(&ReadVector)) {
    for vector in read_vectors() {
        let _case = Case("vectors", vector.case);
        one(&vector);
    }
}

/// A case over lines of figures: the lines, and the ten figures of their total.
#[derive(Default)]
pub struct GrowthVector {
    case: u64,
    pub lines: Vec<u32>,
    pub total: Vec<u64>,
}

/// Runs `one` for each vector over lines of figures.
pub fn each_growth_vector(mut one: impl FnMut(&GrowthVector)) {
    let mut vectors: Vec<GrowthVector> = Vec::new();
    for line in include_str!("../../vectors/growth-lines.txt").lines() {
        if line.is_empty() || line.starts_with('#') {
            continue;
        }
        let (key, rest) = line.split_once(' ').unwrap_or((line, ""));
        let words = || rest.split_ascii_whitespace();
        if key == "case" {
            vectors.push(GrowthVector {
                case: rest.parse().expect("a number"),
                ..GrowthVector::default()
            });
            continue;
        }
        let vector = vectors.last_mut().expect("a case");
        match key {
            "lines" => vector.lines = words().map(|n| n.parse().expect("a number")).collect(),
            "total" => vector.total = words().map(|n| n.parse().expect("a number")).collect(),
            _ => panic!("line {line}"),
        }
    }
    assert_eq!(vectors.len(), 180);
    for vector in vectors {
        let _case = Case("growth vectors", vector.case);
        one(&vector);
    }
}

/// A case over a folder of files: their names and texts, what a report is given on
/// standard input, and what it prints.
#[derive(Default)]
pub struct MonthVector {
    pub case: u64,
    pub files: Vec<(Vec<u8>, Vec<u8>)>,
    pub input: Vec<u8>,
    pub output: Vec<u8>,
}

/// Runs `one` for each vector over folders of files.
pub fn each_month_vector(mut one: impl FnMut(&MonthVector)) {
    let mut vectors: Vec<MonthVector> = Vec::new();
    for line in include_str!("../../vectors/month.txt").lines() {
        if line.is_empty() || line.starts_with('#') {
            continue;
        }
        let (key, rest) = line.split_once(' ').expect("a word and more");
        if key == "case" {
            vectors.push(MonthVector {
                case: rest.parse().expect("a number"),
                ..MonthVector::default()
            });
            continue;
        }
        let vector = vectors.last_mut().expect("a case");
        let (first, rest) = quoted(rest);
        match key {
            "stdin" => vector.input = first,
            "stdout" => vector.output = first,
            "file" => vector.files.push((first, unescape(rest.trim_start()))),
            "big" => {
                let mut text = b"#QCIR-G14\nfree(1)\noutput(1)\n".to_vec();
                text.resize(rest.trim_start().parse().expect("a length"), b' ');
                vector.files.push((first, text));
            }
            _ => panic!("line {line}"),
        }
    }
    assert_eq!(vectors.len(), 90);
    for vector in vectors {
        let _case = Case("month vectors", vector.case);
        one(&vector);
    }
}
