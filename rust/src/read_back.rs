//! Reading back the files of written forms in plain Rust, without limits on
//! length, names, nodes and variables: the circuit that a file without
//! quantified gates spells, and the form that it is stored as, its prefix lines
//! kept as prefix.

use crate::circuit::{Circuit, Gate, Literal, Operation, Quantifier};
use crate::reference::{AND, OR, XOR};
use crate::reference::{CONSTANT, EXISTS, FOR_ALL, NOT, OPERATOR, VARIABLE};
use crate::PrenexForm;
use std::collections::{HashMap, HashSet};

/// The circuit that a file spells. None if it is no file, has a quantified
/// gate, or a number of more than 32 bits.
pub fn circuit(text: &[u8]) -> Option<Circuit> {
    let (header, rest) = split_line(text);
    if !is_header(header) {
        return None;
    }
    let mut lines = Lines(rest).peekable();
    let mut free = Vec::new();
    if let Some(line) = lines.next_if(|line| line.starts_with(b"free")) {
        let mut words = Words(&line[4..]);
        free = words.names()?;
        words.end()?;
    }
    let mut prefix = Vec::new();
    let output = loop {
        let line = lines.next()?;
        if let Some(rest) = line.strip_prefix(b"output") {
            let mut words = Words(rest);
            words.sign(b'(')?;
            let output = words.literal()?;
            words.sign(b')')?;
            words.end()?;
            break output;
        }
        let (quantifier, rest) = match line.strip_prefix(b"exists") {
            Some(rest) => (Quantifier::Exists, rest),
            None => (Quantifier::ForAll, line.strip_prefix(b"forall")?),
        };
        let mut words = Words(rest);
        prefix.push((quantifier, words.names()?));
        words.end()?;
    };
    let gates = lines.map(gate).collect::<Option<Vec<Gate>>>()?;
    Some(Circuit {
        free,
        prefix,
        output,
        gates,
    })
}

/// A line without its LF, and what follows it.
fn split_line(text: &[u8]) -> (&[u8], &[u8]) {
    match text.iter().position(|&byte| byte == b'\n') {
        Some(at) => (&text[..at], &text[at + 1..]),
        None => (text, &[]),
    }
}

fn is_header(line: &[u8]) -> bool {
    line.strip_prefix(b"#QCIR-G14").is_some_and(|rest| {
        rest.is_empty()
            || rest[0].is_ascii_whitespace() && rest.trim_ascii().iter().all(u8::is_ascii_digit)
    })
}

/// The lines that are neither blank nor comments, each from its first sign on.
struct Lines<'a>(&'a [u8]);

impl<'a> Iterator for Lines<'a> {
    type Item = &'a [u8];

    fn next(&mut self) -> Option<&'a [u8]> {
        while !self.0.is_empty() {
            let (line, rest) = split_line(self.0);
            self.0 = rest;
            let line = after_blanks(line);
            if !line.is_empty() && line[0] != b'#' {
                return Some(line);
            }
        }
        None
    }
}

fn after_blanks(text: &[u8]) -> &[u8] {
    let is_blank = |byte: &u8| matches!(byte, b' ' | b'\t');
    let blanks = text.iter().take_while(|byte| is_blank(byte)).count();
    &text[blanks..]
}

/// What is left of a line.
struct Words<'a>(&'a [u8]);

impl Words<'_> {
    fn next_is(&mut self, sign: u8) -> bool {
        self.0 = after_blanks(self.0);
        self.0.first() == Some(&sign)
    }

    fn sign(&mut self, sign: u8) -> Option<()> {
        self.next_is(sign).then(|| self.0 = &self.0[1..])
    }

    fn end(&mut self) -> Option<()> {
        self.0 = after_blanks(self.0);
        self.0.is_empty().then_some(())
    }

    fn name(&mut self) -> Option<u32> {
        self.0 = after_blanks(self.0);
        let digits = self.0.iter().take_while(|b| b.is_ascii_digit()).count();
        let (name, rest) = self.0.split_at(digits);
        self.0 = rest;
        if name.first() == Some(&b'0') {
            return None;
        }
        std::str::from_utf8(name).ok()?.parse().ok()
    }

    fn literal(&mut self) -> Option<Literal> {
        let negated = self.sign(b'-').is_some();
        let name = self.name()?;
        Some(Literal { name, negated })
    }

    /// One or more names in brackets.
    fn names(&mut self) -> Option<Vec<u32>> {
        self.sign(b'(')?;
        let mut names = vec![self.name()?];
        while self.sign(b',').is_some() {
            names.push(self.name()?);
        }
        self.sign(b')')?;
        Some(names)
    }

    /// Any number of literals in brackets.
    fn literals(&mut self) -> Option<Vec<Literal>> {
        self.sign(b'(')?;
        let mut literals = Vec::new();
        if !self.next_is(b')') {
            literals.push(self.literal()?);
            while self.sign(b',').is_some() {
                literals.push(self.literal()?);
            }
        }
        self.sign(b')')?;
        Some(literals)
    }
}

fn gate(line: &[u8]) -> Option<Gate> {
    let mut words = Words(line);
    let name = words.name()?;
    words.sign(b'=')?;
    let line = after_blanks(words.0);
    let (operation, rest) = if let Some(rest) = line.strip_prefix(b"and") {
        (Operation::And, rest)
    } else if let Some(rest) = line.strip_prefix(b"or") {
        (Operation::Or, rest)
    } else {
        (Operation::Xor, line.strip_prefix(b"xor")?)
    };
    let mut words = Words(rest);
    let inputs = words.literals()?;
    words.end()?;
    if operation == Operation::Xor && inputs.len() != 2 {
        return None;
    }
    Some(Gate {
        name,
        operation,
        inputs,
    })
}

/// Whether refusals 11, 13 and 12 leave a circuit without quantified gates: a
/// name is declared or defined once, a gate used once and after its
/// definition, and every variable declared.
pub fn is_good(circuit: &Circuit) -> bool {
    let lists = circuit.prefix.iter().flat_map(|(_, names)| names);
    let mut declared = HashSet::new();
    let distinct = circuit
        .free
        .iter()
        .chain(lists)
        .all(|name| declared.insert(*name));
    let gates: HashSet<u32> = circuit.gates.iter().map(|gate| gate.name).collect();
    // Gates defined so far that nothing has used.
    let mut unused = HashSet::new();
    let may_use = |unused: &mut HashSet<u32>, literal: &Literal| {
        if gates.contains(&literal.name) {
            unused.remove(&literal.name)
        } else {
            declared.contains(&literal.name)
        }
    };
    let in_order = circuit.gates.iter().all(|gate| {
        let used = gate.inputs.iter().all(|input| may_use(&mut unused, input));
        used && unused.insert(gate.name)
    });
    distinct
        && gates.len() == circuit.gates.len()
        && gates.is_disjoint(&declared)
        && in_order
        && may_use(&mut unused, &circuit.output)
        && unused.is_empty()
}

/// Nodes stored so far, and the node of each gate.
#[derive(Default)]
struct Store {
    nodes: Vec<u32>,
    gates: HashMap<u32, u32>,
}

impl Store {
    fn node(&mut self, node: [u32; 4]) -> u32 {
        self.nodes.extend(node);
        (self.nodes.len() / 4 - 1) as u32
    }

    fn literal(&mut self, literal: &Literal) -> u32 {
        let node = match self.gates.get(&literal.name) {
            Some(&node) => node,
            None => self.node([VARIABLE, literal.name, 0, 0]),
        };
        if literal.negated {
            self.node([NOT, node, 0, 0])
        } else {
            node
        }
    }

    fn gate(&mut self, gate: &Gate) {
        let (truth_table, empty) = match gate.operation {
            Operation::And => (AND, 1),
            Operation::Or => (OR, 0),
            Operation::Xor => (XOR, 0),
            Operation::Quantified(..) => panic!("a quantified gate"),
        };
        let node = match gate.inputs.split_first() {
            None => self.node([CONSTANT, empty, 0, 0]),
            Some((first, rest)) => {
                let mut value = self.literal(first);
                for input in rest {
                    let right = self.literal(input);
                    value = self.node([OPERATOR, truth_table, value, right]);
                }
                value
            }
        };
        self.gates.insert(gate.name, node);
    }
}

/// The form that a good circuit without quantified gates is stored as.
pub fn form(circuit: &Circuit) -> PrenexForm {
    let mut store = Store::default();
    circuit.gates.iter().for_each(|gate| store.gate(gate));
    store.literal(&circuit.output);
    let mut form = PrenexForm {
        nodes: store.nodes,
        ..PrenexForm::default()
    };
    for (quantifier, names) in &circuit.prefix {
        let kind = match quantifier {
            Quantifier::Exists => EXISTS,
            Quantifier::ForAll => FOR_ALL,
        };
        let first = form.variables.len() as u32;
        form.prefix.extend([kind, first, names.len() as u32]);
        form.variables.extend(names);
    }
    form
}

#[cfg(test)]
mod tests {
    use super::*;
    use crate::generate::Rng;
    use crate::generate_qcir::{self, damage_once, exchange_names, spelled, Layout, Profile};
    use crate::qcir;
    use crate::reference::{HIGHEST, LIMIT, WIDTH};

    /// The table of an accepted file by the reader with limits.
    fn table(text: &[u8]) -> Option<(Vec<u32>, Vec<u32>)> {
        let mut words = vec![0; WIDTH * LIMIT];
        let mut list = vec![0; LIMIT];
        let written = qcir::read(text, &mut words, &mut list).ok()?;
        words.truncate(written.words as usize);
        list.truncate(written.entries as usize);
        Some((words, list))
    }

    /// The table that has a form's prefix as blocks at its root.
    fn with_blocks(form: &PrenexForm) -> (Vec<u32>, Vec<u32>) {
        let mut words = form.nodes.clone();
        let mut list = Vec::new();
        for block in form.prefix.chunks_exact(3).rev() {
            let (first, count) = (block[1] as usize, block[2]);
            let body = (words.len() / WIDTH - 1) as u32;
            words.extend([block[0], list.len() as u32, count, body]);
            list.extend(&form.variables[first..][..count as usize]);
        }
        (words, list)
    }

    fn within_limits(circuit: &Circuit) -> bool {
        let lists = circuit.prefix.iter().flat_map(|(_, names)| names);
        let gates = circuit.gates.iter().map(|gate| &gate.name);
        let mut names = circuit.free.iter().chain(lists).chain(gates);
        names.all(|&name| name <= HIGHEST)
    }

    /// Both readers accept the same files within the limits and store them
    /// alike.
    #[test]
    fn agrees_with_the_reader_with_limits() {
        let mut rng = Rng::new(5);
        let mut counts = [0; 2];
        for number in 0..4000 {
            let gates = rng.between(0, 20);
            let mut profile = Profile::random(&mut rng, gates);
            profile.local = 0;
            profile.weights[3] = 0;
            let mut good = generate_qcir::circuit(&mut rng, &profile);
            if number % 3 == 1 {
                exchange_names(&mut rng, &mut good);
            }
            let layout = Layout::random(&mut rng);
            let mut text = spelled(&mut rng, &good, layout);
            if number % 3 == 2 {
                damage_once(&mut rng, &mut text);
            }
            let read = circuit(&text).filter(is_good).filter(within_limits);
            let expected = table(&text);
            counts[usize::from(expected.is_some())] += 1;
            assert_eq!(
                read.map(|circuit| with_blocks(&form(&circuit))),
                expected,
                "{}",
                String::from_utf8_lossy(&text)
            );
        }
        assert!(counts.iter().all(|&count| count > 500), "{counts:?}");
    }
}
