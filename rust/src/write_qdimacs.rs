//! Writing prenex forms as QDIMACS files in plain Rust, independent of the
//! static library: the other side of the comparison tests and of the benchmark.
//!
//! The form is checked; a pass over the nodes finds what the header and the
//! quantifier lines say; a second one writes the clauses. All passes are linear,
//! and each variable's digits are found once for a node, not once for a clause.

use crate::answer::Refusal;
use crate::form_check::{check_matrix, check_prefix, put, range, Limits, Names, Prefix};
use crate::reference::{Node, CONSTANT, EXISTS, NOT, VARIABLE};
use crate::PrenexForm;

/// Writes a form's file into a buffer and says how many bytes it takes.
pub fn write(form: &PrenexForm, text: &mut [u8]) -> Result<usize, Refusal> {
    let mut written = Vec::new();
    append(form, &mut written)?;
    put(&written, text)
}

/// Writes a form's file after what a text holds. It is left as it is if the
/// form is refused.
pub fn append(form: &PrenexForm, text: &mut Vec<u8>) -> Result<(), Refusal> {
    let nodes = check_matrix(&form.nodes, Limits::LIBRARY)?;
    let prefix = check_prefix(&form.prefix, &form.variables, Limits::LIBRARY)?;
    let Outline {
        open,
        highest,
        gates,
        clauses,
    } = outline(nodes, &prefix);
    let first_gate = highest + 1;
    let last_gate = highest + gates;

    text.extend_from_slice(b"p cnf ");
    push(text, Literal::new(last_gate));
    push(text, Literal::new(clauses));
    // LF in place of the last space.
    text.pop();
    text.push(b'\n');

    let mut lines = QuantifierLines { text, kind: None };
    lines.add(EXISTS, open.iter());
    for block in prefix.blocks {
        lines.add(block[0], range(&form.variables, block).iter().copied());
    }
    lines.add(EXISTS, first_gate..=last_gate);
    lines.end();

    push_clauses(text, nodes, first_gate);
    Ok(())
}

/// What is found before the first byte.
struct Outline {
    /// The names at variable nodes that stand in no prefix block.
    open: Names,
    /// The highest name, 0 if there is none.
    highest: u32,
    gates: u32,
    clauses: u32,
}

fn outline(nodes: &[Node], prefix: &Prefix) -> Outline {
    let mut open = Names::default();
    let mut highest = prefix.highest;
    // The root's own clause.
    let (mut gates, mut clauses) = (0, 1);
    for &[kind, a, b, c] in nodes {
        if kind == VARIABLE {
            highest = highest.max(a);
            if !prefix.names.contains(a) {
                open.insert(a);
            }
            continue;
        }
        gates += 1;
        clauses += match kind {
            CONSTANT => 1,
            NOT => 2,
            // Of one variable twice, the rows in which it has two values go.
            _ if is_one_variable(nodes[b as usize], nodes[c as usize]) => 2,
            _ => 4,
        };
    }
    if nodes[nodes.len() - 1][0] == VARIABLE {
        gates += 1;
        clauses += 2;
    }
    Outline {
        open,
        highest,
        gates,
        clauses,
    }
}

fn is_one_variable(left: Node, right: Node) -> bool {
    left[0] == VARIABLE && left == right
}

/// A literal and the space after it, the first byte lowest, zeros above the
/// last. A variable has at most six digits, so that eight bytes are enough.
#[derive(Clone, Copy, PartialEq, Eq)]
struct Literal(u64);

impl Literal {
    fn new(mut variable: u32) -> Literal {
        let mut bytes = b' '.into();
        loop {
            bytes = bytes << 8 | u64::from(b'0' + (variable % 10) as u8);
            variable /= 10;
            if variable == 0 {
                return Literal(bytes);
            }
        }
    }

    /// This one, or its opposite if so.
    fn negated_if(self, minus: bool) -> Literal {
        match minus {
            true => Literal(self.0 << 8 | u64::from(b'-')),
            false => self,
        }
    }

    fn len(self) -> usize {
        8 - self.0.leading_zeros() as usize / 8
    }
}

/// Writes all eight bytes and takes back those that are too many.
fn push(text: &mut Vec<u8>, literal: Literal) {
    text.extend_from_slice(&literal.0.to_le_bytes());
    text.truncate(text.len() - 8 + literal.len());
}

fn push_clause<const N: usize>(text: &mut Vec<u8>, literals: [Literal; N]) {
    for literal in literals {
        push(text, literal);
    }
    text.extend_from_slice(b"0\n");
}

/// Quantifier lines, and the kind of the one that is not ended yet.
struct QuantifierLines<'a> {
    text: &'a mut Vec<u8>,
    kind: Option<u32>,
}

impl QuantifierLines<'_> {
    /// Adds a block's names, to the line before if it is of the same kind.
    fn add(&mut self, kind: u32, names: impl Iterator<Item = u32>) {
        for name in names {
            if self.kind != Some(kind) {
                self.end();
                self.kind = Some(kind);
                let word = if kind == EXISTS { b"e " } else { b"a " };
                self.text.extend_from_slice(word);
            }
            push(self.text, Literal::new(name));
        }
    }

    fn end(&mut self) {
        if self.kind.is_some() {
            self.text.extend_from_slice(b"0\n");
        }
    }
}

/// Writes the clauses of the gates, and the root's own.
fn push_clauses(text: &mut Vec<u8>, nodes: &[Node], first_gate: u32) {
    // What stands for each node: its gate or its variable.
    let mut literals: Vec<Literal> = Vec::with_capacity(nodes.len());
    let mut gate_variables = first_gate..;
    let root = nodes.len() - 1;
    for (i, &[kind, a, b, c]) in nodes.iter().enumerate() {
        if kind == VARIABLE && i != root {
            literals.push(Literal::new(a));
            continue;
        }
        let gate = Literal::new(gate_variables.next().expect("no last one"));
        // The literal that says that the gate has this value.
        let gate_is = |value: bool| gate.negated_if(!value);
        match kind {
            CONSTANT => push_clause(text, [gate_is(a == 1)]),
            VARIABLE | NOT => {
                let operand = match kind {
                    VARIABLE => Literal::new(a),
                    _ => literals[a as usize],
                };
                for row in [false, true] {
                    let value = row != (kind == NOT);
                    push_clause(text, [operand.negated_if(row), gate_is(value)]);
                }
            }
            _ => {
                let (left, right) = (literals[b as usize], literals[c as usize]);
                let gate_in = |row: u32| gate_is(a >> row & 1 == 1);
                if left == right {
                    push_clause(text, [left, gate_in(0)]);
                    push_clause(text, [left.negated_if(true), gate_in(3)]);
                } else {
                    for row in 0..4 {
                        let left = left.negated_if(row & 2 != 0);
                        let right = right.negated_if(row & 1 != 0);
                        push_clause(text, [left, right, gate_in(row)]);
                    }
                }
            }
        }
        literals.push(gate);
    }
    push_clause(text, [literals[root]]);
}
