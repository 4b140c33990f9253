//! Writing prenex forms as QCIR files in plain Rust, independent of the static
//! library: the other side of the comparison tests and of the benchmark.
//!
//! The form is checked; a pass from the root down finds what is written, a pass
//! upward the gates; then come the bytes. All passes are linear.

use crate::answer::Refusal;
use crate::form_check::{check_matrix, check_prefix, put, range, Limits, Names};
use crate::reference::{Node, CONSTANT, EXISTS, NOT, OPERATOR, VARIABLE};
use crate::PrenexForm;

/// Writes a form's file into a buffer and says how many bytes it takes.
pub fn write(form: &PrenexForm, text: &mut [u8]) -> Result<usize, Refusal> {
    let mut written = Vec::new();
    append(form, Limits::LIBRARY, &mut written)?;
    put(&written, text)
}

/// A form's file, the form being as large as it may be without limits.
pub fn text_without_limits(form: &PrenexForm) -> Result<Vec<u8>, Refusal> {
    let mut text = Vec::new();
    append(form, Limits::NONE, &mut text)?;
    Ok(text)
}

/// Writes a form's file after what a text holds. It is left as it is if the
/// form is refused.
pub fn append(form: &PrenexForm, limits: Limits, text: &mut Vec<u8>) -> Result<(), Refusal> {
    let nodes = check_matrix(&form.nodes, limits)?;
    let prefix = check_prefix(&form.prefix, &form.variables, limits)?;
    let written = nodes_written(nodes);

    text.extend_from_slice(b"#QCIR-G14\n");
    let open = open_names(nodes, &written, &prefix.names);
    let mut highest = prefix.highest;
    let mut names = open.iter().peekable();
    if names.peek().is_some() {
        text.extend_from_slice(b"free(");
        highest = highest.max(push_names(text, names));
    }
    for block in prefix.blocks.iter().filter(|[_, _, count]| *count > 0) {
        text.extend_from_slice(match block[0] {
            EXISTS => b"exists(",
            _ => b"forall(",
        });
        push_names(text, range(&form.variables, block).iter().copied());
    }

    let first_gate = highest + 1;
    let (output, gates) = gates(nodes, &written, first_gate);
    text.extend_from_slice(b"output(");
    push_literal(text, output);
    text.extend_from_slice(b")\n");
    for (gate, number) in gates.iter().zip(first_gate..) {
        push_gate(text, number, *gate);
    }
    Ok(())
}

/// A name or a gate's number, and whether a minus sign stands before it.
#[derive(Clone, Copy)]
struct Literal(u32);

impl Literal {
    fn new(number: u32) -> Literal {
        Literal(number << 1)
    }

    fn number(self) -> u32 {
        self.0 >> 1
    }

    fn negated(self) -> bool {
        self.0 & 1 == 1
    }

    fn negated_if(self, sign: bool) -> Literal {
        Literal(self.0 ^ u32::from(sign))
    }
}

/// What an operator is written as. A sign is true if it negates: that of the
/// whole comes first, then those of the operands.
#[derive(Clone, Copy)]
enum Row {
    Constant(bool),
    Left(bool),
    Right(bool),
    And(bool, bool, bool),
    Xor(bool),
}

/// By truth table.
const ROWS: [Row; 16] = {
    use Row::*;
    [
        Constant(true),
        And(false, true, true),
        And(false, true, false),
        Left(true),
        And(false, false, true),
        Right(true),
        Xor(false),
        And(true, false, false),
        And(false, false, false),
        Xor(true),
        Right(false),
        And(true, false, true),
        Left(false),
        And(true, true, false),
        And(true, true, true),
        Constant(false),
    ]
};

/// Which nodes are written: the root, and what a node written doesn't ignore.
fn nodes_written(nodes: &[Node]) -> Vec<bool> {
    let mut written = vec![false; nodes.len()];
    written[nodes.len() - 1] = true;
    for (i, &[kind, a, b, c]) in nodes.iter().enumerate().rev() {
        if !written[i] {
            continue;
        }
        match kind {
            NOT => written[a as usize] = true,
            OPERATOR => match ROWS[a as usize] {
                Row::Constant(_) => {}
                Row::Left(_) => written[b as usize] = true,
                Row::Right(_) => written[c as usize] = true,
                Row::And(..) | Row::Xor(_) => {
                    written[b as usize] = true;
                    written[c as usize] = true;
                }
            },
            _ => {}
        }
    }
    written
}

/// The names at variable nodes written that stand in no prefix block.
fn open_names(nodes: &[Node], written: &[bool], bound: &Names) -> Names {
    let mut open = Names::default();
    for (&[kind, name, ..], &written) in nodes.iter().zip(written) {
        if written && kind == VARIABLE && !bound.contains(name) {
            open.insert(name);
        }
    }
    open
}

#[derive(Clone, Copy)]
enum Gate {
    /// `and()`
    True,
    And(Literal, Literal),
    Xor(Literal, Literal),
}

/// The root's literal, and the gates in the order of their numbers.
fn gates(nodes: &[Node], written: &[bool], first_gate: u32) -> (Literal, Vec<Gate>) {
    let mut gates = Vec::with_capacity(nodes.len());
    let mut literals = vec![Literal(0); nodes.len()];
    for (i, &[kind, a, b, c]) in nodes.iter().enumerate() {
        if !written[i] {
            continue;
        }
        let mut add = |gate| {
            gates.push(gate);
            Literal::new(first_gate + gates.len() as u32 - 1)
        };
        literals[i] = match kind {
            CONSTANT => add(Gate::True).negated_if(a == 0),
            VARIABLE => Literal::new(a),
            NOT => literals[a as usize].negated_if(true),
            _ => {
                let (left, right) = (literals[b as usize], literals[c as usize]);
                match ROWS[a as usize] {
                    Row::Constant(whole) => add(Gate::True).negated_if(whole),
                    Row::Left(whole) => left.negated_if(whole),
                    Row::Right(whole) => right.negated_if(whole),
                    Row::And(whole, l, r) => {
                        let gate = Gate::And(left.negated_if(l), right.negated_if(r));
                        add(gate).negated_if(whole)
                    }
                    Row::Xor(whole) => {
                        let outside = whole ^ left.negated() ^ right.negated();
                        let plain = |literal: Literal| literal.negated_if(literal.negated());
                        add(Gate::Xor(plain(left), plain(right))).negated_if(outside)
                    }
                }
            }
        };
    }
    (literals[nodes.len() - 1], gates)
}

fn push_number(text: &mut Vec<u8>, mut number: u32) {
    let mut digits = [0; 10];
    let mut at = digits.len();
    loop {
        at -= 1;
        digits[at] = b'0' + (number % 10) as u8;
        number /= 10;
        if number == 0 {
            break;
        }
    }
    text.extend_from_slice(&digits[at..]);
}

/// Writes a line's names, of which there is one at least, and the line's end.
/// Gives the last of them.
fn push_names(text: &mut Vec<u8>, names: impl Iterator<Item = u32>) -> u32 {
    let mut last = 0;
    for (k, name) in names.enumerate() {
        if k > 0 {
            text.extend_from_slice(b", ");
        }
        push_number(text, name);
        last = name;
    }
    text.extend_from_slice(b")\n");
    last
}

fn push_literal(text: &mut Vec<u8>, literal: Literal) {
    if literal.negated() {
        text.push(b'-');
    }
    push_number(text, literal.number());
}

fn push_gate(text: &mut Vec<u8>, number: u32, gate: Gate) {
    push_number(text, number);
    let (word, left, right) = match gate {
        Gate::True => return text.extend_from_slice(b" = and()\n"),
        Gate::And(left, right) => (b" = and(", left, right),
        Gate::Xor(left, right) => (b" = xor(", left, right),
    };
    text.extend_from_slice(word);
    push_literal(text, left);
    text.extend_from_slice(b", ");
    push_literal(text, right);
    text.extend_from_slice(b")\n");
}

#[cfg(test)]
mod tests {
    use super::*;

    /// Each row has its operator's value for both values of both operands.
    #[test]
    fn rows_have_their_operators_values() {
        for (truth_table, row) in ROWS.into_iter().enumerate() {
            for (left, right) in [(false, false), (false, true), (true, false), (true, true)] {
                let value = match row {
                    Row::Constant(whole) => !whole,
                    Row::Left(whole) => left ^ whole,
                    Row::Right(whole) => right ^ whole,
                    Row::And(whole, l, r) => ((left ^ l) && (right ^ r)) ^ whole,
                    Row::Xor(whole) => left ^ right ^ whole,
                };
                let bit = 2 * usize::from(left) + usize::from(right);
                assert_eq!(value, truth_table >> bit & 1 == 1, "{truth_table}");
            }
        }
    }
}
