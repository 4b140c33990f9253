//! Quantified circuits: what a QCIR file says, apart from its spelling, and its
//! truth value by brute force.

use crate::brute::{quantify, Valuation};

#[derive(Clone, Copy, Debug, PartialEq, Eq)]
pub enum Quantifier {
    Exists,
    ForAll,
}

impl Quantifier {
    pub fn word(self) -> &'static str {
        match self {
            Quantifier::Exists => "exists",
            Quantifier::ForAll => "forall",
        }
    }
}

/// An input of a gate, or the output: the name of a variable or a gate, and
/// whether a minus sign stands before it.
#[derive(Clone, Copy, Debug, PartialEq, Eq)]
pub struct Literal {
    pub name: u32,
    pub negated: bool,
}

/// What a gate does with its inputs.
#[derive(Clone, Debug, PartialEq, Eq)]
pub enum Operation {
    And,
    Or,
    /// Of two inputs.
    Xor,
    /// Of one input, over these variables.
    Quantified(Quantifier, Vec<u32>),
}

#[derive(Clone, Debug, PartialEq, Eq)]
pub struct Gate {
    pub name: u32,
    pub operation: Operation,
    pub inputs: Vec<Literal>,
}

/// A quantified circuit, its lines in the order of the file.
#[derive(Clone, Debug, PartialEq, Eq)]
pub struct Circuit {
    /// There is no free line if there are no free variables.
    pub free: Vec<u32>,
    pub prefix: Vec<(Quantifier, Vec<u32>)>,
    pub output: Literal,
    pub gates: Vec<Gate>,
}

impl Circuit {
    fn gate(&self, name: u32) -> Option<&Gate> {
        self.gates.iter().find(|gate| gate.name == name)
    }

    /// The circuit's truth value under a valuation: the output's value under
    /// the prefix lines, the first one outermost.
    pub fn value(&self, valuation: &mut Valuation) -> bool {
        self.value_under(&self.prefix, valuation)
    }

    fn value_under(&self, prefix: &[(Quantifier, Vec<u32>)], valuation: &mut Valuation) -> bool {
        match prefix {
            [] => self.literal_value(self.output, valuation),
            [(quantifier, variables), rest @ ..] => {
                let exists = *quantifier == Quantifier::Exists;
                quantify(exists, variables, valuation, &mut |v| {
                    self.value_under(rest, v)
                })
            }
        }
    }

    fn literal_value(&self, literal: Literal, valuation: &mut Valuation) -> bool {
        let value = match self.gate(literal.name) {
            Some(gate) => self.gate_value(gate, valuation),
            None => valuation.contains(&literal.name),
        };
        value != literal.negated
    }

    fn gate_value(&self, gate: &Gate, valuation: &mut Valuation) -> bool {
        let mut inputs = gate.inputs.iter();
        let mut value = |&input| self.literal_value(input, valuation);
        match &gate.operation {
            Operation::And => inputs.all(value),
            Operation::Or => inputs.any(value),
            Operation::Xor => value(&gate.inputs[0]) != value(&gate.inputs[1]),
            Operation::Quantified(quantifier, variables) => {
                let exists = *quantifier == Quantifier::Exists;
                quantify(exists, variables, valuation, &mut |v| {
                    self.literal_value(gate.inputs[0], v)
                })
            }
        }
    }

    /// The number of nodes of its table.
    pub fn node_count(&self) -> usize {
        let names: std::collections::HashSet<u32> =
            self.gates.iter().map(|gate| gate.name).collect();
        let literal = |literal: &Literal| {
            usize::from(!names.contains(&literal.name)) + usize::from(literal.negated)
        };
        let gate = |gate: &Gate| {
            let inputs: usize = gate.inputs.iter().map(literal).sum();
            let own = match gate.operation {
                Operation::And | Operation::Or => gate.inputs.len().abs_diff(1),
                Operation::Xor | Operation::Quantified(..) => 1,
            };
            inputs + own
        };
        let gates: usize = self.gates.iter().map(gate).sum();
        gates + literal(&self.output) + self.prefix.len()
    }

    /// The sum of the counts of its table's blocks.
    pub fn bound_count(&self) -> usize {
        let of_gate = |gate: &Gate| match &gate.operation {
            Operation::Quantified(_, variables) => variables.len(),
            _ => 0,
        };
        let gates: usize = self.gates.iter().map(of_gate).sum();
        let prefix: usize = self.prefix.iter().map(|(_, names)| names.len()).sum();
        gates + prefix
    }

    /// The words and signs of its lines, the header left out.
    pub fn lines(&self) -> Vec<Vec<String>> {
        let mut lines = Vec::new();
        if !self.free.is_empty() {
            let mut line = words(&["free", "("]);
            push_names(&mut line, &self.free);
            line.push(")".into());
            lines.push(line);
        }
        for (quantifier, variables) in &self.prefix {
            let mut line = words(&[quantifier.word(), "("]);
            push_names(&mut line, variables);
            line.push(")".into());
            lines.push(line);
        }
        let mut line = words(&["output", "("]);
        push_literals(&mut line, &[self.output]);
        line.push(")".into());
        lines.push(line);
        for gate in &self.gates {
            let name = gate.name.to_string();
            let mut line = words(&[&name, "="]);
            match &gate.operation {
                Operation::And => line.extend(words(&["and", "("])),
                Operation::Or => line.extend(words(&["or", "("])),
                Operation::Xor => line.extend(words(&["xor", "("])),
                Operation::Quantified(quantifier, variables) => {
                    line.extend(words(&[quantifier.word(), "("]));
                    push_names(&mut line, variables);
                    line.push(";".into());
                }
            }
            push_literals(&mut line, &gate.inputs);
            line.push(")".into());
            lines.push(line);
        }
        lines
    }

    /// The file with no more than it needs.
    pub fn text(&self) -> Vec<u8> {
        let mut text = b"#QCIR-G14\n".to_vec();
        for line in self.lines() {
            text.extend(line.concat().bytes());
            text.push(b'\n');
        }
        text
    }
}

fn words(words: &[&str]) -> Vec<String> {
    words.iter().map(|word| word.to_string()).collect()
}

fn push_names(line: &mut Vec<String>, names: &[u32]) {
    for (k, name) in names.iter().enumerate() {
        if k > 0 {
            line.push(",".into());
        }
        line.push(name.to_string());
    }
}

fn push_literals(line: &mut Vec<String>, literals: &[Literal]) {
    for (k, literal) in literals.iter().enumerate() {
        if k > 0 {
            line.push(",".into());
        }
        if literal.negated {
            line.push("-".into());
        }
        line.push(literal.name.to_string());
    }
}

#[cfg(test)]
mod tests {
    use super::*;

    fn literal(name: i32) -> Literal {
        Literal {
            name: name.unsigned_abs(),
            negated: name < 0,
        }
    }

    fn gate(name: u32, operation: Operation, inputs: &[i32]) -> Gate {
        Gate {
            name,
            operation,
            inputs: inputs.iter().map(|&input| literal(input)).collect(),
        }
    }

    /// Gates over free variables 1 and 2, and their values under all
    /// valuations, the first one's value changing slowest.
    #[test]
    fn values_of_gates() {
        use Operation::*;
        use Quantifier::*;
        for (operation, inputs, values) in [
            (And, &[][..], [true; 4]),
            (Or, &[], [false; 4]),
            (And, &[1, 2], [false, false, false, true]),
            (Or, &[1, -2], [true, false, true, true]),
            (Xor, &[1, 2], [false, true, true, false]),
            (Xor, &[1, -2], [true, false, false, true]),
            (Quantified(Exists, vec![1]), &[1], [true; 4]),
            (Quantified(ForAll, vec![1]), &[-1], [false; 4]),
            (
                Quantified(ForAll, vec![1]),
                &[2],
                [false, true, false, true],
            ),
        ] {
            let circuit = Circuit {
                free: vec![1, 2],
                prefix: Vec::new(),
                output: literal(-4),
                gates: vec![gate(3, operation, inputs), gate(4, And, &[-3])],
            };
            let valuations = crate::brute::valuations(&[1, 2]);
            let given: Vec<bool> = valuations.map(|mut v| circuit.value(&mut v)).collect();
            assert_eq!(given, values, "{circuit:?}");
        }
    }

    #[test]
    fn order_of_prefix_lines_counts() {
        let for_all = (Quantifier::ForAll, vec![1]);
        let exists = (Quantifier::Exists, vec![2]);
        for (prefix, value) in [
            ([for_all.clone(), exists.clone()], true),
            ([exists, for_all], false),
        ] {
            let circuit = Circuit {
                free: Vec::new(),
                prefix: prefix.to_vec(),
                output: literal(3),
                gates: vec![gate(3, Operation::Xor, &[1, -2])],
            };
            assert_eq!(circuit.value(&mut Valuation::new()), value);
        }
    }
}
