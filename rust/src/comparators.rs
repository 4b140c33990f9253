//! Comparators in a row: the example of README and its plot.

use crate::circuit::{Circuit, Gate, Literal, Operation, Quantifier};
use crate::generate::Table;
use crate::reference::{CONSTANT, EXISTS, FOR_ALL, NOT, OPERATOR, VARIABLE};

/// Cells in a row. Each has two inputs and a box that picks one of them; it
/// compares what is picked with its reference, the `or` of the inputs. The box
/// of a cell after the first can pick its left input only if the cell before
/// agrees with its own reference, so each comparator stands in the next.
/// examples/comparators.qcir is the row of three.
pub fn row(cells: u32) -> Circuit {
    let plain = |name| Literal {
        name,
        negated: false,
    };
    let minus = |name| Literal {
        name,
        negated: true,
    };
    let mut gates: Vec<Gate> = Vec::new();
    let mut last = None;
    for cell in 1..=cells {
        let (left, right, answer) = (2 * cell - 1, 2 * cell, 2 * cells + cell);
        let mut add = |operation, inputs| {
            let name = 3 * cells + 1 + gates.len() as u32;
            gates.push(Gate {
                name,
                operation,
                inputs,
            });
            name
        };
        let mut picks_left = vec![plain(answer), plain(left)];
        picks_left.extend(last.map(plain));
        let picks_left = add(Operation::And, picks_left);
        let picks_right = add(Operation::And, vec![minus(answer), plain(right)]);
        let picked = add(Operation::Or, vec![plain(picks_left), plain(picks_right)]);
        let open = Operation::Quantified(Quantifier::Exists, vec![answer]);
        let part = add(open, vec![plain(picked)]);
        let reference = add(Operation::Or, vec![plain(left), plain(right)]);
        last = Some(add(Operation::Xor, vec![plain(part), minus(reference)]));
    }
    Circuit {
        free: vec![],
        prefix: vec![(Quantifier::ForAll, (1..=2 * cells).collect())],
        output: plain(last.expect("a row has a cell")),
        gates,
    }
}

/// The number of nodes of the prenex formula that splitting makes of an
/// accepted table, counted and not built.
///
/// A quantifier below an `xor` or a biconditional occurs in both polarities and
/// can't be moved out. So where an operand holds a quantifier the operator is
/// split: `l iff r` becomes `(l and r) or (l nor r)`, and `l xor r` likewise, with
/// two copies of each operand under three operators. Then every quantifier moves
/// out, each copy under names of its own; blocks leave no node, and all other
/// nodes stay.
pub fn split_nodes(table: &Table) -> u128 {
    let mut counts: Vec<u128> = Vec::new();
    let mut quantified: Vec<bool> = Vec::new();
    for i in 0..table.len() {
        let [kind, a, b, c] = table.node(i);
        let [a, b, c] = [a as usize, b as usize, c as usize];
        let (count, has_quantifier) = match kind {
            CONSTANT | VARIABLE => (1, false),
            NOT => (counts[a] + 1, quantified[a]),
            OPERATOR => {
                let (both, below) = (counts[b] + counts[c], quantified[b] || quantified[c]);
                let splits = below && (a == 6 || a == 9);
                (if splits { 2 * both + 3 } else { both + 1 }, below)
            }
            EXISTS | FOR_ALL => (counts[c], true),
            _ => unreachable!("an accepted table has no other kind"),
        };
        counts.push(count);
        quantified.push(has_quantifier);
    }
    counts.pop().expect("an accepted table has a node")
}

#[cfg(test)]
mod tests {
    use super::*;

    #[test]
    fn splitting_doubles_what_holds_a_quantifier() {
        // 1 iff (exists 2: 2), and a biconditional without a quantifier.
        let with = Table::new(
            &[[2, 1, 0, 0], [2, 2, 0, 0], [5, 0, 1, 1], [4, 9, 0, 2]],
            &[2],
        );
        assert_eq!(split_nodes(&with), 7);
        let without = Table::new(&[[2, 1, 0, 0], [2, 2, 0, 0], [4, 9, 0, 1]], &[]);
        assert_eq!(split_nodes(&without), 3);
    }
}
