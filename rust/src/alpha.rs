//! Alpha-equivalence of two accepted tables, by document 01's words: they differ
//! in their bound numbers and in where ranges begin, and in nothing else. If their
//! highest numbers are equal too, their prenex forms are the same words.
//!
//! Nothing here is fast: every binder is found by climbing from its variable node.

use crate::generate::Table;
use crate::Node;
use std::collections::BTreeSet;
use std::iter::successors;

/// What two tables with the same prenex form agree in. All but the last make them
/// alpha-equivalent.
#[derive(Clone, Copy, Debug, PartialEq, Eq, PartialOrd, Ord)]
pub enum Condition {
    /// Kinds, constants, truth tables, operands, counts and bodies, node for node.
    Nodes,
    /// The numbers of variable nodes that are free in both.
    FreeNumbers,
    /// The blocks by which variable nodes bound in either are bound.
    Binders,
    /// The positions of these nodes' numbers in the blocks' ranges.
    Positions,
    /// The highest number at a variable node or in a range.
    Highest,
}

/// Where the number of a bound variable node stands.
#[derive(Clone, Copy, Debug, PartialEq, Eq)]
pub struct Binder {
    /// The nearest block above the node that covers its number.
    pub block: usize,
    /// From 0 up in the block's range.
    pub position: usize,
}

/// An accepted table and the node that names each of its nodes, none the root.
pub struct Tree<'a> {
    table: &'a Table,
    parents: Vec<Option<usize>>,
}

impl Tree<'_> {
    pub fn new(table: &Table) -> Tree<'_> {
        let mut parents = vec![None; table.len()];
        for i in 0..table.len() {
            let node = table.node(i);
            let named = match node[0] {
                3 => &node[1..2],
                4 => &node[2..4],
                5 | 6 => &node[3..4],
                _ => &[],
            };
            for &operand in named {
                parents[operand as usize] = Some(i);
            }
        }
        Tree { table, parents }
    }

    /// The blocks above a node, the nearest first.
    pub fn blocks_above(&self, i: usize) -> impl Iterator<Item = usize> + '_ {
        let above = successors(self.parents[i], |&above| self.parents[above]);
        above.filter(|&above| matches!(self.table.node(above), [5 | 6, ..]))
    }

    /// The binder of a variable node, none if it is free.
    pub fn binder(&self, leaf: usize) -> Option<Binder> {
        let number = self.table.node(leaf)[1];
        self.blocks_above(leaf).find_map(|block| {
            let range = &self.table.list[self.table.range(block)];
            let position = range.iter().position(|&entry| entry == number)?;
            Some(Binder { block, position })
        })
    }
}

/// The highest number at a variable node or in a range, 0 if none.
pub fn highest(table: &Table) -> u32 {
    let highest_at = |i: usize| match table.node(i) {
        [2, number, _, _] => Some(number),
        [5 | 6, ..] => table.list[table.range(i)].iter().copied().max(),
        _ => None,
    };
    (0..table.len()).filter_map(highest_at).max().unwrap_or(0)
}

/// A table's nodes without the numbers of variable nodes and without the places
/// where ranges begin.
fn without_numbers(table: &Table) -> Vec<Node> {
    let without = |i: usize| match table.node(i) {
        [2, _, b, c] => [2, 0, b, c],
        [kind @ (5 | 6), _, count, body] => [kind, 0, count, body],
        node => node,
    };
    (0..table.len()).map(without).collect()
}

/// The conditions that two accepted tables break. All but the first are said of
/// tables whose nodes agree; if these don't, no other is given.
pub fn broken(one: &Table, other: &Table) -> BTreeSet<Condition> {
    if without_numbers(one) != without_numbers(other) {
        return BTreeSet::from([Condition::Nodes]);
    }
    let mut broken = BTreeSet::new();
    let trees = [one, other].map(Tree::new);
    for leaf in one.where_kind(|kind| kind == 2) {
        broken.extend(match trees.each_ref().map(|tree| tree.binder(leaf)) {
            [None, None] => (one.node(leaf) != other.node(leaf)).then_some(Condition::FreeNumbers),
            [Some(one), Some(other)] if one.block == other.block => {
                (one.position != other.position).then_some(Condition::Positions)
            }
            _ => Some(Condition::Binders),
        });
    }
    if highest(one) != highest(other) {
        broken.insert(Condition::Highest);
    }
    broken
}

#[cfg(test)]
mod tests {
    use super::*;

    /// 1 and (exists 2, 3: 2 xor (for-all 4: 3 or 4)).
    const NODES: [Node; 9] = [
        [2, 1, 0, 0],
        [2, 2, 0, 0],
        [2, 3, 0, 0],
        [2, 4, 0, 0],
        [4, 14, 2, 3],
        [6, 2, 1, 4],
        [4, 6, 1, 5],
        [5, 0, 2, 6],
        [4, 8, 0, 7],
    ];
    const LIST: [u32; 3] = [2, 3, 4];

    /// What is broken if the variable nodes have these numbers and the ranges of
    /// the two blocks are these.
    fn broken_by(leaves: [u32; 4], for_all: [u32; 1], exists: [u32; 2]) -> Vec<Condition> {
        let mut nodes = NODES;
        for (node, number) in nodes.iter_mut().zip(leaves) {
            node[1] = number;
        }
        (nodes[5][1], nodes[7][1]) = (1, 3);
        let list = [&[0][..], &for_all, &[u32::MAX], &exists].concat();
        let tables = [Table::new(&NODES, &LIST), Table::new(&nodes, &list)];
        let [one, other] = [[0, 1], [1, 0]].map(|[a, b]| broken(&tables[a], &tables[b]));
        assert_eq!(one, other);
        one.into_iter().collect()
    }

    #[test]
    fn numbers_that_differ() {
        use Condition::*;
        let none = vec![];
        // As they are, exchanged, the highest elsewhere, bound again where the
        // outer one is not used, and the free one's.
        assert_eq!(broken_by([1, 2, 3, 4], [4], [2, 3]), none);
        assert_eq!(broken_by([1, 3, 2, 4], [4], [3, 2]), none);
        assert_eq!(broken_by([1, 4, 3, 2], [2], [4, 3]), none);
        assert_eq!(broken_by([1, 4, 3, 4], [4], [4, 3]), none);
        assert_eq!(broken_by([1, 4, 1, 2], [2], [4, 1]), none);
        // The free one another number, or bound by none but covered elsewhere.
        assert_eq!(broken_by([2, 2, 3, 4], [4], [2, 3]), [FreeNumbers]);
        assert_eq!(broken_by([4, 2, 3, 4], [4], [2, 3]), [FreeNumbers]);
        // Captured by the nearer block, bound by the outer one, or by none.
        assert_eq!(broken_by([1, 2, 4, 4], [4], [2, 4]), [Binders]);
        assert_eq!(broken_by([1, 2, 3, 3], [4], [2, 3]), [Binders]);
        assert_eq!(broken_by([1, 1, 3, 4], [4], [2, 3]), [Binders]);
        // The other entry of the same block.
        assert_eq!(broken_by([1, 3, 3, 4], [4], [2, 3]), [Positions]);
        assert_eq!(broken_by([1, 2, 3, 4], [4], [3, 2]), [Positions]);
        // A higher number and a lower one.
        assert_eq!(broken_by([1, 2, 3, 5], [5], [2, 3]), [Highest]);
        assert_eq!(broken_by([1, 2, 3, 2], [2], [2, 3]), [Highest]);
        let all = [FreeNumbers, Binders, Positions, Highest];
        assert_eq!(broken_by([5, 3, 6, 4], [4], [2, 3]), all);
    }

    #[test]
    fn nodes_that_differ() {
        let table = Table::new(&NODES, &LIST);
        assert_eq!(broken(&table, &table), BTreeSet::new());
        let nodes = BTreeSet::from([Condition::Nodes]);
        for (i, node) in [
            (0, [1, 1, 0, 0]),
            (4, [4, 8, 2, 3]),
            (4, [4, 14, 3, 2]),
            (5, [5, 2, 1, 4]),
            (7, [5, 0, 3, 6]),
            (7, [5, 1, 1, 6]),
            (7, [3, 6, 0, 0]),
        ] {
            let mut other = table.clone();
            other.node_mut(i).copy_from_slice(&node);
            assert_eq!(broken(&table, &other), nodes, "{node:?}");
            assert_eq!(broken(&other, &table), nodes, "{node:?}");
        }
        let mut longer = table.clone();
        longer.push([3, 8, 0, 0]);
        assert_eq!(broken(&table, &longer), nodes);
        assert_eq!(broken(&longer, &table), nodes);
        let [zero, one] = [0, 1].map(|value| Table::new(&[[1, value, 0, 0]], &[]));
        assert_eq!(broken(&zero, &one), nodes);
    }
}
