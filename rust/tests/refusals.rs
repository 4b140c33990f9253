//! Which refusal comes first where several conditions apply.

mod common;

use common::{assert_refused, assert_same, assert_used_by, Prefill};
use wakubinryo::generate::Table;
use wakubinryo::Reason::*;
use wakubinryo::{Node, WIDTH};

fn numbers(count: u32) -> Vec<u32> {
    (1..=count).collect()
}

const LEAF: Node = [2, 1, 0, 0];

#[test]
fn length_before_limits() {
    let mut table = Table {
        words: vec![9; WIDTH * 4097 + 1],
        list: vec![0; 4097],
    };
    assert_refused(&table, PartialNode, 0);
    table.words.clear();
    assert_refused(&table, PartialNode, 0);
    table.words.extend([2, 1, 0]);
    assert_refused(&table, PartialNode, 0);
}

#[test]
fn limits_before_nodes() {
    let table = Table {
        words: vec![u32::MAX; WIDTH * 4097],
        list: vec![],
    };
    assert_refused(&table, TooLarge, 0);
    let table = Table::new(&[[7, 7, 7, 7]], &[0; 4097]);
    assert_refused(&table, TooLarge, 0);
    let table = Table::new(&[[7, 7, 7, 7]], &[0; 4096]);
    assert_refused(&table, MalformedNode, 0);
}

#[test]
fn lower_nodes_before_higher_ones() {
    // Faults 3 to 7 and 16 at node 1, and each of them again at node 2.
    let list = [1, 1, 0, 2];
    let faults = [
        (MalformedNode, [4, 16, 0, 0]),
        (ForwardReference, [3, 2, 0, 0]),
        (RangePastEnd, [5, 4, 1, 0]),
        (EmptyBlock, [5, 4, 0, 0]),
        (BadVariable, [6, 0, 2, 0]),
        (BadVariable, [6, 2, 1, 0]),
    ];
    for (reason, node) in faults {
        for (_, above) in faults {
            assert_refused(&Table::new(&[LEAF, node, above], &list), reason, 1);
        }
        assert_refused(&Table::new(&[LEAF, [3, 0, 0, 0], node], &list), reason, 2);
    }
}

#[test]
fn order_of_tests_at_one_node() {
    let list = [1, 1];
    let cases = [
        // An unknown kind whose fields would also be wrong.
        (MalformedNode, [7, 9, 9, 9]),
        (MalformedNode, [0, 0, 0, 0]),
        // A bad field and a reference that is too high.
        (MalformedNode, [3, 1, 1, 0]),
        (MalformedNode, [3, 1, 0, 1]),
        (MalformedNode, [4, 16, 1, 1]),
        // A reference that is too high and a range past the end, or bad.
        (ForwardReference, [5, 9, 9, 1]),
        (ForwardReference, [6, u32::MAX, u32::MAX, 1]),
        (ForwardReference, [5, 0, 2, 1]),
        (ForwardReference, [5, 0, 5000, u32::MAX]),
        // A reference that is too high and no entry, from the end on or past it.
        (ForwardReference, [5, 2, 0, 1]),
        (ForwardReference, [6, 3, 0, u32::MAX]),
        // A range past the end with too many entries, or bad ones.
        (RangePastEnd, [5, 0, 4097, 0]),
        (RangePastEnd, [5, 0, 3, 0]),
        (RangePastEnd, [6, u32::MAX, u32::MAX, 0]),
        // A range past the end without an entry.
        (RangePastEnd, [5, 3, 0, 0]),
        (RangePastEnd, [6, u32::MAX, 0, 0]),
        // No entry, from the end on.
        (EmptyBlock, [5, 2, 0, 0]),
    ];
    for (reason, node) in cases {
        assert_refused(&Table::new(&[LEAF, node], &list), reason, 1);
    }
}

#[test]
fn sum_of_counts_before_entries() {
    let nodes = [LEAF, [5, 0, 2048, 0], [6, 2048, 2048, 1], [3, 2, 0, 0]];
    // Node 2 alone covers entries 2048 and up.
    let good = numbers(4096);
    assert!(assert_same(&Table::new(&nodes, &good), &Prefill::ALL, 9).is_ok());
    for bad in [0, 65_536, u32::MAX, 2050] {
        let mut list = good.clone();
        list[2048] = bad;
        assert_refused(&Table::new(&nodes, &list), BadVariable, 2);
        // Another block brings the sum over, whatever its range holds.
        let above = [LEAF, [5, 0, 2048, 0], [6, 0, 2046, 1], [6, 2048, 2, 2]];
        assert_refused(&Table::new(&above, &list), BadVariable, 3);
        let above = [LEAF, [5, 0, 2048, 0], [6, 0, 2047, 1], [6, 2048, 2, 2]];
        assert_refused(&Table::new(&above, &list), TooManyVariables, 3);
        let above = [LEAF, [5, 0, 2048, 0], [6, 2047, 2049, 1]];
        assert_refused(&Table::new(&above, &list), TooManyVariables, 2);
    }
}

#[test]
fn sum_of_counts_at_the_limit() {
    let list = numbers(4096);
    let sizes = |counts: &[u32]| {
        let mut table = Table::new(&[LEAF], &list);
        for (body, &count) in counts.iter().enumerate() {
            table.push([5 + count % 2, 0, count, body as u32]);
        }
        assert_same(&table, &Prefill::ALL, 9)
    };
    for counts in [&[4096][..], &[4095, 1], &[1, 4095], &[1; 4095]] {
        let bound: u32 = counts.iter().sum();
        assert_eq!(sizes(counts).map(|s| s.q), Ok(bound), "{counts:?}");
    }
    for (counts, position) in [
        (&[4096, 1][..], 2),
        (&[4095, 2], 2),
        (&[1, 4096], 2),
        (&[2048, 2048, 1], 3),
        (&[4096, 4096], 2),
    ] {
        assert_eq!(
            sizes(counts),
            Err(TooManyVariables.at(position)),
            "{counts:?}"
        );
    }
    // An empty block is refused at the limit too, before one that passes it.
    for (counts, position) in [
        (&[4096, 0, 1][..], 2),
        (&[0, 4096, 1], 1),
        (&[4095, 1, 0], 3),
    ] {
        assert_eq!(sizes(counts), Err(EmptyBlock.at(position)), "{counts:?}");
    }
}

#[test]
fn nodes_before_the_tree() {
    // Node 0 is named by nothing, yet the last node's fault comes first.
    let list = [1, 1, 0];
    for (reason, node) in [
        (MalformedNode, [1, 2, 0, 0]),
        (ForwardReference, [3, 2, 0, 0]),
        (RangePastEnd, [5, 3, 1, 1]),
        (EmptyBlock, [5, 3, 0, 1]),
        (BadVariable, [6, 0, 2, 1]),
        (BadVariable, [6, 2, 1, 1]),
    ] {
        assert_refused(&Table::new(&[LEAF, LEAF, node], &list), reason, 2);
    }
    assert_refused(&Table::new(&[LEAF, LEAF, [3, 1, 0, 0]], &list), NotATree, 0);
    assert_refused(&Table::new(&[LEAF, LEAF, [3, 0, 0, 0]], &list), NotATree, 1);
    assert_refused(&Table::new(&[LEAF, LEAF, [4, 8, 1, 1]], &list), NotATree, 0);
    assert_used_by(&Table::new(&[LEAF, LEAF, [4, 8, 0, 0]], &list), 0, [2, 2]);
}

/// A node named very often is not taken for one named once.
#[test]
fn many_uses_of_one_node() {
    for users in [2, 255, 256, 257, 4095] {
        let mut table = Table::new(&[LEAF], &[]);
        for _ in 0..users {
            table.push([3, 0, 0, 0]);
        }
        assert_used_by(&table, 0, [1, 2]);
    }
    for users in [128, 129, 2048, 4095] {
        let mut table = Table::new(&[LEAF], &[]);
        for _ in 0..users {
            table.push([4, 8, 0, 0]);
        }
        assert_used_by(&table, 0, [1, 1]);
    }
}
