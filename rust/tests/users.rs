//! The users that refusal 8 names.

mod common;

use common::{assert_refused, assert_same, assert_used_by, each, some_nodes, Prefill};
use wakubinryo::generate::{accepted, shared, Profile, Table};
use wakubinryo::Reason::*;
use wakubinryo::{measure, Node, Refusal};

const LEAF: Node = [2, 1, 0, 0];

/// Each way in which a node names another.
#[test]
fn every_kind_of_user() {
    let ways = [
        [3, 0, 0, 0],
        [4, 8, 0, 1],
        [4, 8, 1, 0],
        [5, 0, 1, 0],
        [6, 0, 1, 0],
    ];
    for first in ways {
        for second in ways {
            let table = Table::new(&[LEAF, LEAF, first, second], &[1]);
            assert_used_by(&table, 0, [2, 3]);
        }
        let table = Table::new(&[LEAF, LEAF, first, [4, 6, 0, 0]], &[1]);
        assert_used_by(&table, 0, [2, 3]);
        let table = Table::new(&[LEAF, LEAF, [4, 6, 0, 0], first], &[1]);
        assert_used_by(&table, 0, [2, 2]);
    }
}

/// The number of a node in a field that names no node makes no user.
#[test]
fn fields_that_name_no_node() {
    let nodes = [
        LEAF,
        LEAF,
        // Constant 1 and variable 1, a truth table 1, a range of 1 entry from 1.
        [1, 1, 0, 0],
        LEAF,
        [4, 1, 2, 3],
        [5, 1, 1, 4],
        [4, 8, 0, 5],
    ];
    assert_refused(&Table::new(&nodes, &[1, 2]), NotATree, 1);
}

/// The lowest node is named, not one whose users come first.
#[test]
fn the_lowest_node_and_its_lowest_users() {
    let nodes = [
        LEAF,
        LEAF,
        [4, 8, 1, 1],
        [3, 0, 0, 0],
        [4, 8, 2, 3],
        [3, 0, 0, 0],
        [4, 8, 0, 0],
        [4, 8, 4, 5],
    ];
    assert_used_by(&Table::new(&nodes, &[]), 0, [3, 5]);
}

#[test]
fn tables_with_shared_nodes() {
    let [mut nobody, mut twice, mut two] = [0, 0, 0];
    each("shared nodes", 60_000, |rng, number| {
        let nodes = some_nodes(rng, number);
        let profile = Profile::random(rng, nodes);
        let table = accepted(rng, &profile);
        let table = shared(rng, table);
        let prefill = [Prefill::ALL[number as usize % 4]];
        let given = assert_same(&table, &prefill, rng.between(1, 60));
        if let Err(Refusal { reason, users, .. }) = given {
            assert_eq!(reason, NotATree);
            match users {
                None => nobody += 1,
                Some([first, second]) if first == second => twice += 1,
                Some(_) => two += 1,
            }
        }
    });
    for count in [nobody, twice, two] {
        assert!(count > 3_000, "users: {nobody} {twice} {two}");
    }
}

#[test]
fn users_in_words() {
    let said = |nodes: &[Node]| {
        let refusal = measure(&nodes.concat(), &[]).expect_err("refused");
        refusal.to_string()
    };
    assert_eq!(
        said(&[LEAF, [4, 9, 0, 0]]),
        "refused: 8 at 0 (not a tree: named twice by node 1)"
    );
    assert_eq!(
        said(&[LEAF, [3, 0, 0, 0], [4, 8, 0, 1]]),
        "refused: 8 at 0 (not a tree: named by nodes 1 and 2)"
    );
    assert_eq!(
        said(&[LEAF, LEAF, [3, 0, 0, 0]]),
        "refused: 8 at 1 (not a tree: named by no node)"
    );
    assert_eq!(
        said(&[LEAF, [3, 1, 0, 0]]),
        "refused: 4 at 1 (operand or body not below its node)"
    );
}
