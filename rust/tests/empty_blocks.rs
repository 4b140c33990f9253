//! Empty blocks: refusal 16, and removing them. The cases of
//! vectors/empty-blocks.txt, chosen tables, and many with empty blocks put in.

mod common;

use common::vectors::each_vector;
use common::{assert_listing, assert_removal, assert_same, assert_used_by};
use common::{each, library_measure, reference_left, some_nodes, Case, Prefill};
use std::collections::HashMap;
use wakubinryo::answer::{count_words, size_words};
use wakubinryo::brute;
use wakubinryo::generate::{accepted, damaged_stored, mutated, shared, with_empty_blocks};
use wakubinryo::generate::{empty_nest, every_fourth_empty, Profile, Table, EDGES, FAMILIES};
use wakubinryo::{measure, prenex_form, Node, Reason, Refusal, WIDTH};

const VECTORS: &str = include_str!("../vectors/empty-blocks.txt");

/// The number of variables that brute force is asked to go through.
const MOST: usize = 12;

const LEAF: Node = [2, 1, 0, 0];

/// The empty blocks of a table whose nodes may be anything.
fn empty_blocks(table: &Table) -> Vec<usize> {
    let is_empty = |&i: &usize| matches!(table.node(i), [5 | 6, _, 0, _]);
    (0..table.len()).filter(is_empty).collect()
}

/// The refusal by the calls that take no empty block, given that by removal: 16
/// at the first empty block, if that is among the nodes that pass every test
/// before it.
fn with_sixteen(table: &Table, removal: Option<Refusal>) -> Option<Refusal> {
    let tested = match removal {
        Some(Refusal {
            reason: Reason::PartialNode | Reason::TooLarge,
            ..
        }) => 0,
        None
        | Some(Refusal {
            reason: Reason::NotATree,
            ..
        }) => table.len(),
        Some(refusal) => refusal.position as usize,
    };
    let first = empty_blocks(table).into_iter().find(|&i| i < tested);
    first.map(|i| Reason::EmptyBlock.at(i)).or(removal)
}

/// Holds what is left of a table to all that is promised of it. Says whether the
/// truth values were compared, which they are if there are few variables.
fn assert_promise(table: &Table, nodes: &[u32]) -> bool {
    let left = Table {
        words: nodes.to_vec(),
        list: table.list.clone(),
    };
    let empty = empty_blocks(table).len();
    assert_eq!(left.len(), table.len() - empty);
    assert_eq!(empty == 0, left == *table);
    let sizes = measure(nodes, &left.list).expect("accepted");
    assert_eq!(sizes.n as usize, left.len());

    // A second removal finds nothing to do.
    assert_removal(&left, Ok(nodes), &[Prefill::Counting], 3);

    let free = brute::free_occurrences(&table.words, &table.list);
    let names: Vec<u32> = free.into_iter().collect();
    assert_listing(&left, &names, &[Prefill::Counting], 3);

    let form = prenex_form(nodes, &left.list).expect("accepted");
    assert!(form.prefix.chunks_exact(3).all(|block| block[2] > 0));

    let variables: Vec<u32> = brute::variables_at_nodes(&table.words)
        .into_iter()
        .collect();
    if variables.len() > MOST {
        return false;
    }
    let truth = |table: &Table| brute::table_function(&table.words, &table.list, &variables);
    assert_eq!(truth(table), truth(&left), "{table:?}");
    true
}

#[test]
fn reference_and_library_give_every_vector() {
    let mut values = 0;
    each_vector(VECTORS, 200, |vector, table| {
        let sizes = assert_same(table, &Prefill::ALL, 5);
        assert_eq!(size_words(sizes), vector.get("measure"));
        assert_eq!(library_measure(table), vector.get("measure"));

        let given = reference_left(table);
        let count = given.as_ref().map(|nodes| (nodes.len() / WIDTH) as u32);
        assert_eq!(
            count_words(count.map_err(|&refusal| refusal)),
            vector.get("tidy")
        );
        let Ok(nodes) = given else {
            assert_eq!(vector.find("tidied"), None);
            return;
        };
        assert_eq!(nodes, vector.get("tidied"));
        assert_removal(table, Ok(&nodes), &Prefill::ALL, 5);
        assert_promise(table, &nodes);

        let Some(over) = vector.find("over") else {
            return;
        };
        let truth = vector.get("truth");
        assert_eq!(truth.len(), 1 << over.len());
        for (mut valuation, &value) in brute::valuations(over).zip(truth) {
            for words in [&table.words, &nodes] {
                let given = brute::table_value(words, &table.list, &mut valuation);
                assert_eq!(u32::from(given), value, "under {valuation:?}");
                values += 1;
            }
        }
    });
    assert!(values > 500, "only {values} values compared");
}

/// Holds library and reference to the nodes left of a table with empty blocks.
fn assert_left(nodes: &[Node], list: &[u32], left: &[Node]) {
    let table = Table::new(nodes, list);
    let left = left.concat();
    assert_removal(&table, Ok(&left), &Prefill::ALL, 5);
    assert!(assert_promise(&table, &left));
    let refused = with_sixteen(&table, None);
    assert_eq!(assert_same(&table, &Prefill::ALL, 5).err(), refused);
}

#[test]
fn empty_blocks_at_the_root() {
    for first in 0..=2 {
        for kind in [5, 6] {
            let block = |body| [kind, first, 0, body];
            assert_left(&[LEAF, block(0)], &[1, 0], &[LEAF]);
            assert_left(&[LEAF, block(0), block(1), block(2)], &[1, 0], &[LEAF]);
            let bound = [5, 0, 1, 0];
            assert_left(&[LEAF, bound, block(1)], &[1, 0], &[LEAF, bound]);
            assert_left(&[LEAF, block(0), [5, 0, 1, 1]], &[1, 0], &[LEAF, bound]);
        }
    }
}

#[test]
fn refusal_in_words() {
    let refusal = measure(&[LEAF, [5, 0, 0, 0]].concat(), &[]).expect_err("refused");
    assert_eq!(refusal.to_string(), "refused: 16 at 1 (empty block)");
}

/// A nest below each field that names a node, the empty blocks in any order
/// between the others.
#[test]
fn empty_blocks_below_every_kind_of_node() {
    let other = [2, 2, 0, 0];
    for (above, left) in [
        ([3, 3, 0, 0], [3, 0, 0, 0]),
        ([5, 0, 2, 3], [5, 0, 2, 0]),
        ([6, 1, 1, 3], [6, 1, 1, 0]),
    ] {
        let nodes = [LEAF, [5, 0, 0, 0], [6, 1, 0, 1], [5, 2, 0, 2], above];
        assert_left(&nodes, &[1, 2], &[LEAF, left]);
    }
    for truth_table in 0..16 {
        let [both, swapped] = [[4, truth_table, 0, 1], [4, truth_table, 1, 0]];
        let nodes = [
            LEAF,
            [5, 0, 0, 0],
            other,
            [6, 0, 0, 1],
            [4, truth_table, 3, 2],
        ];
        assert_left(&nodes, &[], &[LEAF, other, both]);
        let nodes = [
            LEAF,
            other,
            [5, 0, 0, 0],
            [6, 0, 0, 1],
            [4, truth_table, 3, 2],
        ];
        assert_left(&nodes, &[], &[LEAF, other, swapped]);
        let nodes = [
            LEAF,
            other,
            [5, 0, 0, 1],
            [6, 0, 0, 2],
            [4, truth_table, 0, 3],
        ];
        assert_left(&nodes, &[], &[LEAF, other, both]);
    }
}

/// A block that binds stays, with its range, whatever an empty one's is.
#[test]
fn blocks_with_variables_stay() {
    let nodes = [
        [2, 7, 0, 0],
        [5, 3, 0, 0],
        [6, 1, 1, 1],
        [5, 1, 0, 2],
        [5, 0, 3, 3],
        [6, 0, 0, 4],
    ];
    let left = [[2, 7, 0, 0], [6, 1, 1, 0], [5, 0, 3, 1]];
    assert_left(&nodes, &[5, 7, 6], &left);
}

/// The number at a leaf below an empty block is free, or bound by another.
#[test]
fn free_variables_below_empty_blocks() {
    let exists = [5, 0, 1, 1];
    for x in [1, 4095, 4096, 65_535] {
        for first in 0..2 {
            let leaf = [2, x, 0, 0];
            let empty = |body| [6, first, 0, body];
            assert_left(&[leaf, empty(0)], &[x], &[leaf]);
            assert_left(&[leaf, empty(0), exists], &[x], &[leaf, [5, 0, 1, 0]]);
            let nodes = [leaf, empty(0), leaf, [5, 0, 1, 2], [4, 6, 1, 3]];
            assert_left(&nodes, &[x], &[leaf, leaf, exists, [4, 6, 0, 2]]);
        }
    }
}

/// Holds library and reference to a removal's refusal.
fn assert_removal_refused(table: &Table, refusal: Refusal) {
    assert_removal(table, Err(refusal), &Prefill::ALL, 9);
    let others = with_sixteen(table, Some(refusal));
    assert_eq!(assert_same(table, &Prefill::ALL, 9).err(), others);
}

/// What is refused is refused by the table as it is given.
#[test]
fn refusals_behind_empty_blocks() {
    let empty = [5, 0, 0, 0];
    let list = [1, 1, 0];
    for (reason, node) in [
        (Reason::MalformedNode, [1, 2, 0, 0]),
        (Reason::MalformedNode, [7, 0, 0, 0]),
        (Reason::ForwardReference, [3, 2, 0, 0]),
        (Reason::ForwardReference, [5, 0, 0, 2]),
        (Reason::RangePastEnd, [5, 4, 0, 1]),
        (Reason::RangePastEnd, [6, u32::MAX, 0, 1]),
        (Reason::BadVariable, [6, 0, 2, 1]),
        (Reason::BadVariable, [5, 2, 1, 1]),
    ] {
        let table = Table::new(&[LEAF, empty, node, [6, 0, 0, 2]], &list);
        assert_removal_refused(&table, reason.at(2));
    }
    // The users of a node, of an empty block, and none.
    for (nodes, position, users) in [
        (&[LEAF, empty, [4, 8, 1, 1]][..], 1, Some([2, 2])),
        (&[LEAF, empty, [6, 0, 0, 0], [4, 8, 1, 2]], 0, Some([1, 2])),
        (&[LEAF, empty, [3, 1, 0, 0], [5, 0, 0, 1]], 1, Some([2, 3])),
        (&[LEAF, empty, LEAF, [3, 2, 0, 0]], 1, None),
        (&[LEAF, LEAF, [5, 0, 0, 1]], 0, None),
    ] {
        let table = Table::new(nodes, &list);
        assert_removal_refused(&table, Reason::NotATree.at(position).used_by(users));
    }
    // Without an empty block before it, 8 is the others' refusal too.
    let table = Table::new(&[LEAF, [3, 0, 0, 0], [3, 0, 0, 0]], &list);
    assert_used_by(&table, 0, [1, 2]);
}

/// Each word of a table with empty blocks, and each entry of its list, changed to
/// what is near or at an edge.
#[test]
fn every_word_changed() {
    let nodes = [
        LEAF,
        [5, 0, 0, 0],
        [2, 2, 0, 0],
        [6, 0, 2, 2],
        [6, 3, 0, 1],
        [4, 9, 4, 3],
        [3, 5, 0, 0],
        [5, 1, 0, 6],
        [5, 2, 1, 7],
        [6, 3, 0, 8],
    ];
    let table = Table::new(&nodes, &[2, 1, 3]);
    let mut counts = [0; 9];
    let mut changed = |table: &Table| {
        let others = assert_same(table, &[Prefill::Counting], 5).err();
        let refusal = match reference_left(table) {
            Ok(nodes) => {
                assert!(assert_promise(table, &nodes));
                None
            }
            Err(refusal) => Some(refusal),
        };
        assert_eq!(others, with_sixteen(table, refusal));
        counts[refusal.map_or(0, |refusal| refusal.reason.number() as usize)] += 1;
    };
    for value in EDGES.into_iter().chain(4..=14) {
        for at in 0..table.words.len() {
            let mut table = table.clone();
            table.words[at] = value;
            changed(&table);
        }
        for at in 0..table.list.len() {
            let mut table = table.clone();
            table.list[at] = value;
            changed(&table);
        }
    }
    for number in [0, 3, 4, 5, 7, 8] {
        assert!(counts[number] > 10, "refusals by number: {counts:?}");
    }
}

#[test]
fn limits_with_empty_blocks() {
    // 4,096 nodes, and one more however few would be left.
    let mut table = empty_nest(4096);
    assert_removal(&table, Ok(&LEAF), &Prefill::ALL, 7);
    assert!(assert_promise(&table, &LEAF));
    table.push([5, 0, 0, 4095]);
    assert_removal_refused(&table, Reason::TooLarge.at(0));
    // 4,096 list entries, and one more.
    let list = vec![0; 4096];
    assert_left(&[LEAF, [5, 4096, 0, 0]], &list, &[LEAF]);
    let table = Table::new(&[LEAF, [5, 4097, 0, 0]], &[0; 4097]);
    assert_removal_refused(&table, Reason::TooLarge.at(0));
    // 4,096 variables, and one more: an empty block adds nothing.
    let list: Vec<u32> = (1..=4096).collect();
    let empty = |body| [5, 0, 0, body];
    let nodes = [LEAF, empty(0), [5, 0, 4096, 1], empty(2), empty(3)];
    assert_left(&nodes, &list, &[LEAF, [5, 0, 4096, 0]]);
    let nodes = [LEAF, empty(0), [5, 0, 4096, 1], empty(2), [6, 7, 1, 3]];
    assert_removal_refused(&Table::new(&nodes, &list), Reason::TooManyVariables.at(4));
    // Words that are no nodes.
    for words in [0, 1, 7, 9] {
        let mut table = Table::new(&[LEAF, empty(0), empty(1)], &[]);
        table.words.truncate(words);
        assert_removal_refused(&table, Reason::PartialNode.at(0));
    }
}

#[test]
fn families() {
    for (name, family) in FAMILIES {
        let _case = Case(name, 0);
        for nodes in [128, 1000, 4096] {
            let table = every_fourth_empty(family, nodes);
            let left = family(nodes - nodes / 4);
            assert_removal(&table, Ok(&left.words), &Prefill::ALL, 11);
            assert_promise(&table, &left.words);
        }
    }
}

fn prefill(number: u64) -> [Prefill; 1] {
    [Prefill::ALL[number as usize % 4]]
}

/// Tables with empty blocks put in: without them they are what they were.
#[test]
fn tables_with_empty_blocks() {
    let [mut empty, mut compared] = [0; 2];
    each("tables with empty blocks", 12_000, |rng, number| {
        let profile = match number % 3 {
            0 => Profile::tiny(rng),
            _ => {
                let nodes = some_nodes(rng, number / 3).min(3000);
                Profile::random(rng, nodes)
            }
        };
        let tree = accepted(rng, &profile);
        let (table, _) = with_empty_blocks(rng, &tree);
        let spare = rng.between(1, 60);
        assert_removal(&table, Ok(&tree.words), &prefill(number), spare);
        let refused = assert_same(&table, &prefill(number), spare).err();
        assert_eq!(refused, with_sixteen(&table, None));
        empty += u32::from(refused.is_some());
        compared += u32::from(assert_promise(&table, &tree.words));
    });
    assert!(empty > 7_000, "only {empty} with empty blocks");
    assert!(compared > 7_000, "truth of only {compared} compared");
}

#[test]
fn large_tables_with_empty_blocks() {
    let [mut full, mut empty] = [0; 2];
    each("large tables with empty blocks", 300, |rng, number| {
        let nodes = rng.between(1000, 4000);
        let profile = Profile::random(rng, nodes);
        let tree = accepted(rng, &profile);
        let (table, _) = with_empty_blocks(rng, &tree);
        assert_removal(&table, Ok(&tree.words), &prefill(number), 3000);
        assert_promise(&table, &tree.words);
        full += u32::from(table.len() == 4096);
        empty += u32::from(table.len() > nodes);
    });
    assert!(full > 20, "only {full} with 4,096 nodes");
    assert!(empty > 150, "only {empty} with empty blocks");
}

/// Each refusal but 16, in tables with empty blocks.
#[test]
fn every_refusal_where_it_is_expected() {
    let mut counts: HashMap<Reason, u32> = HashMap::new();
    let mut sixteen = 0;
    each("damaged tables with empty blocks", 18_000, |rng, number| {
        let reason = Reason::OF_TABLES[number as usize % 9];
        if reason == Reason::EmptyBlock {
            return;
        }
        let nodes = some_nodes(rng, number / 9);
        let profile = Profile::random(rng, nodes);
        if let Some((table, refusal)) = damaged_stored(rng, &profile, reason) {
            let (prefill, spare) = (prefill(number / 9), rng.between(1, 60));
            assert_removal(&table, Err(refusal), &prefill, spare);
            let others = with_sixteen(&table, Some(refusal));
            assert_eq!(assert_same(&table, &prefill, spare).err(), others);
            *counts.entry(reason).or_default() += 1;
            sixteen += u32::from(others != Some(refusal));
        }
    });
    for reason in Reason::OF_TABLES {
        let count = counts.get(&reason).copied().unwrap_or(0);
        let given = reason != Reason::EmptyBlock;
        assert!(!given || count > 700, "{reason:?} only {count} times");
    }
    assert!(sixteen > 2_000, "only {sixteen} behind an empty block");
}

#[test]
fn tables_changed_anywhere() {
    let mut done = 0;
    let mut counts = [0; 10];
    each("changed tables with empty blocks", 20_000, |rng, number| {
        let nodes = some_nodes(rng, number).min(3000);
        let profile = Profile::random(rng, nodes);
        let tree = accepted(rng, &profile);
        let (table, _) = with_empty_blocks(rng, &tree);
        let table = match number % 3 {
            0 => shared(rng, table),
            _ => mutated(rng, table),
        };
        let spare = rng.between(1, 60);
        let others = assert_same(&table, &prefill(number), spare).err();
        match reference_left(&table) {
            Ok(nodes) => {
                done += 1;
                assert_eq!(others, with_sixteen(&table, None));
                assert_promise(&table, &nodes);
            }
            Err(refusal) => {
                counts[refusal.reason.number() as usize] += 1;
                assert_eq!(others, with_sixteen(&table, Some(refusal)));
            }
        }
    });
    assert!(done > 1_000, "only {done} done");
    for number in [3, 4, 5, 7, 8] {
        assert!(counts[number] > 50, "refusals by number: {counts:?}");
    }
}
