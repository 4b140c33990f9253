//! The free variables: the numbers with a variable node that no block above it
//! covers.

mod common;

use common::{assert_free_variables, assert_listing, each, Case};
use common::{Prefill, FREE_VARIABLES, TOO_SHORT};
use std::ops::RangeInclusive;
use wakubinryo::brute;
use wakubinryo::generate::{accepted, Profile, Table, FAMILIES, HIGH_LEAVES};
use wakubinryo::Node;

/// The lowest and the highest number, and those where the library changes its
/// arrays.
const NUMBERS: [u32; 4] = [1, 4095, 4096, 65_535];

fn leaf(number: u32) -> Node {
    [2, number, 0, 0]
}

fn not(operand: u32) -> Node {
    [3, operand, 0, 0]
}

fn xor(left: u32, right: u32) -> Node {
    [4, 6, left, right]
}

fn exists(first: u32, count: u32, body: u32) -> Node {
    [5, first, count, body]
}

fn for_all(first: u32, count: u32, body: u32) -> Node {
    [6, first, count, body]
}

/// Holds brute force, library and reference to a table's free variables.
fn assert_free(nodes: &[Node], list: &[u32], names: &[u32]) {
    let table = Table::new(nodes, list);
    let free = brute::free_occurrences(&table.words, &table.list);
    assert!(free.iter().eq(names), "{free:?}: {table:?}");
    assert_listing(&table, names, &Prefill::ALL, 5);
}

/// As `assert_free`, for both orders of the operands of node i.
fn assert_free_either_side(nodes: &[Node], i: usize, list: &[u32], names: &[u32]) {
    let mut nodes = nodes.to_vec();
    for _ in 0..2 {
        assert_free(&nodes, list, names);
        nodes[i].swap(2, 3);
    }
}

#[test]
fn a_leaf_alone() {
    for x in NUMBERS {
        assert_free(&[leaf(x)], &[], &[x]);
        // An entry that no block covers binds nothing.
        assert_free(&[leaf(x)], &[x], &[x]);
    }
    assert_free(&[[1, 1, 0, 0]], &[], &[]);
}

#[test]
fn ascending_and_once_each() {
    let nodes = [
        leaf(4096),
        leaf(65_535),
        leaf(1),
        leaf(4095),
        leaf(65_535),
        leaf(1),
        xor(0, 1),
        xor(6, 2),
        xor(7, 3),
        xor(8, 4),
        xor(9, 5),
    ];
    assert_free(&nodes, &[], &NUMBERS);
}

#[test]
fn a_block_at_the_root() {
    for x in NUMBERS {
        assert_free(&[leaf(x), exists(0, 1, 0)], &[x], &[]);
        let nodes = [leaf(x), leaf(7), xor(0, 1), for_all(0, 1, 2)];
        assert_free_either_side(&nodes, 2, &[x], &[7]);
        assert_free_either_side(&nodes, 2, &[7], &[x]);
    }
}

#[test]
fn free_here_and_bound_in_the_other_operand() {
    for x in NUMBERS {
        // x xor (exists x: x).
        let nodes = [leaf(x), leaf(x), exists(0, 1, 1), xor(0, 2)];
        assert_free_either_side(&nodes, 3, &[x], &[x]);
        // The same with the block's leaf first.
        let nodes = [leaf(x), leaf(x), exists(0, 1, 0), xor(1, 2)];
        assert_free_either_side(&nodes, 3, &[x], &[x]);
    }
}

#[test]
fn free_here_and_bound_deeper_down() {
    for x in NUMBERS {
        // x xor not (exists 8: 8 xor not (for-all x: x)).
        let nodes = [
            leaf(x),
            leaf(8),
            leaf(x),
            for_all(1, 1, 2),
            not(3),
            xor(1, 4),
            exists(0, 1, 5),
            not(6),
            xor(0, 7),
        ];
        assert_free_either_side(&nodes, 8, &[8, x], &[x]);
        assert_free_either_side(&nodes, 5, &[8, x], &[x]);
    }
}

#[test]
fn free_in_a_block_and_bound_deeper_down() {
    for x in NUMBERS {
        // exists 8: (8 xor x) xor (for-all x, 8: x xor 8).
        let nodes = [
            leaf(8),
            leaf(x),
            xor(0, 1),
            leaf(x),
            leaf(8),
            xor(3, 4),
            for_all(0, 2, 5),
            xor(2, 6),
            exists(1, 1, 7),
        ];
        assert_free_either_side(&nodes, 7, &[x, 8], &[x]);
    }
}

#[test]
fn bound_where_it_does_not_stand() {
    for x in NUMBERS {
        // x xor (exists x: 7), and a constant in place of 7.
        let nodes = [leaf(x), leaf(7), exists(0, 1, 1), xor(0, 2)];
        let mut names = [7, x];
        names.sort();
        assert_free_either_side(&nodes, 3, &[x], &names);
        let nodes = [leaf(x), [1, 0, 0, 0], exists(0, 1, 1), xor(0, 2)];
        assert_free_either_side(&nodes, 3, &[x], &[x]);
    }
    // 1 xor (exists 1, x: 1): the highest number stands at no leaf.
    for x in &NUMBERS[1..] {
        let nodes = [leaf(1), leaf(1), exists(0, 2, 1), xor(0, 2)];
        assert_free_either_side(&nodes, 3, &[1, *x], &[1]);
    }
}

#[test]
fn two_blocks_of_one_number_in_one_another() {
    for x in NUMBERS {
        // x xor (exists x: for-all x: x).
        let nodes = [
            leaf(x),
            leaf(x),
            for_all(0, 1, 1),
            exists(0, 1, 2),
            xor(0, 3),
        ];
        assert_free_either_side(&nodes, 4, &[x], &[x]);
        let nodes = [leaf(x), for_all(0, 1, 0), exists(0, 1, 1)];
        assert_free(&nodes, &[x], &[]);
    }
}

#[test]
fn a_leaf_between_two_blocks_of_one_number() {
    for x in NUMBERS {
        // exists x: x xor (for-all x: x), alone and beside x.
        let nodes = [
            leaf(x),
            leaf(x),
            for_all(0, 1, 1),
            xor(0, 2),
            exists(0, 1, 3),
            leaf(x),
            xor(4, 5),
        ];
        assert_free_either_side(&nodes[..5], 3, &[x], &[]);
        assert_free_either_side(&nodes, 3, &[x], &[x]);
        assert_free_either_side(&nodes, 6, &[x], &[x]);
        // The inner block binds 7 too; it is free between the blocks.
        let nodes = [
            leaf(x),
            leaf(7),
            for_all(0, 2, 0),
            xor(1, 2),
            exists(1, 1, 3),
        ];
        assert_free_either_side(&nodes, 3, &[7, x], &[7]);
    }
}

#[test]
fn several_numbers_free_and_bound() {
    // (1 xor 4095) xor (4096 xor 65535), beside the same below a block.
    let nodes = [
        leaf(1),
        leaf(4095),
        leaf(4096),
        leaf(65_535),
        xor(0, 1),
        xor(2, 3),
        xor(4, 5),
        leaf(1),
        leaf(4095),
        leaf(4096),
        leaf(65_535),
        xor(7, 8),
        xor(9, 10),
        xor(11, 12),
        exists(0, 4, 13),
        xor(6, 14),
    ];
    assert_free_either_side(&nodes, 15, &NUMBERS, &NUMBERS);
    // A block over two of them, on both sides.
    let nodes = [
        leaf(65_535),
        leaf(4095),
        xor(0, 1),
        exists(0, 2, 2),
        leaf(4096),
        leaf(1),
        xor(4, 5),
        for_all(1, 2, 6),
        xor(3, 7),
    ];
    assert_free_either_side(&nodes, 8, &NUMBERS, &[1, 65_535]);
}

/// A buffer must have room for the free variables that blocks bind too.
#[test]
fn room_for_all_free_variables() {
    // ((5 xor 6) xor (7 xor 9)) xor (exists 5, 9: 5): no block binds 6 and 7.
    let nodes = [
        leaf(5),
        leaf(6),
        xor(0, 1),
        leaf(7),
        leaf(9),
        xor(3, 4),
        xor(2, 5),
        leaf(5),
        exists(0, 2, 7),
        xor(6, 8),
    ];
    let table = Table::new(&nodes, &[5, 9]);
    let names = [5, 6, 7, 9];
    for free_variables in FREE_VARIABLES {
        for prefill in Prefill::ALL {
            for len in 0..4 {
                assert_free_variables(free_variables, &table, len, prefill, Err(TOO_SHORT), &[]);
            }
            for len in 4..8 {
                assert_free_variables(free_variables, &table, len, prefill, Ok(4), &names);
            }
        }
    }
}

#[test]
fn families() {
    for (name, family) in FAMILIES.into_iter().chain([HIGH_LEAVES]) {
        for nodes in [128, 1024, 4095, 4096] {
            let _case = Case(name, nodes as u64);
            let table = family(nodes);
            let free = brute::free_occurrences(&table.words, &table.list);
            let names: Vec<u32> = free.into_iter().collect();
            assert_listing(&table, &names, &Prefill::ALL, 11);
        }
    }
}

/// Holds library and reference to brute force on tables of so many nodes, with
/// buffers that are up to `spare` words too long. Most free variables are bound
/// elsewhere, and most tables have a number that is nowhere free.
fn generated_tables(name: &str, tables: u64, nodes: RangeInclusive<usize>, spare: usize) {
    let [mut free, mut also_bound, mut high] = [0; 3];
    let mut nowhere_free = 0;
    each(name, tables, |rng, number| {
        let nodes = rng.between(*nodes.start(), *nodes.end());
        let profile = Profile::few_numbers(rng, nodes);
        let table = accepted(rng, &profile);
        let names = brute::free_occurrences(&table.words, &table.list);
        let bound = brute::variables_in_ranges(&table.words, &table.list);
        free += names.len();
        also_bound += names.intersection(&bound).count();
        high += names.range(4096..).count();
        nowhere_free += u64::from(names != brute::variables_at_nodes(&table.words));
        let names: Vec<u32> = names.into_iter().collect();
        let prefill = [Prefill::ALL[number as usize % 4]];
        assert_listing(&table, &names, &prefill, rng.between(1, spare));
    });
    assert!(3 * also_bound > 2 * free, "{also_bound} of {free}");
    assert!(4 * high > free && 4 * high < 3 * free, "{high} of {free}");
    assert!(2 * nowhere_free > tables, "{nowhere_free} of {tables}");
}

#[test]
fn small_tables() {
    generated_tables("small tables of few numbers", 20_000, 10..=60, 60);
}

#[test]
fn large_tables() {
    generated_tables("large tables of few numbers", 400, 700..=4096, 3000);
    generated_tables("full tables of few numbers", 200, 4096..=4096, 3000);
}
