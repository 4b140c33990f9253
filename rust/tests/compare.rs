//! The library against the reference on many tables.

mod common;

use common::{assert_same, each, some_nodes, Case, Prefill};
use std::collections::HashMap;
use std::ops::RangeInclusive;
use wakubinryo::generate::{accepted, damaged, mutated};
use wakubinryo::generate::{Profile, Table, FAMILIES};
use wakubinryo::{Node, Reason, Sizes};

fn prefill(number: u64) -> [Prefill; 1] {
    [Prefill::ALL[number as usize % 4]]
}

/// Compares random accepted tables of so many nodes, with buffers that are up
/// to `spare` words too long, and gives their sizes.
fn accepted_tables(
    name: &str,
    tables: u64,
    nodes: RangeInclusive<usize>,
    spare: usize,
) -> Vec<Sizes> {
    let mut all = Vec::new();
    each(name, tables, |rng, number| {
        let nodes = rng.between(*nodes.start(), *nodes.end());
        let profile = Profile::random(rng, nodes);
        let table = accepted(rng, &profile);
        let spare = rng.between(1, spare);
        let sizes = assert_same(&table, &prefill(number), spare);
        all.push(sizes.expect("accepted"));
    });
    all
}

#[test]
fn small_tables() {
    accepted_tables("small tables", 50_000, 1..=40, 60);
}

#[test]
fn medium_tables() {
    accepted_tables("medium tables", 4_000, 40..=700, 900);
}

#[test]
fn large_tables() {
    let mut sizes = accepted_tables("large tables", 300, 700..=4096, 5000);
    sizes.extend(accepted_tables("largest tables", 150, 4000..=4096, 5000));
    sizes.extend(accepted_tables("full tables", 150, 4096..=4096, 5000));
    let deepest = sizes.iter().map(|s| s.depth).max();
    let most_bound = sizes.iter().map(|s| s.q).max();
    assert!(deepest > Some(2000), "depth {deepest:?} at most");
    assert_eq!(most_bound, Some(4096));
}

#[test]
fn families() {
    for (name, family) in FAMILIES {
        for nodes in [128, 1000, 1024, 2048, 4095, 4096] {
            let _case = Case(name, nodes as u64);
            let sizes = assert_same(&family(nodes), &Prefill::ALL, 11);
            assert_eq!(sizes.map(|s| s.n as usize), Ok(nodes));
        }
    }
}

#[test]
fn every_refusal_where_it_is_expected() {
    let mut counts: HashMap<Reason, u32> = HashMap::new();
    each("damaged tables", 40_000, |rng, number| {
        let reason = Reason::OF_TABLES[number as usize % 9];
        let nodes = match number / 9 % 100 {
            0 => rng.between(1000, 4096),
            1..=9 => rng.between(40, 300),
            _ => rng.between(1, 40),
        };
        let profile = Profile::random(rng, nodes);
        if let Some((table, refusal)) = damaged(rng, &profile, reason) {
            let spare = rng.between(1, 60);
            let given = assert_same(&table, &prefill(number / 9), spare);
            assert_eq!(given, Err(refusal));
            *counts.entry(reason).or_default() += 1;
        }
    });
    for reason in Reason::OF_TABLES {
        let count = counts.get(&reason).copied().unwrap_or(0);
        assert!(count >= 1500, "{reason:?} only {count} times");
    }
}

#[test]
fn tables_changed_anywhere() {
    let mut refused = 0;
    let mut counts = [0; 17];
    each("changed tables", 60_000, |rng, number| {
        let nodes = some_nodes(rng, number);
        let profile = Profile::random(rng, nodes);
        let table = accepted(rng, &profile);
        let table = mutated(rng, table);
        let spare = rng.between(1, 60);
        if let Err(refusal) = assert_same(&table, &prefill(number), spare) {
            refused += 1;
            counts[refusal.reason.number() as usize] += 1;
        }
    });
    assert!(refused > 20_000, "only {refused} refused");
    for number in [3, 4, 5, 7, 8, 16] {
        assert!(counts[number] > 100, "refusals by number: {counts:?}");
    }
}

/// All tables of up to three nodes over a few words, and some lists.
#[test]
fn all_tiny_tables() {
    let lists: [&[u32]; 5] = [&[], &[1], &[1, 2], &[1, 1], &[0, 2]];
    let one: Vec<Node> = all_nodes(&[0, 1, 2, 3, 4, 5, 6, 7], &[0, 1, 2]);
    let [mut accepted, mut with_empty] = [0; 2];
    let mut check = |nodes: &[Node], list: &[u32]| {
        let table = Table::new(nodes, list);
        let given = assert_same(&table, &[Prefill::Counting], 2);
        match given.map_err(|refusal| refusal.reason) {
            Ok(_) => accepted += 1,
            Err(Reason::EmptyBlock) => with_empty += 1,
            Err(_) => {}
        }
    };
    for list in lists {
        for &a in &one {
            check(&[a], list);
            for &b in &one {
                check(&[a, b], list);
            }
        }
    }
    let leaves = [[1, 1, 0, 0], [2, 1, 0, 0], [2, 2, 0, 0]];
    let upper = all_nodes(&[2, 3, 4, 5, 6], &[0, 1, 2, 3]);
    for list in lists {
        for a in leaves {
            for &b in &upper {
                for &c in &upper {
                    check(&[a, b, c], list);
                }
            }
        }
    }
    assert!(accepted > 700, "only {accepted} accepted");
    assert!(with_empty > 700, "only {with_empty} with an empty block");
}

fn all_nodes(kinds: &[u32], fields: &[u32]) -> Vec<Node> {
    let mut nodes = Vec::new();
    for &kind in kinds {
        for &a in fields {
            for &b in fields {
                for &c in fields {
                    nodes.push([kind, a, b, c]);
                }
            }
        }
    }
    nodes
}
