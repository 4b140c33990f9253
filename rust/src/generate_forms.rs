//! Prenex forms to try: random ones, damaged ones, and the families of the
//! benchmark. The same seed always gives the same forms.

use crate::form_check::{HIGHEST_NAME, MOST_NODES};
use crate::generate::{self, comparator_chain, deep_nest, Order, Rng};
use crate::reference::WIDTH;
use crate::{prenex_form, PrenexForm};

/// What a random form is made of.
#[derive(Clone, Debug)]
pub struct Profile {
    pub nodes: usize,
    /// Names of the matrix and of the prefix, all different.
    pub names: Vec<u32>,
    /// How many of the names are in the prefix.
    pub bound: usize,
    /// The largest count of a block.
    pub most_count: usize,
    pub order: Order,
    /// How often leaves, nots and operators come.
    pub weights: [usize; 3],
    /// Truth tables of the operators.
    pub operators: &'static [u32],
}

const ALL: &[u32] = &[0, 1, 2, 3, 4, 5, 6, 7, 8, 9, 10, 11, 12, 13, 14, 15];
/// No operand is ignored.
const WHOLE: &[u32] = &[1, 2, 4, 6, 7, 8, 9, 11, 13, 14];
/// Now and then an operand is ignored.
const MIXED: &[u32] = &[
    1, 2, 4, 6, 7, 8, 9, 11, 13, 14, 1, 2, 4, 6, 7, 8, 9, 11, 13, 14, 0, 3, 5, 10, 12, 15,
];
/// An operand is ignored, or both.
const IGNORING: &[u32] = &[0, 3, 5, 10, 12, 15];

impl Profile {
    /// Something of everything, over a matrix of this many nodes.
    pub fn random(rng: &mut Rng, nodes: usize) -> Profile {
        let many = match rng.below(4) {
            0 => rng.between(1, 3),
            1 => rng.between(4, 12),
            _ => rng.between(1, nodes + 2),
        };
        let order = if nodes > 5000 {
            Order::Newest
        } else {
            rng.pick(&[Order::Newest, Order::Oldest, Order::Any, Order::Mixed])
        };
        Profile {
            nodes,
            names: names(rng, many),
            bound: match rng.below(4) {
                0 => 0,
                1 => many,
                _ => rng.between(0, many),
            },
            most_count: rng.pick(&[1, 2, 3, 10, many]),
            order,
            weights: rng.pick(&[[4, 1, 3], [4, 4, 3], [1, 8, 1], [6, 0, 1], [1, 0, 1]]),
            operators: rng.pick(&[ALL, ALL, WHOLE, MIXED, MIXED, IGNORING, &[6, 9], &[8]]),
        }
    }

    /// A form small enough for brute force.
    pub fn tiny(rng: &mut Rng) -> Profile {
        let nodes = rng.between(1, 20);
        let many = rng.between(1, 7);
        Profile {
            names: names(rng, many),
            bound: rng.between(0, many),
            most_count: rng.between(1, 3),
            ..Profile::random(rng, nodes)
        }
    }
}

/// Different names: the lowest, the highest, spread out, or of every length.
fn names(rng: &mut Rng, many: usize) -> Vec<u32> {
    let many = many.min(HIGHEST_NAME as usize);
    let mut names: Vec<u32> = match rng.below(5) {
        0 | 1 => (1..=many as u32).collect(),
        2 => (0..many as u32).map(|k| HIGHEST_NAME - k).collect(),
        3 => {
            let step = HIGHEST_NAME / many as u32;
            let offset = rng.between(1, step as usize) as u32;
            (0..many as u32).map(|k| k * step + offset).collect()
        }
        _ => {
            let edges = [
                9, 10, 99, 100, 999, 1000, 9999, 10_000, 65_535, 65_536, 77_823,
            ];
            let rest = (1..=HIGHEST_NAME).filter(|name| !edges.contains(name));
            edges.into_iter().chain(rest).take(many).collect()
        }
    };
    generate::shuffle(rng, &mut names);
    names
}

/// An entry for places of the list that no block covers.
fn any_entry(rng: &mut Rng) -> u32 {
    match rng.below(4) {
        0 => 0,
        1 => HIGHEST_NAME + 1,
        2 => rng.between(1, 9) as u32,
        _ => rng.bits() as u32,
    }
}

/// A random form that is written.
pub fn good_form(rng: &mut Rng, profile: &Profile) -> PrenexForm {
    let [leaf, not, operator] = profile.weights;
    let matrix = generate::Profile {
        nodes: profile.nodes,
        numbers: profile.names.clone(),
        order: profile.order,
        weights: [leaf, not, operator, 0],
        most_count: 0,
        most_bound: 0,
    };
    let mut nodes = generate::accepted(rng, &matrix).words;
    for node in nodes.chunks_exact_mut(WIDTH) {
        if node[0] == 4 {
            node[1] = rng.pick(profile.operators);
        }
    }
    let (prefix, variables) = prefix(rng, profile);
    PrenexForm {
        nodes,
        prefix,
        variables,
    }
}

/// Blocks over the profile's bound names, and the list. Ranges come in the
/// order of the blocks or not, with other entries between them, and some
/// blocks are empty.
fn prefix(rng: &mut Rng, profile: &Profile) -> (Vec<u32>, Vec<u32>) {
    let mut left = &profile.names[profile.names.len() - profile.bound..];
    let packed = rng.one_in(2);
    let mut blocks: Vec<[u32; 3]> = Vec::new();
    let mut list = Vec::new();
    let any_kind = |rng: &mut Rng| rng.pick(&[5, 6]);
    while !left.is_empty() {
        while !packed && rng.one_in(4) {
            list.push(any_entry(rng));
        }
        let (names, rest) = left.split_at(rng.between(1, profile.most_count.clamp(1, left.len())));
        left = rest;
        blocks.push([any_kind(rng), list.len() as u32, names.len() as u32]);
        list.extend(names);
    }
    while !packed && rng.one_in(3) {
        list.push(any_entry(rng));
    }
    if !packed {
        generate::shuffle(rng, &mut blocks);
    }
    // An empty block may begin anywhere up to the end of the list.
    while rng.one_in(2) {
        let empty = [any_kind(rng), rng.below(list.len() + 1) as u32, 0];
        blocks.insert(rng.below(blocks.len() + 1), empty);
    }
    (blocks.concat(), list)
}

/// Values at the edges of the ranges that fields have.
const EDGES: [u32; 21] = [
    0,
    1,
    2,
    3,
    4,
    5,
    6,
    7,
    15,
    16,
    4096,
    40_959,
    40_960,
    65_536,
    HIGHEST_NAME,
    HIGHEST_NAME + 1,
    0x3FFF_FFFF,
    0x4000_0000,
    0x8000_0000,
    u32::MAX - 1,
    u32::MAX,
];

/// A value for any field.
fn any_value(rng: &mut Rng, nodes: usize) -> u32 {
    match rng.below(4) {
        0 | 1 => rng.pick(&EDGES),
        2 => rng.bits() as u32,
        _ => rng.below(nodes + 2) as u32,
    }
}

/// Changes a form in one place or so. It may still be one that is written.
pub fn damage_once(rng: &mut Rng, form: &mut PrenexForm) {
    if rng.one_in(2) {
        damage_matrix(rng, &mut form.nodes);
    } else {
        damage_prefix(rng, &mut form.prefix, &mut form.variables);
    }
}

fn damage_matrix(rng: &mut Rng, words: &mut Vec<u32>) {
    let nodes = words.len() / WIDTH;
    if nodes == 0 {
        return words.push(1);
    }
    let i = rng.below(nodes);
    let node = &mut words[WIDTH * i..][..WIDTH];
    match rng.below(9) {
        // A word changed to anything.
        0 | 1 => node[rng.below(WIDTH)] = any_value(rng, nodes),
        // A wrong kind, or a block.
        2 => node[0] = rng.pick(&[0, 5, 6, 7, 8, node[0] | 1 << 31, node[0] | 256, u32::MAX]),
        // An operand at or above its node.
        3 | 4 => {
            let field = match node[0] {
                3 => 1,
                _ => rng.pick(&[2, 3]),
            };
            let i = i as u32;
            node[field] = rng.pick(&[i, i + 1, nodes as u32, 0x4000_0000, u32::MAX]);
        }
        // An operand replaced by another lower node: one is named twice, one
        // never.
        5 if i > 0 => {
            let field = match node[0] {
                3 => 1,
                _ => rng.pick(&[2, 3]),
            };
            node[field] = rng.below(i) as u32;
        }
        // A node that nothing names.
        6 => words.extend([1, 1, 0, 0]),
        // A ragged length.
        7 => words.truncate(words.len() - rng.between(1, 5).min(words.len())),
        _ => words.extend(&[2, 1, 0][..rng.between(1, 3)]),
    }
}

fn damage_prefix(rng: &mut Rng, prefix: &mut Vec<u32>, list: &mut Vec<u32>) {
    let blocks = prefix.len() / 3;
    let end = list.len() as u32;
    if blocks == 0 {
        return prefix.extend([rng.pick(&[5, 6, 7]), rng.pick(&[end, end + 1, u32::MAX]), 0]);
    }
    let i = rng.below(blocks);
    let block = &mut prefix[3 * i..][..3];
    match rng.below(10) {
        0 => block[rng.below(3)] = any_value(rng, list.len()),
        1 => block[0] = rng.pick(&[0, 1, 4, 7, 8, block[0] + 256, block[0] | 1 << 31]),
        // A range past the end of the list.
        2 | 3 => {
            let (first, count) = (block[1], block[2]);
            let wrong = [
                (end.wrapping_sub(count).wrapping_add(1), count),
                (first, end.wrapping_sub(first).wrapping_add(1)),
                (end + 1, 0),
                (u32::MAX, count),
                (u32::MAX, u32::MAX),
                (1, u32::MAX),
                (0x8000_0000, 0x8000_0000),
            ];
            (block[1], block[2]) = rng.pick(&wrong);
        }
        // A name outside its range.
        4 if end > 0 => {
            let at = rng.below(list.len());
            list[at] = rng.pick(&[0, HIGHEST_NAME + 1, 0x8000_0001, u32::MAX]);
        }
        // A name repeated, in its own block or another.
        5 | 6 if end > 1 => {
            let from = rng.below(list.len());
            let to = match rng.below(2) {
                0 => rng.below(list.len()),
                _ => (from + 1) % list.len(),
            };
            list[to] = list[from];
        }
        // A block twice.
        7 => {
            let block = [block[0], block[1], block[2]];
            prefix.extend(block);
        }
        8 => prefix.truncate(prefix.len() - rng.between(1, 2)),
        _ => list.truncate(list.len().saturating_sub(rng.between(1, 2))),
    }
}

/// The form of one family of the benchmark. The size is at most 40,960, the
/// nodes of the largest matrix.
pub type Family = fn(usize) -> PrenexForm;

/// The families of the benchmark.
pub const FAMILIES: [(&str, Family); 14] = [
    ("lifted comparator chain", |size| {
        lifted(comparator_chain, size)
    }),
    ("lifted nest", |size| lifted(deep_nest, size)),
    ("matrix, all and", |size| chain(8, size)),
    ("matrix, all xor", |size| chain(6, size)),
    ("matrix, all operators", all_operators),
    ("matrix, operator 0", |size| ignoring(0, size)),
    ("matrix, operator 3", |size| ignoring(3, size)),
    ("matrix, operator 5", |size| ignoring(5, size)),
    ("matrix, operator 10", |size| ignoring(10, size)),
    ("matrix, operator 12", |size| ignoring(12, size)),
    ("matrix, operator 15", |size| ignoring(15, size)),
    ("matrix, all ignored", |size| chain(12, size)),
    ("prefix, one block", |size| long_prefix(1, size)),
    ("prefix, many blocks", |size| {
        long_prefix(prefix_names(size), size)
    }),
];

/// The form of a table of a tenth of the size.
fn lifted(family: generate::Family, size: usize) -> PrenexForm {
    let table = family(size / 10);
    prenex_form(&table.words, &table.list).expect("accepted")
}

/// A matrix under construction.
#[derive(Default)]
struct Matrix(Vec<u32>);

impl Matrix {
    fn push(&mut self, node: [u32; WIDTH]) -> u32 {
        self.0.extend(node);
        (self.0.len() / WIDTH - 1) as u32
    }

    /// Puts nots on the root until there are `size` nodes; no prefix.
    fn filled(mut self, size: usize) -> PrenexForm {
        while self.0.len() < WIDTH * size {
            let root = (self.0.len() / WIDTH - 1) as u32;
            self.push([3, root, 0, 0]);
        }
        PrenexForm {
            nodes: self.0,
            ..PrenexForm::default()
        }
    }
}

/// One operator over open names from left to right.
fn chain(truth_table: u32, size: usize) -> PrenexForm {
    let mut matrix = Matrix::default();
    let mut root = matrix.push([2, 1, 0, 0]);
    for name in 2..=(size as u32).div_ceil(2) {
        let leaf = matrix.push([2, name, 0, 0]);
        root = matrix.push([4, truth_table, root, leaf]);
    }
    matrix.filled(size)
}

/// A conjunction of this operator over two open names each.
fn ignoring(truth_table: u32, size: usize) -> PrenexForm {
    let mut matrix = Matrix::default();
    let mut root = matrix.push([1, 1, 0, 0]);
    for k in 1..=(size as u32 - 1) / 4 {
        let left = matrix.push([2, 2 * k, 0, 0]);
        let right = matrix.push([2, 2 * k + 1, 0, 0]);
        let pair = matrix.push([4, truth_table, left, right]);
        root = matrix.push([4, 8, root, pair]);
    }
    matrix.filled(size)
}

/// Operators that ignore no operand in turn, over names and negated names, half
/// of them in the prefix.
fn all_operators(size: usize) -> PrenexForm {
    let mut matrix = Matrix::default();
    let mut root = matrix.push([2, 1, 0, 0]);
    let steps = (size as u32 - 1) / 3;
    for k in 0..steps {
        let leaf = matrix.push([2, 2 + k, 0, 0]);
        let leaf = matrix.push([3, leaf, 0, 0]);
        root = matrix.push([4, WHOLE[k as usize % WHOLE.len()], leaf, root]);
    }
    let bound: Vec<u32> = (1..=steps / 2).map(|k| 2 * k).collect();
    PrenexForm {
        prefix: vec![6, 0, bound.len() as u32],
        variables: bound,
        ..matrix.filled(size)
    }
}

fn prefix_names(size: usize) -> usize {
    HIGHEST_NAME as usize * size / MOST_NODES
}

/// One variable under so many blocks of the highest names.
fn long_prefix(blocks: usize, size: usize) -> PrenexForm {
    let names = prefix_names(size);
    let count = names / blocks;
    PrenexForm {
        nodes: vec![2, HIGHEST_NAME, 0, 0],
        prefix: (0..blocks)
            .flat_map(|k| [5 + k as u32 % 2, (k * count) as u32, count as u32])
            .collect(),
        variables: (0..names as u32).map(|k| HIGHEST_NAME - k).collect(),
    }
}

#[cfg(test)]
mod tests {
    use super::*;
    use crate::form_check::Limits;
    use crate::write_qcir::{append, text_without_limits};
    use std::collections::BTreeSet;

    #[test]
    fn random_forms_have_every_feature() {
        let mut counts = [0; 8];
        let mut operators = BTreeSet::new();
        let mut rng = Rng::new(3);
        for _ in 0..1500 {
            let nodes = rng.between(1, 60);
            let profile = Profile::random(&mut rng, nodes);
            let form = good_form(&mut rng, &profile);
            let text = text_without_limits(&form).expect("written");
            let matrix: Vec<&[u32]> = form.nodes.chunks_exact(WIDTH).collect();
            assert_eq!(matrix.len(), nodes);
            let blocks: Vec<&[u32]> = form.prefix.chunks_exact(3).collect();
            let counted: u32 = blocks.iter().map(|block| block[2]).sum();
            let text = String::from_utf8_lossy(&text);
            let line = |word: &str| text.lines().find(|line| line.starts_with(word));
            let operator = matrix.iter().filter(|node| node[0] == 4);
            operators.extend(operator.map(|node| node[1]));
            let features = [
                matrix.iter().any(|node| node[0] == 1),
                matrix.iter().any(|node| node[0] == 3),
                blocks.iter().any(|block| block[2] == 0),
                blocks.iter().any(|block| block[2] > 2),
                // An entry that no block covers.
                (counted as usize) < form.variables.len(),
                // Ranges in another order than the blocks.
                !blocks.is_sorted_by_key(|block| block[1]),
                // Names both open and bound.
                line("free").is_some() && counted > 0,
                profile.names.contains(&HIGHEST_NAME),
            ];
            for (count, feature) in counts.iter_mut().zip(features) {
                *count += u32::from(feature);
            }
        }
        assert!(counts.iter().all(|&count| count > 100), "{counts:?}");
        assert_eq!(operators.len(), 16);
    }

    #[test]
    fn families_are_written() {
        for (name, family) in FAMILIES {
            for size in [1024, 10_240, MOST_NODES] {
                let form = family(size);
                assert!(form.nodes.len() <= WIDTH * size, "{name}");
                let answer = append(&form, Limits::LIBRARY, &mut Vec::new());
                assert_eq!(answer, Ok(()), "{name}");
            }
        }
    }
}
