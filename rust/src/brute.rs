//! Truth values of accepted tables and of prenex forms by brute force.
//!
//! [`table_value`] and [`form_value`] follow the definition of truth for one
//! valuation. [`table_function`] and [`form_function`] compute the value under
//! all valuations of a few variables at once, as a set of bits.

use crate::{Node, WIDTH};
use std::collections::BTreeSet;
use std::iter::successors;

/// The variables that are true; all others are false.
pub type Valuation = BTreeSet<u32>;

fn node(words: &[u32], i: u32) -> Node {
    let at = WIDTH * i as usize;
    words[at..at + WIDTH]
        .try_into()
        .expect("the words of a node")
}

fn root(words: &[u32]) -> u32 {
    (words.len() / WIDTH - 1) as u32
}

fn range(list: &[u32], first: u32, count: u32) -> &[u32] {
    &list[first as usize..][..count as usize]
}

fn is_exists(kind: u32) -> bool {
    match kind {
        5 => true,
        6 => false,
        _ => panic!("kind {kind} is no quantifier"),
    }
}

fn set(valuation: &mut Valuation, variable: u32, value: bool) {
    if value {
        valuation.insert(variable);
    } else {
        valuation.remove(&variable);
    }
}

/// Whether `body` is true under some (exists) or every (for-all) valuation
/// that differs from this one at most at `variables`.
pub(crate) fn quantify(
    exists: bool,
    variables: &[u32],
    valuation: &mut Valuation,
    body: &mut dyn FnMut(&mut Valuation) -> bool,
) -> bool {
    let Some((&first, rest)) = variables.split_first() else {
        return body(valuation);
    };
    let before = valuation.contains(&first);
    let mut decided = !exists;
    for value in [false, true] {
        set(valuation, first, value);
        if quantify(exists, rest, valuation, body) == exists {
            decided = exists;
            break;
        }
    }
    set(valuation, first, before);
    decided
}

/// The truth value of a table under a valuation.
pub fn table_value(words: &[u32], list: &[u32], valuation: &mut Valuation) -> bool {
    node_value(words, list, root(words), valuation)
}

fn node_value(words: &[u32], list: &[u32], i: u32, valuation: &mut Valuation) -> bool {
    let [kind, a, b, c] = node(words, i);
    match kind {
        1 => a == 1,
        2 => valuation.contains(&a),
        3 => !node_value(words, list, a, valuation),
        4 => {
            let left = node_value(words, list, b, valuation) as u32;
            let right = node_value(words, list, c, valuation) as u32;
            a >> (2 * left + right) & 1 == 1
        }
        _ => quantify(is_exists(kind), range(list, a, b), valuation, &mut |v| {
            node_value(words, list, c, v)
        }),
    }
}

/// The truth value of a prenex form under a valuation.
pub fn form_value(
    nodes: &[u32],
    prefix: &[u32],
    variables: &[u32],
    valuation: &mut Valuation,
) -> bool {
    match *prefix {
        [] => node_value(nodes, &[], root(nodes), valuation),
        [kind, first, count, ..] => quantify(
            is_exists(kind),
            range(variables, first, count),
            valuation,
            &mut |v| form_value(nodes, &prefix[3..], variables, v),
        ),
        _ => panic!("a prefix block has three words"),
    }
}

/// The free variables: numbers with a free occurrence, which is a variable node
/// that no block above it covers.
pub fn free_occurrences(words: &[u32], list: &[u32]) -> BTreeSet<u32> {
    // The nearest block above each node: nodes are named by higher ones.
    let mut above = vec![None; words.len() / WIDTH];
    for i in (0..=root(words)).rev() {
        let outer = above[i as usize];
        match node(words, i) {
            [3, a, _, _] => above[a as usize] = outer,
            [4, _, b, c] => {
                above[b as usize] = outer;
                above[c as usize] = outer;
            }
            [5 | 6, _, _, c] => above[c as usize] = Some(i),
            _ => {}
        }
    }
    let is_free = |i: u32, number: u32| {
        let mut blocks = successors(above[i as usize], |&block| above[block as usize]);
        blocks.all(|block| {
            let [_, first, count, _] = node(words, block);
            !range(list, first, count).contains(&number)
        })
    };
    (0..=root(words))
        .map(|i| (i, node(words, i)))
        .filter(|&(i, [kind, number, ..])| kind == 2 && is_free(i, number))
        .map(|(_, [_, number, ..])| number)
        .collect()
}

/// The numbers in the ranges of a table's blocks.
pub fn variables_in_ranges(words: &[u32], list: &[u32]) -> BTreeSet<u32> {
    words
        .chunks_exact(WIDTH)
        .filter(|node| node[0] == 5 || node[0] == 6)
        .flat_map(|node| range(list, node[1], node[2]))
        .copied()
        .collect()
}

/// The numbers at the variable nodes of a table or form.
pub fn variables_at_nodes(words: &[u32]) -> BTreeSet<u32> {
    words
        .chunks_exact(WIDTH)
        .filter(|node| node[0] == 2)
        .map(|node| node[1])
        .collect()
}

/// A Boolean function of some variables. Bit `m` of `bits` is its value where
/// the k-th variable is true exactly if bit k of `m` is set.
#[derive(Clone, Debug, PartialEq, Eq)]
pub struct Function {
    variables: Vec<u32>,
    bits: Vec<u64>,
}

impl Function {
    fn constant(variables: &[u32], value: bool) -> Function {
        assert!(variables.len() < 26, "too many variables for brute force");
        let words = 1 << variables.len().saturating_sub(6);
        Function {
            variables: variables.to_vec(),
            bits: vec![if value { !0 } else { 0 }; words],
        }
    }

    fn index(&self, variable: u32) -> Option<usize> {
        self.variables.iter().position(|&v| v == variable)
    }

    /// Replaces the values under each two valuations that differ at the k-th
    /// variable alone by their combination.
    fn combine(&mut self, k: usize, combination: impl Fn(u64, u64) -> u64) {
        const HIGH: [u64; 6] = [
            0xAAAA_AAAA_AAAA_AAAA,
            0xCCCC_CCCC_CCCC_CCCC,
            0xF0F0_F0F0_F0F0_F0F0,
            0xFF00_FF00_FF00_FF00,
            0xFFFF_0000_FFFF_0000,
            0xFFFF_FFFF_0000_0000,
        ];
        if k < 6 {
            let (shift, high) = (1 << k, HIGH[k]);
            for word in &mut self.bits {
                let new = combination(*word & !high, (*word & high) >> shift) & !high;
                *word = new | new << shift;
            }
        } else {
            let stride = 1 << (k - 6);
            for pair in self.bits.chunks_exact_mut(2 * stride) {
                let (low, high) = pair.split_at_mut(stride);
                for (low, high) in low.iter_mut().zip(high) {
                    *low = combination(*low, *high);
                    *high = *low;
                }
            }
        }
    }

    /// Quantifies variables; those it has not are ignored.
    fn quantify(&mut self, exists: bool, variables: &[u32]) {
        for &variable in variables {
            if let Some(k) = self.index(variable) {
                if exists {
                    self.combine(k, |low, high| low | high);
                } else {
                    self.combine(k, |low, high| low & high);
                }
            }
        }
    }

    /// Whether the function's value depends on a variable.
    pub fn depends_on(&self, variable: u32) -> bool {
        let mut some = self.clone();
        some.quantify(true, &[variable]);
        let mut every = self.clone();
        every.quantify(false, &[variable]);
        some != every
    }

    /// The value where exactly the variables of `valuation` are true.
    pub fn value(&self, valuation: &Valuation) -> bool {
        let mut m = 0;
        for (k, variable) in self.variables.iter().enumerate() {
            m |= usize::from(valuation.contains(variable)) << k;
        }
        self.bits[m / 64] >> (m % 64) & 1 == 1
    }
}

/// The function of the k-th of some variables alone.
fn projection(variables: &[u32], k: usize) -> Function {
    let mut function = Function::constant(variables, false);
    if k < 6 {
        let mut word = 0u64;
        for m in 0..64 {
            word |= (m >> k & 1) << m;
        }
        function.bits.fill(word);
    } else {
        let stride = 1 << (k - 6);
        for pair in function.bits.chunks_exact_mut(2 * stride) {
            pair[stride..].fill(!0);
        }
    }
    function
}

/// The truth value of a table as a function of variables, among them all that
/// stand at its variable nodes.
pub fn table_function(words: &[u32], list: &[u32], variables: &[u32]) -> Function {
    let mut values: Vec<Option<Function>> = Vec::new();
    for words in words.chunks_exact(WIDTH) {
        let &[kind, a, b, c] = words else {
            unreachable!()
        };
        let mut take = |i: u32| values[i as usize].take().expect("named once");
        let value = match kind {
            1 => Function::constant(variables, a == 1),
            2 => match variables.iter().position(|&v| v == a) {
                Some(k) => projection(variables, k),
                None => panic!("variable {a} is not among those given"),
            },
            3 => {
                let mut f = take(a);
                f.bits.iter_mut().for_each(|word| *word = !*word);
                f
            }
            4 => {
                let (mut left, right) = (take(b), take(c));
                for (l, r) in left.bits.iter_mut().zip(&right.bits) {
                    let row = |k: u32, word: u64| if a >> k & 1 == 1 { word } else { 0 };
                    *l = row(0, !*l & !r) | row(1, !*l & r) | row(2, *l & !r) | row(3, *l & r);
                }
                left
            }
            _ => {
                let mut f = take(c);
                f.quantify(is_exists(kind), range(list, a, b));
                f
            }
        };
        values.push(Some(value));
    }
    values.pop().flatten().expect("a root")
}

/// The truth value of a prenex form as a function of variables, among them all
/// that stand at its variable nodes.
pub fn form_function(
    nodes: &[u32],
    prefix: &[u32],
    prefix_variables: &[u32],
    variables: &[u32],
) -> Function {
    let mut function = table_function(nodes, &[], variables);
    for block in prefix.chunks_exact(3).rev() {
        let &[kind, first, count] = block else {
            unreachable!()
        };
        function.quantify(is_exists(kind), range(prefix_variables, first, count));
    }
    function
}

/// All valuations of some variables, the first one's value changing slowest.
pub fn valuations(variables: &[u32]) -> impl Iterator<Item = Valuation> + '_ {
    let n = variables.len();
    (0..1u64 << n).map(move |m| {
        let value = |k: usize| m >> (n - 1 - k) & 1 == 1;
        (0..n).filter(|&k| value(k)).map(|k| variables[k]).collect()
    })
}

#[cfg(test)]
mod tests {
    use super::*;

    #[test]
    fn projections_follow_valuations() {
        let variables: Vec<u32> = (10..18).collect();
        for valuation in valuations(&variables) {
            for (k, variable) in variables.iter().enumerate() {
                let f = projection(&variables, k);
                assert_eq!(f.value(&valuation), valuation.contains(variable));
                assert!(variables
                    .iter()
                    .all(|v| f.depends_on(*v) == (v == variable)));
            }
        }
    }

    #[test]
    fn all_operators_follow_their_truth_tables() {
        for truth_table in 0..16 {
            let words = [2, 7, 0, 0, 2, 3, 0, 0, 4, truth_table, 0, 1];
            let f = table_function(&words, &[], &[3, 7]);
            for (m, mut valuation) in valuations(&[7, 3]).enumerate() {
                let bit = truth_table >> m & 1 == 1;
                assert_eq!(f.value(&valuation), bit);
                assert_eq!(table_value(&words, &[], &mut valuation), bit);
            }
        }
    }

    #[test]
    fn blocks_bind_over_their_body_alone() {
        // 1 xor (for-all 1. 1), under both values of 1.
        let words = [2, 1, 0, 0, 2, 1, 0, 0, 6, 0, 1, 1, 4, 6, 0, 2];
        assert_eq!(free_occurrences(&words, &[1]), BTreeSet::from([1]));
        for mut valuation in valuations(&[1]) {
            let expected = valuation.contains(&1);
            assert_eq!(table_value(&words, &[1], &mut valuation), expected);
            assert_eq!(
                table_function(&words, &[1], &[1]).value(&valuation),
                expected
            );
        }
    }

    #[test]
    fn order_of_prefix_blocks_counts() {
        // Matrix 1 iff 2.
        let nodes = [2, 1, 0, 0, 2, 2, 0, 0, 4, 9, 0, 1];
        for (prefix, value) in [([6, 0, 1, 5, 1, 1], true), ([5, 1, 1, 6, 0, 1], false)] {
            let mut valuation = Valuation::new();
            assert_eq!(form_value(&nodes, &prefix, &[1, 2], &mut valuation), value);
            assert_eq!(
                form_function(&nodes, &prefix, &[1, 2], &[1, 2]).value(&valuation),
                value
            );
        }
    }

    #[test]
    fn quantification_beyond_a_word() {
        // x1 and .. and x8: for-all of the last two is false, exists is not.
        let variables: Vec<u32> = (1..=8).collect();
        let mut words = vec![2, 1, 0, 0];
        for variable in 2..=8 {
            let at = (words.len() / WIDTH) as u32;
            words.extend([2, variable, 0, 0, 4, 8, at - 1, at]);
        }
        let body = (words.len() / WIDTH - 1) as u32;
        for (kind, value) in [(5, true), (6, false)] {
            let mut table = words.clone();
            table.extend([kind, 0, 2, body]);
            let f = table_function(&table, &[7, 8], &variables);
            assert_eq!(f.value(&(1..=6).collect()), value);
            assert!(!f.value(&(1..=5).collect()));
            assert!(!f.depends_on(7) && !f.depends_on(8));
            assert_eq!(f.depends_on(6), value);
        }
    }
}
