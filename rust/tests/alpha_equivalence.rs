//! Alpha-equivalence: two tables that differ in their bound numbers and in where
//! ranges begin alone, and whose highest numbers are equal, have the same prenex
//! form word for word, and no other two tables have. The cases of
//! vectors/spellings-four.txt, all pairs of small tables, and many generated ones.

mod common;

use common::forms::FORMATS;
use common::vectors::{each_vector, Vector};
use common::{assert_free_variables, assert_lift, assert_same, each, library_measure};
use common::{reference_form, reference_free_variables, some_nodes, Case, Prefill};
use common::{LIBRARY_FREE_VARIABLES, LIBRARY_LIFT, LIBRARY_REMOVE, NOTHING, TOO_SHORT};
use std::collections::{BTreeSet, HashMap};
use wakubinryo::alpha::{broken, Condition, Tree};
use wakubinryo::answer::size_words;
use wakubinryo::brute;
use wakubinryo::generate::{accepted, damaged, mutated, shared, with_empty_blocks};
use wakubinryo::generate::{Profile, Rng, Table, FAMILIES};
use wakubinryo::generate_alpha::{alpha_equivalent, changed, with_other_unused, Change};
use wakubinryo::{measure, prenex_form, PrenexForm, Reason};

const VECTORS: &str = include_str!("../vectors/spellings-four.txt");

/// The number of variables that brute force is asked to go through.
const MOST: usize = 12;

fn form(table: &Table) -> PrenexForm {
    prenex_form(&table.words, &table.list).expect("accepted")
}

fn form_given(vector: &Vector, [nodes, prefix, variables]: [&str; 3]) -> PrenexForm {
    PrenexForm {
        nodes: vector.get(nodes).to_vec(),
        prefix: vector.get(prefix).to_vec(),
        variables: vector.get(variables).to_vec(),
    }
}

#[test]
fn reference_and_library_give_every_vector() {
    let mut same = 0;
    each_vector(VECTORS, 160, |vector, one| {
        let other = &Table {
            words: vector.get("words2").to_vec(),
            list: vector.get("list2").to_vec(),
        };
        let is_same = vector.get("same") == [1];
        let of_one = form_given(vector, ["nodes", "prefix", "variables"]);
        let of_other = match vector.find("nodes2") {
            Some(_) => form_given(vector, ["nodes2", "prefix2", "variables2"]),
            None => of_one.clone(),
        };
        for (table, given) in [(one, &of_one), (other, &of_other)] {
            assert!(assert_same(table, &Prefill::ALL, 5).is_ok());
            assert_eq!(reference_form(table).1, *given);
            assert_eq!(form(table), *given);
        }
        assert_eq!(of_one == of_other, is_same);
        let premise = broken(one, other).is_empty();
        assert_eq!(vector.get("premise"), [u32::from(premise)]);
        same += u32::from(is_same);
    });
    assert_eq!(same, 100);
}

/// All trees of some shapes over a list in which ranges agree, are part of one
/// another and overlap.
fn small_tables() -> Vec<Table> {
    let mut unary = vec![[3, 0, 0]];
    for (first, count) in [(0, 1), (1, 1), (2, 1), (0, 2), (1, 2)] {
        unary.extend([[5, first, count], [6, first, count]]);
    }
    let on = |body: u32, [kind, first, count]: [u32; 3]| match kind {
        3 => [3, body, 0, 0],
        _ => [kind, first, count, body],
    };
    let leaves = [[1, 0, 0, 0], [2, 1, 0, 0], [2, 2, 0, 0], [2, 3, 0, 0]];
    let mut trees = Vec::new();
    for leaf in leaves {
        trees.push(vec![leaf]);
        for &lower in &unary {
            trees.push(vec![leaf, on(0, lower)]);
            for &upper in &unary {
                trees.push(vec![leaf, on(0, lower), on(1, upper)]);
            }
            for other in leaves {
                trees.push(vec![leaf, on(0, lower), other, [4, 8, 1, 2]]);
            }
        }
        for other in leaves {
            for operator in [[4, 8, 0, 1], [4, 8, 1, 0], [4, 6, 0, 1]] {
                trees.push(vec![leaf, other, operator]);
                for &lower in &unary {
                    trees.push(vec![leaf, other, operator, on(2, lower)]);
                }
            }
            for &lower in &unary {
                for &upper in &unary {
                    trees.push(vec![leaf, other, [4, 6, 0, 1], on(2, lower), on(3, upper)]);
                }
            }
        }
    }
    trees
        .iter()
        .map(|nodes| Table::new(nodes, &[1, 2, 1]))
        .collect()
}

#[test]
fn all_pairs_of_small_tables() {
    let tables = small_tables();
    let forms: Vec<PrenexForm> = tables.iter().map(form).collect();
    let mut same = 0;
    for (one, of_one) in tables.iter().zip(&forms) {
        for (other, of_other) in tables.iter().zip(&forms) {
            let agree = broken(one, other).is_empty();
            assert_eq!(agree, of_one == of_other, "{one:?}, {other:?}");
            same += u32::from(agree && one != other);
        }
    }
    assert!(same > 5_000, "only {same} pairs with the same form");
}

/// What the table of this number is made of: few nodes, but for some.
fn some_profile(rng: &mut Rng, number: u64) -> Profile {
    match number % 4 {
        0 => Profile::tiny(rng),
        1 => {
            let nodes = rng.between(1, 40);
            Profile::few_numbers(rng, nodes)
        }
        _ => {
            let nodes = some_nodes(rng, number / 4);
            Profile::random(rng, nodes)
        }
    }
}

/// Holds the library to the same answers and the same words for two tables, the
/// reference's for the first, in buffers of the same lengths that hold different
/// words before.
fn assert_same_words(rng: &mut Rng, one: &Table, other: &Table) {
    let (sizes, form) = reference_form(one);
    let (free, names) = reference_free_variables(one);
    let exact = [form.nodes.len(), form.prefix.len(), form.variables.len()];
    let mut some = |len: usize| match rng.below(6) {
        0 => len.saturating_sub(1),
        1 => rng.between(0, len),
        2 => len + rng.between(1, 60),
        _ => len,
    };
    let some_lengths = exact.map(&mut some);
    let some_names = some(names.len());
    let prefill = rng.below(4);
    let prefills = [0, rng.between(1, 3)].map(|more| Prefill::ALL[(prefill + more) % 4]);
    for (table, prefill) in [one, other].into_iter().zip(prefills) {
        assert_eq!(library_measure(table), size_words(sizes), "measure");
        for lengths in [exact, some_lengths] {
            let short = lengths.iter().zip(exact).any(|(&len, exact)| len < exact);
            let (answer, written) = if short {
                (Err(TOO_SHORT), &NOTHING)
            } else {
                (sizes, &form)
            };
            assert_lift(LIBRARY_LIFT, table, lengths, prefill, answer, written);
        }
        let (answer, written) = if some_names < names.len() {
            (Err(TOO_SHORT), &[][..])
        } else {
            (free, &names[..])
        };
        let list = LIBRARY_FREE_VARIABLES;
        assert_free_variables(list, table, some_names, prefill, answer, written);
    }
}

/// Compares the texts of two tables' forms in both formats.
fn assert_same_texts(one: &Table, other: &Table) {
    let [of_one, of_other] = [one, other].map(form);
    for format in FORMATS {
        let [of_one, of_other] = [&of_one, &of_other].map(format.text);
        assert!(of_one.is_ok() && of_one == of_other, "{}", format.name);
    }
}

/// Compares the truth values of two tables. Says whether they were, which they
/// are if there are few variables.
fn assert_same_truth(one: &Table, other: &Table) -> bool {
    let mut variables = brute::variables_at_nodes(&one.words);
    variables.extend(brute::variables_at_nodes(&other.words));
    let variables: Vec<u32> = variables.into_iter().collect();
    if variables.len() > MOST {
        return false;
    }
    let truth = |table: &Table| brute::table_function(&table.words, &table.list, &variables);
    assert_eq!(truth(one), truth(other), "{one:?}, {other:?}");
    true
}

/// Where the range of a block begins and where it ends. None if it is no block.
fn range(table: &Table, i: usize) -> Option<[usize; 2]> {
    match table.node(i) {
        [5 | 6, first, count, _] => Some([first as usize, (first + count) as usize]),
        _ => None,
    }
}

/// Whether a block binds a number that a block above it binds too.
fn binds_again(table: &Table) -> bool {
    let tree = Tree::new(table);
    let numbers = |i: usize| match range(table, i) {
        Some([first, end]) => &table.list[first..end],
        None => &[],
    };
    (0..table.len()).any(|i| {
        let own = numbers(i);
        let mut above = tree.blocks_above(i).flat_map(numbers);
        !own.is_empty() && above.any(|number| own.contains(number))
    })
}

/// What generated pairs show, each of it many of them.
const SHOWN: [&str; 11] = [
    "other numbers or places",
    "another list",
    "one range of two blocks",
    "a range that is part of another",
    "ranges that overlap in part",
    "entries that no block covers",
    "a number bound again below",
    "a number free in one place and bound in another",
    "one that was not so before",
    "a number that was not there before",
    "truth values compared",
];

/// Asserts that two tables are alpha-equivalent with the same highest number and
/// holds the library to the same words. Says what the pair shows.
fn assert_pair(rng: &mut Rng, one: &Table, other: &Table) -> [bool; SHOWN.len()] {
    assert_eq!(broken(one, other), BTreeSet::new(), "{one:?}, {other:?}");
    assert_same_words(rng, one, other);
    let compared = assert_same_truth(one, other);
    let mut ranges: Vec<[usize; 2]> = (0..other.len()).filter_map(|i| range(other, i)).collect();
    ranges.sort();
    let mut next = ranges.windows(2).map(|two| (two[0], two[1]));
    let covered = ranges.iter().try_fold(0, |covered, &[first, end]| {
        (first <= covered).then_some(end.max(covered))
    });
    let [old, new] =
        [one, other].map(|table| brute::variables_in_ranges(&table.words, &table.list));
    let free = brute::free_occurrences(&other.words, &other.list);
    [
        one.words != other.words,
        one.list != other.list,
        next.clone().any(|(lower, upper)| lower == upper),
        next.clone()
            .any(|([a, b], [c, d])| a == c && b < d || a < c && d <= b),
        next.any(|([a, b], [c, d])| a < c && c < b && b < d),
        covered != Some(other.list.len()),
        other.len() < 100 && binds_again(other),
        !free.is_disjoint(&new),
        !(&free - &old).is_disjoint(&new),
        !new.is_subset(&(&free | &old)),
        compared,
    ]
}

#[test]
fn generated_pairs() {
    let mut counts = [0; SHOWN.len()];
    let mut large = 0;
    each("alpha-equivalent tables", 100_000, |rng, number| {
        let profile = some_profile(rng, number);
        let table = accepted(rng, &profile);
        let other = alpha_equivalent(rng, &table);
        let shown = assert_pair(rng, &table, &other);
        if rng.one_in(10) {
            assert_same_texts(&table, &other);
        }
        for (count, shown) in counts.iter_mut().zip(shown) {
            *count += u32::from(shown);
        }
        large += u32::from(table.len() > 300 && shown[0]);
    });
    for (what, count) in SHOWN.iter().zip(counts) {
        assert!(count > 4_000, "{what}: only {count}");
    }
    assert!(large > 100, "only {large} large tables");
}

#[test]
fn families() {
    for (name, family) in FAMILIES {
        let _case = Case(name, 0);
        let mut rng = Rng::new(1);
        for nodes in [100, 1000, 4096] {
            let table = family(nodes);
            let other = alpha_equivalent(&mut rng, &table);
            assert_pair(&mut rng, &table, &other);
            assert_same_texts(&table, &other);
        }
    }
}

/// One condition broken at a time: the forms differ.
#[test]
fn every_condition_is_needed() {
    for change in Change::ALL {
        let mut pairs = 0;
        let attempts = match change.breaks() {
            Condition::Nodes => 10_000,
            _ => 20_000,
        };
        each(&format!("{change:?}"), attempts, |rng, number| {
            let profile = some_profile(rng, number);
            let table = accepted(rng, &profile);
            if let Some(other) = changed(rng, &table, change) {
                let expected = BTreeSet::from([change.breaks()]);
                assert_eq!(broken(&table, &other), expected, "{table:?}, {other:?}");
                assert_eq!(broken(&other, &table), expected, "{other:?}, {table:?}");
                assert!(form(&table) != form(&other), "{table:?}, {other:?}");
                pairs += 1;
            }
        });
        assert!(pairs > 3_000, "{change:?} only {pairs} times");
    }
}

/// Several changes, which may undo one another: the forms are the same exactly if
/// no condition is broken.
#[test]
fn several_changes() {
    let [mut same, mut more] = [0; 2];
    each("tables changed more than once", 20_000, |rng, number| {
        let profile = some_profile(rng, number);
        let table = accepted(rng, &profile);
        let mut changes = Change::ALL.to_vec();
        if rng.one_in(2) {
            changes.retain(|change| change.breaks() != Condition::Nodes);
        }
        let few = [rng.pick(&changes), rng.pick(&changes)];
        let mut other = table.clone();
        for _ in 0..rng.between(2, 5) {
            let change = rng.pick(&few);
            other = changed(rng, &other, change).unwrap_or(other);
        }
        let broken = broken(&table, &other);
        assert_eq!(broken.is_empty(), form(&table) == form(&other));
        same += u32::from(broken.is_empty() && other != table);
        more += u32::from(broken.len() > 1);
    });
    assert!(same > 400, "only {same} with the same form");
    assert!(more > 800, "only {more} with several conditions broken");
}

/// What the library's four operations answer about a table, and their buffers of
/// these lengths, which hold this word before.
fn answers(table: &Table, lengths: [usize; 5], word: u32) -> ([Vec<u32>; 4], [Vec<u32>; 5]) {
    let mut buffers = lengths.map(|len| vec![word; len]);
    let [nodes, prefix, variables, names, left] = &mut buffers;
    let answers = [
        library_measure(table).to_vec(),
        LIBRARY_LIFT(table, nodes, prefix, variables).to_vec(),
        LIBRARY_FREE_VARIABLES(table, names).to_vec(),
        LIBRARY_REMOVE(table, left).to_vec(),
    ];
    (answers, buffers)
}

/// Entries that no block covers are never looked at, be the table accepted or not.
#[test]
fn entries_that_no_block_covers() {
    let mut counts: HashMap<Option<Reason>, u32> = HashMap::new();
    let [mut lifted, mut removed] = [0; 2];
    each("entries that no block covers", 60_000, |rng, number| {
        let nodes = some_nodes(rng, number / 4).min(1000);
        let profile = Profile::random(rng, nodes);
        let table = match number % 4 {
            0 => Some(accepted(rng, &profile)),
            1 => {
                let reason = Reason::OF_TABLES[number as usize / 4 % 9];
                damaged(rng, &profile, reason).map(|(table, _)| table)
            }
            _ => {
                let tree = accepted(rng, &profile);
                let (table, _) = with_empty_blocks(rng, &tree);
                Some(match number % 3 {
                    0 => shared(rng, table),
                    1 => mutated(rng, table),
                    _ => table,
                })
            }
        };
        let Some(table) = table else {
            return;
        };
        let (other, entries) = with_other_unused(rng, &table);
        if entries == 0 {
            return;
        }
        let measured = measure(&table.words, &table.list);
        let PrenexForm {
            nodes,
            prefix,
            variables,
        } = PrenexForm::with_sizes(&measured.unwrap_or_default());
        let most = [&nodes, &prefix, &variables, &table.words, &table.words].map(Vec::len);
        let lengths = most.map(|len| match rng.below(10) {
            0 => rng.between(0, len),
            _ => len + rng.between(0, 9),
        });
        let word = rng.bits() as u32;
        let given = answers(&table, lengths, word);
        assert!(
            given == answers(&other, lengths, word),
            "{table:?}, {other:?}"
        );

        let reason = measured.err().map(|refusal| refusal.reason);
        *counts.entry(reason).or_default() += 1;
        let [_, lift, _, removal] = given.0;
        lifted += u32::from(lift[0] == 0);
        removed += u32::from(removal[0] == 0);
    });
    for reason in Reason::OF_TABLES.map(Some).into_iter().chain([None]) {
        let count = counts.get(&reason).copied().unwrap_or(0);
        assert!(count > 500, "{reason:?} only {count} times");
    }
    assert!(lifted > 5_000, "only {lifted} lifted");
    assert!(removed > 10_000, "empty blocks of only {removed} removed");
}
