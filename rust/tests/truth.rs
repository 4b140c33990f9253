//! Truth, size and shape of the library's prenex forms.

mod common;

use common::{each, Case};
use std::collections::BTreeSet;
use wakubinryo::brute;
use wakubinryo::generate::{accepted, largest_form, Profile, Table, FAMILIES};
use wakubinryo::{free_variables, measure, prenex_form, PrenexForm, WIDTH};

/// The number of variables that brute force is asked to go through.
const MOST: usize = 16;

/// The free variables that the library lists, which are those of the
/// definition.
fn listed(table: &Table) -> BTreeSet<u32> {
    let mut names = vec![0; 4096];
    let written = free_variables(&table.words, &table.list, &mut names).expect("accepted");
    names.truncate(written as usize);
    let expected = brute::free_occurrences(&table.words, &table.list);
    assert!(names.iter().eq(&expected), "{names:?}: {table:?}");
    expected
}

/// Compares the values of table and form under all valuations of the free
/// variables, and gives the numbers on which they depend. None if there were
/// too many variables.
fn assert_same_truth(table: &Table) -> Option<BTreeSet<u32>> {
    let form = prenex_form(&table.words, &table.list).expect("accepted");
    let free = listed(table);
    let at_nodes = brute::variables_at_nodes(&table.words);
    let of_table: Vec<u32> = at_nodes.iter().copied().collect();
    let of_form: Vec<u32> = brute::variables_at_nodes(&form.nodes).into_iter().collect();
    if of_table.len() > MOST || of_form.len() > MOST {
        return None;
    }
    let table_truth = brute::table_function(&table.words, &table.list, &of_table);
    let form_truth = brute::form_function(&form.nodes, &form.prefix, &form.variables, &of_form);
    let over: Vec<u32> = free.iter().copied().collect();
    for valuation in brute::valuations(&over) {
        assert_eq!(
            table_truth.value(&valuation),
            form_truth.value(&valuation),
            "under {valuation:?}: {table:?}"
        );
    }
    // What is given to a number that is not listed changes neither value.
    let of_both = of_table.into_iter().chain(of_form);
    let relevant: BTreeSet<u32> = of_both
        .filter(|&variable| {
            let relevant = table_truth.depends_on(variable);
            assert_eq!(relevant, form_truth.depends_on(variable));
            relevant
        })
        .collect();
    assert!(relevant.is_subset(&free), "{relevant:?}: {table:?}");
    Some(relevant)
}

/// Size bounds and shape of the form that the library writes.
fn assert_well_formed(table: &Table) {
    let sizes = measure(&table.words, &table.list).expect("accepted");
    assert!(sizes.nodes <= sizes.n + 5 * sizes.b + 4 * sizes.q);
    assert!(sizes.entries <= 2 * sizes.q + sizes.b);
    assert!(sizes.blocks <= sizes.depth + 1);
    assert_eq!(sizes.blocks == 0, sizes.b == 0);

    let PrenexForm {
        nodes,
        prefix,
        variables,
    } = prenex_form(&table.words, &table.list).expect("accepted");
    assert_eq!(nodes.len(), WIDTH * sizes.nodes as usize);
    assert_eq!(prefix.len(), 3 * sizes.blocks as usize);
    assert_eq!(variables.len(), sizes.entries as usize);

    // No quantifiers in the matrix, and it is a tree.
    let mut uses = vec![0; sizes.nodes as usize];
    for (i, node) in nodes.chunks_exact(WIDTH).enumerate() {
        let operands = match node[0] {
            1 | 2 => &[],
            3 => &node[1..2],
            4 => &node[2..4],
            kind => panic!("kind {kind} in a matrix"),
        };
        for &operand in operands {
            assert!((operand as usize) < i);
            uses[operand as usize] += 1;
        }
    }
    let root = uses.pop();
    assert_eq!(root, Some(0));
    assert!(uses.iter().all(|&u| u == 1));

    // Kinds alternate, ranges follow one another, and none is empty.
    let mut end = 0;
    for (j, block) in prefix.chunks_exact(3).enumerate() {
        assert!(block[0] == 5 || block[0] == 6);
        assert!(j == 0 || block[0] != prefix[3 * j - 3]);
        assert_eq!(block[1], end);
        assert!(block[2] > 0);
        end += block[2];
    }
    assert_eq!(end, sizes.entries);

    // Prefix variables are distinct, and neither at a variable node nor in a
    // range of the table.
    let bound: BTreeSet<u32> = variables.iter().copied().collect();
    assert_eq!(bound.len(), variables.len());
    assert!(bound.is_disjoint(&brute::variables_at_nodes(&table.words)));
    assert!(bound.is_disjoint(&brute::variables_in_ranges(&table.words, &table.list)));

    // The form's other variables are the table's free variables.
    let free = &brute::variables_at_nodes(&nodes) - &bound;
    assert_eq!(free, brute::free_occurrences(&table.words, &table.list));
}

#[test]
fn truth_is_kept() {
    let mut compared = 0;
    let mut with_blocks = 0;
    let mut free_and_bound = 0;
    let mut relevant_and_bound = 0;
    each("tiny tables", 60_000, |rng, _| {
        let profile = Profile::tiny(rng);
        let table = accepted(rng, &profile);
        assert_well_formed(&table);
        let bound = brute::variables_in_ranges(&table.words, &table.list);
        free_and_bound += u32::from(!listed(&table).is_disjoint(&bound));
        if let Some(relevant) = assert_same_truth(&table) {
            compared += 1;
            let sizes = measure(&table.words, &table.list).expect("accepted");
            with_blocks += u32::from(sizes.b > 1);
            relevant_and_bound += u32::from(!relevant.is_disjoint(&bound));
        }
    });
    assert!(compared > 45_000, "only {compared} compared");
    assert!(
        with_blocks > 15_000,
        "only {with_blocks} with several blocks"
    );
    assert!(
        free_and_bound > 15_000,
        "only {free_and_bound} with a number both free and bound"
    );
    assert!(
        relevant_and_bound > 6_000,
        "only {relevant_and_bound} depend on a number both free and bound"
    );
}

/// Blocks of both kinds below each operator, on either side and on both.
#[test]
fn truth_is_kept_below_every_operator() {
    for truth_table in 0..16 {
        for kinds in [[5, 5], [5, 6], [6, 5], [6, 6]] {
            for [left, right] in [[true, true], [true, false], [false, true]] {
                for inner in 0..16 {
                    let mut table = Table::new(&[], &[2, 3]);
                    let mut side = |block: bool, kind: u32, first: u32| {
                        let x = table.push([2, 1, 0, 0]);
                        let y = table.push([2, 2 + first, 0, 0]);
                        let body = table.push([4, inner, x, y]);
                        if block {
                            table.push([kind, first, 1, body])
                        } else {
                            body
                        }
                    };
                    let l = side(left, kinds[0], 0);
                    let r = side(right, kinds[1], 1);
                    let body = table.push([4, truth_table, l, r]);
                    assert!(assert_same_truth(&table).is_some());
                    // The same below a quantifier over what was free.
                    table.list.push(1);
                    table.push([kinds[1], 2, 1, body]);
                    assert!(assert_same_truth(&table).is_some());
                }
            }
        }
    }
}

/// The direct evaluators agree with the functions used above.
#[test]
fn both_evaluators_agree() {
    let mut compared = 0;
    let mut with_blocks = 0;
    each("tables for both evaluators", 3_000, |rng, _| {
        let profile = Profile {
            nodes: rng.between(1, 9),
            ..Profile::tiny(rng)
        };
        let table = accepted(rng, &profile);
        let form = prenex_form(&table.words, &table.list).expect("accepted");
        let variables: Vec<u32> = brute::variables_at_nodes(&table.words)
            .into_iter()
            .collect();
        let of_form: Vec<u32> = brute::variables_at_nodes(&form.nodes).into_iter().collect();
        if form.variables.len() > 8 {
            return;
        }
        compared += 1;
        with_blocks += u32::from(!form.prefix.is_empty());
        let table_truth = brute::table_function(&table.words, &table.list, &variables);
        let form_truth = brute::form_function(&form.nodes, &form.prefix, &form.variables, &of_form);
        for mut valuation in brute::valuations(&variables) {
            let of_table = brute::table_value(&table.words, &table.list, &mut valuation);
            assert_eq!(of_table, table_truth.value(&valuation));
            let of_form =
                brute::form_value(&form.nodes, &form.prefix, &form.variables, &mut valuation);
            assert_eq!(of_form, form_truth.value(&valuation));
            assert_eq!(of_table, of_form);
        }
    });
    assert!(compared > 2_500, "only {compared} compared");
    assert!(with_blocks > 1_500, "only {with_blocks} with blocks");
}

#[test]
fn large_forms_are_well_formed() {
    each("large forms", 400, |rng, _| {
        let nodes = rng.between(100, 4096);
        let profile = Profile::random(rng, nodes);
        let table = accepted(rng, &profile);
        assert_well_formed(&table);
        listed(&table);
    });
    for (name, family) in FAMILIES {
        let _case = Case(name, 4096);
        assert_well_formed(&family(4096));
        listed(&family(4096));
    }
    assert_well_formed(&largest_form());
}
