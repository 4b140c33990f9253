//! The cases of vectors/tables-s6.txt, vectors/users.txt and
//! vectors/free-variables.txt, for the reference and for the library.

mod common;

use common::vectors::each_vector;
use common::{assert_listing, assert_operations, assert_same, library_measure};
use common::{reference_form, reference_free_variables, Prefill};
use wakubinryo::answer::size_words;
use wakubinryo::brute;

const TABLES: &str = include_str!("../vectors/tables-s6.txt");
const USERS: &str = include_str!("../vectors/users.txt");
const FREE: &str = include_str!("../vectors/free-variables.txt");

#[test]
fn reference_and_library_give_every_vector() {
    each_vector(TABLES, 260, |vector, table| {
        let (sizes, form) = reference_form(table);
        assert_eq!(size_words(sizes), vector.get("measure"));
        assert_eq!(form, vector.form());
        let (written, names) = reference_free_variables(table);
        assert_eq!(written, sizes.map(|_| names.len() as u32));
        if vector.accepted() {
            assert_eq!(names, vector.get("free"));
        }
        assert_operations(table, sizes, &form, &names, &Prefill::ALL, 5);
    });
}

#[test]
fn tables_and_forms_have_the_truth_given() {
    let mut checked = 0;
    each_vector(TABLES, 260, |vector, table| {
        let Some(over) = vector.find("over") else {
            return;
        };
        let truth = vector.get("truth");
        let form = vector.form();
        assert_eq!(truth.len(), 1 << over.len());
        let mut at_nodes = brute::variables_at_nodes(&form.nodes);
        at_nodes.extend(over);
        let variables: Vec<u32> = at_nodes.into_iter().collect();
        let function = (variables.len() <= 20)
            .then(|| brute::form_function(&form.nodes, &form.prefix, &form.variables, &variables));
        for (valuation, &value) in brute::valuations(over).zip(truth) {
            let mut valuation = valuation;
            let of_table = brute::table_value(&table.words, &table.list, &mut valuation);
            assert_eq!(u32::from(of_table), value, "table under {valuation:?}");
            if let Some(function) = &function {
                let of_form = function.value(&valuation);
                assert_eq!(u32::from(of_form), value, "form under {valuation:?}");
                checked += 1;
            }
        }
    });
    assert!(checked > 300, "only {checked} values of forms compared");
}

#[test]
fn reference_and_library_name_the_users_given() {
    each_vector(USERS, 160, |vector, table| {
        let given = assert_same(table, &Prefill::ALL, 5);
        assert_eq!(size_words(given)[..4], *vector.get("check"));
        assert_eq!(library_measure(table)[..4], *vector.get("check"));
    });
}

#[test]
fn reference_and_library_list_the_free_variables_given() {
    let mut also_bound = 0;
    each_vector(FREE, 160, |vector, table| {
        let names = vector.get("free");
        let free = brute::free_occurrences(&table.words, &table.list);
        assert!(free.iter().eq(names), "by brute force");
        assert_listing(table, names, &Prefill::ALL, 5);
        assert!(assert_same(table, &Prefill::ALL, 5).is_ok());
        let bound = brute::variables_in_ranges(&table.words, &table.list);
        also_bound += u32::from(names.iter().any(|name| bound.contains(name)));
    });
    assert_eq!(also_bound, 72);
}
