//! Comparing the library with the reference, table by table and file by file;
//! form by form in [`forms`], from text to text in [`texts`], and of growth reports
//! in [`reports`].

#![allow(dead_code)]

pub mod files;
pub mod forms;
pub mod reports;
pub mod texts;
pub mod vectors;

use std::fmt::Display;
use wakubinryo::answer::{count_words, size_words, written_words};
use wakubinryo::generate::{Rng, Table};
use wakubinryo::reference::{LIMIT, WIDTH};
use wakubinryo::{free_variables, lift, measure, prenex_form, qcir, raw, reference};
use wakubinryo::{read_qcir, read_qcir_into};
use wakubinryo::{remove_empty_blocks, without_empty_blocks};
use wakubinryo::{CountAnswer, SizesAnswer, WrittenAnswer};
use wakubinryo::{PrenexForm, Reason, Refusal, Sizes, Written};

/// Words that buffers hold before a call.
#[derive(Clone, Copy, Debug)]
pub enum Prefill {
    Zeros,
    Ones,
    Pattern,
    Counting,
}

impl Prefill {
    pub const ALL: [Prefill; 4] = [
        Prefill::Zeros,
        Prefill::Ones,
        Prefill::Pattern,
        Prefill::Counting,
    ];

    /// This many words. The buffers of a call, numbered from 0, hold different
    /// ones where the words are not all zeros or ones.
    fn words(self, buffer: u32, len: usize) -> Vec<u32> {
        match self {
            Prefill::Zeros => vec![0; len],
            Prefill::Ones => vec![u32::MAX; len],
            Prefill::Pattern => vec![0xDEAD_BEEF + buffer; len],
            Prefill::Counting => (0..len as u32)
                .map(|at| (buffer << 24 | at).wrapping_mul(2_654_435_761))
                .collect(),
        }
    }
}

/// What a buffer is made of.
trait Item: Copy + PartialEq + Display {
    /// The item that stands for a word before a call.
    fn of_word(word: u32) -> Self;
}

impl Item for u32 {
    fn of_word(word: u32) -> u32 {
        word
    }
}

impl Item for u8 {
    fn of_word(word: u32) -> u8 {
        (word >> 24) as u8
    }
}

const GUARD: usize = 8;

/// A buffer to lend, with items on both sides that no call may touch.
struct Lent<T = u32> {
    items: Vec<T>,
    before: Vec<T>,
}

impl<T: Item> Lent<T> {
    fn new(len: usize, prefill: Prefill, buffer: u32) -> Lent<T> {
        let words = prefill.words(buffer, len + 2 * GUARD);
        let items: Vec<T> = words.into_iter().map(T::of_word).collect();
        let before = items.clone();
        Lent { items, before }
    }

    fn lend(&mut self) -> &mut [T] {
        let end = self.items.len() - GUARD;
        &mut self.items[GUARD..end]
    }

    /// Asserts that these items were written from the start on and that
    /// nothing else has changed.
    fn assert_holds(self, written: &[T], what: &str) {
        let Lent {
            items,
            before: mut expected,
        } = self;
        let lent = expected.len() - 2 * GUARD;
        assert!(written.len() <= lent, "{what}: more than lent");
        expected[GUARD..][..written.len()].copy_from_slice(written);
        if items != expected {
            let differs = |&at: &usize| items[at] != expected[at];
            let at = (0..items.len()).find(differs).expect("they differ");
            panic!(
                "{what}: place {} is {}, not {}; {} of {lent} are written",
                at as i64 - GUARD as i64,
                items[at],
                expected[at],
                written.len()
            );
        }
    }
}

/// What an answer holds before a call, in words of 32 bits and of 64.
const UNANSWERED: u32 = 0x5555_5555;
const UNANSWERED_LONG: u64 = 0x5555_5555_5555_5555;

pub fn library_measure(table: &Table) -> SizesAnswer {
    let mut answer = SizesAnswer::default().map(|_| UNANSWERED);
    raw::measure(&table.words, &table.list, &mut answer);
    answer
}

/// A lift with its answer as words: the library's own, or the wrapper's.
pub type Lift = fn(&Table, &mut [u32], &mut [u32], &mut [u32]) -> SizesAnswer;

pub const LIBRARY_LIFT: Lift = |table, nodes, prefix, variables| {
    let mut answer = SizesAnswer::default().map(|_| UNANSWERED);
    let Table { words, list } = table;
    raw::lift(words, list, nodes, prefix, variables, &mut answer);
    answer
};

const WRAPPED_LIFT: Lift = |table, nodes, prefix, variables| {
    size_words(lift(&table.words, &table.list, nodes, prefix, variables))
};

/// A call for the free variables with its answer as words.
pub type FreeVariables = fn(&Table, &mut [u32]) -> CountAnswer;

pub const LIBRARY_FREE_VARIABLES: FreeVariables = |table, names| {
    let mut answer = CountAnswer::default().map(|_| UNANSWERED);
    raw::free_variables(&table.words, &table.list, names, &mut answer);
    answer
};

const WRAPPED_FREE_VARIABLES: FreeVariables =
    |table, names| count_words(free_variables(&table.words, &table.list, names));

const REFERENCE_FREE_VARIABLES: FreeVariables =
    |table, names| count_words(reference::free_variables(&table.words, &table.list, names));

/// The call of the library, of its wrapper and of the reference.
pub const FREE_VARIABLES: [FreeVariables; 3] = [
    LIBRARY_FREE_VARIABLES,
    WRAPPED_FREE_VARIABLES,
    REFERENCE_FREE_VARIABLES,
];

/// The reference's answer, and what it writes into exact buffers.
pub fn reference_form(table: &Table) -> (Result<Sizes, Refusal>, PrenexForm) {
    let measured = reference::measure(&table.words, &table.list);
    let mut form = PrenexForm::default();
    if let Ok(sizes) = measured {
        form = PrenexForm::with_sizes(&sizes);
    }
    let lifted = reference::lift(
        &table.words,
        &table.list,
        &mut form.nodes,
        &mut form.prefix,
        &mut form.variables,
    );
    assert_eq!(measured, lifted);
    (lifted, form)
}

pub fn reference_free_variables(table: &Table) -> (Result<u32, Refusal>, Vec<u32>) {
    let mut names = vec![0; 4096];
    let answer = reference::free_variables(&table.words, &table.list, &mut names);
    names.truncate(answer.unwrap_or(0) as usize);
    (answer, names)
}

/// Lifts into buffers of these lengths and holds answer and buffers to what
/// is expected.
pub fn assert_lift(
    lift: Lift,
    table: &Table,
    lengths: [usize; 3],
    prefill: Prefill,
    expected: Result<Sizes, Refusal>,
    form: &PrenexForm,
) {
    let mut nodes = Lent::new(lengths[0], prefill, 0);
    let mut prefix = Lent::new(lengths[1], prefill, 1);
    let mut variables = Lent::new(lengths[2], prefill, 2);
    let given = lift(table, nodes.lend(), prefix.lend(), variables.lend());
    let answer = size_words(expected);
    assert_eq!(given, answer, "answer of lift, buffers {lengths:?}");
    nodes.assert_holds(&form.nodes, "nodes");
    prefix.assert_holds(&form.prefix, "prefix");
    variables.assert_holds(&form.variables, "variables");
}

/// Lists the free variables into a buffer of this length and holds answer and
/// buffer to what is expected.
pub fn assert_free_variables(
    free_variables: FreeVariables,
    table: &Table,
    len: usize,
    prefill: Prefill,
    expected: Result<u32, Refusal>,
    names: &[u32],
) {
    let mut lent = Lent::new(len, prefill, 0);
    let given = free_variables(table, lent.lend());
    let answer = count_words(expected);
    assert_eq!(given, answer, "answer of free_variables, {len} words");
    lent.assert_holds(names, "names");
}

/// Holds a call for the free variables to given results, with buffers that
/// are exact, longer by `spare` and, if there are names, too short.
fn assert_lists(
    free_variables: FreeVariables,
    table: &Table,
    prefill: Prefill,
    expected: Result<u32, Refusal>,
    names: &[u32],
    spare: usize,
) {
    let exact = names.len();
    for len in [exact, exact + spare] {
        assert_free_variables(free_variables, table, len, prefill, expected, names);
    }
    if exact > 0 {
        for len in [exact - 1, exact - 1 - spare % exact] {
            assert_free_variables(free_variables, table, len, prefill, Err(TOO_SHORT), &[]);
        }
    }
}

/// Holds the library, its wrapper and the reference to the free variables of
/// an accepted table.
pub fn assert_listing(table: &Table, names: &[u32], prefills: &[Prefill], spare: usize) {
    let count = Ok(names.len() as u32);
    let before = table.clone();
    for &prefill in prefills {
        for free_variables in FREE_VARIABLES {
            assert_lists(free_variables, table, prefill, count, names, spare);
        }
    }
    assert!(*table == before, "the table has changed");
}

/// A removal of empty blocks with its answer as words.
pub type Remove = fn(&Table, &mut [u32]) -> CountAnswer;

pub const LIBRARY_REMOVE: Remove = |table, nodes| {
    let mut answer = CountAnswer::default().map(|_| UNANSWERED);
    raw::remove_empty_blocks(&table.words, &table.list, nodes, &mut answer);
    answer
};

const WRAPPED_REMOVE: Remove =
    |table, nodes| count_words(remove_empty_blocks(&table.words, &table.list, nodes));

const REFERENCE_REMOVE: Remove = |table, nodes| {
    count_words(reference::remove_empty_blocks(
        &table.words,
        &table.list,
        nodes,
    ))
};

/// The nodes that the reference leaves of a table.
pub fn reference_left(Table { words, list }: &Table) -> Result<Vec<u32>, Refusal> {
    let mut nodes = vec![0; words.len()];
    let left = reference::remove_empty_blocks(words, list, &mut nodes)?;
    nodes.truncate(WIDTH * left as usize);
    Ok(nodes)
}

/// Removes empty blocks into a buffer of this length and holds answer and buffer
/// to what is expected.
pub fn assert_remove(
    remove: Remove,
    table: &Table,
    len: usize,
    prefill: Prefill,
    expected: Result<&[u32], Refusal>,
) {
    let mut nodes = Lent::new(len, prefill, 0);
    let given = remove(table, nodes.lend());
    let answer = count_words(expected.map(|nodes| (nodes.len() / WIDTH) as u32));
    assert_eq!(given, answer, "answer of remove_empty_blocks, {len} words");
    nodes.assert_holds(expected.unwrap_or(&[]), "nodes left");
}

/// Holds a removal of empty blocks to given results, with buffers that are exact,
/// longer by `spare`, as long as the table and, if nodes are left, too short.
fn assert_removes(
    remove: Remove,
    table: &Table,
    expected: Result<&[u32], Refusal>,
    prefill: Prefill,
    spare: usize,
) {
    let exact = expected.map_or(0, <[u32]>::len);
    for len in [exact, exact + spare, table.words.len()] {
        assert_remove(remove, table, len, prefill, expected);
    }
    if expected.is_ok() {
        for len in [0, exact - 1, exact - 1 - spare % exact] {
            assert_remove(remove, table, len, prefill, Err(TOO_SHORT));
        }
    }
}

/// Holds the library, its wrapper and the reference to the nodes left of a table
/// without its empty blocks, or to a refusal.
pub fn assert_removal(
    table: &Table,
    expected: Result<&[u32], Refusal>,
    prefills: &[Prefill],
    spare: usize,
) {
    let before = table.clone();
    for &prefill in prefills {
        for remove in [LIBRARY_REMOVE, WRAPPED_REMOVE, REFERENCE_REMOVE] {
            assert_removes(remove, table, expected, prefill, spare);
        }
    }
    let wrapped = without_empty_blocks(&table.words, &table.list);
    assert_eq!(wrapped.as_deref(), expected.as_ref().map(|nodes| &**nodes));
    assert!(*table == before, "the table has changed");
}

/// What a call with a buffer that is too short answers, and what it writes.
pub const TOO_SHORT: Refusal = Reason::BufferTooShort.at(0);
pub static NOTHING: PrenexForm = PrenexForm {
    nodes: Vec::new(),
    prefix: Vec::new(),
    variables: Vec::new(),
};

/// Words enough for any buffer, if the table were accepted.
fn ample(Table { words, list }: &Table) -> usize {
    let is_block = |node: &&[u32]| node[0] == 5 || node[0] == 6;
    let blocks = words.chunks_exact(WIDTH).filter(is_block);
    let counts = blocks.map(|node| list.len().min(node[2] as usize));
    // Four words for each of n + 5 b + 4 q nodes.
    6 * words.len() + 16 * counts.sum::<usize>().min(LIMIT) + 16
}

/// Holds the library's three operations to given results, with buffers that
/// are exact, long and, for an accepted table, each too short in turn. `spare`
/// varies the lengths.
pub fn assert_operations(
    table: &Table,
    sizes: Result<Sizes, Refusal>,
    form: &PrenexForm,
    names: &[u32],
    prefills: &[Prefill],
    spare: usize,
) {
    assert_eq!(library_measure(table), size_words(sizes), "measure");
    assert_wrappers(table, sizes, form, names, prefills[0]);
    let lift = LIBRARY_LIFT;
    let free_variables = LIBRARY_FREE_VARIABLES;
    let count = sizes.map(|_| names.len() as u32);
    let exact = [form.nodes.len(), form.prefix.len(), form.variables.len()];
    let long = exact.map(|len| len + spare);
    for &prefill in prefills {
        for lengths in [exact, long] {
            assert_lift(lift, table, lengths, prefill, sizes, form);
        }
        assert_lists(free_variables, table, prefill, count, names, spare);
        if sizes.is_err() {
            let ample = ample(table);
            assert_lift(lift, table, [ample; 3], prefill, sizes, form);
            assert_free_variables(free_variables, table, ample, prefill, count, names);
            continue;
        }
        for k in (0..3).filter(|&k| exact[k] > 0) {
            for others in [exact, long] {
                for len in [exact[k] - 1, exact[k] - 1 - spare % exact[k]] {
                    let mut short = others;
                    short[k] = len;
                    assert_lift(lift, table, short, prefill, Err(TOO_SHORT), &NOTHING);
                }
            }
        }
    }
}

/// Holds the wrapper's operations to given results, with buffers that are
/// exact and, for an accepted table, too short.
fn assert_wrappers(
    table: &Table,
    sizes: Result<Sizes, Refusal>,
    form: &PrenexForm,
    names: &[u32],
    prefill: Prefill,
) {
    let lift = WRAPPED_LIFT;
    let free_variables = WRAPPED_FREE_VARIABLES;
    let Table { words, list } = table;
    assert_eq!(measure(words, list), sizes, "wrapped measure");
    let written = prenex_form(words, list);
    assert_eq!(
        written.as_ref(),
        sizes.as_ref().map(|_| form),
        "prenex_form"
    );

    let count = sizes.map(|_| names.len() as u32);
    let exact = [form.nodes.len(), form.prefix.len(), form.variables.len()];
    assert_lift(lift, table, exact, prefill, sizes, form);
    assert_free_variables(free_variables, table, names.len(), prefill, count, names);
    if sizes.is_ok() {
        let short = [exact[0] - 1, exact[1], exact[2]];
        assert_lift(lift, table, short, prefill, Err(TOO_SHORT), &NOTHING);
        if !names.is_empty() {
            let len = names.len() - 1;
            assert_free_variables(free_variables, table, len, prefill, Err(TOO_SHORT), &[]);
        }
    }
}

/// Holds the library's four operations to the reference's results. Removing
/// empty blocks changes nothing in a table that has none, and refuses what the
/// others refuse but for 16.
pub fn assert_same(table: &Table, prefills: &[Prefill], spare: usize) -> Result<Sizes, Refusal> {
    let (sizes, form) = reference_form(table);
    let (_, names) = reference_free_variables(table);
    let before = table.clone();
    assert_operations(table, sizes, &form, &names, prefills, spare);
    let left = reference_left(table);
    let left = left.as_deref().map_err(|&refusal| refusal);
    match sizes {
        Ok(_) => assert_eq!(left, Ok(&table.words[..])),
        Err(Refusal {
            reason: Reason::EmptyBlock,
            ..
        }) => {}
        Err(refusal) => assert_eq!(left, Err(refusal)),
    }
    for &prefill in prefills {
        assert_removes(LIBRARY_REMOVE, table, left, prefill, spare);
    }
    assert!(*table == before, "the table has changed");
    sizes
}

/// Holds library and reference to a refusal.
pub fn assert_refusal(table: &Table, refusal: Refusal) {
    let given = assert_same(table, &Prefill::ALL, 9);
    let start = table.words.get(..40);
    assert_eq!(given, Err(refusal), "{start:?}");
}

/// Holds library and reference to a refusal that names no users.
pub fn assert_refused(table: &Table, reason: Reason, position: usize) {
    assert_refusal(table, reason.at(position));
}

/// Holds library and reference to refusal 8 at a node with these users.
pub fn assert_used_by(table: &Table, position: usize, users: [u32; 2]) {
    assert_refusal(table, Reason::NotATree.at(position).used_by(Some(users)));
}

/// Prints a name and a number if a test panics while it is there.
pub struct Case<'a>(pub &'a str, pub u64);

impl Drop for Case<'_> {
    fn drop(&mut self) {
        if std::thread::panicking() {
            eprintln!("in {} number {}", self.0, self.1);
        }
    }
}

/// Runs `one` for `tables` numbers from 0 up, each with a generator of its own
/// that the name and the number fix.
pub fn each(name: &str, tables: u64, mut one: impl FnMut(&mut Rng, u64)) {
    let of_name = name.bytes().fold(0, |seed: u64, byte| {
        (seed ^ u64::from(byte)).wrapping_mul(0x100_0000_01B3)
    });
    for number in 0..tables {
        let _case = Case(name, number);
        let mut rng = Rng::new(number.wrapping_mul(0x1234_5678_9ABC_DEF1) ^ of_name);
        one(&mut rng, number);
    }
}

/// How many nodes the table of this number has: few, but for some.
pub fn some_nodes(rng: &mut Rng, number: u64) -> usize {
    match number % 200 {
        0 => rng.between(300, 4096),
        1..=19 => rng.between(40, 300),
        _ => rng.between(1, 30),
    }
}

/// A reading call with its answer as words: the library's own, the wrapper's,
/// or the reference's.
pub type Read = fn(&[u8], &mut [u32], &mut [u32]) -> WrittenAnswer;

pub const LIBRARY_READ: Read = |text, words, list| {
    let mut answer = WrittenAnswer::default().map(|_| UNANSWERED);
    raw::read_qcir(text, words, list, &mut answer);
    answer
};

const WRAPPED_READ: Read = |text, words, list| written_words(read_qcir_into(text, words, list));

const REFERENCE_READ: Read = |text, words, list| written_words(qcir::read(text, words, list));

/// The reference's answer, and what it writes.
pub fn reference_table(text: &[u8]) -> (Result<Written, Refusal>, Table) {
    let mut table = Table {
        words: vec![0; WIDTH * LIMIT],
        list: vec![0; LIMIT],
    };
    let answer = qcir::read(text, &mut table.words, &mut table.list);
    let Written { words, entries } = answer.unwrap_or_default();
    table.words.truncate(words as usize);
    table.list.truncate(entries as usize);
    (answer, table)
}

/// Reads into buffers of these lengths and holds answer and buffers to what is
/// expected.
fn assert_read(
    read: Read,
    text: &[u8],
    lengths: [usize; 2],
    prefill: Prefill,
    expected: Result<Written, Refusal>,
    table: &Table,
) {
    let mut words = Lent::new(lengths[0], prefill, 0);
    let mut list = Lent::new(lengths[1], prefill, 1);
    let given = read(text, words.lend(), list.lend());
    let answer = written_words(expected);
    assert_eq!(given, answer, "answer of read_qcir, buffers {lengths:?}");
    words.assert_holds(&table.words, "words");
    list.assert_holds(&table.list, "list");
}

/// Holds a reading call to given results, with buffers that are exact, longer
/// by `spare` and, for an accepted file, each too short in turn.
fn assert_reads(
    read: Read,
    text: &[u8],
    expected: Result<Written, Refusal>,
    table: &Table,
    prefill: Prefill,
    spare: usize,
) {
    let (words, entries) = (table.words.len(), table.list.len());
    assert_read(read, text, [words, entries], prefill, expected, table);
    let long = [words + spare, entries + spare];
    assert_read(read, text, long, prefill, expected, table);
    if expected.is_ok() {
        let refuse = |lengths| {
            let nothing = Table::default();
            assert_read(read, text, lengths, prefill, Err(TOO_SHORT), &nothing);
        };
        refuse([words - 1, entries + spare]);
        if entries > 0 {
            refuse([words + spare, entries - 1]);
        }
    }
}

/// Holds the library, its wrapper and the reference to given results.
pub fn assert_reading(
    text: &[u8],
    expected: Result<Written, Refusal>,
    table: &Table,
    prefill: Prefill,
    spare: usize,
) {
    for read in [LIBRARY_READ, WRAPPED_READ, REFERENCE_READ] {
        assert_reads(read, text, expected, table, prefill, spare);
    }
    let wrapped = read_qcir(text);
    assert_eq!(wrapped.as_ref(), expected.as_ref().map(|_| table));
}

/// Holds the library to the reference's results, and the table of an accepted
/// file to the table checker's.
pub fn assert_same_reading(text: &[u8], prefill: Prefill, spare: usize) -> Result<Table, Refusal> {
    let (answer, table) = reference_table(text);
    let before = text.to_vec();
    assert_reads(LIBRARY_READ, text, answer, &table, prefill, spare);
    assert!(*text == before, "the text has changed");
    answer?;
    let sizes = measure(&table.words, &table.list).expect("the table is accepted");
    let [n, q] = [table.words.len() / WIDTH, table.list.len()];
    assert_eq!([sizes.n as usize, sizes.q as usize], [n, q]);
    Ok(table)
}
