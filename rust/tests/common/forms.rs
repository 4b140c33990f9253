//! Writing prenex forms in either format: comparing the library with the
//! reference, form by form.

use super::{each, some_nodes, Case, Lent, Prefill, TOO_SHORT, UNANSWERED_LONG};
use wakubinryo::answer::text_words;
use wakubinryo::brute;
use wakubinryo::form_check::{Limits, MOST_NODES};
use wakubinryo::generate::{accepted, largest_form, Profile as TableProfile, Rng, Table};
use wakubinryo::generate_forms::{damage_once, good_form, Profile, FAMILIES};
use wakubinryo::{prenex_form, raw, write_qcir, write_qdimacs};
use wakubinryo::{qcir_room, qcir_text, qdimacs_room, qdimacs_text};
use wakubinryo::{Node, PrenexForm, Reason, Refusal, TextAnswer, WIDTH};

/// A writing call with its answer as words: the library's own, the wrapper's,
/// or the reference's.
pub type Write = fn(&PrenexForm, &mut [u8]) -> TextAnswer;

type Text = fn(&PrenexForm) -> Result<Vec<u8>, Refusal>;

/// What writes a format.
pub struct Format {
    pub name: &'static str,
    pub library: Write,
    wrapped: Write,
    reference: Write,
    /// The text that the wrapper makes room for.
    pub text: Text,
    pub reference_text: Text,
    /// Bytes that are always enough.
    room: fn(usize, usize, usize) -> usize,
}

/// The library's answer.
fn answer(
    call: fn(&PrenexForm, &mut [u8], &mut TextAnswer),
    form: &PrenexForm,
    text: &mut [u8],
) -> TextAnswer {
    let mut answer = TextAnswer::default().map(|_| UNANSWERED_LONG);
    call(form, text, &mut answer);
    answer
}

pub const QCIR: Format = Format {
    name: "write_qcir",
    library: |form, text| answer(raw::write_qcir, form, text),
    wrapped: |form, text| text_words(wakubinryo::write_qcir(form, text)),
    reference: |form, text| text_words(write_qcir::write(form, text)),
    text: qcir_text,
    reference_text: |form| {
        let mut text = Vec::new();
        write_qcir::append(form, Limits::LIBRARY, &mut text).map(|()| text)
    },
    room: qcir_room,
};

pub const QDIMACS: Format = Format {
    name: "write_qdimacs",
    library: |form, text| answer(raw::write_qdimacs, form, text),
    wrapped: |form, text| text_words(wakubinryo::write_qdimacs(form, text)),
    reference: |form, text| text_words(write_qdimacs::write(form, text)),
    text: qdimacs_text,
    reference_text: |form| {
        let mut text = Vec::new();
        write_qdimacs::append(form, &mut text).map(|()| text)
    },
    room: qdimacs_room,
};

pub const FORMATS: [Format; 2] = [QCIR, QDIMACS];

impl Format {
    /// Bytes that are always enough for this form's text.
    fn room(&self, form: &PrenexForm) -> usize {
        let (nodes, blocks) = (form.nodes.len() / WIDTH, form.prefix.len() / 3);
        (self.room)(nodes, blocks, form.variables.len())
    }

    /// Writes into a buffer of this length and holds answer and buffer to what
    /// is expected.
    fn assert_write(
        &self,
        write: Write,
        form: &PrenexForm,
        len: usize,
        prefill: Prefill,
        expected: Result<&[u8], Refusal>,
    ) {
        let mut text = Lent::new(len, prefill, 0);
        let given = write(form, text.lend());
        let answer = text_words(expected.map(<[u8]>::len));
        assert_eq!(given, answer, "answer of {}, {len} bytes", self.name);
        text.assert_holds(expected.unwrap_or(&[]), "text");
    }

    /// The same by the library.
    pub fn assert_library(
        &self,
        form: &PrenexForm,
        len: usize,
        prefill: Prefill,
        expected: Result<&[u8], Refusal>,
    ) {
        self.assert_write(self.library, form, len, prefill, expected);
    }

    /// Holds a writing call to given results, with buffers that are exact,
    /// longer by `spare` and, for a form that is written, too short.
    fn assert_writes(
        &self,
        write: Write,
        form: &PrenexForm,
        expected: Result<&[u8], Refusal>,
        prefill: Prefill,
        spare: usize,
    ) {
        let exact = expected.map_or(0, <[u8]>::len);
        for len in [exact, exact + spare] {
            self.assert_write(write, form, len, prefill, expected);
        }
        if expected.is_ok() {
            for len in [0, exact - 1, exact - 1 - spare % exact] {
                self.assert_write(write, form, len, prefill, Err(TOO_SHORT));
            }
        }
    }

    /// Holds the library, its wrapper and the reference to given results.
    pub fn assert_writing(
        &self,
        form: &PrenexForm,
        expected: Result<&[u8], Refusal>,
        prefills: &[Prefill],
        spare: usize,
    ) {
        for &prefill in prefills {
            for write in [self.library, self.wrapped, self.reference] {
                self.assert_writes(write, form, expected, prefill, spare);
            }
        }
        let wrapped = (self.text)(form);
        assert_eq!(wrapped.as_deref(), expected.as_ref().map(|text| &**text));
    }

    /// Holds library and reference to a refusal.
    pub fn assert_refused(&self, form: &PrenexForm, reason: Reason, position: usize) {
        self.assert_writing(form, Err(reason.at(position)), &Prefill::ALL, 5);
    }

    /// Holds the library to the reference's results, and a text's length to the
    /// room that is said to be enough.
    pub fn assert_same_writing(
        &self,
        form: &PrenexForm,
        prefill: Prefill,
        spare: usize,
    ) -> Result<Vec<u8>, Refusal> {
        let text = (self.reference_text)(form);
        let before = form.clone();
        let expected = text.as_deref().map_err(|&refusal| refusal);
        self.assert_writes(self.library, form, expected, prefill, spare);
        assert!(*form == before, "the form has changed");
        if let Ok(text) = &text {
            assert!(text.len() <= self.room(form), "too little room");
        }
        text
    }

    /// The text of a form that is written, by library and reference.
    #[track_caller]
    pub fn assert_written(&self, form: &PrenexForm, prefill: Prefill, spare: usize) -> Vec<u8> {
        let text = self.assert_same_writing(form, prefill, spare);
        text.expect("written")
    }
}

pub fn prefill(number: u64) -> Prefill {
    Prefill::ALL[number as usize % 4]
}

pub fn form(nodes: &[Node], prefix: &[[u32; 3]], variables: &[u32]) -> PrenexForm {
    PrenexForm {
        nodes: nodes.concat(),
        prefix: prefix.concat(),
        variables: variables.to_vec(),
    }
}

pub const X: Node = [2, 1, 0, 0];
pub const Y: Node = [2, 2, 0, 0];
pub const TRUE: Node = [1, 1, 0, 0];

/// A variable under this many nots less one.
pub fn nots(nodes: usize) -> PrenexForm {
    let mut form = form(&[X], &[], &[]);
    for operand in 0..nodes as u32 - 1 {
        form.nodes.extend([3, operand, 0, 0]);
    }
    form
}

/// The names of a form's prefix blocks.
pub fn bound_names(form: &PrenexForm) -> Vec<u32> {
    let blocks = form.prefix.chunks_exact(3);
    blocks
        .flat_map(|block| &form.variables[block[1] as usize..][..block[2] as usize])
        .copied()
        .collect()
}

/// The open names of a form, those too that an operator ignores.
pub fn open_names(form: &PrenexForm) -> Vec<u32> {
    let bound = bound_names(form);
    let at_nodes = brute::variables_at_nodes(&form.nodes).into_iter();
    at_nodes.filter(|name| !bound.contains(name)).collect()
}

/// A form's truth value as a function of variables, among them all that stand
/// at its variable nodes.
pub fn function(form: &PrenexForm, variables: &[u32]) -> brute::Function {
    brute::form_function(&form.nodes, &form.prefix, &form.variables, variables)
}

/// Whether some valuation of the open names makes a form true. None if there
/// are too many variables.
pub fn form_is_satisfiable(form: &PrenexForm) -> Option<bool> {
    let (bound, open) = (bound_names(form), open_names(form));
    if bound.len() + open.len() > 12 {
        return None;
    }
    let names: Vec<u32> = brute::variables_at_nodes(&form.nodes).into_iter().collect();
    let of_form = function(form, &names);
    let mut valuations = brute::valuations(&open);
    Some(valuations.any(|valuation| of_form.value(&valuation)))
}

/// Whether some valuation of its free variables makes a table true.
pub fn table_is_satisfiable(Table { words, list }: &Table) -> bool {
    let free: Vec<u32> = brute::free_occurrences(words, list).into_iter().collect();
    let mut valuations = brute::valuations(&free);
    valuations.any(|mut valuation| brute::table_value(words, list, &mut valuation))
}

/// Forms that are written, most of them small: `check` is given each text.
pub fn good_forms(format: &Format, mut check: impl FnMut(&[u8])) {
    each("good forms", 9_000, |rng, number| {
        let nodes = match number % 1000 {
            0 => rng.between(10_000, MOST_NODES),
            _ => some_nodes(rng, number),
        };
        let profile = Profile::random(rng, nodes);
        let form = good_form(rng, &profile);
        let spare = rng.between(1, 40);
        check(&format.assert_written(&form, prefill(number), spare));
    });
}

/// Forms with a fault or some, and such as have none all the same: `check` is
/// given each text.
pub fn damaged_forms(format: &Format, mut check: impl FnMut(&[u8])) {
    let mut counts = [0; 16];
    each("damaged forms", 60_000, |rng, number| {
        let nodes = match number % 400 {
            0 => rng.between(300, 3000),
            1..=19 => rng.between(20, 200),
            _ => rng.between(1, 12),
        };
        let profile = Profile::random(rng, nodes);
        let mut form = good_form(rng, &profile);
        for _ in 0..rng.pick(&[1, 1, 2, 5]) {
            damage_once(rng, &mut form);
        }
        let spare = rng.between(1, 40);
        let number = match format.assert_same_writing(&form, prefill(number), spare) {
            Ok(text) => {
                check(&text);
                0
            }
            Err(refusal) => refusal.reason.number(),
        };
        counts[number as usize] += 1;
    });
    for number in [0, 14, 15] {
        assert!(counts[number] > 3_000, "answers by number: {counts:?}");
    }
}

/// Forms small enough for brute force: `check` is given each and its text.
pub fn tiny_forms(format: &Format, mut check: impl FnMut(&PrenexForm, &[u8])) {
    each("truth of forms", 9_000, |rng, number| {
        let profile = Profile::tiny(rng);
        let form = good_form(rng, &profile);
        let text = format.assert_written(&form, prefill(number), 3);
        check(&form, &text);
    });
}

/// Forms that the library has lifted, the largest too: `check` is given the
/// table, the form and its text.
pub fn lifted_forms(format: &Format, mut check: impl FnMut(&Table, &PrenexForm, &[u8])) {
    let mut one = |table: &Table, prefill| {
        let form = prenex_form(&table.words, &table.list).expect("accepted");
        let text = format.assert_written(&form, prefill, 3);
        check(table, &form, &text);
    };
    each("lifted forms", 5_000, |rng, number| {
        let profile = match number % 2 {
            0 => TableProfile::tiny(rng),
            _ => {
                let nodes = some_nodes(rng, number / 2);
                TableProfile::random(rng, nodes)
            }
        };
        one(&accepted(rng, &profile), prefill(number));
    });
    one(&largest_form(), Prefill::Counting);
}

/// Forms of every family, as they are and damaged: `check` is given the text of
/// those that are as they are.
pub fn families(format: &Format, mut check: impl FnMut(&[u8])) {
    for (name, family) in FAMILIES {
        for size in [1_024, 10_240, 40_960] {
            let _case = Case(name, size as u64);
            let mut form = family(size);
            check(&format.assert_written(&form, Prefill::Counting, 3));
            let mut rng = Rng::new(size as u64);
            for _ in 0..4 {
                damage_once(&mut rng, &mut form);
                let _ = format.assert_same_writing(&form, Prefill::Pattern, 3);
            }
        }
    }
}

/// A long prefix of empty blocks over a variable: with it open, with a block of
/// its own at the end, which gives these texts, and with this block twice.
pub fn many_empty_blocks(format: &Format, open: &str, bound: &str) {
    let blocks = 3_000_000;
    let mut many = form(&[X], &[], &[1]);
    many.prefix = [6, 1, 0].repeat(blocks);
    let assert_answer = |form: &PrenexForm, expected| {
        format.assert_write(format.library, form, 50, Prefill::Ones, expected);
    };
    assert_answer(&many, Ok(open.as_bytes()));
    many.prefix.extend([6, 0, 1]);
    assert_answer(&many, Ok(bound.as_bytes()));
    many.prefix.extend([6, 0, 1]);
    assert_answer(&many, Err(Reason::MalformedPrefix.at(blocks + 1)));
}
