//! A safe wrapper over the static libraries wakubinryo_tables, wakubinryo_qcir,
//! wakubinryo_texts and wakubinryo_reports, and what its tests and its benchmarks
//! need: an implementation in plain Rust ([`reference`] and, for files, [`qcir`],
//! [`write_qcir`](mod@write_qcir) and [`write_qdimacs`](mod@write_qdimacs), for
//! reports [`growth`](mod@growth)), reading without limits ([`read_back`]), truth values by brute force
//! ([`brute`], [`circuit`], [`qdimacs`]), alpha-equivalence of two tables
//! ([`alpha`]) and tables, pairs of them, files and forms to try ([`generate`],
//! [`generate_alpha`], [`generate_qcir`], [`generate_forms`]). The tool's names,
//! words and plots are in [`name_lines`], [`words`] and [`growth_plot`].
//!
//! [`lift_text`] goes from the bytes of a QCIR file to those of its prenex form
//! in one call. Its steps, [`read_qcir`], [`prenex_form`] and [`qcir_text`] or
//! [`qdimacs_text`], are calls too, for callers that want the table or the form.
//! [`report()`] writes what became of many files, measured by [`measure_text`].
//! A formula table is a slice of words, four to a node, and a list of variable
//! numbers. See `include/wakubinryo.h` for what each call promises.

pub mod alpha;
pub mod answer;
pub mod brute;
pub mod circuit;
pub mod comparators;
pub mod form_check;
pub mod generate;
pub mod generate_alpha;
pub mod generate_forms;
pub mod generate_qcir;
pub mod growth;
pub mod growth_plot;
pub mod name_lines;
pub mod plot;
pub mod qcir;
pub mod qdimacs;
pub mod read_back;
pub mod reference;
pub mod timing;
pub mod words;
pub mod write_qcir;
pub mod write_qdimacs;

pub use answer::{CountAnswer, Reason, Refusal, Sizes, SizesAnswer};
pub use answer::{Growth, GrowthAnswer, Line, NamesAnswer};
pub use answer::{LiftTextAnswer, MeasureTextAnswer, WrittenText};
pub use answer::{TextAnswer, Written, WrittenAnswer};
pub use reference::{Node, WIDTH};

mod ffi {
    extern "C" {
        pub fn wakubinryo_measure(
            words: *const u32,
            words_len: usize,
            list: *const u32,
            list_len: usize,
            answer: *mut u32,
        );
        pub fn wakubinryo_lift(
            words: *const u32,
            words_len: usize,
            list: *const u32,
            list_len: usize,
            nodes: *mut u32,
            nodes_len: usize,
            prefix: *mut u32,
            prefix_len: usize,
            variables: *mut u32,
            variables_len: usize,
            answer: *mut u32,
        );
        pub fn wakubinryo_free_variables(
            words: *const u32,
            words_len: usize,
            list: *const u32,
            list_len: usize,
            names: *mut u32,
            names_len: usize,
            answer: *mut u32,
        );
        pub fn wakubinryo_remove_empty_blocks(
            words: *const u32,
            words_len: usize,
            list: *const u32,
            list_len: usize,
            nodes: *mut u32,
            nodes_len: usize,
            answer: *mut u32,
        );
        pub fn wakubinryo_read_qcir(
            text: *const u8,
            text_len: usize,
            words: *mut u32,
            words_len: usize,
            list: *mut u32,
            list_len: usize,
            answer: *mut u32,
        );
        pub fn wakubinryo_write_qcir(
            nodes: *const u32,
            nodes_len: usize,
            prefix: *const u32,
            prefix_len: usize,
            variables: *const u32,
            variables_len: usize,
            text: *mut u8,
            text_len: usize,
            answer: *mut u64,
        );
        pub fn wakubinryo_write_qdimacs(
            nodes: *const u32,
            nodes_len: usize,
            prefix: *const u32,
            prefix_len: usize,
            variables: *const u32,
            variables_len: usize,
            text: *mut u8,
            text_len: usize,
            answer: *mut u64,
        );
        pub fn wakubinryo_lift_text(
            text: *const u8,
            text_len: usize,
            format: u32,
            out: *mut u8,
            out_len: usize,
            answer: *mut u64,
        );
        pub fn wakubinryo_lift_text_in(
            text: *const u8,
            text_len: usize,
            format: u32,
            nodes: *mut u32,
            nodes_len: usize,
            out: *mut u8,
            out_len: usize,
            answer: *mut u64,
        );
        pub fn wakubinryo_measure_text(text: *const u8, text_len: usize, answer: *mut u32);
        pub fn wakubinryo_growth(lines: *const u32, lines_len: usize, answer: *mut u64);
        pub fn wakubinryo_names(names: *const u8, names_len: usize, answer: *mut u32);
        pub fn wakubinryo_report(
            names: *const u8,
            names_len: usize,
            lines: *const u32,
            lines_len: usize,
            out: *mut u8,
            out_len: usize,
            answer: *mut u64,
        );
    }
}

/// The calls as they are, with their answers as words.
pub mod raw {
    use super::{ffi, CountAnswer, GrowthAnswer, LiftTextAnswer, MeasureTextAnswer};
    use super::{NamesAnswer, PrenexForm, SizesAnswer, TextAnswer, WrittenAnswer};

    pub fn measure(words: &[u32], list: &[u32], answer: &mut SizesAnswer) {
        // SAFETY: the call reads the two slices and writes the answer, no more.
        unsafe {
            ffi::wakubinryo_measure(
                words.as_ptr(),
                words.len(),
                list.as_ptr(),
                list.len(),
                answer.as_mut_ptr(),
            )
        }
    }

    pub fn lift(
        words: &[u32],
        list: &[u32],
        nodes: &mut [u32],
        prefix: &mut [u32],
        variables: &mut [u32],
        answer: &mut SizesAnswer,
    ) {
        // SAFETY: the call reads and writes the slices lent, no more, and
        // exclusive borrows don't overlap.
        unsafe {
            ffi::wakubinryo_lift(
                words.as_ptr(),
                words.len(),
                list.as_ptr(),
                list.len(),
                nodes.as_mut_ptr(),
                nodes.len(),
                prefix.as_mut_ptr(),
                prefix.len(),
                variables.as_mut_ptr(),
                variables.len(),
                answer.as_mut_ptr(),
            )
        }
    }

    pub fn free_variables(
        words: &[u32],
        list: &[u32],
        names: &mut [u32],
        answer: &mut CountAnswer,
    ) {
        // SAFETY: as above.
        unsafe {
            ffi::wakubinryo_free_variables(
                words.as_ptr(),
                words.len(),
                list.as_ptr(),
                list.len(),
                names.as_mut_ptr(),
                names.len(),
                answer.as_mut_ptr(),
            )
        }
    }

    pub fn remove_empty_blocks(
        words: &[u32],
        list: &[u32],
        nodes: &mut [u32],
        answer: &mut CountAnswer,
    ) {
        // SAFETY: as above.
        unsafe {
            ffi::wakubinryo_remove_empty_blocks(
                words.as_ptr(),
                words.len(),
                list.as_ptr(),
                list.len(),
                nodes.as_mut_ptr(),
                nodes.len(),
                answer.as_mut_ptr(),
            )
        }
    }

    pub fn read_qcir(text: &[u8], words: &mut [u32], list: &mut [u32], answer: &mut WrittenAnswer) {
        // SAFETY: as above.
        unsafe {
            ffi::wakubinryo_read_qcir(
                text.as_ptr(),
                text.len(),
                words.as_mut_ptr(),
                words.len(),
                list.as_mut_ptr(),
                list.len(),
                answer.as_mut_ptr(),
            )
        }
    }

    /// A call that writes a form as a text.
    type WriteText = unsafe extern "C" fn(
        *const u32,
        usize,
        *const u32,
        usize,
        *const u32,
        usize,
        *mut u8,
        usize,
        *mut u64,
    );

    fn write_text(call: WriteText, form: &PrenexForm, text: &mut [u8], answer: &mut TextAnswer) {
        // SAFETY: as above.
        unsafe {
            call(
                form.nodes.as_ptr(),
                form.nodes.len(),
                form.prefix.as_ptr(),
                form.prefix.len(),
                form.variables.as_ptr(),
                form.variables.len(),
                text.as_mut_ptr(),
                text.len(),
                answer.as_mut_ptr(),
            )
        }
    }

    pub fn write_qcir(form: &PrenexForm, text: &mut [u8], answer: &mut TextAnswer) {
        write_text(ffi::wakubinryo_write_qcir, form, text, answer)
    }

    pub fn write_qdimacs(form: &PrenexForm, text: &mut [u8], answer: &mut TextAnswer) {
        write_text(ffi::wakubinryo_write_qdimacs, form, text, answer)
    }

    /// The format is given by its number; any number is taken.
    pub fn lift_text(text: &[u8], format: u32, out: &mut [u8], answer: &mut LiftTextAnswer) {
        // SAFETY: as above.
        unsafe {
            ffi::wakubinryo_lift_text(
                text.as_ptr(),
                text.len(),
                format,
                out.as_mut_ptr(),
                out.len(),
                answer.as_mut_ptr(),
            )
        }
    }

    /// The same with memory lent for the form's nodes.
    pub fn lift_text_in(
        text: &[u8],
        format: u32,
        nodes: &mut [u32],
        out: &mut [u8],
        answer: &mut LiftTextAnswer,
    ) {
        // SAFETY: as above.
        unsafe {
            ffi::wakubinryo_lift_text_in(
                text.as_ptr(),
                text.len(),
                format,
                nodes.as_mut_ptr(),
                nodes.len(),
                out.as_mut_ptr(),
                out.len(),
                answer.as_mut_ptr(),
            )
        }
    }

    pub fn measure_text(text: &[u8], answer: &mut MeasureTextAnswer) {
        // SAFETY: as above.
        unsafe { ffi::wakubinryo_measure_text(text.as_ptr(), text.len(), answer.as_mut_ptr()) }
    }

    pub fn growth(lines: &[u32], answer: &mut GrowthAnswer) {
        // SAFETY: as above.
        unsafe { ffi::wakubinryo_growth(lines.as_ptr(), lines.len(), answer.as_mut_ptr()) }
    }

    pub fn names(names: &[u8], answer: &mut NamesAnswer) {
        // SAFETY: as above.
        unsafe { ffi::wakubinryo_names(names.as_ptr(), names.len(), answer.as_mut_ptr()) }
    }

    pub fn report(names: &[u8], lines: &[u32], out: &mut [u8], answer: &mut TextAnswer) {
        // SAFETY: as above.
        unsafe {
            ffi::wakubinryo_report(
                names.as_ptr(),
                names.len(),
                lines.as_ptr(),
                lines.len(),
                out.as_mut_ptr(),
                out.len(),
                answer.as_mut_ptr(),
            )
        }
    }
}

fn refusal(number: u32, position: u64, users: [u32; 2]) -> Refusal {
    let reason = Reason::from_number(number).expect("a number of the interface");
    let users = (users != [0, 0]).then_some(users);
    Refusal {
        reason,
        position,
        users,
    }
}

fn sizes(answer: SizesAnswer) -> Result<Sizes, Refusal> {
    match answer {
        [0, _, _, _, sizes @ ..] => Ok(Sizes::from_words(sizes)),
        [number, position, first, second, ..] => {
            Err(refusal(number, position.into(), [first, second]))
        }
    }
}

fn count(answer: CountAnswer) -> Result<u32, Refusal> {
    match answer {
        [0, _, _, _, written] => Ok(written),
        [number, position, first, second, _] => {
            Err(refusal(number, position.into(), [first, second]))
        }
    }
}

/// The sizes of a table and of its prenex form.
pub fn measure(words: &[u32], list: &[u32]) -> Result<Sizes, Refusal> {
    let mut answer = SizesAnswer::default();
    raw::measure(words, list, &mut answer);
    sizes(answer)
}

/// Writes a table's prenex form into three buffers: nodes of four words,
/// prefix blocks of three, prefix variables.
pub fn lift(
    words: &[u32],
    list: &[u32],
    nodes: &mut [u32],
    prefix: &mut [u32],
    variables: &mut [u32],
) -> Result<Sizes, Refusal> {
    let mut answer = SizesAnswer::default();
    raw::lift(words, list, nodes, prefix, variables, &mut answer);
    sizes(answer)
}

/// Writes the numbers with a variable node that no block above it covers,
/// ascending and once each, and says how many they are.
pub fn free_variables(words: &[u32], list: &[u32], names: &mut [u32]) -> Result<u32, Refusal> {
    let mut answer = CountAnswer::default();
    raw::free_variables(words, list, names, &mut answer);
    count(answer)
}

/// Writes the nodes of a table that may have empty blocks without these, and
/// says how many are left. With the same list they are a table of the same
/// truth value and the same free variables, which is not refused.
pub fn remove_empty_blocks(words: &[u32], list: &[u32], nodes: &mut [u32]) -> Result<u32, Refusal> {
    let mut answer = CountAnswer::default();
    raw::remove_empty_blocks(words, list, nodes, &mut answer);
    count(answer)
}

/// Allocates room and gives the nodes of a table without its empty blocks.
pub fn without_empty_blocks(words: &[u32], list: &[u32]) -> Result<Vec<u32>, Refusal> {
    let mut nodes = vec![0; words.len()];
    let left = remove_empty_blocks(words, list, &mut nodes)?;
    nodes.truncate(WIDTH * left as usize);
    Ok(nodes)
}

/// A prenex form: nodes of four words, prefix blocks of three, variables.
#[derive(Clone, Debug, Default, PartialEq, Eq)]
pub struct PrenexForm {
    pub nodes: Vec<u32>,
    pub prefix: Vec<u32>,
    pub variables: Vec<u32>,
}

impl PrenexForm {
    /// Zeroed buffers of exactly the sizes that a table's form needs.
    pub fn with_sizes(sizes: &Sizes) -> PrenexForm {
        PrenexForm {
            nodes: vec![0; WIDTH * sizes.nodes as usize],
            prefix: vec![0; 3 * sizes.blocks as usize],
            variables: vec![0; sizes.entries as usize],
        }
    }
}

/// Measures, allocates and lifts.
pub fn prenex_form(words: &[u32], list: &[u32]) -> Result<PrenexForm, Refusal> {
    let mut form = PrenexForm::with_sizes(&measure(words, list)?);
    lift(
        words,
        list,
        &mut form.nodes,
        &mut form.prefix,
        &mut form.variables,
    )?;
    Ok(form)
}

/// A formula table: four words a node, and a list of variable numbers.
#[derive(Clone, Debug, Default, PartialEq, Eq)]
pub struct Table {
    pub words: Vec<u32>,
    pub list: Vec<u32>,
}

/// Reads a QCIR file into two buffers: the table's nodes, four words each, and
/// its list. Says how much is written.
pub fn read_qcir_into(
    text: &[u8],
    words: &mut [u32],
    list: &mut [u32],
) -> Result<Written, Refusal> {
    let mut answer = WrittenAnswer::default();
    raw::read_qcir(text, words, list, &mut answer);
    match answer {
        [0, _, words, entries] => Ok(Written { words, entries }),
        [number, position, ..] => Err(refusal(number, position.into(), [0, 0])),
    }
}

/// Allocates room for any table and reads a QCIR file.
pub fn read_qcir(text: &[u8]) -> Result<Table, Refusal> {
    let mut table = Table {
        words: vec![0; WIDTH * reference::LIMIT],
        list: vec![0; reference::LIMIT],
    };
    let written = read_qcir_into(text, &mut table.words, &mut table.list)?;
    table.words.truncate(written.words as usize);
    table.list.truncate(written.entries as usize);
    Ok(table)
}

/// A writing call that has been answered: how many bytes the text takes.
fn written(answer: TextAnswer) -> Result<usize, Refusal> {
    match answer {
        [0, _, bytes] => Ok(bytes as usize),
        [number, position, _] => Err(refusal(number as u32, position, [0, 0])),
    }
}

/// Writes a prenex form as a QCIR file into a buffer and says how many bytes
/// it takes.
pub fn write_qcir(form: &PrenexForm, text: &mut [u8]) -> Result<usize, Refusal> {
    let mut answer = TextAnswer::default();
    raw::write_qcir(form, text, &mut answer);
    written(answer)
}

/// Writes a prenex form as a QDIMACS file into a buffer and says how many bytes
/// it takes.
pub fn write_qdimacs(form: &PrenexForm, text: &mut [u8]) -> Result<usize, Refusal> {
    let mut answer = TextAnswer::default();
    raw::write_qdimacs(form, text, &mut answer);
    written(answer)
}

/// Bytes enough for the QCIR file of any form with so many nodes, prefix blocks
/// and variables.
pub const fn qcir_room(nodes: usize, blocks: usize, entries: usize) -> usize {
    31 * (nodes + 1) + 7 * blocks + 8 * entries
}

/// Bytes enough for the QDIMACS file of any form with so many nodes, prefix
/// blocks and variables.
pub const fn qdimacs_room(nodes: usize, blocks: usize, entries: usize) -> usize {
    64 * (nodes + 1) + 4 * blocks + 6 * entries
}

/// The text that a call writes for a form into a buffer with this room.
fn text_of(
    form: &PrenexForm,
    room: fn(usize, usize, usize) -> usize,
    write: fn(&PrenexForm, &mut [u8]) -> Result<usize, Refusal>,
) -> Result<Vec<u8>, Refusal> {
    let (nodes, blocks) = (form.nodes.len() / WIDTH, form.prefix.len() / 3);
    let mut text = vec![0; room(nodes, blocks, form.variables.len())];
    let bytes = write(form, &mut text)?;
    text.truncate(bytes);
    Ok(text)
}

/// Allocates room and writes a prenex form as a QCIR file.
pub fn qcir_text(form: &PrenexForm) -> Result<Vec<u8>, Refusal> {
    text_of(form, qcir_room, write_qcir)
}

/// Allocates room and writes a prenex form as a QDIMACS file: true exactly if
/// some valuation of the form's free variables makes the form true.
pub fn qdimacs_text(form: &PrenexForm) -> Result<Vec<u8>, Refusal> {
    text_of(form, qdimacs_room, write_qdimacs)
}

/// The format of a text that lifting writes.
#[derive(Clone, Copy, Debug, PartialEq, Eq, Hash)]
pub enum Format {
    Qcir,
    Qdimacs,
}

impl Format {
    pub const ALL: [Format; 2] = [Format::Qcir, Format::Qdimacs];

    /// Its number in the C interface.
    pub const fn number(self) -> u32 {
        match self {
            Format::Qcir => 1,
            Format::Qdimacs => 2,
        }
    }

    /// Bytes enough for what lifting any text writes in this format.
    pub const fn room(self) -> usize {
        // No table's form has more nodes, prefix blocks or variables.
        let (nodes, blocks, entries) = (MOST_NODES, 4_097, 12_288);
        match self {
            Format::Qcir => qcir_room(nodes, blocks, entries),
            Format::Qdimacs => qdimacs_room(nodes, blocks, entries),
        }
    }
}

/// The text that lifting writes.
#[derive(Clone, Debug, PartialEq, Eq)]
pub struct LiftedText {
    pub text: Vec<u8>,
    /// The sizes of the table that was read and of its prenex form.
    pub sizes: Sizes,
}

/// Reads a QCIR file, lifts it and writes its prenex form as a text into a
/// buffer: one call from bytes to bytes, proved as a whole. A QCIR text has the
/// file's truth value under every valuation; a QDIMACS text is true exactly if
/// some valuation of the file's free variables makes the file true.
///
/// A file is refused as [`read_qcir`] refuses it, and any other by 9 exactly if
/// the buffer is shorter than the text; [`Format::room`] is always enough. On
/// refusal the buffer is as it was; if done, so is what stands after the text.
///
/// It takes 1.3 MiB of stack; [`lift_text`] takes less.
pub fn lift_text_into(text: &[u8], format: Format, out: &mut [u8]) -> Result<WrittenText, Refusal> {
    let mut answer = LiftTextAnswer::default();
    raw::lift_text(text, format.number(), out, &mut answer);
    written_text(answer)
}

/// A lift of a text that has been answered.
fn written_text(answer: LiftTextAnswer) -> Result<WrittenText, Refusal> {
    let [number, position, bytes, sizes @ ..] = answer;
    let bytes = written([number, position, bytes])?;
    let sizes = Sizes::from_words(sizes.map(|size| size as u32));
    Ok(WrittenText { bytes, sizes })
}

/// The most nodes of a table's form.
const MOST_NODES: usize = 40_960;

/// Words enough for the nodes of any table's form.
pub const NODES_ROOM: usize = WIDTH * MOST_NODES;

/// Allocates room, also for the form's nodes, and does what [`lift_text_into`]
/// does. It is never refused by 9.
pub fn lift_text(text: &[u8], format: Format) -> Result<LiftedText, Refusal> {
    let mut nodes = vec![0; NODES_ROOM];
    let mut out = vec![0; format.room()];
    let mut answer = LiftTextAnswer::default();
    raw::lift_text_in(text, format.number(), &mut nodes, &mut out, &mut answer);
    let WrittenText { bytes, sizes } = written_text(answer)?;
    out.truncate(bytes);
    out.shrink_to_fit();
    Ok(LiftedText { text: out, sizes })
}

/// Reads a QCIR file and measures its table: the sizes of the table and of the
/// prenex form that [`lift_text`] writes. Refused as [`read_qcir`] refuses.
pub fn measure_text(text: &[u8]) -> Result<Sizes, Refusal> {
    let mut answer = MeasureTextAnswer::default();
    raw::measure_text(text, &mut answer);
    match answer {
        [0, _, sizes @ ..] => Ok(Sizes::from_words(sizes)),
        [number, position, ..] => Err(refusal(number, position.into(), [0, 0])),
    }
}

/// Adds up up to 256 lines of figures, seven words each as [`answer::line`] gives
/// them: files read and refused, the sums of the six figures, and the nodes of the
/// file that grew most, by nodes written over input nodes. A refused line's six
/// are read as zeros, and a line with 0 input nodes takes no part in growth.
///
/// Refused by 1 if a line has not seven words, then by 20.
pub fn growth(lines: &[u32]) -> Result<Growth, Refusal> {
    let mut answer = GrowthAnswer::default();
    raw::growth(lines, &mut answer);
    match answer {
        [0, _, words @ ..] => Ok(Growth::from_words(words)),
        [number, position, ..] => Err(refusal(number as u32, position, [0, 0])),
    }
}

/// How many names a text has: one a line, empty lines skipped, the last line with
/// or without a line feed. Refused by 20 if there are over 256, then by 21 if one
/// is over 255 bytes.
pub fn names(text: &[u8]) -> Result<u32, Refusal> {
    let mut answer = NamesAnswer::default();
    raw::names(text, &mut answer);
    match answer {
        [0, _, names] => Ok(names),
        [number, position, _] => Err(refusal(number, position.into(), [0, 0])),
    }
}

/// Writes a growth report into a buffer and says how many bytes it takes: for each
/// name of a text its line of figures, a refused one's six being zeros, then
/// `total` and what [`growth()`] says of the lines.
///
/// The names are refused as [`names`] refuses them; then the lines by 1 if there
/// are not seven words for each name; then the buffer by 9 exactly if it is
/// shorter than the report. [`REPORT_ROOM`] is always enough. On refusal the buffer
/// is as it was; if done, so is what stands after the report.
pub fn report_into(names: &[u8], lines: &[u32], out: &mut [u8]) -> Result<usize, Refusal> {
    let mut answer = TextAnswer::default();
    raw::report(names, lines, out, &mut answer);
    written(answer)
}

/// Bytes enough for any report: 256 names of 255 bytes, each with seven figures,
/// and ten figures after `total`, a figure taking a space and up to 20 digits.
pub const REPORT_ROOM: usize = 256 * (255 + 7 * 21 + 1) + 5 + 10 * 21 + 1;

/// Allocates room and does what [`report_into`] does. It is never refused by 9.
pub fn report(names: &[u8], lines: &[u32]) -> Result<Vec<u8>, Refusal> {
    let mut out = vec![0; REPORT_ROOM];
    let bytes = report_into(names, lines, &mut out)?;
    out.truncate(bytes);
    Ok(out)
}
