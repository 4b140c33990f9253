//! Times lifting QCIR files from text to text: the library's one call beside its
//! three calls for reading, lifting and writing, and beside the reference's
//! reader, lifter and writer.
//!
//!     cargo run --release --bin bench_text [qcir | qdimacs]
//!
//! The text is written into a buffer that stands ready before the time is taken,
//! has exactly the length needed and is not cleared in between. So are the table
//! and the form of the reference and, for comparison, of a second run of the
//! three calls. In the first they are made for each file, with room for any, as
//! by a caller who knows nothing but the text: that is what the one call does.

use std::hint::black_box;
use std::time::{Duration, Instant};
use wakubinryo::comparators::row;
use wakubinryo::generate_qcir::{prefix_lines, Family, FAMILIES};
use wakubinryo::timing::{all_rounds, warn_if_not_release, writers_asked_for};
use wakubinryo::timing::{Times, Writer, ROUNDS, RUNS, WARM_UP};
use wakubinryo::{lift, lift_text_into, measure_text, qcir, read_qcir, read_qcir_into, reference};
use wakubinryo::{PrenexForm, Refusal, Sizes, Table, NODES_ROOM, WIDTH};
use wakubinryo::{Written, WrittenText};

const BYTES: [usize; 3] = [16_384, 32_768, 65_536];

/// The largest has some 4,096 nodes.
const CELLS: [usize; 3] = [68, 136, 273];
const LINES: [usize; 3] = [1_023, 2_047, 4_095];

/// Names of families and their files, of three sizes.
fn files() -> Vec<(&'static str, [Vec<u8>; 3])> {
    let mut files = vec![
        (
            "comparators in a row",
            CELLS.map(|cells| row(cells as u32).text()),
        ),
        ("prefix lines", LINES.map(prefix_lines)),
    ];
    let of_bytes = |(name, family): (_, Family)| (name, BYTES.map(family));
    let is_accepted = |text: &Vec<u8>| measure_text(text).is_ok();
    let accepted = FAMILIES.into_iter().map(of_bytes);
    files.extend(accepted.filter(|(_, texts)| texts.iter().all(is_accepted)));
    files
}

type Read = fn(&[u8], &mut [u32], &mut [u32]) -> Result<Written, Refusal>;
type Lift = fn(&[u32], &[u32], &mut [u32], &mut [u32], &mut [u32]) -> Result<Sizes, Refusal>;

/// What one side writes.
#[derive(Clone, PartialEq)]
struct Room {
    table: Table,
    form: PrenexForm,
    text: Vec<u8>,
}

impl Room {
    /// Exactly what a file needs, by the reference.
    fn new(writer: Writer, text: &[u8]) -> Room {
        let sizes = measure_text(text).expect("accepted");
        let mut room = Room {
            table: Table {
                words: vec![0; WIDTH * sizes.n as usize],
                list: vec![0; sizes.q as usize],
            },
            form: PrenexForm::with_sizes(&sizes),
            text: Vec::new(),
        };
        room.run(writer, 3, text);
        room
    }

    fn read_and_lift(&mut self, text: &[u8], read: Read, lift: Lift) {
        let Room { table, form, .. } = self;
        let read = black_box(read(text, &mut table.words, &mut table.list));
        let lifted = black_box(lift(
            &table.words,
            &table.list,
            &mut form.nodes,
            &mut form.prefix,
            &mut form.variables,
        ));
        assert!(read.is_ok() && lifted.is_ok());
    }

    /// One run: the one call (side 0), the three calls with a table and a form
    /// made for the file (side 1) or standing ready (side 2), or the reference
    /// (side 3).
    fn run(&mut self, writer: Writer, side: usize, text: &[u8]) -> Duration {
        let start = Instant::now();
        let text = black_box(text);
        let bytes = match side {
            0 => {
                let lifted = lift_text_into(text, writer.format, &mut self.text);
                lifted.map(|WrittenText { bytes, .. }| bytes)
            }
            1 => three_calls(writer, text, &mut self.text),
            2 => {
                self.read_and_lift(text, read_qcir_into, lift);
                (writer.library)(&self.form, &mut self.text)
            }
            _ => {
                self.read_and_lift(text, qcir::read, reference::lift);
                self.text.clear();
                (writer.reference)(&self.form, &mut self.text).map(|()| self.text.len())
            }
        };
        let bytes = black_box(bytes);
        let time = start.elapsed();
        assert_eq!(bytes, Ok(self.text.len()));
        time
    }
}

/// The three calls, as made by a caller who has room for any file.
fn three_calls(writer: Writer, text: &[u8], out: &mut [u8]) -> Result<usize, Refusal> {
    let table = read_qcir(text)?;
    let mut form = PrenexForm {
        nodes: vec![0; NODES_ROOM],
        prefix: vec![0; 3 * 4_097],
        variables: vec![0; 12_288],
    };
    let sizes = lift(
        &table.words,
        &table.list,
        &mut form.nodes,
        &mut form.prefix,
        &mut form.variables,
    )?;
    form.nodes.truncate(WIDTH * sizes.nodes as usize);
    form.prefix.truncate(3 * sizes.blocks as usize);
    form.variables.truncate(sizes.entries as usize);
    (writer.library)(&form, out)
}

/// A file, and for each side what it writes and times.
struct Bench {
    writer: Writer,
    text: Vec<u8>,
    rooms: [Room; 4],
    times: Times<4>,
}

impl Bench {
    fn new(writer: Writer, text: &[u8]) -> Bench {
        let room = Room::new(writer, text);
        Bench {
            writer,
            text: text.to_vec(),
            rooms: [room.clone(), room.clone(), room.clone(), room],
            times: Times::default(),
        }
    }

    /// Some runs, the sides in turn.
    fn round(&mut self) {
        let (text, rooms) = (&self.text, &mut self.rooms);
        self.times
            .round(|side| rooms[side].run(self.writer, side, text));
        let [one, made, ready, reference] = &self.rooms;
        assert!(
            ready == reference && one.text == reference.text && made.text == reference.text,
            "library and reference differ"
        );
    }
}

fn print_times(writer: Writer) {
    println!();
    println!("{} files:", writer.name);
    println!("                          bytes     bytes       one     three   buffers            ratio to  ratio to");
    println!("family                       in       out      call     calls     ready reference     three reference");
    for (name, texts) in files() {
        let mut benches = texts.map(|text| Bench::new(writer, &text));
        all_rounds(&mut benches, Bench::round);
        for bench in &mut benches {
            let [one, made, ready, reference] = bench.times.medians();
            println!(
                "{name:<24} {:>6} {:>9} {one:>9.1} {made:>9.1} {ready:>9.1} {reference:>9.1} {:>9.2} {:>9.2}",
                bench.text.len(),
                bench.rooms[0].text.len(),
                one / made,
                one / reference
            );
        }
    }
}

fn main() {
    let asked = writers_asked_for();
    println!("One lift of a QCIR file to a prenex file: the library's one call from text to text");
    println!(
        "beside its three calls, which make a table and a form for each file or find them ready,"
    );
    println!("and beside the reference, an implementation in plain Rust, which finds them ready.");
    println!(
        "Same input, same process, run in turn; all built for release; what stands ready is not"
    );
    println!(
        "cleared in between. Times are in microseconds, medians of {} runs, in {ROUNDS} rounds of {RUNS} after {WARM_UP}",
        ROUNDS * RUNS
    );
    println!("to warm up.");
    warn_if_not_release();
    asked.into_iter().for_each(print_times);
}
