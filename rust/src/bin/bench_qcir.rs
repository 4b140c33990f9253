//! Times reading QCIR files, the library beside the reference.
//!
//!     cargo run --release --bin bench_qcir

use std::hint::black_box;
use std::time::{Duration, Instant};
use wakubinryo::generate_qcir::FAMILIES;
use wakubinryo::reference::{LIMIT, WIDTH};
use wakubinryo::timing::{all_rounds, growth, warn_if_not_release};
use wakubinryo::timing::{Times, ROUNDS, RUNS, WARM_UP};
use wakubinryo::{qcir, read_qcir_into, Refusal, Table, Written};

const BYTES: [usize; 3] = [16_384, 32_768, 65_536];

type Answer = Result<Written, Refusal>;
type Read = fn(&[u8], &mut [u32], &mut [u32]) -> Answer;

const SIDES: [Read; 2] = [read_qcir_into, qcir::read];

/// Room for any table.
fn room() -> Table {
    Table {
        words: vec![0; WIDTH * LIMIT],
        list: vec![0; LIMIT],
    }
}

/// One reading into the buffers as they are.
fn run(read: Read, text: &[u8], table: &mut Table) -> (Duration, Answer) {
    let start = Instant::now();
    let answer = black_box(read(black_box(text), &mut table.words, &mut table.list));
    (start.elapsed(), answer)
}

/// A file and its answer, and for library and reference a table to fill and
/// times.
struct Bench {
    text: Vec<u8>,
    answer: Answer,
    tables: [Table; 2],
    times: Times,
}

impl Bench {
    fn new(text: Vec<u8>) -> Bench {
        let mut table = room();
        let answer = qcir::read(&text, &mut table.words, &mut table.list);
        Bench {
            text,
            answer,
            tables: [room(), room()],
            times: Times::default(),
        }
    }

    /// Some runs, library and reference in turn.
    fn round(&mut self) {
        let (text, expected, tables) = (&self.text, &self.answer, &mut self.tables);
        self.times.round(|side| {
            let (time, answer) = run(SIDES[side], text, &mut tables[side]);
            assert!(answer == *expected, "library and reference differ");
            time
        });
        assert!(
            self.tables[0] == self.tables[1],
            "library and reference differ"
        );
    }
}

fn main() {
    println!("One reading of a QCIR file: the library beside the reference, an implementation");
    println!("in plain Rust. Same input, same process, run in turn; both built for release;");
    println!(
        "buffers not cleared in between. Times are medians of {} runs, in {ROUNDS} rounds of",
        ROUNDS * RUNS
    );
    println!(
        "{RUNS} after {WARM_UP} to warm up. Number is the answer's, 0 for a file that is accepted;"
    );
    println!("ratio is library over reference; growth is the time over that at half the bytes.");
    warn_if_not_release();
    println!();
    println!(
        "                                              library  reference           growth of  growth of"
    );
    println!(
        "family                   bytes  number  nodes      us         us   ratio     library  reference"
    );
    for (name, family) in FAMILIES {
        let mut benches = BYTES.map(|bytes| Bench::new(family(bytes)));
        all_rounds(&mut benches, Bench::round);
        let mut before: Option<[f64; 2]> = None;
        for bench in &mut benches {
            let [library, plain] = bench.times.medians();
            let growth = growth(before, [library, plain]);
            let (number, nodes) = match bench.answer {
                Ok(written) => (0, (written.words / WIDTH as u32).to_string()),
                Err(refusal) => (refusal.reason.number(), String::new()),
            };
            let line = format!(
                "{name:<23} {:>6} {number:>7} {nodes:>6} {library:>7.1} {plain:>10.1} {:>7.2} {growth}",
                bench.text.len(),
                library / plain
            );
            println!("{}", line.trim_end());
            before = Some([library, plain]);
        }
    }
}
