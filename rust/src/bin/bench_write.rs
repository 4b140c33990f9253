//! Times writing prenex forms as QCIR and QDIMACS files, the library beside the
//! reference.
//!
//!     cargo run --release --bin bench_write [qcir | qdimacs]

use std::hint::black_box;
use std::time::{Duration, Instant};
use wakubinryo::generate_forms::FAMILIES;
use wakubinryo::timing::{all_rounds, growth, warn_if_not_release, writers_asked_for};
use wakubinryo::timing::{Times, Writer, ROUNDS, RUNS, WARM_UP};
use wakubinryo::{PrenexForm, WIDTH};

const SIZES: [usize; 3] = [10_240, 20_480, 40_960];

/// One writing by the library, into a buffer with room enough.
fn run_library(writer: Writer, form: &PrenexForm, text: &mut [u8]) -> Duration {
    let start = Instant::now();
    let bytes = black_box((writer.library)(black_box(form), text));
    let time = start.elapsed();
    assert_eq!(bytes, Ok(text.len()));
    time
}

/// One writing by the reference, into a vector that has grown already.
fn run_reference(writer: Writer, form: &PrenexForm, text: &mut Vec<u8>) -> Duration {
    let start = Instant::now();
    text.clear();
    let answer = (writer.reference)(black_box(form), black_box(text));
    let time = start.elapsed();
    assert_eq!(answer, Ok(()));
    time
}

/// A form, and for library and reference the text that they write and times.
struct Bench {
    writer: Writer,
    form: PrenexForm,
    texts: [Vec<u8>; 2],
    times: Times,
}

impl Bench {
    fn new(writer: Writer, form: PrenexForm) -> Bench {
        let mut text = Vec::new();
        (writer.reference)(&form, &mut text).expect("written");
        Bench {
            writer,
            form,
            texts: [vec![0; text.len()], text],
            times: Times::default(),
        }
    }

    /// Some runs, library and reference in turn.
    fn round(&mut self) {
        let (form, texts) = (&self.form, &mut self.texts);
        self.times.round(|side| match side {
            0 => run_library(self.writer, form, &mut texts[0]),
            _ => run_reference(self.writer, form, &mut texts[1]),
        });
        assert!(
            self.texts[0] == self.texts[1],
            "library and reference differ"
        );
    }
}

fn print_times(writer: Writer) {
    println!();
    println!("{} files:", writer.name);
    println!(
        "                                                         library  reference           growth of  growth of"
    );
    println!(
        "family                   nodes blocks  names    bytes         us         us   ratio     library  reference"
    );
    for (name, family) in FAMILIES {
        let mut benches = SIZES.map(|size| Bench::new(writer, family(size)));
        all_rounds(&mut benches, Bench::round);
        let mut before: Option<[f64; 2]> = None;
        for bench in &mut benches {
            let [library, plain] = bench.times.medians();
            let growth = growth(before, [library, plain]);
            let line = format!(
                "{name:<23} {:>6} {:>6} {:>6} {:>8} {library:>10.1} {plain:>10.1} {:>7.2} {growth}",
                bench.form.nodes.len() / WIDTH,
                bench.form.prefix.len() / 3,
                bench.form.variables.len(),
                bench.texts[0].len(),
                library / plain
            );
            println!("{}", line.trim_end());
            before = Some([library, plain]);
        }
    }
}

fn main() {
    let asked = writers_asked_for();
    println!("One writing of a prenex form as a file: the library beside the reference, an");
    println!("implementation in plain Rust. Same input, same process, run in turn; both built for");
    println!(
        "release; the library writes into a buffer of the text's length, the reference into a"
    );
    println!(
        "vector that keeps its room. Times are medians of {} runs, in {ROUNDS} rounds of {RUNS} after",
        ROUNDS * RUNS
    );
    println!("{WARM_UP} to warm up. Ratio is library over reference; growth is the time over that at half");
    println!("the size.");
    warn_if_not_release();
    asked.into_iter().for_each(print_times);
}
