//! Times growth reports, the library beside the independent implementation.
//!
//!     cargo run --release --bin bench_report

use std::hint::black_box;
use std::time::{Duration, Instant};
use wakubinryo::generate::Rng;
use wakubinryo::timing::{all_rounds, growth, warn_if_not_release};
use wakubinryo::timing::{Times, ROUNDS, RUNS, WARM_UP};
use wakubinryo::{growth as reference, report_into, Line, REPORT_ROOM};

const FILES: [usize; 3] = [64, 128, 256];

/// Names of so many bytes, with a line of figures each, and the report of both;
/// a buffer for it, and times.
struct Bench {
    names: Vec<u8>,
    lines: Vec<u32>,
    report: Vec<u8>,
    out: Vec<u8>,
    times: Times,
}

impl Bench {
    fn new(files: usize, bytes: usize) -> Bench {
        let mut rng = Rng::new(files as u64);
        let names = [vec![b'x'; bytes], b"\n".to_vec()].concat().repeat(files);
        let lines: Vec<Line> = (0..files)
            .map(|_| Line::default().map(|_| rng.below(40_960) as u32))
            .map(|[_, n, b, q, d, w, v]| [0, n, b, q, d, w, v])
            .collect();
        let lines = lines.as_flattened().to_vec();
        let report = reference::report(&names, &lines).expect("accepted");
        Bench {
            names,
            lines,
            report,
            out: vec![0; REPORT_ROOM],
            times: Times::default(),
        }
    }

    /// One report by the library, into the buffer as it is.
    fn library(&mut self) -> Duration {
        let start = Instant::now();
        let bytes = report_into(black_box(&self.names), &self.lines, &mut self.out);
        let time = start.elapsed();
        let bytes = bytes.expect("accepted");
        assert!(self.out[..bytes] == self.report, "the reports differ");
        time
    }

    /// One by the independent implementation, into a vector of its own.
    fn plain(&self) -> Duration {
        let start = Instant::now();
        let report = black_box(reference::report(black_box(&self.names), &self.lines));
        let time = start.elapsed();
        assert!(report.as_ref() == Ok(&self.report), "the reports differ");
        time
    }

    fn round(&mut self) {
        let mut times = std::mem::take(&mut self.times);
        times.round(|side| {
            if side == 0 {
                self.library()
            } else {
                self.plain()
            }
        });
        self.times = times;
    }
}

fn main() {
    println!("One growth report of names and figures: the library beside the reference, an");
    println!("implementation in plain Rust that makes a vector. Same input, same process, run in");
    println!(
        "turn; both built for release. Times are medians of {} runs, in {ROUNDS} rounds of",
        ROUNDS * RUNS
    );
    println!("{RUNS} after {WARM_UP} to warm up; growth is the time over that at half the files.");
    warn_if_not_release();
    println!();
    println!("                             library  reference           growth of  growth of");
    println!("names of       files  bytes       us         us   ratio     library  reference");
    for bytes in [8, 255] {
        let mut benches = FILES.map(|files| Bench::new(files, bytes));
        all_rounds(&mut benches, Bench::round);
        let mut before: Option<[f64; 2]> = None;
        for (bench, files) in benches.iter_mut().zip(FILES) {
            let [library, plain] = bench.times.medians();
            let grown = growth(before, [library, plain]);
            let line = format!(
                "{bytes:>3} bytes      {files:>5} {:>6} {library:>8.1} {plain:>10.1} {:>7.2} {grown}",
                bench.report.len(),
                library / plain
            );
            println!("{}", line.trim_end());
            before = Some([library, plain]);
        }
    }
}
