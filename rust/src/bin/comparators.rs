//! Prints a row of comparators as a QCIR file: examples/comparators.qcir of any
//! length.
//!
//!     cargo run --release --bin comparators -- 5 > row.qcir

use std::io::{self, Write};
use std::process::ExitCode;
use wakubinryo::comparators::row;

/// A longer row is not accepted: it has over 4,096 nodes.
const MOST: u32 = 273;

fn main() -> ExitCode {
    let mut words = std::env::args().skip(1);
    let cells = words.next().and_then(|word| word.parse().ok());
    match (cells, words.next()) {
        (Some(cells @ 1..=MOST), None) => match io::stdout().write_all(&row(cells).text()) {
            Ok(()) => ExitCode::SUCCESS,
            Err(error) => {
                eprintln!("standard output: {error}");
                ExitCode::from(2)
            }
        },
        _ => {
            eprintln!("usage: comparators CELLS, from 1 to {MOST}");
            ExitCode::from(2)
        }
    }
}
