//! What the benchmarks share: how often each side runs, medians and growth, and
//! the formats that are written.

use crate::form_check::Limits;
use crate::{write_qcir, write_qdimacs, Format, PrenexForm, Refusal};
use std::env;
use std::time::Duration;

pub const ROUNDS: usize = 20;
pub const RUNS: usize = 50;
pub const WARM_UP: usize = 10;

/// Times of the sides that are compared: the library and the reference, or more.
pub struct Times<const SIDES: usize = 2>([Vec<Duration>; SIDES]);

impl<const SIDES: usize> Default for Times<SIDES> {
    fn default() -> Times<SIDES> {
        Times([const { Vec::new() }; SIDES])
    }
}

impl<const SIDES: usize> Times<SIDES> {
    /// Some runs, the sides in turn: `run` is told the side, 0 for the library,
    /// and says the time. The first ones warm up.
    pub fn round(&mut self, mut run: impl FnMut(usize) -> Duration) {
        for turn in 0..WARM_UP + RUNS {
            for side in 0..SIDES {
                let time = run(side);
                if turn >= WARM_UP {
                    self.0[side].push(time);
                }
            }
        }
    }

    /// Median times in microseconds.
    pub fn medians(&mut self) -> [f64; SIDES] {
        self.0.each_mut().map(|times| {
            times.sort();
            times[times.len() / 2].as_secs_f64() * 1e6
        })
    }
}

/// All rounds of what is timed at several sizes. A round goes through the sizes
/// in turn, so that a slow spell of the machine falls on all of them.
pub fn all_rounds<B>(benches: &mut [B], round: fn(&mut B)) {
    for _ in 0..ROUNDS {
        benches.iter_mut().for_each(round);
    }
}

/// The columns of growth: these times over those at half the size, if any.
pub fn growth(before: Option<[f64; 2]>, [library, plain]: [f64; 2]) -> String {
    match before {
        Some([l, p]) => format!("{:>11.2} {:>10.2}", library / l, plain / p),
        None => String::new(),
    }
}

/// Prints a warning where it is needed.
pub fn warn_if_not_release() {
    if cfg!(debug_assertions) {
        println!("NOT BUILT FOR RELEASE: these figures mean nothing.");
    }
}

/// A format, and what writes it: the library into a buffer, the reference after
/// what a vector holds.
#[derive(Clone, Copy)]
pub struct Writer {
    pub format: Format,
    argument: &'static str,
    pub name: &'static str,
    pub library: fn(&PrenexForm, &mut [u8]) -> Result<usize, Refusal>,
    pub reference: fn(&PrenexForm, &mut Vec<u8>) -> Result<(), Refusal>,
}

const WRITERS: [Writer; 2] = [
    Writer {
        format: Format::Qcir,
        argument: "qcir",
        name: "QCIR",
        library: write_qcir,
        reference: |form, text| write_qcir::append(form, Limits::LIBRARY, text),
    },
    Writer {
        format: Format::Qdimacs,
        argument: "qdimacs",
        name: "QDIMACS",
        library: write_qdimacs,
        reference: write_qdimacs::append,
    },
];

/// The formats to time: the one that the command line names, or both.
pub fn writers_asked_for() -> Vec<Writer> {
    let argument = env::args().nth(1);
    let is_asked = |writer: &Writer| argument.as_deref().is_none_or(|a| a == writer.argument);
    let asked: Vec<Writer> = WRITERS.into_iter().filter(is_asked).collect();
    assert!(!asked.is_empty(), "neither qcir nor qdimacs: {argument:?}");
    asked
}
