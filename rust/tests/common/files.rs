//! QCIR files to compare, each with words for the buffers to hold before and a
//! length that buffers have to spare.

use super::forms::prefill;
use super::{each, Case, Prefill};
use wakubinryo::circuit::Circuit;
use wakubinryo::generate::Rng;
use wakubinryo::generate_qcir::{damage_once, exchange_names, good_file, spelled};
use wakubinryo::generate_qcir::{with_bound, with_nodes, Layout, FAMILIES};
use wakubinryo::qcir::LONGEST;
use wakubinryo::reference::LIMIT;
use wakubinryo::{Reason, Refusal};

/// How many answers there are of each number.
#[derive(Default)]
struct Counts([u64; 14]);

impl Counts {
    fn add<T>(&mut self, answer: Result<T, Refusal>) {
        let number = answer.map_or_else(|refusal| refusal.reason.number(), |_| 0);
        self.0[number as usize] += 1;
    }

    /// Asserts that each of these numbers has come so often.
    #[track_caller]
    fn assert_many(&self, numbers: &[usize], least: u64) {
        let counts = self.0;
        let many = |&number: &usize| counts[number] >= least;
        assert!(numbers.iter().all(many), "answers by number: {counts:?}");
    }
}

/// Runs `one` for so many good files, most of them small, each with its circuit.
pub fn good_files(files: u64, mut one: impl FnMut(&Circuit, &[u8], Prefill, usize)) {
    each("good files", files, |rng, number| {
        let gates = match number % 200 {
            0 => rng.between(300, 1500),
            1..=19 => rng.between(20, 200),
            _ => rng.between(0, 20),
        };
        let (circuit, text) = good_file(rng, gates);
        let spare = rng.between(1, 40);
        one(&circuit, &text, prefill(number), spare);
    });
}

/// Runs `one` for so many files with a byte, a line or a name changed, or some.
pub fn damaged_files<T>(
    files: u64,
    mut one: impl FnMut(&[u8], Prefill, usize) -> Result<T, Refusal>,
) {
    let mut counts = Counts::default();
    each("damaged files", files, |rng, number| {
        let gates = match number % 400 {
            0 => rng.between(300, 1500),
            1..=19 => rng.between(20, 200),
            _ => rng.between(0, 12),
        };
        let (_, mut text) = good_file(rng, gates);
        for _ in 0..rng.pick(&[1, 1, 2, 5]) {
            damage_once(rng, &mut text);
        }
        let spare = rng.between(1, 40);
        counts.add(one(&text, prefill(number), spare));
    });
    counts.assert_many(&[0, 10, 11, 12, 13], files / 80);
}

/// Runs `one` for so many files that are spelled as they should be and have names
/// where others should stand.
pub fn files_with_names_exchanged<T>(
    files: u64,
    mut one: impl FnMut(&[u8], Prefill, usize) -> Result<T, Refusal>,
) {
    let mut counts = Counts::default();
    each("names exchanged", files, |rng, number| {
        let gates = match number % 400 {
            0 => rng.between(300, 1000),
            1..=19 => rng.between(20, 200),
            _ => rng.between(0, 12),
        };
        let (mut circuit, _) = good_file(rng, gates);
        for _ in 0..rng.pick(&[1, 1, 2, 5]) {
            exchange_names(rng, &mut circuit);
        }
        let layout = Layout::random(rng);
        let text = spelled(rng, &circuit, layout);
        let spare = rng.between(1, 40);
        counts.add(one(&text, prefill(number), spare));
    });
    counts.assert_many(&[0, 11, 12, 13], files / 43);
}

/// Runs `one` for random files at the limit of nodes and of the sum of counts,
/// and over it, made from so many small ones.
pub fn files_at_the_limits_of_tables<T>(
    files: u64,
    mut one: impl FnMut(&[u8], Prefill, usize) -> Result<T, Refusal>,
) {
    let mut compared = [0; 3];
    each("limits of tables", files, |rng, number| {
        let gates = rng.between(5, 700);
        let small = loop {
            let (circuit, text) = good_file(rng, gates);
            if text.len() < 20_000 && circuit.node_count() > 5 {
                break circuit;
            }
        };
        let over = number as usize % 2;
        // At the limit it is accepted, over it refused for this reason.
        let mut compare = |circuit: Circuit, reason: Reason| {
            let answer = one(&circuit.text(), prefill(number / 2), 3);
            let expected = if over == 0 { None } else { Some(reason) };
            assert_eq!(answer.err().map(|refusal| refusal.reason), expected);
        };
        if let Some(circuit) = with_bound(small.clone(), LIMIT + over) {
            compare(circuit, Reason::TooManyVariables);
            compared[0] += 1;
        }
        // A nest of negations, at the end, takes 18 bytes a node.
        let room = (LONGEST - small.text().len()) / 19;
        let nodes = LIMIT + over;
        if small.node_count() + room > nodes {
            if let Some(circuit) = with_nodes(small, nodes) {
                compare(circuit, Reason::TooLarge);
                compared[1 + over] += 1;
            }
        }
    });
    let least = files / 15;
    assert!(compared.iter().all(|&c| c >= least), "{compared:?}");
}

/// Runs `one` for files of every family, as they are and with one change after
/// another, so many.
pub fn families<T>(
    changes: usize,
    mut one: impl FnMut(&[u8], Prefill, usize) -> Result<T, Refusal>,
) {
    let mut counts = Counts::default();
    for (name, family) in FAMILIES {
        for bytes in [2_000, 16_384, 65_536] {
            let _case = Case(name, bytes as u64);
            let mut text = family(bytes);
            assert_eq!(text.len(), bytes);
            counts.add(one(&text, Prefill::Counting, 3));
            let mut rng = Rng::new(bytes as u64);
            for _ in 0..changes {
                damage_once(&mut rng, &mut text);
                let _ = one(&text, Prefill::Pattern, 3);
            }
        }
    }
    counts.assert_many(&[0, 2, 6, 12], 1);
}
