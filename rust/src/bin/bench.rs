//! Times measure and lift, listing the free variables and removing empty blocks,
//! the library beside the reference.
//!
//!     cargo run --release --bin bench

use std::hint::black_box;
use std::time::{Duration, Instant};
use wakubinryo::generate::{empty_nest, every_fourth_empty};
use wakubinryo::generate::{Family, Table, FAMILIES, HIGH_LEAVES};
use wakubinryo::timing::{all_rounds, growth, warn_if_not_release};
use wakubinryo::timing::{Times, ROUNDS, RUNS, WARM_UP};
use wakubinryo::{reference, PrenexForm, Refusal, Sizes, WIDTH};

const NODES: [usize; 3] = [1024, 2048, 4096];

type Measure = fn(&[u32], &[u32]) -> Result<Sizes, Refusal>;
type Lift = fn(&[u32], &[u32], &mut [u32], &mut [u32], &mut [u32]) -> Result<Sizes, Refusal>;
/// Listing free variables or removing empty blocks.
type Write = fn(&[u32], &[u32], &mut [u32]) -> Result<u32, Refusal>;

/// What is timed. A value is the buffers that one side writes.
trait Timed: Clone + PartialEq {
    /// The heading, in two lines of seven, of the column for `size`.
    const HEADING: [&str; 2];

    /// Buffers of exactly the sizes that a table needs.
    fn room(table: &Table) -> Self;

    /// One run into the buffers as they are, of the library (side 0) or of the
    /// reference (side 1).
    fn run(&mut self, side: usize, table: &Table) -> Duration;

    fn size(&self) -> usize;
}

/// One measure and one lift.
impl Timed for PrenexForm {
    const HEADING: [&str; 2] = ["nodes  ", "written"];

    fn room(table: &Table) -> PrenexForm {
        let sizes = reference::measure(&table.words, &table.list);
        PrenexForm::with_sizes(&sizes.expect("accepted"))
    }

    fn run(&mut self, side: usize, table: &Table) -> Duration {
        const SIDES: [(Measure, Lift); 2] = [
            (wakubinryo::measure, wakubinryo::lift),
            (reference::measure, reference::lift),
        ];
        let (measure, lift) = SIDES[side];
        let start = Instant::now();
        let (words, list) = black_box((table.words.as_slice(), table.list.as_slice()));
        let measured = black_box(measure(words, list));
        let lifted = black_box(lift(
            words,
            list,
            &mut self.nodes,
            &mut self.prefix,
            &mut self.variables,
        ));
        let time = start.elapsed();
        assert!(measured.is_ok() && measured == lifted);
        time
    }

    fn size(&self) -> usize {
        self.nodes.len() / WIDTH
    }
}

/// The time of one writing into a buffer, and its answer.
fn time(write: Write, table: &Table, out: &mut [u32]) -> (Duration, Result<u32, Refusal>) {
    let start = Instant::now();
    let (words, list) = black_box((table.words.as_slice(), table.list.as_slice()));
    let written = black_box(write(words, list, out));
    (start.elapsed(), written)
}

/// One listing of the free variables.
#[derive(Clone, PartialEq)]
struct Names(Vec<u32>);

impl Timed for Names {
    const HEADING: [&str; 2] = ["       ", "  names"];

    fn room(table: &Table) -> Names {
        let mut names = vec![0; table.len()];
        let written = reference::free_variables(&table.words, &table.list, &mut names);
        Names(vec![0; written.expect("accepted") as usize])
    }

    fn run(&mut self, side: usize, table: &Table) -> Duration {
        const SIDES: [Write; 2] = [wakubinryo::free_variables, reference::free_variables];
        let (time, written) = time(SIDES[side], table, &mut self.0);
        assert_eq!(written, Ok(self.size() as u32));
        time
    }

    fn size(&self) -> usize {
        self.0.len()
    }
}

/// One removal of empty blocks.
#[derive(Clone, PartialEq)]
struct NodesLeft(Vec<u32>);

impl Timed for NodesLeft {
    const HEADING: [&str; 2] = ["nodes  ", "   left"];

    fn room(table: &Table) -> NodesLeft {
        let mut nodes = vec![0; table.words.len()];
        let left = reference::remove_empty_blocks(&table.words, &table.list, &mut nodes);
        NodesLeft(vec![0; WIDTH * left.expect("not refused") as usize])
    }

    fn run(&mut self, side: usize, table: &Table) -> Duration {
        const SIDES: [Write; 2] = [
            wakubinryo::remove_empty_blocks,
            reference::remove_empty_blocks,
        ];
        let (time, left) = time(SIDES[side], table, &mut self.0);
        assert_eq!(left, Ok(self.size() as u32));
        time
    }

    fn size(&self) -> usize {
        self.0.len() / WIDTH
    }
}

/// The largest number of blocks on a path from the root, empty or not.
fn depth(table: &Table) -> usize {
    let mut depths: Vec<usize> = Vec::new();
    for i in 0..table.len() {
        depths.push(match table.node(i) {
            [3, operand, ..] => depths[operand as usize],
            [4, _, left, right] => depths[left as usize].max(depths[right as usize]),
            [5 | 6, _, _, body] => depths[body as usize] + 1,
            _ => 0,
        });
    }
    depths.pop().expect("a root")
}

/// A table, and for library and reference what they write and times.
struct Bench<T> {
    table: Table,
    written: [T; 2],
    times: Times,
}

impl<T: Timed> Bench<T> {
    fn new(table: Table) -> Bench<T> {
        let room = T::room(&table);
        Bench {
            table,
            written: [room.clone(), room],
            times: Times::default(),
        }
    }

    /// Some runs, library and reference in turn.
    fn round(&mut self) {
        let (table, written) = (&self.table, &mut self.written);
        self.times.round(|side| written[side].run(side, table));
        assert!(
            self.written[0] == self.written[1],
            "library and reference differ"
        );
    }
}

/// Times tables of all sizes made from some families, and prints a line for each.
fn print_times<T: Timed>(
    families: impl IntoIterator<Item = (&'static str, Family)>,
    table: impl Fn(Family, usize) -> Table,
) {
    let [upper, lower] = T::HEADING;
    println!();
    println!(
        "                                   {upper} library  reference           growth of  growth of"
    );
    println!(
        "family               nodes  depth  {lower}      us         us   ratio     library  reference"
    );
    for (name, family) in families {
        let mut benches = NODES.map(|nodes| Bench::<T>::new(table(family, nodes)));
        all_rounds(&mut benches, Bench::round);
        let mut before: Option<[f64; 2]> = None;
        for bench in &mut benches {
            let [library, plain] = bench.times.medians();
            let growth = growth(before, [library, plain]);
            let (n, depth) = (bench.table.len(), depth(&bench.table));
            let size = bench.written[0].size();
            let line = format!(
                "{name:<20} {n:>5} {depth:>6} {size:>8} {library:>7.1} {plain:>10.1} {:>7.2} {growth}",
                library / plain
            );
            println!("{}", line.trim_end());
            before = Some([library, plain]);
        }
    }
}

fn main() {
    println!("One measure and one lift of a table: the library beside the reference, an");
    println!("implementation in plain Rust. Same input, same process, run in turn; both built");
    println!(
        "for release; buffers not cleared in between. Times are medians of {} runs, in",
        ROUNDS * RUNS
    );
    println!("{ROUNDS} rounds of {RUNS} after {WARM_UP} to warm up. Ratio is library over reference; growth is");
    println!("the time over that at half the nodes.");
    warn_if_not_release();
    let as_it_is = |family: Family, nodes: usize| family(nodes);
    print_times::<PrenexForm>(FAMILIES, as_it_is);
    println!();
    println!("One listing of a table's free variables, likewise.");
    print_times::<Names>(FAMILIES.into_iter().chain([HIGH_LEAVES]), as_it_is);
    println!();
    println!("One removal of a table's empty blocks, likewise. There are none.");
    print_times::<NodesLeft>(FAMILIES, as_it_is);
    println!();
    println!("Every fourth node is an empty block.");
    print_times::<NodesLeft>(FAMILIES, every_fourth_empty);
    println!();
    println!("All nodes but a leaf are.");
    print_times::<NodesLeft>([("nest of empty blocks", empty_nest as Family)], as_it_is);
}
