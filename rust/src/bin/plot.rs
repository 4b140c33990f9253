//! Draws docs/lifting.svg: nodes written against comparators in a row, lifting
//! beside splitting biconditionals.
//!
//!     cargo run --release --bin plot > ../docs/lifting.svg

use std::io::{self, Write};
use wakubinryo::comparators::{row, split_nodes};
use wakubinryo::plot::{dots, drawing, polyline, text, with_commas};
use wakubinryo::plot::{Axes, Axis, GREEN, RED, RIGHT};
use wakubinryo::{measure, read_qcir};

/// The longest row drawn, and the distance of the marks.
const CELLS: u32 = 24;
const DISTANCE: usize = 4;
/// The lowest and highest power of ten of the vertical axis.
const POWERS: [i32; 2] = [1, 9];

const HEIGHT: f64 = 470.0;

/// The nodes of a row's prenex form: as lifting writes it, measured by the
/// library, and as splitting does, counted.
fn nodes(cells: u32) -> [f64; 2] {
    let table = read_qcir(&row(cells).text()).expect("rows are accepted");
    let sizes = measure(&table.words, &table.list).expect("rows are accepted");
    [sizes.nodes as f64, split_nodes(&table) as f64]
}

/// A line with a dot for each row, from one comparator up, and the last number.
fn curve(axes: &Axes, counts: &[f64], colour: &str) -> String {
    let cells = (1..=CELLS).map(f64::from);
    let points: Vec<[f64; 2]> = cells
        .zip(counts)
        .map(|(cells, &count)| axes.point([cells, count]))
        .collect();
    let (last, [_, y]) = (counts[counts.len() - 1], points[points.len() - 1]);
    let number = text([RIGHT + 10.0, y + 5.0], "start", colour, &with_commas(last));
    polyline(&points, colour) + &dots(&points, colour) + &number
}

fn draw() -> String {
    let counts: Vec<[f64; 2]> = (1..=CELLS).map(nodes).collect();
    let [lifted, split] = [0, 1].map(|side| counts.iter().map(|c| c[side]).collect::<Vec<f64>>());
    let axes = Axes {
        across: Axis::linear(CELLS, DISTANCE, "comparators in a row"),
        up: Axis::logarithmic(POWERS, "nodes, logarithmic"),
    };
    // The curves' names stand at two thirds of the row: one below its curve, the
    // other before it.
    let two_thirds = CELLS * 2 / 3;
    let at = |counts: &[f64]| axes.point([two_thirds.into(), counts[two_thirds as usize - 1]]);
    let ([lx, ly], [sx, sy]) = (at(&lifted), at(&split));
    let content = axes.draw()
        + &curve(&axes, &lifted, GREEN)
        + &text([lx, ly + 19.0], "start", GREEN, "lifting")
        + &curve(&axes, &split, RED)
        + &text(
            [sx - 12.0, sy - 4.0],
            "end",
            RED,
            "splitting biconditionals",
        );
    let title = "Prenex form of comparators in a row: nodes written";
    drawing(HEIGHT, title, &content)
}

fn main() -> io::Result<()> {
    io::stdout().lock().write_all(draw().as_bytes())
}
