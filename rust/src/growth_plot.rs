//! The plot of a growth report: nodes written against input nodes.

use crate::answer::Line;
use crate::plot::{dots, drawing, path, polyline, text};
use crate::plot::{Axes, Axis, BLACK, BOTTOM, GREEN, LEFT, RED, RIGHT, TOP};

const HEIGHT: f64 = 500.0;
const PALE_RED: &str = "#e3b4b0";
const DARK_GREY: &str = "#777";

/// An accepted file: its input nodes, the nodes written and the bound on these,
/// n + 5b + 4q. A number of 0, which no file has, is drawn as 1.
struct File {
    input: u64,
    written: u64,
    bound: u64,
}

impl File {
    fn of_line(&line: &Line) -> Option<File> {
        let [number, n, b, q, _, written, _] = line.map(u64::from);
        (number == 0).then(|| File {
            input: n.max(1),
            written: written.max(1),
            bound: (n + 5 * b + 4 * q).max(1),
        })
    }
}

/// Powers of ten between which numbers from the least to the most stand.
fn powers(least: u64, most: u64) -> [i32; 2] {
    let lowest = least.ilog10() as i32;
    let highest = (most - 1)
        .checked_ilog10()
        .map_or(0, |power| power as i32 + 1);
    [lowest, highest.max(lowest + 1)]
}

/// The axes for these files: they begin at the same power, so that the line of
/// no growth begins in their corner.
fn axes(files: &[File]) -> Axes {
    let least = files.iter().map(|file| file.input.min(file.written)).min();
    let least = least.unwrap_or(1);
    let most = |number: fn(&File) -> u64| files.iter().map(number).max().unwrap_or(1);
    let input = most(|file| file.input);
    let written = most(|file| file.written.max(file.bound));
    Axes {
        across: Axis::logarithmic(powers(least, input), "input nodes, logarithmic"),
        up: Axis::logarithmic(powers(least, written), "nodes written, logarithmic"),
    }
}

/// A line from a point up to its bound, with a bar at the end.
fn to_bound([x, y]: [f64; 2], bound: f64) -> String {
    path(&format!("M{x:.1} {y:.1}V{bound:.1}"), PALE_RED)
        + &path(&format!("M{:.1} {bound:.1}h6", x - 3.0), RED)
}

/// What the signs mean, below the plot.
fn legend() -> String {
    let y = BOTTOM + 80.0;
    let [file, bound, line] = [LEFT, LEFT + 110.0, LEFT + 320.0];
    let words = |x: f64, words: &str| text([x + 14.0, y], "start", BLACK, words);
    dots(&[[file, y - 5.0]], GREEN)
        + &words(file, "a file")
        + &to_bound([bound, y + 2.0], y - 12.0)
        + &words(bound, "its bound n + 5b + 4q")
        + &polyline(&[[line - 8.0, y + 1.0], [line + 8.0, y - 11.0]], DARK_GREY)
        + &words(line, "no growth: written = input")
}

/// The plot of these lines of figures, with a dot for each accepted file.
pub fn draw(lines: &[Line]) -> String {
    let files: Vec<File> = lines.iter().filter_map(File::of_line).collect();
    let axes = axes(&files);
    let point = |input: u64, written: u64| axes.point([input as f64, written as f64]);
    let mut content = axes.draw();
    let no_growth = axes.across.ends().map(|nodes| axes.point([nodes, nodes]));
    content += &polyline(&no_growth, DARK_GREY);
    for file in &files {
        let [_, bound] = point(file.input, file.bound);
        content += &to_bound(point(file.input, file.written), bound);
    }
    let points: Vec<[f64; 2]> = files
        .iter()
        .map(|file| point(file.input, file.written))
        .collect();
    content += &dots(&points, GREEN);
    if files.is_empty() {
        let at = [(LEFT + RIGHT) / 2.0, TOP + 40.0];
        content += &text(at, "middle", BLACK, "no file is accepted");
    }
    let count = match files.len() {
        1 => "1 accepted file".to_string(),
        count => format!("{count} accepted files"),
    };
    let title = format!("Growth of {count}: nodes written against input nodes");
    drawing(HEIGHT, &title, &(content + &legend()))
}

#[cfg(test)]
mod tests {
    use super::*;

    #[test]
    fn powers_are_next_to_the_numbers() {
        for (least, most, expected) in [
            (1, 1, [0, 1]),
            (1, 10, [0, 1]),
            (9, 11, [0, 2]),
            (10, 10, [1, 2]),
            (45, 71, [1, 2]),
            (100, 4096, [2, 4]),
        ] {
            assert_eq!(powers(least, most), expected, "{least} to {most}");
        }
    }

    #[test]
    fn any_figures_are_drawn() {
        let mut lines = vec![[u32::MAX; 7], [0; 7], [22, 1, 1, 1, 1, 1, 1]];
        lines[0][0] = 0;
        let svg = draw(&lines);
        assert!(!svg.contains("NaN") && !svg.contains("inf"));
        // Two files, and the legend's.
        assert_eq!(svg.matches("<circle").count(), 3);
        assert!(svg.contains("cx=\"80.0\" cy=\"400.0\""));
    }
}
