//! Plots as SVG: a frame with two axes, paths, dots and text.

/// The frame of a plot in its drawing.
pub const LEFT: f64 = 80.0;
pub const RIGHT: f64 = 600.0;
pub const TOP: f64 = 60.0;
pub const BOTTOM: f64 = 400.0;
const WIDTH: f64 = 720.0;

pub const BLACK: &str = "#222";
pub const GREY: &str = "#ddd";
pub const GREEN: &str = "#0b6e4f";
pub const RED: &str = "#b3261e";

/// Text that starts, ends or has its middle at a point.
pub fn text(at: [f64; 2], anchor: &str, colour: &str, words: &str) -> String {
    let [x, y] = at;
    let style = format!("text-anchor=\"{anchor}\" fill=\"{colour}\"");
    format!("<text x=\"{x:.1}\" y=\"{y:.1}\" {style}>{words}</text>\n")
}

pub fn path(steps: &str, colour: &str) -> String {
    format!("<path d=\"{steps}\" fill=\"none\" stroke=\"{colour}\"/>\n")
}

/// A line through points.
pub fn polyline(points: &[[f64; 2]], colour: &str) -> String {
    let points = points.iter().map(|[x, y]| format!("{x:.1} {y:.1}"));
    let steps = points.collect::<Vec<_>>().join("L");
    path(&format!("M{steps}"), colour)
}

/// A dot at each point.
pub fn dots(points: &[[f64; 2]], colour: &str) -> String {
    let dot = |[x, y]: &[f64; 2]| format!("<circle cx=\"{x:.1}\" cy=\"{y:.1}\" r=\"3\"/>\n");
    let dots: String = points.iter().map(dot).collect();
    format!("<g fill=\"{colour}\">\n{dots}</g>\n")
}

/// A number with commas between its thousands.
pub fn with_commas(number: f64) -> String {
    let digits = format!("{number:.0}");
    let mut text = String::new();
    for (i, digit) in digits.chars().enumerate() {
        if i > 0 && (digits.len() - i) % 3 == 0 {
            text.push(',');
        }
        text.push(digit);
    }
    text
}

enum Scale {
    /// From 0 to this number.
    Linear(f64),
    /// Between these powers of ten.
    Logarithmic([i32; 2]),
}

/// An axis: its scale, the numbers marked on it with their labels, and its name.
pub struct Axis {
    scale: Scale,
    marks: Vec<(f64, String)>,
    name: &'static str,
}

impl Axis {
    /// From 0 to the last number, with marks at a distance.
    pub fn linear(last: u32, distance: usize, name: &'static str) -> Axis {
        let numbers = (0..=last).step_by(distance);
        Axis {
            scale: Scale::Linear(last.into()),
            marks: numbers.map(|n| (n.into(), n.to_string())).collect(),
            name,
        }
    }

    /// Between two powers of ten, with marks at these and all between.
    pub fn logarithmic(powers: [i32; 2], name: &'static str) -> Axis {
        let label = |power| format!("10<tspan dy=\"-6\" font-size=\"10\">{power}</tspan>");
        let [lowest, highest] = powers;
        Axis {
            scale: Scale::Logarithmic(powers),
            marks: (lowest..=highest)
                .map(|power| (10f64.powi(power), label(power)))
                .collect(),
            name,
        }
    }

    /// The numbers at its start and end.
    pub fn ends(&self) -> [f64; 2] {
        match self.scale {
            Scale::Linear(last) => [0.0, last],
            Scale::Logarithmic(powers) => powers.map(|power| 10f64.powi(power)),
        }
    }

    /// How far along the axis a number is: 0 at its start, 1 at its end.
    fn part(&self, number: f64) -> f64 {
        match self.scale {
            Scale::Linear(last) => number / last,
            Scale::Logarithmic([lowest, highest]) => {
                (number.log10() - f64::from(lowest)) / f64::from(highest - lowest)
            }
        }
    }
}

/// The axes of a plot.
pub struct Axes {
    pub across: Axis,
    pub up: Axis,
}

impl Axes {
    /// The point in the drawing for a number on each axis.
    pub fn point(&self, [across, up]: [f64; 2]) -> [f64; 2] {
        [
            LEFT + (RIGHT - LEFT) * self.across.part(across),
            BOTTOM - (BOTTOM - TOP) * self.up.part(up),
        ]
    }

    pub fn draw(&self) -> String {
        let mut svg = String::new();
        for (number, label) in &self.up.marks {
            let y = BOTTOM - (BOTTOM - TOP) * self.up.part(*number);
            svg += &path(&format!("M{LEFT} {y:.1}H{RIGHT}"), GREY);
            svg += &text([LEFT - 10.0, y + 5.0], "end", BLACK, label);
        }
        for (number, label) in &self.across.marks {
            let x = LEFT + (RIGHT - LEFT) * self.across.part(*number);
            svg += &path(&format!("M{x:.1} {BOTTOM}v6"), BLACK);
            svg += &text([x, BOTTOM + 24.0], "middle", BLACK, label);
        }
        svg += &path(&format!("M{LEFT} {TOP}V{BOTTOM}H{RIGHT}"), BLACK);
        let (x, y) = ((LEFT + RIGHT) / 2.0, (TOP + BOTTOM) / 2.0);
        svg += &text([x, BOTTOM + 52.0], "middle", BLACK, self.across.name);
        svg += &format!("<g transform=\"translate(24 {y:.1}) rotate(-90)\">\n");
        svg += &text([0.0, 0.0], "middle", BLACK, self.up.name);
        svg + "</g>\n"
    }
}

/// A drawing of this height with a title above what it holds.
pub fn drawing(height: f64, title: &str, content: &str) -> String {
    let size = format!("viewBox=\"0 0 {WIDTH} {height}\" width=\"{WIDTH}\" height=\"{height}\"");
    let font = "font-family=\"sans-serif\" font-size=\"14\"";
    format!("<svg xmlns=\"http://www.w3.org/2000/svg\" {size} {font}>\n<title>{title}</title>\n")
        + &format!("<rect width=\"{WIDTH}\" height=\"{height}\" fill=\"#fff\"/>\n")
        + &text([LEFT, 34.0], "start", BLACK, title)
        + content
        + "</svg>\n"
}
