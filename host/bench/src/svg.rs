//! A plot of costs, as SVG: a row of panels for each growth, one panel for GET
//! and one for PUSH.

use std::fmt::Write;

use crate::growth::{Cost, Growth};
use crate::subject::OTHER;

const WIDTH: f64 = 900.0;
const ROW: f64 = 370.0;
const COLOURS: [&str; 2] = ["#1f5fa8", "#c4501b"];
const NAMES: [&str; 2] = ["proved", OTHER];

/// The part of the picture that a panel's lines are drawn in.
struct Panel<'a> {
    left: f64,
    top: f64,
    width: f64,
    height: f64,
    /// What grows, and the largest value on each axis.
    size: &'a str,
    most_size: f64,
    most_micros: f64,
}

impl<'a> Panel<'a> {
    fn new(
        (left, top): (f64, f64),
        size: &'a str,
        costs: &[Cost],
        micros: impl Fn(&Cost) -> [f64; 2],
    ) -> Self {
        let sizes = costs.iter().map(|cost| cost.size as f64).fold(0.0, f64::max);
        let most = costs.iter().flat_map(micros).fold(0.0, f64::max);
        Panel {
            left,
            top,
            width: 350.0,
            height: 260.0,
            size,
            most_size: sizes,
            most_micros: round_up(most),
        }
    }

    fn x(&self, size: f64) -> f64 {
        self.left + size / self.most_size * self.width
    }

    fn y(&self, micros: f64) -> f64 {
        self.top + self.height - micros / self.most_micros * self.height
    }

    fn draw(&self, title: &str, costs: &[Cost], micros: impl Fn(&Cost) -> [f64; 2]) -> String {
        let mut out = self.axes(title, costs);
        for (server, colour) in COLOURS.into_iter().enumerate() {
            let points: Vec<(f64, f64)> = costs
                .iter()
                .map(|cost| (self.x(cost.size as f64), self.y(micros(cost)[server])))
                .collect();
            out += &line(&points, colour);
        }
        out
    }

    fn axes(&self, title: &str, costs: &[Cost]) -> String {
        let (right, bottom) = (self.left + self.width, self.top + self.height);
        let middle = (self.left + right) / 2.0;
        let mut out = text(middle, self.top - 14.0, "middle", title);
        for part in 0..=4 {
            let micros = self.most_micros * f64::from(part) / 4.0;
            let y = self.y(micros);
            out += &stroke((self.left, y), (right, y), "#dddddd");
            out += &text(self.left - 8.0, y + 4.0, "end", &label(micros));
        }
        for cost in costs {
            let x = self.x(cost.size as f64);
            out += &stroke((x, bottom), (x, bottom + 5.0), "#333333");
            out += &text(x, bottom + 20.0, "middle", &cost.size.to_string());
        }
        out += &stroke((self.left, bottom), (right, bottom), "#333333");
        out += &stroke((self.left, self.top), (self.left, bottom), "#333333");
        out += &text(middle, bottom + 42.0, "middle", self.size);
        out
    }
}

/// The plot of how costs grow, a row for each growth.
pub fn plot(growths: &[Growth]) -> String {
    let height = 70.0 + ROW * growths.len() as f64;
    let mut out = format!(
        "<svg xmlns=\"http://www.w3.org/2000/svg\" viewBox=\"0 0 {WIDTH} {height}\" \
         font-family=\"sans-serif\" font-size=\"13\">\n\
         <rect width=\"{WIDTH}\" height=\"{height}\" fill=\"white\"/>\n"
    );
    out += &text(WIDTH / 2.0, 26.0, "middle", "Microseconds a request: 32 users logged in");
    for (place, growth) in growths.iter().enumerate() {
        out += &row(80.0 + ROW * place as f64, growth);
    }
    out += &legend(height - 18.0);
    out + "</svg>\n"
}

fn row(top: f64, Growth { size, at, costs }: &Growth) -> String {
    let size = format!("{size}, {at}");
    let get = Panel::new((70.0, top), &size, costs, |cost| cost.get);
    let push = Panel::new((520.0, top), &size, costs, |cost| cost.push);
    get.draw("GET", costs, |cost| cost.get)
        + &push.draw("PUSH to a held field", costs, |cost| cost.push)
}

fn legend(y: f64) -> String {
    let mut out = String::new();
    for (place, (name, colour)) in NAMES.into_iter().zip(COLOURS).enumerate() {
        let x = WIDTH / 2.0 - 110.0 + 130.0 * place as f64;
        out += &line(&[(x, y), (x + 30.0, y)], colour);
        out += &text(x + 38.0, y + 4.0, "start", name);
    }
    out
}

/// The next of 1, 2, 4, 6, 8 and their multiples by ten.
fn round_up(value: f64) -> f64 {
    let unit = 10f64.powf(value.max(1e-3).log10().floor());
    let steps = [1.0, 2.0, 4.0, 6.0, 8.0, 10.0];
    steps.into_iter().map(|step| step * unit).find(|step| *step >= value).unwrap_or(value)
}

fn label(micros: f64) -> String {
    if micros.fract() == 0.0 {
        format!("{micros:.0}")
    } else {
        format!("{micros:.2}").trim_end_matches('0').into()
    }
}

fn text(x: f64, y: f64, anchor: &str, words: &str) -> String {
    format!("<text x=\"{x:.1}\" y=\"{y:.1}\" text-anchor=\"{anchor}\">{words}</text>\n")
}

fn stroke(from: (f64, f64), to: (f64, f64), colour: &str) -> String {
    format!(
        "<line x1=\"{:.1}\" y1=\"{:.1}\" x2=\"{:.1}\" y2=\"{:.1}\" stroke=\"{colour}\"/>\n",
        from.0, from.1, to.0, to.1
    )
}

/// A line through points that are marked.
fn line(points: &[(f64, f64)], colour: &str) -> String {
    let mut out = String::new();
    let places: Vec<String> = points.iter().map(|(x, y)| format!("{x:.1},{y:.1}")).collect();
    let path = places.join(" ");
    writeln!(
        out,
        "<polyline points=\"{path}\" fill=\"none\" stroke=\"{colour}\" stroke-width=\"2\"/>"
    )
    .expect("a string takes every text");
    for (x, y) in points {
        writeln!(out, "<circle cx=\"{x:.1}\" cy=\"{y:.1}\" r=\"3\" fill=\"{colour}\"/>")
            .expect("a string takes every text");
    }
    out
}
