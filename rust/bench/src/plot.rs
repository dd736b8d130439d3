//! A plot with two logarithmic axes, as SVG.

use std::fmt::Write;

/// A named line through points.
pub struct Curve {
    /// What it shows.
    pub name: String,
    /// Its colour.
    pub colour: &'static str,
    /// Is it dashed?
    pub dashed: bool,
    /// Points, ascending by the first.
    pub points: Vec<(f64, f64)>,
}

/// Where the axes stand.
const LEFT: f64 = 70.0;
const RIGHT: f64 = 560.0;
const TOP: f64 = 40.0;
const BOTTOM: f64 = 400.0;
const WIDTH: f64 = 780.0;
const HEIGHT: f64 = 460.0;

/// From values to places: the lowest and the highest of each axis.
struct Scale {
    x: (f64, f64),
    y: (f64, f64),
}

/// How far a value is between two others, by logarithms.
fn part(value: f64, (low, high): (f64, f64)) -> f64 {
    (value / low).ln() / (high / low).ln()
}

impl Scale {
    /// Whole powers of two across and of ten up that hold all points.
    fn of(curves: &[Curve]) -> Scale {
        let points = || curves.iter().flat_map(|curve| &curve.points);
        let low = |values: &mut dyn Iterator<Item = f64>| values.fold(f64::MAX, f64::min);
        let high = |values: &mut dyn Iterator<Item = f64>| values.fold(0.0, f64::max);
        let x = (
            low(&mut points().map(|point| point.0)),
            high(&mut points().map(|point| point.0)),
        );
        let y = (
            10_f64.powf(low(&mut points().map(|point| point.1)).log10().floor()),
            10_f64.powf(high(&mut points().map(|point| point.1)).log10().ceil()),
        );
        Scale { x, y }
    }

    fn place(&self, (x, y): (f64, f64)) -> (f64, f64) {
        let across = LEFT + part(x, self.x) * (RIGHT - LEFT);
        let up = BOTTOM - part(y, self.y) * (BOTTOM - TOP);
        (across, up)
    }
}

/// Text at a place.
fn text(x: f64, y: f64, anchor: &str, words: &str) -> String {
    format!("<text x=\"{x:.1}\" y=\"{y:.1}\" text-anchor=\"{anchor}\">{words}</text>\n")
}

/// A line from place to place.
fn line(from: (f64, f64), to: (f64, f64), colour: &str) -> String {
    format!(
        "<line x1=\"{:.1}\" y1=\"{:.1}\" x2=\"{:.1}\" y2=\"{:.1}\" stroke=\"{colour}\"/>\n",
        from.0, from.1, to.0, to.1
    )
}

/// Nanoseconds as people say them.
fn duration(nanoseconds: f64) -> String {
    match nanoseconds {
        n if n < 1e3 => format!("{n:.0} ns"),
        n if n < 1e6 => format!("{:.0} µs", n / 1e3),
        n => format!("{:.0} ms", n / 1e6),
    }
}

/// Lines across at powers of ten, and up at powers of two.
fn grid(scale: &Scale) -> String {
    let mut svg = String::new();
    let mut y = scale.y.0;
    while y <= scale.y.1 * 1.001 {
        let (_, up) = scale.place((scale.x.0, y));
        svg += &line((LEFT, up), (RIGHT, up), "#ccc");
        svg += &text(LEFT - 8.0, up + 4.0, "end", &duration(y));
        y *= 10.0;
    }
    let mut x = scale.x.0;
    while x <= scale.x.1 * 1.001 {
        let (across, _) = scale.place((x, scale.y.0));
        svg += &line((across, TOP), (across, BOTTOM), "#eee");
        svg += &text(across, BOTTOM + 18.0, "middle", &format!("{x:.0}"));
        x *= 2.0;
    }
    svg
}

/// A curve, and its name beside the last point.
fn curve(scale: &Scale, curve: &Curve, legend: usize) -> String {
    let places = curve.points.iter().map(|point| scale.place(*point));
    let points: String = places.map(|(x, y)| format!("{x:.1},{y:.1} ")).collect();
    let dashes = if curve.dashed { "6 4" } else { "none" };
    let colour = curve.colour;
    let mut svg = format!(
        "<polyline points=\"{}\" fill=\"none\" stroke=\"{colour}\" stroke-width=\"2\" stroke-dasharray=\"{dashes}\"/>\n",
        points.trim_end()
    );
    let y = TOP + 10.0 + 22.0 * legend as f64;
    let _ = writeln!(
        svg,
        "<line x1=\"{:.0}\" y1=\"{y:.0}\" x2=\"{:.0}\" y2=\"{y:.0}\" stroke=\"{colour}\" stroke-width=\"2\" stroke-dasharray=\"{dashes}\"/>",
        RIGHT + 16.0,
        RIGHT + 44.0
    );
    svg + &text(RIGHT + 50.0, y + 4.0, "start", &curve.name)
}

/// The whole picture.
pub fn plot(title: &str, across: &str, curves: &[Curve]) -> String {
    let scale = Scale::of(curves);
    let mut svg = format!(
        "<svg xmlns=\"http://www.w3.org/2000/svg\" viewBox=\"0 0 {WIDTH} {HEIGHT}\" font-family=\"sans-serif\" font-size=\"12\">\n\
         <rect width=\"{WIDTH}\" height=\"{HEIGHT}\" fill=\"white\"/>\n"
    );
    svg += &text(LEFT, TOP - 16.0, "start", title);
    svg += &grid(&scale);
    svg += &text((LEFT + RIGHT) / 2.0, BOTTOM + 40.0, "middle", across);
    for (legend, one) in curves.iter().enumerate() {
        svg += &curve(&scale, one, legend);
    }
    svg + "</svg>\n"
}
