//! Plots as SVG, both axes logarithmic, written without help.

use std::fmt::Write;

pub struct Series {
    pub name: String,
    pub points: Vec<(f64, f64)>,
}

const WIDTH: f64 = 760.0;
const HEIGHT: f64 = 460.0;
const LEFT: f64 = 80.0;
const RIGHT: f64 = 190.0;
const TOP: f64 = 50.0;
const BOTTOM: f64 = 60.0;
const COLOURS: [&str; 8] = ["#1b6ca8", "#c8553d", "#3a7d44", "#7b4b94", "#b8860b", "#444444", "#008b8b", "#aa3377"];

/// The powers of ten that hold all values.
fn decades(values: impl Iterator<Item = f64> + Clone) -> (f64, f64) {
    let least = values.clone().fold(f64::INFINITY, f64::min).log10().floor();
    let most = values.fold(0.0, f64::max).log10().ceil();
    (least, most.max(least + 1.0))
}

/// A tick's words: 10⁻⁶ seconds read as 1 µs on a time axis.
fn tick(power: f64, is_time: bool) -> String {
    let units = [(-9.0, "ns"), (-6.0, "µs"), (-3.0, "ms"), (0.0, "s")];
    match units.iter().rev().find(|(exponent, _)| is_time && *exponent <= power) {
        Some((exponent, unit)) => format!("{} {unit}", 10f64.powf(power - exponent)),
        None => format!("{}", 10f64.powf(power)),
    }
}

/// The plot's text; `y` is time in seconds.
pub fn svg(title: &str, x_label: &str, series: &[Series]) -> String {
    let points = || series.iter().flat_map(|one| one.points.iter().copied());
    let (x0, x1) = decades(points().map(|point| point.0));
    let (y0, y1) = decades(points().map(|point| point.1));
    let x = |value: f64| LEFT + (value.log10() - x0) / (x1 - x0) * (WIDTH - LEFT - RIGHT);
    let y = |value: f64| HEIGHT - BOTTOM - (value.log10() - y0) / (y1 - y0) * (HEIGHT - TOP - BOTTOM);
    let mut text = format!(
        "<svg xmlns=\"http://www.w3.org/2000/svg\" width=\"{WIDTH}\" height=\"{HEIGHT}\" font-family=\"sans-serif\" font-size=\"12\">\n\
         <rect width=\"100%\" height=\"100%\" fill=\"white\"/>\n<text x=\"{LEFT}\" y=\"28\" font-size=\"16\">{title}</text>\n"
    );
    let mut put = |line: String| writeln!(text, "{line}").expect("text");
    for power in x0 as i32..=x1 as i32 {
        let at = x(10f64.powi(power));
        put(format!(
            "<line x1=\"{at:.1}\" y1=\"{TOP}\" x2=\"{at:.1}\" y2=\"{:.1}\" stroke=\"#dddddd\"/>",
            HEIGHT - BOTTOM
        ));
        put(format!(
            "<text x=\"{at:.1}\" y=\"{:.1}\" text-anchor=\"middle\">{}</text>",
            HEIGHT - BOTTOM + 18.0,
            tick(f64::from(power), false)
        ));
    }
    for power in y0 as i32..=y1 as i32 {
        let at = y(10f64.powi(power));
        put(format!(
            "<line x1=\"{LEFT}\" y1=\"{at:.1}\" x2=\"{:.1}\" y2=\"{at:.1}\" stroke=\"#dddddd\"/>",
            WIDTH - RIGHT
        ));
        put(format!(
            "<text x=\"{:.1}\" y=\"{:.1}\" text-anchor=\"end\">{}</text>",
            LEFT - 8.0,
            at + 4.0,
            tick(f64::from(power), true)
        ));
    }
    put(format!(
        "<text x=\"{:.1}\" y=\"{:.1}\" text-anchor=\"middle\">{x_label}</text>",
        (LEFT + WIDTH - RIGHT) / 2.0,
        HEIGHT - 14.0
    ));
    for (place, one) in series.iter().enumerate() {
        let colour = COLOURS[place % COLOURS.len()];
        let line: Vec<String> = one.points.iter().map(|&(a, b)| format!("{:.1},{:.1}", x(a), y(b))).collect();
        put(format!("<polyline fill=\"none\" stroke=\"{colour}\" stroke-width=\"2\" points=\"{}\"/>", line.join(" ")));
        for &(a, b) in &one.points {
            put(format!("<circle cx=\"{:.1}\" cy=\"{:.1}\" r=\"3\" fill=\"{colour}\"/>", x(a), y(b)));
        }
        let at = TOP + 12.0 + 20.0 * place as f64;
        put(format!(
            "<rect x=\"{:.1}\" y=\"{:.1}\" width=\"14\" height=\"4\" fill=\"{colour}\"/>",
            WIDTH - RIGHT + 14.0,
            at - 6.0
        ));
        put(format!("<text x=\"{:.1}\" y=\"{at:.1}\">{}</text>", WIDTH - RIGHT + 34.0, one.name));
    }
    text + "</svg>\n"
}
