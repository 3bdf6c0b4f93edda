//! The growth of times as an image: both axes logarithmic, SVG text.

use crate::report::Grown;

const WIDTH: f64 = 760.0;
const HEIGHT: f64 = 480.0;
const LEFT: f64 = 80.0;
const RIGHT: f64 = 590.0;
const TOP: f64 = 30.0;
const BOTTOM: f64 = 420.0;

/// What `Grown::least` holds: a name, a colour, whether the line is broken.
const SERIES: [(&str, &str, bool); 5] = [
    ("build, ours", "#1f5fbf", false),
    ("build, Rust", "#1f5fbf", true),
    ("tree check, ours", "#2a8a3e", false),
    ("short probe, ours", "#c0392b", false),
    ("short probe, Rust", "#c0392b", true),
];

/// Powers of ten, in nanoseconds, below and above all times.
fn decades(grown: &[Grown]) -> (i32, i32) {
    let all = || grown.iter().flat_map(Grown::least);
    let low = all().fold(f64::INFINITY, f64::min).log10().floor() as i32;
    let high = all().fold(0.0, f64::max).log10().ceil() as i32;
    (low, high.max(low + 1))
}

fn across(grown: &[Grown], triangles: usize) -> f64 {
    let log = |n: usize| (n as f64).log2();
    let (low, high) = (
        log(grown[0].triangles),
        log(grown[grown.len() - 1].triangles),
    );
    LEFT + (log(triangles) - low) / (high - low) * (RIGHT - LEFT)
}

fn up((low, high): (i32, i32), nanoseconds: f64) -> f64 {
    let share = (nanoseconds.log10() - low as f64) / (high - low) as f64;
    BOTTOM - share * (BOTTOM - TOP)
}

fn text(x: f64, y: f64, anchor: &str, more: &str, words: &str) -> String {
    format!("<text x=\"{x:.1}\" y=\"{y:.1}\" text-anchor=\"{anchor}\"{more}>{words}</text>\n")
}

fn rule(x1: f64, y1: f64, x2: f64, y2: f64) -> String {
    format!(
        "<line x1=\"{x1:.1}\" y1=\"{y1:.1}\" x2=\"{x2:.1}\" y2=\"{y2:.1}\" stroke=\"#d0d0d0\"/>\n"
    )
}

fn axes(grown: &[Grown], span: (i32, i32)) -> String {
    let mut svg = String::new();
    for size in grown {
        let x = across(grown, size.triangles);
        svg += &rule(x, TOP, x, BOTTOM);
        svg += &text(x, BOTTOM + 18.0, "middle", "", &size.triangles.to_string());
    }
    for decade in span.0..=span.1 {
        let nanoseconds = 10f64.powi(decade);
        let y = up(span, nanoseconds);
        let label = match decade {
            d if d < 3 => format!("{} ns", 10u32.pow(d.max(0) as u32)),
            d if d < 6 => format!("{} µs", 10u32.pow(d as u32 - 3)),
            d => format!("{} ms", 10u32.pow(d as u32 - 6)),
        };
        svg += &rule(LEFT, y, RIGHT, y);
        svg += &text(LEFT - 8.0, y + 4.0, "end", "", &label);
    }
    let middle = (LEFT + RIGHT) / 2.0;
    svg += &text(middle, BOTTOM + 42.0, "middle", "", "triangles");
    let height = (TOP + BOTTOM) / 2.0;
    let turned = format!(" transform=\"rotate(-90 18 {height:.1})\"");
    svg += &text(18.0, height, "middle", &turned, "least time of one call");
    svg
}

fn curve(grown: &[Grown], span: (i32, i32), which: usize) -> String {
    let (name, colour, broken) = SERIES[which];
    let at = |size: &Grown| {
        let x = across(grown, size.triangles);
        (x, up(span, size.least()[which]))
    };
    let points: Vec<String> = grown
        .iter()
        .map(at)
        .map(|(x, y)| format!("{x:.1},{y:.1}"))
        .collect();
    let dashes = if broken {
        " stroke-dasharray=\"6 4\""
    } else {
        ""
    };
    let y = TOP + 14.0 + 22.0 * which as f64;
    let mut svg = format!(
        "<polyline points=\"{}\" fill=\"none\" stroke=\"{colour}\" stroke-width=\"2\"{dashes}/>\n",
        points.join(" ")
    );
    svg += &format!(
        "<line x1=\"{:.1}\" y1=\"{y:.1}\" x2=\"{:.1}\" y2=\"{y:.1}\" stroke=\"{colour}\" stroke-width=\"2\"{dashes}/>\n",
        RIGHT + 14.0,
        RIGHT + 44.0
    );
    svg + &text(RIGHT + 50.0, y + 4.0, "start", "", name)
}

pub fn svg(grown: &[Grown]) -> String {
    let span = decades(grown);
    let curves: String = (0..SERIES.len())
        .map(|which| curve(grown, span, which))
        .collect();
    format!(
        "<svg xmlns=\"http://www.w3.org/2000/svg\" viewBox=\"0 0 {WIDTH} {HEIGHT}\" font-family=\"sans-serif\" font-size=\"12\">\n<rect width=\"{WIDTH}\" height=\"{HEIGHT}\" fill=\"white\"/>\n{}{curves}</svg>\n",
        axes(grown, span)
    )
}
