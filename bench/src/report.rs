//! The tables, as printed and as docs/BENCHMARKS.md has them.

use crate::timing::{Measured, PASSES, REPETITIONS, Times};

const BEGIN: &str = "<!-- measured: written by tools/bench -->\n";
const END: &str = "<!-- end of measured -->\n";

/// Nanoseconds with three digits and a fitting unit.
pub fn time(nanoseconds: f64) -> String {
    let (value, unit) = match nanoseconds {
        t if t < 1.0e3 => (t, "ns"),
        t if t < 1.0e6 => (t / 1.0e3, "µs"),
        t => (t / 1.0e6, "ms"),
    };
    let digits = match value {
        v if v < 9.995 => 2,
        v if v < 99.95 => 1,
        _ => 0,
    };
    format!("{value:.digits$} {unit}")
}

fn cells(m: &Measured) -> [String; 7] {
    let of = |pick: fn(&Times) -> f64| {
        let ours = pick(&m.ours);
        match m.rust.as_ref().map(pick) {
            Some(rust) => [time(ours), time(rust), format!("{:.2}", ours / rust)],
            None => [time(ours), "–".to_owned(), "–".to_owned()],
        }
    };
    let ([a, b, c], [d, e, f]) = (of(|t| t.least), of(|t| t.median));
    [m.name.clone(), a, b, c, d, e, f]
}

/// Whose times stand beside ours.
pub const RUST: &str = "Rust";
pub const CGAL: &str = "CGAL";
pub const FCL: &str = "FCL";

fn heading(other: &str) -> [String; 7] {
    let of = |kind: &str| [format!("ours, {kind}"), format!("{other}, {kind}")];
    let ([a, b], [c, d]) = (of("least"), of("median"));
    let ratio = || "ratio".to_owned();
    ["one call of".to_owned(), a, b, ratio(), c, d, ratio()]
}

fn padded(cells: [String; 7]) -> String {
    let [name, rest @ ..] = cells;
    let rest: String = rest.iter().map(|cell| format!(" {cell:>12}")).collect();
    format!("{name:42}{rest}")
}

pub fn head(other: &str) -> String {
    padded(heading(other))
}

pub fn line(m: &Measured) -> String {
    padded(cells(m))
}

fn row(cells: &[String]) -> String {
    format!("| {} |\n", cells.join(" | "))
}

fn table(head: &[String], rows: impl Iterator<Item = Vec<String>>) -> String {
    let mut text = row(head);
    text += &format!("|---|{}\n", "---:|".repeat(head.len() - 1));
    rows.for_each(|cells| text += &row(&cells));
    text
}

/// One size of the growth table: build, tree check, short probes.
pub struct Grown {
    pub triangles: usize,
    pub measured: [Measured; 3],
}

impl Grown {
    /// Least nanoseconds of one call: build ours and the Rust's, check ours, probe ours and the Rust's.
    pub fn least(&self) -> [f64; 5] {
        let [build, check, probe] = &self.measured;
        let rust = |m: &Measured| m.rust.expect("both sides").least;
        [
            build.ours.least,
            rust(build),
            check.ours.least * self.triangles as f64,
            probe.ours.least,
            rust(probe),
        ]
    }

    pub fn cells(&self) -> Vec<String> {
        let [build, build_rust, check, probe, probe_rust] = self.least();
        vec![
            self.triangles.to_string(),
            time(build),
            time(build_rust),
            format!("{:.2}", build / build_rust),
            time(check),
            time(probe),
            time(probe_rust),
            format!("{:.2}", probe / probe_rust),
        ]
    }
}

pub const GROWTH_HEAD: [&str; 8] = [
    "triangles",
    "build, ours",
    "build, Rust",
    "ratio",
    "check, ours",
    "short probe, ours",
    "short probe, Rust",
    "ratio",
];

fn machine() -> String {
    let information = std::fs::read_to_string("/proc/cpuinfo").unwrap_or_default();
    let models: Vec<&str> = information
        .lines()
        .filter(|line| line.starts_with("model name"))
        .filter_map(|line| line.split(": ").nth(1))
        .collect();
    let compiler = std::process::Command::new("rustc")
        .arg("--version")
        .output()
        .map(|output| String::from_utf8_lossy(&output.stdout).trim().to_owned())
        .unwrap_or_default();
    format!(
        "Machine: {} processors, {}. The Rust: {compiler}, optimisation 3, fat link-time optimisation, one code unit.\n",
        models.len(),
        models.first().unwrap_or(&"unknown")
    )
}

/// The table beside another library, where there is one.
fn beside((other, measured): &(&str, Vec<Measured>)) -> String {
    if measured.is_empty() {
        return String::new();
    }
    let rows = table(&heading(other), measured.iter().map(|m| cells(m).to_vec()));
    format!("Beside {other}:\n\n{rows}\n")
}

/// Puts the measured part between its marks.
pub fn write(path: &str, measured: &[Measured], others: &[(&str, Vec<Measured>)], grown: &[Grown]) {
    let text = std::fs::read_to_string(path).expect("docs/BENCHMARKS.md");
    let (before, rest) = text.split_once(BEGIN).expect("the mark before");
    let (_, after) = rest.split_once(END).expect("the mark after");
    let rows = table(&heading(RUST), measured.iter().map(|m| cells(m).to_vec()));
    let growth = table(
        &GROWTH_HEAD.map(str::to_owned),
        grown.iter().map(Grown::cells),
    );
    let part = format!(
        "\n{}Least and median of {} repetitions, the sides taking turns; ratio below 1: ours is faster.\n\n{rows}\n{}Growth, least times of one call:\n\n{growth}\n",
        machine(),
        PASSES * REPETITIONS,
        others.iter().map(beside).collect::<String>()
    );
    std::fs::write(path, format!("{before}{BEGIN}{part}{END}{after}")).expect("docs/BENCHMARKS.md");
}
