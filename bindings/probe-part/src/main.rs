//! `probe-part`: probes a part in an STL file. `probe-part --help` says how.
//!
//! Exit status: 0 if every cast was answered, 1 if a cast was refused, 2 if the command line or a file is wrong, 3 if a list may
//! be incomplete or wrong.
use probe_part::batch::{name_of, run as run_batch, Job};
use probe_part::boring_list;
use probe_part::check::check;
use probe_part::corner::from_corner;
use probe_part::drawing::Drawing;
use probe_part::drills::{self, drill_words, WEB};
use probe_part::faces::{Face, View};
use probe_part::files::write_all;
use probe_part::json::json;
use probe_part::model::{Part, Report, Row, Unit};
use probe_part::pictures::DepthMap;
use probe_part::raster::{Grid, Raster};
use probe_part::rays::{from_words, Lines};
use probe_part::recognise::{recognise, Options};
use probe_part::shape::Shape;
use probe_part::summary::{counted, exit_status, Line};
use probe_part::tables::{doubt_words, Listing};
use probe_part::words::{all_told, fixed, told};
use probe_part::written::Written;
use probe_part::{csv, svg, tables};
use probe_rays::{Cast, Progress, Ray, Refusal, Scratch};
use std::fs::{self, File};
use std::io::{self, BufRead, BufReader, BufWriter, IsTerminal, Write};
use std::path::Path;
use std::process::ExitCode;

const HELP: &str = "\
probe-part probes a part in an STL file, binary or ASCII, in millimetres, or the parts of a STEP file, in its own unit.

  probe-part cast FILE [--all | --rounded] [--rays FILE] [X Y Z  DX DY DZ  MAX]...
      Prints what rays hit. A ray is its origin, its direction (of any length) and its maximum distance. --rays reads rays
      from a file, one per line (- is standard input; # begins a comment). The casts are exact, on a grid of 2^-15 mm,
      within 8,192 mm. --all prints every depth along a ray, --rounded the first hit by the rounded casts.
  probe-part drill FILE  X Y Z  DX DY DZ  DEPTH DIAMETER...
      Prints whether a drill is clear of the part, or which triangle it touches first, how deep and where. The drill is
      flat-ended; its place is the middle of its start, its direction has any length. Clear is certain.
  probe-part bores FILE [--face NAME]... [--unit UNIT] [--as-drawn] [--from-corner] [--shells] [--web MM]
                   [--csv | --json] [--out DIR]
      Lists the bores, pockets, grooves and so on of the part, recognised from its triangles and probed by casts: outline,
      size, depth of the entry below the outer face, own depth, centre. What is not understood is marked by !, and the
      exit status is then 3. The part's own frame has z across its largest flat face and x along its longest side.
      --face NAME     lists only the rows of this face; may be repeated
      --unit UNIT     the unit of an STL file: mm (default), cm, m or in
      --as-drawn      keeps the file's frame
      --from-corner   measures x, y, z from the minimum corner of the part
      --shells        an STL file holds several parts
      --web MM        less than this behind a blind bore, over its whole diameter, is doubtful (default 0: none is)
      --csv, --json   prints the list as CSV or JSON
      --out DIR       writes the list as txt, csv and json to DIR, and each face as a drawing (DXF R12) and a picture (SVG)
  probe-part check LIST.csv FILE [--unit UNIT] [--as-drawn] [--from-corner] [--web MM]
      Checks a boring list against the part, by drills: each row's drill is clear, wall and floor are where the row says,
      and every bore of the part is in a row. The list has the columns of `bores --csv`, or x, y, z, axis, diameter and
      depth (axis: -z, +x and so on, the face that is drilled, or three numbers; depth: empty for through); - is
      standard input. Less than `--web MM` (default 1) behind a blind bore does not fit.
  probe-part batch FOLDER --out DIR [--unit UNIT] [--as-drawn] [--from-corner] [--shells] [--web MM] [--threads N]
      Does the same for every .stl, .step and .stp file of a folder (STEP in its own unit). It also writes
      summary.csv, and index.html, a page that shows each part's faces beside its list and marks in red what needs a look.
  probe-part depth FILE --face NAME [--step MM] [--png FILE] [--svg FILE]
      Writes a depth picture of a face. The SVG numbers its bores as `bores --as-drawn` does.
  probe-part --help, probe-part --version

Faces: top (+z), bottom (-z), front (-y), back (+y), left (-x), right (+x).
A part of more than 65,536 triangles is cast at in pieces.
The casts are proved. What `bores` recognises, and the pictures, are tested but not proved.
Exit status: 0 if every cast was answered, and a list is complete and confirmed; 1 if a cast was refused; 2 if the command line
or a file is wrong; 3 if a list may be incomplete or wrong, or does not fit the part.
";

/// So many rays of a file are cast at a time.
const BLOCK: usize = 100_000;

/// The most places of a raster.
const MOST_PLACES: f64 = 100_000_000.0;

fn main() -> ExitCode {
    let words: Vec<String> = std::env::args().skip(1).collect();
    match run(&words) {
        Ok(status) => ExitCode::from(status),
        Err(why) => {
            eprintln!("probe-part: {why}");
            ExitCode::from(2)
        }
    }
}

/// The exit statuses beside 2.
const ANSWERED: u8 = 0;
const REFUSED: u8 = 1;
const DOUBTFUL: u8 = 3;

/// Does what the words ask, and tells the exit status.
fn run(words: &[String]) -> Result<u8, String> {
    let asks_help = |word: &String| word == "--help" || word == "-h" || word == "help";
    let mut out = Output::new();
    let Some((command, rest)) = words.split_first() else {
        return Err(format!("no command is given\n\n{HELP}"));
    };
    if words.iter().any(asks_help) {
        out.print(HELP)?;
        return out.done().map(|()| ANSWERED);
    }
    if command == "--version" {
        out.print(concat!("probe-part ", env!("CARGO_PKG_VERSION"), "\n"))?;
        return out.done().map(|()| ANSWERED);
    }
    let answered = match command.as_str() {
        "cast" => cast(
            &Call::new(rest, &["--all", "--rounded"], &["--rays"])?,
            &mut out,
        )?,
        "bores" => bores(
            &Call::new(
                rest,
                &["--from-corner", "--csv", "--json", "--as-drawn", "--shells"],
                &["--face", "--unit", "--out", "--web"],
            )?,
            &mut out,
        )?,
        "drill" => drill(&Call::new(rest, &[], &[])?, &mut out)?,
        "check" => check_list(
            &Call::new(rest, &["--from-corner", "--as-drawn"], &["--unit", "--web"])?,
            &mut out,
        )?,
        "batch" => batch(
            &Call::new(
                rest,
                &["--from-corner", "--as-drawn", "--shells"],
                &["--out", "--unit", "--threads", "--web"],
            )?,
            &mut out,
        )?,
        "depth" => depth(
            &Call::new(rest, &[], &["--face", "--step", "--png", "--svg"])?,
            &mut out,
        )?,
        other => {
            return Err(format!(
                "unknown command {other:?}: use cast, bores, batch or depth, or drill or check (see probe-part --help)"
            ));
        }
    };
    out.done()?;
    Ok(answered)
}

/// Standard output, whose faults are told.
struct Output(BufWriter<io::Stdout>);

impl Output {
    fn new() -> Output {
        Output(BufWriter::new(io::stdout()))
    }

    fn print(&mut self, text: &str) -> Result<(), String> {
        let written = self.0.write_all(text.as_bytes());
        written.map_err(|why| format!("standard output: {why}"))
    }

    fn done(&mut self) -> Result<(), String> {
        self.0
            .flush()
            .map_err(|why| format!("standard output: {why}"))
    }
}

/// The words of a command: a file, switches, options with a value, and the rest, which are numbers.
struct Call {
    file: String,
    switches: Vec<String>,
    options: Vec<(String, String)>,
    rest: Vec<String>,
}

impl Call {
    /// What is asked of the recognition, and how much is to be left behind a blind bore where the call does not say.
    fn options(&self, web: f64) -> Result<Options, String> {
        Ok(Options {
            unit: self.unit()?,
            as_drawn: self.has("--as-drawn"),
            several: self.has("--shells"),
            web: self.web(web)?,
        })
    }

    /// How much is to be left behind a blind bore.
    fn web(&self, unasked: f64) -> Result<f64, String> {
        let Some(word) = self.value("--web") else {
            return Ok(unasked);
        };
        match word.parse::<f64>() {
            Ok(web) if web.is_finite() && web >= 0.0 => Ok(web),
            _ => Err(format!("--web takes millimetres from 0 on, not {word:?}")),
        }
    }

    fn new(words: &[String], switches: &[&str], options: &[&str]) -> Result<Call, String> {
        let mut call = Call {
            file: String::new(),
            switches: Vec::new(),
            options: Vec::new(),
            rest: Vec::new(),
        };
        let mut files = Vec::new();
        let mut words = words.iter();
        while let Some(word) = words.next() {
            if switches.contains(&word.as_str()) {
                call.switches.push(word.clone());
            } else if options.contains(&word.as_str()) {
                let value = words
                    .next()
                    .ok_or_else(|| format!("{word} takes a value"))?;
                call.options.push((word.clone(), value.clone()));
            } else if word.starts_with("--") {
                return Err(format!("unknown option {word} (see probe-part --help)"));
            } else if files.is_empty() {
                files.push(word.clone());
            } else {
                call.rest.push(word.clone());
            }
        }
        call.file = files.pop().ok_or("no file is given")?;
        Ok(call)
    }

    fn has(&self, switch: &str) -> bool {
        self.switches.iter().any(|word| word == switch)
    }

    fn values<'a>(&'a self, option: &'a str) -> impl Iterator<Item = &'a str> {
        let same = move |(name, _): &&(String, String)| name == option;
        self.options
            .iter()
            .filter(same)
            .map(|(_, value)| value.as_str())
    }

    fn value<'a>(&'a self, option: &'a str) -> Option<&'a str> {
        self.values(option).last()
    }

    fn no_rest(&self) -> Result<(), String> {
        match self.rest.first() {
            Some(word) => Err(format!("unexpected argument {word:?}")),
            None => Ok(()),
        }
    }

    fn faces(&self) -> Result<Vec<Face>, String> {
        self.values("--face")
            .map(|name| {
                Face::named(name).ok_or_else(|| {
                    format!("{name:?} is not a face: use top, bottom, front, back, left or right")
                })
            })
            .collect()
    }

    /// The unit; millimetres if none is given.
    fn unit(&self) -> Result<Unit, String> {
        let name = self.value("--unit").unwrap_or("mm");
        Unit::named(name).ok_or_else(|| format!("--unit takes mm, cm, m or in, not {name:?}"))
    }

    /// The step, if it is given.
    fn step(&self) -> Result<Option<f64>, String> {
        let Some(word) = self.value("--step") else {
            return Ok(None);
        };
        match word.parse::<f64>() {
            Ok(step) if step.is_finite() && step > 0.0 => Ok(Some(step)),
            _ => Err(format!("--step takes millimetres above 0, not {word:?}")),
        }
    }
}

/// Refuses a step that asks for more places than fit.
fn check_step(view: &View<'_>, step: f64) -> Result<(), String> {
    let (low, high) = (view.low(), view.high());
    let places = ((high[0] - low[0]) / step).max(1.0) * ((high[1] - low[1]) / step).max(1.0);
    if places > MOST_PLACES {
        return Err(format!(
            "a step of {step} mm needs {places:.0} probes of the {} face: use a larger step",
            view.face.name()
        ));
    }
    Ok(())
}

/// The first line about a part.
fn counts(shape: &Shape) -> String {
    let pieces = match shape.pieces() {
        1 => String::new(),
        pieces => format!(", in {pieces} pieces"),
    };
    let counts = format!(
        "{} triangles, {} vertices, {} nodes{pieces}\n",
        shape.triangles().len(),
        shape.vertices().len(),
        shape.nodes()
    );
    counts + &shape.shift().map_or_else(String::new, tables::shift_words)
}

/// `probe-part cast`.
fn cast(call: &Call, out: &mut Output) -> Result<u8, String> {
    if call.has("--all") && call.has("--rounded") {
        return Err("--all and --rounded cannot be used together".into());
    }
    let given = from_words(&call.rest)?;
    let shape = Shape::load(&call.file)?.as_it_lies()?;
    out.print(&counts(&shape))?;
    let mut casting = Casting {
        shape: &shape,
        all: call.has("--all"),
        rounded: call.has("--rounded"),
        number: 0,
        answered: true,
        // where the answers go to a terminal, they are the progress
        line: (!io::stdout().is_terminal()).then(|| Progress::new("casting", None)),
    };
    casting.block(&given, out)?;
    for file in call.values("--rays") {
        let source: Box<dyn BufRead> = if file == "-" {
            Box::new(io::stdin().lock())
        } else {
            let opened = File::open(file).map_err(|why| format!("{file}: {why}"))?;
            Box::new(BufReader::new(opened))
        };
        let name = if file == "-" { "standard input" } else { file };
        let mut lines = Lines::new(source, name);
        loop {
            let rays = lines.block(BLOCK)?;
            if rays.is_empty() {
                break;
            }
            casting.block(&rays, out)?;
        }
    }
    Ok(if casting.answered { ANSWERED } else { REFUSED })
}

struct Casting<'a> {
    shape: &'a Shape,
    all: bool,
    rounded: bool,
    number: usize,
    answered: bool,
    line: Option<Progress>,
}

impl Casting<'_> {
    /// Casts some rays and prints what they hit.
    fn block(&mut self, rays: &[Ray], out: &mut Output) -> Result<(), String> {
        if self.all {
            for (ray, hits) in rays
                .iter()
                .zip(self.shape.cast_all_many(rays, self.rounded))
            {
                self.answered &= hits.is_ok();
                self.line(&all_told(ray, &hits), out)?;
            }
        } else {
            for (ray, answer) in rays.iter().zip(self.shape.cast_many(rays, self.rounded)) {
                self.answered &= !matches!(answer, Cast::Refused(_));
                self.line(&told(ray, &answer), out)?;
            }
        }
        if let Some(line) = &mut self.line {
            line.show(self.number);
        }
        Ok(())
    }

    fn line(&mut self, words: &str, out: &mut Output) -> Result<(), String> {
        self.number += 1;
        out.print(&format!("ray {}: {words}\n", self.number))
    }
}

/// `probe-part drill`.
fn drill(call: &Call, out: &mut Output) -> Result<u8, String> {
    let drills = drills::from_words(&call.rest)?;
    let shape = Shape::load(&call.file)?;
    out.print(&counts(&shape))?;
    let mut scratch = Scratch::new();
    let mut answered = true;
    for (place, drill) in drills.iter().enumerate() {
        let answer = drill.first_touch(&shape, &mut scratch);
        answered &= answer.is_ok();
        out.print(&format!(
            "drill {}: {}\n",
            place + 1,
            drill_words(drill, &answer)
        ))?;
    }
    Ok(if answered { ANSWERED } else { REFUSED })
}

/// `probe-part check`.
fn check_list(call: &Call, out: &mut Output) -> Result<u8, String> {
    let [file] = call.rest.as_slice() else {
        return Err("check takes a list and a file".into());
    };
    let text = match call.file.as_str() {
        "-" => io::read_to_string(io::stdin()),
        list => fs::read_to_string(list),
    };
    let text = text.map_err(|why| format!("{}: {why}", call.file))?;
    let list = boring_list::read(&text).map_err(|why| format!("{}: {why}", call.file))?;
    let options = call.options(WEB)?;
    let drawing = Drawing::load(file, options.unit)?;
    let report = match drawing.recognise(&options) {
        Ok(report) if call.has("--from-corner") => from_corner(&report),
        Ok(report) => report,
        Err(refusal) => return Ok(refused(refusal)),
    };
    let ([(_, shape)], [part]) = (drawing.parts.as_slice(), report.parts.as_slice()) else {
        let count = report.parts.len();
        return Err(format!(
            "{file}: {count} separate parts, and a list is of one"
        ));
    };
    let checked = match check(shape, part, &list, options.web) {
        Ok(checked) => checked,
        Err(refusal) => return Ok(refused(refusal)),
    };
    for line in &checked.lines {
        out.print(&format!("{line}\n"))?;
    }
    if list.others > 0 {
        out.print(&format!(
            "{} lines are of no bore, and are not checked\n",
            list.others
        ))?;
    }
    for doubt in part.doubts.iter().chain(&report.doubts) {
        out.print(&format!("! {}\n", doubt_words(doubt)))?;
    }
    let good = checked.fits && report.is_certain();
    out.print(if good {
        "every row fits the part, and every bore of the part is in a row\n"
    } else {
        "! THE LIST DOES NOT FIT THE PART\n"
    })?;
    Ok(if good { ANSWERED } else { DOUBTFUL })
}

/// Says that a cast was refused.
fn refused(refusal: Refusal) -> u8 {
    eprintln!("probe-part: a cast was {refusal}");
    REFUSED
}

/// `probe-part bores`.
fn bores(call: &Call, out: &mut Output) -> Result<u8, String> {
    call.no_rest()?;
    if call.has("--csv") && call.has("--json") {
        return Err("--csv and --json cannot be used together".into());
    }
    let options = call.options(0.0)?;
    let listing = Listing {
        faces: call
            .faces()?
            .iter()
            .map(|face| face.name().into())
            .collect(),
        from_corner: call.has("--from-corner"),
        ..Listing::default()
    };
    let drawing = Drawing::load(&call.file, options.unit)?;
    let report = match drawing.recognise(&options) {
        Ok(report) => report,
        Err(refusal) => {
            eprintln!("probe-part: a cast was {refusal}");
            return Ok(REFUSED);
        }
    };
    if let Some(folder) = call.value("--out") {
        write_files(&drawing, &report, &listing, &call.file, folder)?;
    }
    if call.has("--csv") || call.has("--json") {
        out.print(&if call.has("--csv") {
            csv::csv(&report, &listing)
        } else if listing.from_corner {
            json(&from_corner(&report), &listing, &call.file)
        } else {
            json(&report, &listing, &call.file)
        })?;
        let parts = report.parts.iter().flat_map(|part| &part.doubts);
        for doubt in parts.chain(&report.doubts) {
            eprintln!("probe-part: {}", doubt_words(doubt));
        }
    } else {
        out.print(&tables::table(&report, &listing))?;
    }
    Ok(if report.is_certain() {
        ANSWERED
    } else {
        DOUBTFUL
    })
}

/// Writes a report's files into a folder, named after the file.
fn write_files(
    drawing: &Drawing,
    report: &Report,
    listing: &Listing,
    file: &str,
    folder: &str,
) -> Result<(), String> {
    let written = Written::in_folder(Path::new(folder))?;
    let name = name_of(Path::new(file));
    let (report, listing) = if listing.from_corner {
        let whole = Listing {
            from_corner: false,
            ..listing.clone()
        };
        (from_corner(report), whole)
    } else {
        (report.clone(), listing.clone())
    };
    let listing = Listing {
        name: name.clone(),
        ..listing
    };
    let pictures = drawing.pictures(&report, &name);
    let pictures = pictures.map_err(|why| format!("a cast was {why}"))?;
    write_all(&written, &name, &report, &listing, &pictures)?;
    written.finish(Some(&name))
}

/// `probe-part batch`.
fn batch(call: &Call, out: &mut Output) -> Result<u8, String> {
    call.no_rest()?;
    let folder = call.value("--out").ok_or("--out DIR is required")?;
    let threads = match call.value("--threads") {
        None => 0,
        Some(word) => match word.parse() {
            Ok(count) if count > 0 => count,
            _ => return Err(format!("--threads takes a number above 0, not {word:?}")),
        },
    };
    let entries = run_batch(&Job {
        folder: call.file.clone().into(),
        out: folder.into(),
        options: call.options(0.0)?,
        from_corner: call.has("--from-corner"),
        threads,
    })?;
    let lines: Vec<Line> = entries.iter().flat_map(Line::of).collect();
    for line in &lines {
        out.print(&line.words())?;
    }
    let page = Path::new(folder).join("index.html");
    out.print(&format!("{}: {}\n", page.display(), counted(&lines)))?;
    Ok(exit_status(&lines))
}

/// `probe-part depth`.
fn depth(call: &Call, out: &mut Output) -> Result<u8, String> {
    call.no_rest()?;
    let faces = call.faces()?;
    let &[face] = faces.as_slice() else {
        return Err("depth needs one --face: top, bottom, front, back, left or right".into());
    };
    if call.value("--png").is_none() && call.value("--svg").is_none() {
        return Err("--png FILE or --svg FILE is required".into());
    }
    let step = call.step()?;
    let shape = Shape::load(&call.file)?;
    let view = View::new(&shape, face);
    let (low, high) = (view.low(), view.high());
    let longest = (high[0] - low[0]).max(high[1] - low[1]);
    let step = step.unwrap_or(longest / 1000.0);
    check_step(&view, step)?;
    let raster = match Raster::of_face(&view, step) {
        Ok(raster) => raster,
        Err(refusal) => {
            eprintln!("probe-part: a cast was {refusal}");
            return Ok(REFUSED);
        }
    };
    let map = DepthMap::new(face, &raster);
    let name = Path::new(&call.file).file_name().unwrap_or_default();
    let title = format!("{}, {} face", name.to_string_lossy(), face.name());
    if let Some(file) = call.value("--png") {
        written(file, &map.picture(&title).to_png())?;
        out.print(&format!("{file}: {}\n", size(&raster.grid)))?;
    }
    if let Some(file) = call.value("--svg") {
        let options = Options {
            as_drawn: true,
            ..Options::default()
        };
        let report = recognise(&shape, &options).map_err(|why| format!("a cast was {why}"))?;
        let of_face =
            |part: &'_ Part, row: &Row| row.face.is_some_and(|n| part.faces[n].name == face.name());
        let mut numbered: Vec<(usize, &Row)> = Vec::new();
        for part in &report.parts {
            let rows = part
                .rows
                .iter()
                .enumerate()
                .filter(|(_, row)| of_face(part, row));
            numbered.extend(rows.map(|(place, row)| (place + 1, row)));
        }
        let overlay = svg::Overlay {
            title,
            rows: numbered,
            left_over: report
                .parts
                .iter()
                .flat_map(|part| &part.left_over)
                .collect(),
            listed: true,
        };
        written(file, svg::svg(&map, &overlay).as_bytes())?;
        out.print(&format!("{file}: {}\n", size(&raster.grid)))?;
    }
    Ok(ANSWERED)
}

fn size(grid: &Grid) -> String {
    let [columns, rows] = grid.counts();
    let [step_x, step_y] = grid.step().map(|step| fixed(step, 3));
    format!("{columns} x {rows} probes, {step_x} x {step_y} mm apart")
}

fn written(file: &str, bytes: &[u8]) -> Result<(), String> {
    fs::write(file, bytes).map_err(|why| format!("{file}: {why}"))
}
