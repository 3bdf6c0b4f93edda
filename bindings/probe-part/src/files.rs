//! The files of a part: its list as a table, as commas and as JSON, and for each face a drawing (DXF) and a picture (SVG).
use crate::csv::csv;
use crate::dxf::dxf;
use crate::faces::{Face, View};
use crate::json::json;
use crate::model::{Part, Report};
use crate::pictures::DepthMap;
use crate::plans::{faces_to_show, left_over_of, rows_of};
use crate::raster::{Grid, Raster};
use crate::shape::Shape;
use crate::svg::{svg, Overlay};
use crate::tables::{part_name, table, Listing};
use crate::topology::{shells, Shell};
use crate::written::Written;
use probe_rays::{Refusal, Scratch};

/// So many probes along the longer side of a picture.
const PROBES: f64 = 400.0;

/// A face's picture: that with a title and the list below, and that for a page, which has both beside it.
#[derive(Clone, Debug, PartialEq)]
pub struct FacePicture {
    /// The face's name.
    pub face: String,
    /// Whether it is higher than wide.
    pub is_narrow: bool,
    /// The picture by itself.
    pub alone: String,
    /// The picture in a page.
    pub on_page: String,
}

/// The pictures of every part's faces, the parts of each shape in turn; a face that lies across no axis of the part's frame has none.
pub fn pictures(
    shapes: &[&Shape],
    report: &Report,
    name: &str,
) -> Result<Vec<Vec<FacePicture>>, Refusal> {
    let shells: Vec<Shell> = shapes
        .iter()
        .flat_map(|shape| shells(shape.vertices(), shape.triangles()))
        .collect();
    let mut all = Vec::new();
    for (number, (part, shell)) in report.parts.iter().zip(&shells).enumerate() {
        let place = |&corner: &u32| part.frame.place(shell.vertices[corner as usize]);
        let facets: Vec<[[f64; 3]; 3]> = shell
            .triangles
            .iter()
            .map(|triangle| std::array::from_fn(|corner| place(&triangle[corner])))
            .collect();
        let name = part_name(report, name, number);
        // the shell was a shape, and is one in another place too
        let Ok(shape) = Shape::of(&facets) else {
            all.push(Vec::new());
            continue;
        };
        all.push(of_part(&shape, part, &name)?);
    }
    Ok(all)
}

fn of_part(shape: &Shape, part: &Part, name: &str) -> Result<Vec<FacePicture>, Refusal> {
    let mut pictures = Vec::new();
    for place in faces_to_show(part) {
        let face = &part.faces[place];
        let Some(side) = Face::named(&face.name) else {
            continue;
        };
        let raster = probed(&View::new(shape, side))?;
        let map = DepthMap::new(side, &raster);
        let mut overlay = Overlay {
            title: format!("{name}, {} face", face.name),
            rows: rows_of(part, place),
            left_over: left_over_of(part, place),
            listed: true,
        };
        let alone = svg(&map, &overlay);
        overlay.title.clear();
        overlay.listed = false;
        let [columns, rows] = map.counts();
        pictures.push(FacePicture {
            face: face.name.clone(),
            is_narrow: columns < rows,
            alone,
            on_page: svg(&map, &overlay),
        });
    }
    Ok(pictures)
}

/// The depths of a face.
fn probed(view: &View<'_>) -> Result<Raster, Refusal> {
    let (low, high) = (view.low(), view.high());
    let longest = (high[0] - low[0]).max(high[1] - low[1]);
    let grid = Grid::new(low, high, longest / PROBES);
    let mut scratch = Scratch::new();
    let depths = (0..grid.len()).map(|cell| view.depth(grid.place(cell), &mut scratch));
    let depths = depths.collect::<Result<Vec<f64>, Refusal>>()?;
    Ok(Raster { grid, depths })
}

/// Writes the files of a report into a folder, and tells their names: `NAME.txt`, `NAME.csv`, `NAME.json`,
/// `NAME-FACE.dxf` and `NAME-FACE.svg`.
pub fn write_all(
    written: &Written,
    name: &str,
    report: &Report,
    listing: &Listing,
    pictures: &[Vec<FacePicture>],
) -> Result<Vec<String>, String> {
    let mut names = Vec::new();
    let mut write = |file: String, text: &str| {
        written.write(name, &file, text)?;
        names.push(file);
        Ok::<(), String>(())
    };
    write(format!("{name}.txt"), &table(report, listing))?;
    write(format!("{name}.csv"), &csv(report, listing))?;
    write(format!("{name}.json"), &json(report, listing, name))?;
    for (number, part) in report.parts.iter().enumerate() {
        let part_name = part_name(report, name, number);
        for place in faces_to_show(part) {
            let face = part.faces[place].name.replace(' ', "-");
            write(format!("{part_name}-{face}.dxf"), &dxf(part, place))?;
        }
        for picture in pictures.get(number).into_iter().flatten() {
            write(format!("{part_name}-{}.svg", picture.face), &picture.alone)?;
        }
    }
    Ok(names)
}
