//! Pictures of a face's depths.
use crate::faces::Face;
use crate::letters::{width, write, HEIGHT};
use crate::png::Picture;
use crate::raster::{face_level, Raster};
use crate::words::fixed;

/// Where a ray goes through.
pub const OPEN: [u8; 3] = [255, 255, 255];
/// The face itself.
pub const SURFACE: [u8; 3] = [232, 218, 190];
/// What stands out of the face.
pub const RAISED: [u8; 3] = [196, 64, 48];
const INK: [u8; 3] = [40, 40, 40];
const TITLE: [u8; 3] = [70, 70, 70];
const PAPER: [u8; 3] = [250, 250, 250];

/// The margin, and how wide the scale is, in pixels.
const EDGE: usize = 12;
const BAR: usize = 16;

/// From the shallowest to the deepest.
const RAMP: [[u8; 3]; 5] = [
    [170, 210, 120],
    [80, 180, 140],
    [40, 130, 160],
    [50, 75, 150],
    [40, 20, 90],
];

/// Depths that differ by less have one colour: 0.01 mm.
const SAME: f64 = 0.01;

/// A face's depths with the scale of their colours.
pub struct DepthMap<'a> {
    /// The face.
    pub face: Face,
    /// The depths.
    pub raster: &'a Raster,
    /// How deep the face itself lies below the box's.
    pub level: f64,
    /// The deepest floor below the face; at least 1.
    pub deepest: f64,
}

impl<'a> DepthMap<'a> {
    /// The map of a face. A face that is not flat is measured from the box around the part.
    pub fn new(face: Face, raster: &'a Raster) -> DepthMap<'a> {
        let level = face_level(raster).unwrap_or(0.0);
        let finite = raster.depths.iter().filter(|depth| depth.is_finite());
        let deepest = finite.fold(1.0_f64, |most, depth| most.max(depth - level));
        DepthMap {
            face,
            raster,
            level,
            deepest,
        }
    }

    /// Columns and rows.
    pub fn counts(&self) -> [usize; 2] {
        self.raster.grid.counts()
    }

    /// The depth below the face at a column from the left and a row from the top, as somebody sees it who looks at the
    /// face.
    pub fn depth(&self, column: usize, row: usize) -> f64 {
        let [columns, rows] = self.counts();
        let column = if self.face.is_mirrored() {
            columns - 1 - column
        } else {
            column
        };
        self.raster.depths[(rows - 1 - row) * columns + column] - self.level
    }

    /// The colour of a depth below the face.
    pub fn colour(&self, depth: f64) -> [u8; 3] {
        if depth.is_infinite() {
            OPEN
        } else if depth < -SAME {
            RAISED
        } else if depth <= SAME {
            SURFACE
        } else {
            ramp(depth / self.deepest)
        }
    }

    /// The depths to mark beside the colours, from the face on.
    pub fn marks(&self) -> Vec<f64> {
        let step = [
            0.1, 0.2, 0.5, 1.0, 2.0, 5.0, 10.0, 20.0, 50.0, 100.0, 200.0, 500.0,
        ]
        .into_iter()
        .find(|step| self.deepest / step <= 8.0)
        .unwrap_or(1000.0);
        let count = (self.deepest / step + 1e-9).floor() as usize;
        (0..=count).map(|mark| mark as f64 * step).collect()
    }

    /// A pixel for each probe.
    pub fn pixels(&self) -> Picture {
        let [columns, rows] = self.counts();
        let mut picture = Picture::new(columns, rows, PAPER);
        for row in 0..rows {
            for column in 0..columns {
                picture.set(column, row, self.colour(self.depth(column, row)));
            }
        }
        picture
    }

    /// The picture below a title, with the scale of its colours at the right: millimetres below the face.
    pub fn picture(&self, title: &str) -> Picture {
        let [columns, rows] = self.counts();
        let bar_rows = rows.max(120);
        let top = 3 * EDGE + 2 * HEIGHT;
        let left = EDGE + columns + 2 * EDGE;
        let wide = (left + BAR + width("stands out") + 2 * EDGE).max(2 * EDGE + width(title));
        let high = top + bar_rows + EDGE + 3 * (HEIGHT + EDGE);
        let mut picture = Picture::new(wide, high, PAPER);
        write(&mut picture, [EDGE, EDGE], title, TITLE);
        for row in 0..rows {
            for column in 0..columns {
                let colour = self.colour(self.depth(column, row));
                picture.set(EDGE + column, top + row, colour);
            }
        }
        frame(&mut picture, [EDGE, top], [columns, rows]);
        self.scale(&mut picture, [left, top], bar_rows);
        let below = top + bar_rows + EDGE;
        let legend = [("face", SURFACE), ("through", OPEN), ("stands out", RAISED)];
        for (place, (words, colour)) in legend.into_iter().enumerate() {
            let row = below + place * (HEIGHT + EDGE);
            patch(&mut picture, [left, row], [BAR, HEIGHT], colour);
            write(&mut picture, [left + BAR + 7, row], words, TITLE);
        }
        picture
    }

    /// The colours and their depths.
    fn scale(&self, picture: &mut Picture, [left, top]: [usize; 2], rows: usize) {
        let title = top - HEIGHT - EDGE;
        write(picture, [left, title], "mm deep", TITLE);
        for row in 0..rows {
            let depth = self.deepest * row as f64 / (rows - 1) as f64;
            for column in 0..BAR {
                picture.set(left + column, top + row, self.colour(depth));
            }
        }
        frame(picture, [left, top], [BAR, rows]);
        for mark in self.marks() {
            let row = (mark / self.deepest * (rows - 1) as f64).round() as usize;
            for column in BAR..BAR + 4 {
                picture.set(left + column, top + row, INK);
            }
            let text = fixed(mark, usize::from(mark.fract() != 0.0));
            let place = [left + BAR + 7, (top + row).saturating_sub(HEIGHT / 2)];
            write(picture, place, &text, TITLE);
        }
    }
}

/// A rectangle of one colour, with a line around it.
fn patch(picture: &mut Picture, [left, top]: [usize; 2], size: [usize; 2], colour: [u8; 3]) {
    for x in 0..size[0] {
        for y in 0..size[1] {
            picture.set(left + x, top + y, colour);
        }
    }
    frame(picture, [left, top], size);
}

fn ramp(share: f64) -> [u8; 3] {
    let place = share.clamp(0.0, 1.0) * (RAMP.len() - 1) as f64;
    let low = (place.floor() as usize).min(RAMP.len() - 2);
    let part = place - low as f64;
    std::array::from_fn(|colour| {
        let [a, b] = [RAMP[low][colour], RAMP[low + 1][colour]].map(f64::from);
        (a + (b - a) * part).round() as u8
    })
}

/// A line around a rectangle.
fn frame(picture: &mut Picture, [left, top]: [usize; 2], [width, height]: [usize; 2]) {
    for x in left - 1..=left + width {
        picture.set(x, top - 1, INK);
        picture.set(x, top + height, INK);
    }
    for y in top - 1..=top + height {
        picture.set(left - 1, y, INK);
        picture.set(left + width, y, INK);
    }
}
