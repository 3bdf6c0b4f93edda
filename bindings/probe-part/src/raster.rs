//! Depths at a raster of places.
use crate::faces::View;
use probe_rays::{Batch, Refusal};

/// Where the places of a raster stand: in the middles of equal cells that fill a rectangle.
#[derive(Clone, Copy, Debug, PartialEq)]
pub struct Grid {
    low: [f64; 2],
    step: [f64; 2],
    counts: [usize; 2],
}

impl Grid {
    /// Cells of a rectangle, at most so wide.
    pub fn new(low: [f64; 2], high: [f64; 2], step: f64) -> Grid {
        let width = |side: usize| high[side] - low[side];
        let counts: [usize; 2] =
            std::array::from_fn(|side| ((width(side) / step).ceil() as usize).max(1));
        Grid {
            low,
            step: std::array::from_fn(|side| width(side) / counts[side] as f64),
            counts,
        }
    }

    /// How many columns and rows.
    pub fn counts(&self) -> [usize; 2] {
        self.counts
    }

    /// How many cells.
    pub fn len(&self) -> usize {
        self.counts[0] * self.counts[1]
    }

    /// Whether there is no cell.
    pub fn is_empty(&self) -> bool {
        self.len() == 0
    }

    /// How far the places are apart.
    pub fn step(&self) -> [f64; 2] {
        self.step
    }

    /// The place of a cell.
    pub fn place(&self, cell: usize) -> [f64; 2] {
        let at = [cell % self.counts[0], cell / self.counts[0]];
        std::array::from_fn(|side| self.low[side] + (at[side] as f64 + 0.5) * self.step[side])
    }

    /// The neighbours of a cell to the left, the right, below and above; none past a side.
    pub fn neighbours(&self, cell: usize) -> [Option<usize>; 4] {
        let [columns, rows] = self.counts;
        let (column, row) = (cell % columns, cell / columns);
        [
            (column > 0).then(|| cell - 1),
            (column + 1 < columns).then(|| cell + 1),
            (row > 0).then(|| cell - columns),
            (row + 1 < rows).then(|| cell + columns),
        ]
    }
}

/// Depths that differ by less are one: 0.01 mm.
const SAME: f64 = 0.01;

/// Depths below the box's face, one for each cell of a grid, row after row; infinite where there is no surface.
#[derive(Clone, Debug)]
pub struct Raster {
    /// Where the places stand.
    pub grid: Grid,
    /// The depths.
    pub depths: Vec<f64>,
}

impl Raster {
    /// Probes the whole face of a view, over the machine's threads.
    pub fn of_face(view: &View<'_>, step: f64) -> Result<Raster, Refusal> {
        let grid = Grid::new(view.low(), view.high(), step);
        let [columns, rows] = grid.counts();
        let numbers: Vec<usize> = (0..rows).collect();
        let label = format!("probing the {} face, rows", view.face.name());
        let rows = Batch::new().progress(label).run(&numbers, |row, scratch| {
            let cells = row * columns..(row + 1) * columns;
            let depth = |cell: usize| view.depth(grid.place(cell), scratch);
            cells.map(depth).collect::<Result<Vec<f64>, Refusal>>()
        });
        let mut depths = Vec::with_capacity(grid.len());
        for row in rows {
            depths.append(&mut row?);
        }
        Ok(Raster { grid, depths })
    }
}

/// The depth of the face itself below the box's: of the flat depths that have a fifth of the raster, or half of its
/// border, the least. What stands out of a face has neither, and the floor of a tray has no border.
pub fn face_level(raster: &Raster) -> Option<f64> {
    let bin = |depth: f64| (depth / SAME).round();
    let grid = &raster.grid;
    let on_border = |cell: usize| grid.neighbours(cell).iter().any(Option::is_none);
    let mut cells: Vec<(f64, bool)> = raster
        .depths
        .iter()
        .enumerate()
        .filter(|(_, depth)| depth.is_finite())
        .map(|(cell, &depth)| (depth, on_border(cell)))
        .collect();
    cells.sort_by(|a, b| a.0.total_cmp(&b.0));
    let border = cells.iter().filter(|cell| cell.1).count();
    cells
        .chunk_by(|a, b| bin(a.0) == bin(b.0))
        .find(|same| {
            let on_border = same.iter().filter(|cell| cell.1).count();
            5 * same.len() >= cells.len() || (2 * on_border >= border && on_border > 0)
        })
        .map(|same| same[same.len() / 2].0)
}
