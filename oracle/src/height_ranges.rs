//! The cast at heights known only within ranges, written down plainly from document 02's
//! M-109, and the same by trying every grid of a few heights.

use crate::{
    answer::{self, Answer, Ray},
    collision::height_field,
    slips::{Slip::*, slipped},
    tree::segment_box,
};

#[derive(Clone, Copy, Debug, PartialEq, Eq)]
pub enum Clearance {
    Clear,
    Possible(u32),
    Refused(u32),
}

/// A grid with a low and a high for each node, row after row.
#[derive(Clone, Debug)]
pub struct Ranges {
    pub rows: usize,
    pub columns: usize,
    pub spacing: [f64; 2],
    pub lows: Vec<f64>,
    pub highs: Vec<f64>,
}

impl Ranges {
    fn admitted(&self) -> bool {
        let sides = [self.rows, self.columns];
        sides.iter().all(|side| (2..=1_024).contains(side))
            && self.spacing.iter().all(|s| s.is_finite() && *s > 0.0)
            && self.lows.len() == self.rows * self.columns
            && self.highs.len() == self.rows * self.columns
    }

    /// The rows and columns of the cells that the height listing visits, in its order: by
    /// the Rust's own ranges. None where a span is not finite.
    fn visited(&self, bounds: &[f64; 6]) -> Option<Vec<[usize; 2]>> {
        height_field::visited(self.rows, self.columns, self.spacing, bounds)
    }

    fn nodes(&self, [row, column]: [usize; 2]) -> [usize; 4] {
        let node = |row: usize, column: usize| row * self.columns + column;
        [
            node(row, column),
            node(row, column + 1),
            node(row + 1, column),
            node(row + 1, column + 1),
        ]
    }

    /// "out of order or not finite"; equal is in order.
    fn in_order(&self, node: usize) -> bool {
        let (low, high) = (self.lows[node], self.highs[node]);
        low.is_finite() && high.is_finite() && low <= high && !(slipped(RangeEqual) && low == high)
    }

    /// Whether a triangle of the cell may touch the box: along x and y its box is fixed;
    /// along z one of its nodes may be as low as the box's upper side, and one as high as
    /// its lower side. One node may be both, since its range is in order.
    fn may_touch(&self, cell: [usize; 2], bounds: &[f64; 6]) -> bool {
        let [row, column] = cell;
        let [v00, v10, v01, v11] = self.nodes(cell);
        let place = |k: usize, spacing: f64| k as f64 * spacing;
        let beside =
            |low: f64, high: f64, axis: usize| high < bounds[axis] || bounds[axis + 3] < low;
        if beside(
            place(column, self.spacing[0]),
            place(column + 1, self.spacing[0]),
            0,
        ) || beside(
            place(row, self.spacing[1]),
            place(row + 1, self.spacing[1]),
            1,
        ) {
            return false;
        }
        let triangles = [[v00, v10, v11], [v00, v11, v01]];
        let spans = |corners: &[usize; 3], lows: &[f64], highs: &[f64]| {
            corners.iter().any(|&node| lows[node] <= bounds[5])
                && corners.iter().any(|&node| highs[node] >= bounds[2])
        };
        let (lows, highs) = (&self.lows[..], &self.highs[..]);
        let (low, high) = (
            |c: &[usize; 3]| spans(c, lows, lows),
            |c: &[usize; 3]| spans(c, highs, highs),
        );
        triangles.iter().any(|corners| {
            if slipped(RangeLows) {
                low(corners)
            } else if slipped(RangeHighs) {
                high(corners)
            } else if slipped(RangeEither) {
                low(corners) || high(corners)
            } else {
                spans(corners, lows, highs)
            }
        })
    }
}

/// Refusals 1 and 2, the segment's end, the span, 9, and then the first cell, if any.
/// The segment's box is valid where its end is finite, and a vertex is finite where the
/// span and its range are: the listing has nothing to refuse after 9.
pub fn cast(ray: &Ray, ranges: &Ranges) -> Clearance {
    if !answer::ray_admitted(ray) || !answer::near_admitted(ray) {
        return Clearance::Refused(1);
    }
    if !ranges.admitted() {
        return Clearance::Refused(2);
    }
    let Some(bounds) = segment_box(ray) else {
        return Clearance::Refused(6);
    };
    let Some(mut cells) = ranges.visited(&bounds) else {
        return Clearance::Refused(6);
    };
    if slipped(RangeColumns) {
        cells.sort_by_key(|[row, column]| (*column, *row));
    }
    let first = cells.iter().find(|cell| ranges.may_touch(**cell, &bounds));
    let mut counted = cells.clone();
    if slipped(RangeCells) {
        counted.retain(|cell| first.is_none_or(|first| cell <= first));
    }
    let mut nodes = counted.iter().flat_map(|cell| ranges.nodes(*cell));
    let all = 0..if slipped(RangeWhole) {
        ranges.lows.len()
    } else {
        0
    };
    if !nodes.all(|node| ranges.in_order(node))
        || !all.into_iter().all(|node| ranges.in_order(node))
    {
        return Clearance::Refused(9);
    }
    first.map_or(Clearance::Clear, |[row, column]| {
        Clearance::Possible((row * (ranges.columns - 1) + column) as u32)
    })
}

/// The same, past the refusals, by every grid whose heights are among a few: the first
/// cell of a triangle that the Rust's own listing gives for one of them. Exact where each
/// range has its ends among the heights and so has the segment's box along z. Where it is
/// clear, the Rust's height cast is none on every one of the grids.
pub fn by_trying(ray: &Ray, ranges: &Ranges, heights: &[f64]) -> Clearance {
    let bounds = segment_box(ray).expect("a finite segment");
    let count = ranges.lows.len();
    let within = |node: usize| {
        let inside = |h: &&f64| ranges.lows[node] <= **h && **h <= ranges.highs[node];
        heights.iter().filter(inside).copied().collect::<Vec<f64>>()
    };
    let choices: Vec<Vec<f64>> = (0..count).map(within).collect();
    let mut first: Option<u32> = None;
    let mut turn = vec![0; count];
    let mut hit = false;
    loop {
        let grid: Vec<f64> = (0..count).map(|k| choices[k][turn[k]]).collect();
        let (rows, columns) = (ranges.rows as u32, ranges.columns as u32);
        let listed =
            height_field::features(ranges.rows, ranges.columns, ranges.spacing, &grid, &bounds);
        first = listed.first().map(|f| f / 2).into_iter().chain(first).min();
        hit |= answer::height_field(ray, rows, columns, ranges.spacing, &grid) != Answer::None;
        let Some(place) = (0..count).find(|&k| turn[k] + 1 < choices[k].len()) else {
            break;
        };
        turn[place] += 1;
        turn[..place].fill(0);
    }
    assert!(
        first.is_some() || !hit,
        "a height cast hits where all is clear"
    );
    first.map_or(Clearance::Clear, Clearance::Possible)
}
