//! Records that tell slips which no ordinary record tells (src/slips.rs). Each was made for its slip, or found by a search
//! over a family of records; the answers are the plain model's.

use crate::{
    answer::Ray,
    record::{Record, Shape},
};

type Point = [f64; 3];

const UP: Point = [0.0, 0.0, 1.0];
const DOWN: Point = [0.0, 0.0, -1.0];

fn record(origin: Point, direction: Point, maximum: f64, shape: Shape) -> Record {
    Record {
        version: 1,
        ray: Ray {
            origin,
            direction,
            maximum,
            near: 0.0,
        },
        shape,
    }
}

fn grid(sides: [u32; 3], spacing: Point, values: Vec<f64>) -> Shape {
    Shape::LevelSet {
        sides,
        origin: [0.0; 3],
        spacing,
        values,
    }
}

/// A right triangle at the origin with these legs along x and y, cast at from above, inside.
fn legs(x: f64, y: f64) -> Record {
    let corners = [[0.0; 3], [x, 0.0, 0.0], [0.0, y, 0.0]];
    record(
        [x / 4.0, y / 4.0, 1.0],
        DOWN,
        2.0,
        Shape::Triangle { corners },
    )
}

/// A triangle whose edges' cross is infinite, its determinant not, seen along x.
fn infinite_cross(y: f64) -> Record {
    let (x, p) = (2f64.powi(610), 2f64.powi(-10));
    let corners = [[0.0; 3], [x, 0.0, p], [0.0, x, 0.0]];
    record(
        [x / 4.0, y, p / 4.0],
        [1.0, 0.0, 0.0],
        1.0,
        Shape::Triangle { corners },
    )
}

/// A walk along x that crosses layer after layer at a slant. The distance so far is rounded so coarsely that about every third
/// crossing takes two steps.
fn slanted(layers: u32, height: f64, direction: Point) -> Record {
    let wide = 2_097_152.0;
    let shape = grid(
        [2, 2, layers],
        [wide, 1.0, 0.0625],
        vec![1.0; 4 * layers as usize],
    );
    record([0.0, 0.5, height], direction, 4.0 * wide, shape)
}

/// A grid of so many layers from above, its surface half way between two of them. No stored record has room for the largest.
pub fn layered(layers: u32) -> Record {
    let values = (0..layers).flat_map(|layer| [f64::from(layer) - 100.5; 4]);
    let shape = grid([2, 2, layers], [1.0; 3], values.collect());
    record([0.5, 0.5, 300.0], DOWN, 400.0, shape)
}

pub fn records() -> Vec<Record> {
    [planes_and_triangles(), grids(), faces(), walks()].concat()
}

fn planes_and_triangles() -> Vec<Record> {
    let half = 0.5f64.sqrt();
    let plane = |normal| Shape::Plane {
        normal,
        distance: 0.0,
    };
    let t = Shape::Mesh {
        vertices: vec![0.0, 0.0, 0.0, 1.0, 0.0, 0.0, 0.0, 1.0, 0.0],
        indices: vec![0, 1, 2],
    };
    let flat = Shape::HeightField {
        rows: 2,
        columns: 2,
        spacing: [1.0; 2],
        heights: vec![0.0; 4],
    };
    let (far, right) = ([1.5e308, 0.25, 1.0], [1.0, 0.0, 0.0]);
    vec![
        // a length within 1e-12 of 1 whose square is not
        record(
            [0.0, 0.0, 2.0],
            [0.0, 0.0, -1.000_000_000_000_7],
            5.0,
            plane(UP),
        ),
        // parallel, and the origin's dot overflows
        record([1.5e308, 1.5e308, 0.0], UP, 5.0, plane([half, half, 0.0])),
        // a determinant of 32 EPS, just flat, and one of 48 EPS
        legs(2f64.powi(-23), 2f64.powi(-24)),
        legs(1.5 * 2f64.powi(-23), 2f64.powi(-24)),
        // a component that is rounded as its vector is scaled: to 1 of the least floats, and not to 2
        record(
            [2f64.powi(268), 2f64.powi(268), 1.0],
            DOWN,
            2.0,
            Shape::Triangle {
                corners: [
                    [0.0; 3],
                    [2f64.powi(270), 0.0, 1.25 * 2f64.powi(-804)],
                    [0.0, 2f64.powi(270), 0.0],
                ],
            },
        ),
        // a cross that is not finite, at a distance of 0 and at one that is no number
        infinite_cross(2f64.powi(210)),
        infinite_cross(2f64.powi(608)),
        // a segment's end that is not finite
        record(far, right, 1e308, t),
        record(far, right, 1e308, flat),
        // node (1, 1) lies in four cells; cells (0, 1) and (1, 0) answer with other normals
        record(
            [1.0, 1.0, 0.0],
            DOWN,
            8.0,
            Shape::HeightField {
                rows: 3,
                columns: 3,
                spacing: [1.0; 2],
                heights: vec![1e160, -1.0, -1e160, 0.0, 0.0, -1.0, 1.0, 0.0, 1e160],
            },
        ),
    ]
}

fn grids() -> Vec<Record> {
    let layers = |low: f64, high: f64| [[low; 4], [high; 4]].concat();
    let diagonal = [0.577_350_269_189_625_8; 3];
    let (vast, middle) = ([1e160; 3], [0.5e160, 0.5e160, 2e160]);
    let (low, high) = (-4.7734371417261e307, -3.5545640797315774e307);
    let jump = vec![
        -1.542536467654211e300,
        low,
        low,
        high,
        low,
        high,
        high,
        3.971250089343619e307,
    ];
    vec![
        // a gradient whose dot is below 2^-1022
        record(
            [0.5, 0.5, 2.0],
            DOWN,
            5.0,
            grid([2; 3], [1.0; 3], layers(-1e-158, 1e-158)),
        ),
        // along the face x = 1 by the least step, which is parallel
        record(
            [1.0, 0.5, 2.0],
            [5e-324, 0.0, -1.0],
            5.0,
            grid([2; 3], [1.0; 3], layers(-0.5, 0.5)),
        ),
        // a third difference that is not finite, and no root
        record(
            middle,
            DOWN,
            4e160,
            grid([2; 3], vast, layers(-0.8e308, -0.65e308)),
        ),
        // a parabola with both ends above 0 and its turning point below
        record(
            [0.0, 0.0, 0.5],
            [0.6, 0.8, 0.0],
            1.368284594834313,
            grid(
                [2; 3],
                [1.0; 3],
                vec![2.0, -6.0, -4.0, 2.0, 2.0, -4.0, -4.0, 2.0],
            ),
        ),
        // the cubic's value jumps from below 0 to infinity at a small fraction, so that no middle is accepted
        record([0.0; 3], diagonal, 4e160, grid([2; 3], vast, jump)),
    ]
}

/// A sample past the last node, and a cubic that turns twice at one point.
fn faces() -> Vec<Record> {
    let far = 2f64.powi(1000);
    let steep = 2f64.powi(60);
    let past = vec![
        -steep,
        -1.0,
        -steep,
        -1.0,
        3.0 * steep,
        1.0,
        3.0 * steep,
        1.0,
    ];
    let diagonal = [0.577_350_269_189_625_8; 3];
    let (first, second) = (-0.5, -3.5);
    let turning = vec![-1.5, first, first, second, first, second, second, 5.5];
    vec![
        // along the face x = 1, and past it by the way: the values at x = 0 are so large that the float below 1 tells
        record(
            [1.0, 0.5, 2.0 * far],
            [f64::MIN_POSITIVE, 0.0, -1.0],
            4.0 * far,
            grid([2; 3], [1.0, 1.0, far], past),
        ),
        // 16 (u - 1/4)^3 - 5/4 along the diagonal, u from 0 to 1: both roots of its derivative are 1/4
        record([0.0; 3], diagonal, 4.0, grid([2; 3], [1.0; 3], turning)),
    ]
}

fn walks() -> Vec<Record> {
    vec![
        // a falling coordinate within 16 EPS of a node, and not within 1
        record(
            [0.2420221066905645, 0.8061264930761723, 1.111550381141889],
            [0.319295996290905, 0.07259212419135971, -0.9448705997426232],
            14.482531897319767,
            grid(
                [2, 2, 3],
                [0.7, 1.0, 0.1],
                vec![2.0, 0.0, -1.0, -1.0, 1.0, 2.0, 0.0, 3.0, 0.0, 1.0, 0.0, 2.0],
            ),
        ),
        // a boundary within 16 EPS, which is passed over
        record(
            [-3.30757617696597, -8.194408643748934, 103.04984780426246],
            [
                0.03224580702566127,
                0.07979508593530488,
                -0.9962895925331355,
            ],
            420.82567481035534,
            grid(
                [2, 2, 3],
                [0.1, 0.1, 0.7],
                vec![
                    -1.0, 2.0, -1.0, 3.0, 3.0, 2.0, -1.0, -1.0, 0.0, 1.0, 3.0, 1.0,
                ],
            ),
        ),
        // the walk ends with its last admitted cell, and one cell later
        slanted(
            32,
            1027.9271435920582,
            [0.9999683049931078, 0.0, -0.007961721497942694],
        ),
        slanted(
            39,
            1028.1441841086182,
            [0.9999918416440912, 0.0, -0.004039386742926013],
        ),
    ]
}
