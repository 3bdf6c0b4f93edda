//! Makes a record smaller and plainer while a test of it still holds.

use crate::record::{Record, Shape};

/// How plain a float is: 0 for zero, then 1, small whole numbers, few bits.
fn cost_of(value: f64) -> u64 {
    if value.to_bits() == 0 {
        return 0;
    }
    let bits = value.to_bits();
    let mantissa = bits & ((1 << 52) - 1);
    let used = if mantissa == 0 {
        0
    } else {
        52 - u64::from(mantissa.trailing_zeros())
    };
    let exponent = ((bits >> 52) & 0x7ff).abs_diff(1_023);
    1 + 2 * used + exponent.min(300) + (bits >> 63)
}

/// Bytes first, then the floats.
fn cost(record: &Record) -> (usize, u64) {
    let mut copy = record.clone();
    let floats = copy.floats_mut().into_iter().map(|f| cost_of(*f)).sum();
    (record.write().len(), floats)
}

/// Plainer floats to try in place of one.
fn plainer(value: f64) -> Vec<f64> {
    let bits = value.to_bits();
    let mut all = vec![
        0.0,
        1.0,
        -1.0,
        value.abs(),
        value.round(),
        value.trunc(),
        2.0,
        0.5,
    ];
    for kept in [0, 1, 2, 4, 8, 16, 32, 44, 48, 50, 51] {
        all.push(f64::from_bits(bits >> (52 - kept) << (52 - kept)));
    }
    all.push((value * 4.0).round() / 4.0);
    all.extend(
        [2.0, 16.0, 1e10, 1e100]
            .iter()
            .flat_map(|by| [value / by, value * by]),
    );
    all.retain(|other| cost_of(*other) < cost_of(value));
    all
}

/// The mesh without some triangles, for runs of every length from half down to one.
fn fewer_triangles(vertices: &[f64], indices: &[u32]) -> Vec<Shape> {
    let n = indices.len() / 3;
    let mut all = Vec::new();
    let mut run = n.div_ceil(2);
    while run > 0 {
        for start in (0..n).step_by(run) {
            let mut left = indices.to_vec();
            left.drain(3 * start..(3 * (start + run)).min(3 * n));
            all.push(Shape::Mesh {
                vertices: vertices.to_vec(),
                indices: left,
            });
        }
        run /= 2;
    }
    all
}

/// The mesh without one vertex, indices above it moved down.
fn fewer_vertices(vertices: &[f64], indices: &[u32]) -> Vec<Shape> {
    let without = |vertex: usize| {
        let mut left = vertices.to_vec();
        left.drain(3 * vertex..3 * vertex + 3);
        let moved = |&index: &u32| {
            if index as usize > vertex {
                index - 1
            } else {
                index
            }
        };
        Shape::Mesh {
            vertices: left,
            indices: indices.iter().map(moved).collect(),
        }
    };
    (0..vertices.len() / 3).map(without).collect()
}

/// A grid without one layer across the axis of `side` nodes that are `stride` apart.
fn without_layer(values: &[f64], side: usize, stride: usize, layer: usize) -> Vec<f64> {
    let kept = |&(place, _): &(usize, &f64)| place / stride % side != layer;
    values
        .iter()
        .enumerate()
        .filter(kept)
        .map(|(_, value)| *value)
        .collect()
}

fn smaller_shapes(shape: &Shape) -> Vec<Shape> {
    match shape {
        Shape::Mesh { vertices, indices } => {
            let mut all = fewer_triangles(vertices, indices);
            all.extend(fewer_vertices(vertices, indices));
            all
        }
        Shape::HeightField {
            rows,
            columns,
            spacing,
            heights,
        } => {
            let mut all = Vec::new();
            for layer in 0..*rows {
                all.push(Shape::HeightField {
                    rows: rows - 1,
                    columns: *columns,
                    spacing: *spacing,
                    heights: without_layer(
                        heights,
                        *rows as usize,
                        *columns as usize,
                        layer as usize,
                    ),
                });
            }
            for layer in 0..*columns {
                all.push(Shape::HeightField {
                    rows: *rows,
                    columns: columns - 1,
                    spacing: *spacing,
                    heights: without_layer(heights, *columns as usize, 1, layer as usize),
                });
            }
            all
        }
        Shape::LevelSet {
            sides,
            origin,
            spacing,
            values,
        } => {
            let mut all = Vec::new();
            let mut stride = 1;
            for axis in 0..3 {
                let side = sides[axis] as usize;
                for layer in 0..side {
                    let mut fewer = *sides;
                    fewer[axis] -= 1;
                    all.push(Shape::LevelSet {
                        sides: fewer,
                        origin: *origin,
                        spacing: *spacing,
                        values: without_layer(values, side, stride, layer),
                    });
                }
                stride *= side;
            }
            all
        }
        Shape::Plane { .. } | Shape::Triangle { .. } => Vec::new(),
    }
}

/// All records with a smaller shape, one step away.
fn smaller(record: &Record) -> Vec<Record> {
    let with_shape = |shape| Record {
        version: record.version,
        ray: record.ray,
        shape,
    };
    smaller_shapes(&record.shape)
        .into_iter()
        .map(with_shape)
        .collect()
}

/// All records in which one float is plainer.
fn plainer_floats(record: &Record) -> Vec<Record> {
    let mut copy = record.clone();
    let values: Vec<f64> = copy.floats_mut().into_iter().map(|f| *f).collect();
    let mut all = Vec::new();
    for (place, value) in values.into_iter().enumerate() {
        for plain in plainer(value) {
            let mut other = record.clone();
            *other.floats_mut()[place] = plain;
            all.push(other);
        }
    }
    all
}

/// The plainest record found for which `holds` says yes. `holds` gets many records at
/// once and says which hold.
pub fn shrink(mut record: Record, mut holds: impl FnMut(&[Record]) -> Vec<bool>) -> Record {
    let mut plainest = |candidates: Vec<Record>| {
        let still = holds(&candidates);
        let kept = candidates
            .into_iter()
            .zip(still)
            .filter(|(_, holds)| *holds);
        kept.map(|(candidate, _)| candidate).min_by_key(cost)
    };
    // Values are touched only once no part of the shape can be left out.
    while let Some(next) = plainest(smaller(&record)).or_else(|| plainest(plainer_floats(&record)))
    {
        record = next;
    }
    record
}
