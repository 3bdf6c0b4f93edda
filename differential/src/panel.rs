//! Bumpy panels: meshes of any size whose triangles share their vertices.

use oracle::random::Random;

/// A grid of `columns` by `rows` squares of two triangles each, spacing 1, with heights
/// from `height`.
pub fn panel(
    columns: usize,
    rows: usize,
    mut height: impl FnMut(usize, usize) -> f64,
) -> (Vec<f64>, Vec<u32>) {
    let mut vertices = Vec::new();
    for y in 0..=rows {
        for x in 0..=columns {
            vertices.extend([x as f64, y as f64, height(x, y)]);
        }
    }
    let (mut indices, across) = (Vec::new(), columns as u32 + 1);
    for y in 0..rows as u32 {
        for x in 0..columns as u32 {
            let first = y * across + x;
            indices.extend([first, first + 1, first + across + 1]);
            indices.extend([first, first + across + 1, first + across]);
        }
    }
    (vertices, indices)
}

/// The triangles in another order.
pub fn shuffled(random: &mut Random, indices: &[u32]) -> Vec<u32> {
    let mut triangles: Vec<&[u32]> = indices.chunks_exact(3).collect();
    random.shuffle(&mut triangles);
    triangles.concat()
}
