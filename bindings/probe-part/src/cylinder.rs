//! The cylinder through points, in any direction, by least squares.
use crate::circles::Circle;
use crate::geometry::{add, cross, dot, length, scale, unit, Axis, Sheet, Vector};

/// So many steps of the least squares; each is about the square of the one before.
const STEPS: usize = 12;

/// The direction that normals, each with its weight, lie across: of the least spread. None where they all point one way.
pub fn across(normals: impl Iterator<Item = (Vector, f64)>) -> Option<Vector> {
    let mut spread = [[0.0; 3]; 3];
    for (normal, weight) in normals {
        for row in 0..3 {
            for column in 0..3 {
                spread[row][column] += weight * normal[row] * normal[column];
            }
        }
    }
    let trace = spread[0][0] + spread[1][1] + spread[2][2];
    // two directions of the spread's range: the widest cross product of its rows is the direction across them
    let crosses = [
        cross(spread[0], spread[1]),
        cross(spread[1], spread[2]),
        cross(spread[2], spread[0]),
    ];
    let widest = crosses
        .into_iter()
        .max_by(|a, b| length(*a).total_cmp(&length(*b)))?;
    (length(widest) > 1e-6 * trace * trace).then(|| unit(widest))
}

/// The axis and radius of the cylinder through points, from a guess of its direction.
pub fn fitted(points: &[Vector], direction: Vector) -> Option<(Axis, f64)> {
    let count = points.len() as f64;
    let mean = scale(points.iter().copied().fold([0.0; 3], add), 1.0 / count);
    let sheet = Sheet::of(direction);
    let flat: Vec<[f64; 2]> = points.iter().map(|&point| sheet.flat(point)).collect();
    let circle = Circle::through(&flat)?;
    let mut axis = Axis {
        point: sheet.solid(circle.centre, dot(mean, direction)),
        direction,
    };
    let mut radius = circle.radius;
    for _ in 0..STEPS {
        let sheet = Sheet::of(axis.direction);
        let [u, v] = [sheet.first, sheet.second];
        let mut matrix = [[0.0; 6]; 5];
        for &point in points {
            let (height, outward) = (axis.height(point), unit(axis.radial(point)));
            let off = length(axis.radial(point)) - radius;
            // how the distance changes as the axis moves along u and v, leans to u and v, and the radius grows
            let [along_u, along_v] = [dot(outward, u), dot(outward, v)];
            let row = [
                -along_u,
                -along_v,
                -height * along_u,
                -height * along_v,
                -1.0,
            ];
            for one in 0..5 {
                for other in 0..5 {
                    matrix[one][other] += row[one] * row[other];
                }
                matrix[one][5] -= row[one] * off;
            }
        }
        let [du, dv, lean_u, lean_v, grow] = solved(matrix)?;
        axis.point = add(axis.point, add(scale(u, du), scale(v, dv)));
        axis.direction = unit(add(axis.direction, add(scale(u, lean_u), scale(v, lean_v))));
        radius += grow;
        if [du, dv, grow].iter().all(|step| step.abs() < 1e-10) {
            break;
        }
    }
    (radius.is_finite() && radius > 0.0).then_some((axis, radius))
}

/// Five equations of five unknowns, by elimination with pivots.
fn solved(mut matrix: [[f64; 6]; 5]) -> Option<[f64; 5]> {
    for column in 0..5 {
        let pivot = (column..5)
            .max_by(|&a, &b| matrix[a][column].abs().total_cmp(&matrix[b][column].abs()))?;
        matrix.swap(column, pivot);
        let lead = matrix[column];
        if lead[column].abs() < 1e-12 {
            return None;
        }
        for (row, numbers) in matrix.iter_mut().enumerate() {
            if row != column {
                let share = numbers[column] / lead[column];
                for place in column..6 {
                    numbers[place] -= share * lead[place];
                }
            }
        }
    }
    Some(std::array::from_fn(|n| matrix[n][5] / matrix[n][n]))
}
