//! Least squares in the plane: the measures of an outline that points lie nearest to.

/// A point of a plane.
pub type Place = [f64; 2];

/// At most so many steps; near the end each is about the square of the one before.
const STEPS: usize = 60;

/// Derivatives are taken over twice this length, in millimetres.
const NUDGE: f64 = 1e-4;

/// A step below this length changes nothing, in millimetres.
const SETTLED: f64 = 1e-10;

/// The measures, from a guess on, for which the distances of points from an outline are least (Levenberg and Marquardt).
/// `off` is the signed distance of a point from the outline with some measures. All measures are lengths.
pub fn fitted<const N: usize>(
    points: &[Place],
    guess: [f64; N],
    off: impl Fn(&[f64; N], Place) -> f64,
) -> [f64; N] {
    let error = |measures: &[f64; N]| -> f64 {
        let square = |&point: &Place| off(measures, point).powi(2);
        points.iter().map(square).sum()
    };
    let mut best = guess;
    let mut least = error(&best);
    let mut damping = 1e-3;
    for _ in 0..STEPS {
        let (matrix, side) = equations(points, &best, &off);
        let mut settled = true;
        for _ in 0..12 {
            let Some(step) = solved(matrix, side, damping) else {
                break;
            };
            let next: [f64; N] = std::array::from_fn(|n| best[n] + step[n]);
            let sum = error(&next);
            if sum < least {
                settled = step.iter().all(|part| part.abs() < SETTLED);
                (best, least) = (next, sum);
                damping = (damping * 0.1).max(1e-12);
                break;
            }
            damping *= 10.0;
        }
        if settled {
            break;
        }
    }
    best
}

/// The normal equations at some measures: the sums of the derivatives' products, and of their products with the distances.
fn equations<const N: usize>(
    points: &[Place],
    measures: &[f64; N],
    off: &impl Fn(&[f64; N], Place) -> f64,
) -> ([[f64; N]; N], [f64; N]) {
    let (mut matrix, mut side) = ([[0.0; N]; N], [0.0; N]);
    for &point in points {
        let here = off(measures, point);
        let slope: [f64; N] = std::array::from_fn(|n| {
            let [mut less, mut more] = [*measures; 2];
            less[n] -= NUDGE;
            more[n] += NUDGE;
            (off(&more, point) - off(&less, point)) / (2.0 * NUDGE)
        });
        for row in 0..N {
            for column in 0..N {
                matrix[row][column] += slope[row] * slope[column];
            }
            side[row] -= slope[row] * here;
        }
    }
    (matrix, side)
}

/// The step of damped normal equations, by elimination with pivots.
fn solved<const N: usize>(
    mut matrix: [[f64; N]; N],
    mut side: [f64; N],
    damping: f64,
) -> Option<[f64; N]> {
    for (n, row) in matrix.iter_mut().enumerate() {
        row[n] += damping * row[n] + 1e-12;
    }
    for column in 0..N {
        let pivot = (column..N)
            .max_by(|&a, &b| matrix[a][column].abs().total_cmp(&matrix[b][column].abs()))?;
        matrix.swap(column, pivot);
        side.swap(column, pivot);
        let (lead, whole) = (matrix[column], side[column]);
        if lead[column].abs() < 1e-300 {
            return None;
        }
        for row in (0..N).filter(|&row| row != column) {
            let share = matrix[row][column] / lead[column];
            for place in column..N {
                matrix[row][place] -= share * lead[place];
            }
            side[row] -= share * whole;
        }
    }
    let step: [f64; N] = std::array::from_fn(|n| side[n] / matrix[n][n]);
    step.iter().all(|part| part.is_finite()).then_some(step)
}
