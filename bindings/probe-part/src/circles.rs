//! Circles through points of a plane.
use std::f64::consts::TAU;

/// The widest side that a tessellated circle has: that of seven, with something to spare.
pub const WIDEST_SIDE: f64 = TAU / 7.0 + 0.02;

/// The widest side that the arc of a slot or of a corner has: that of six, with something to spare.
pub const WIDEST_ARC: f64 = TAU / 6.0 + 0.02;

/// A circle has at least so many sides: six are a pocket for a nut.
pub const LEAST_SIDES: usize = 7;

/// A circle.
#[derive(Clone, Copy, Debug, PartialEq)]
pub struct Circle {
    /// Its centre.
    pub centre: [f64; 2],
    /// Its radius.
    pub radius: f64,
}

impl Circle {
    /// How far a point is from the centre.
    pub fn radius_of(&self, point: [f64; 2]) -> f64 {
        (point[0] - self.centre[0]).hypot(point[1] - self.centre[1])
    }

    /// The angle under which a point is seen from the centre.
    pub fn angle_of(&self, point: [f64; 2]) -> f64 {
        (point[1] - self.centre[1]).atan2(point[0] - self.centre[0])
    }

    /// Whether a point lies on it, within a tolerance.
    pub fn has(&self, point: [f64; 2], tolerance: f64) -> bool {
        (self.radius_of(point) - self.radius).abs() <= tolerance
    }

    /// The circle of least squares, of x² + y² = a·x + b·y + c; none for points on a line.
    pub fn through(points: &[[f64; 2]]) -> Option<Circle> {
        let count = points.len() as f64;
        let mean: [f64; 2] =
            std::array::from_fn(|side| points.iter().map(|point| point[side]).sum::<f64>() / count);
        let [mut xx, mut xy, mut yy, mut xz, mut yz, mut z] = [0.0; 6];
        for point in points {
            let [x, y] = [point[0] - mean[0], point[1] - mean[1]];
            let square = x * x + y * y;
            xx += x * x;
            xy += x * y;
            yy += y * y;
            xz += x * square;
            yz += y * square;
            z += square;
        }
        let determinant = xx * yy - xy * xy;
        // points on a line: their spread across it is nothing beside that along it
        if points.len() < 3 || determinant.is_nan() || determinant <= 1e-12 * z * z {
            return None;
        }
        let a = (xz * yy - yz * xy) / determinant / 2.0;
        let b = (yz * xx - xz * xy) / determinant / 2.0;
        Some(Circle {
            centre: [mean[0] + a, mean[1] + b],
            radius: (a * a + b * b + z / count).sqrt(),
        })
    }

    /// The circle that a polygon is the tessellation of: its corners lie on it, all around, and no side is wider than that
    /// of seven.
    pub fn of_polygon(corners: &[[f64; 2]], tolerance: f64) -> Option<Circle> {
        if corners.len() < LEAST_SIDES {
            return None;
        }
        let circle = Circle::through(corners)?;
        let on = |corner: &[f64; 2]| circle.has(*corner, tolerance);
        let round = corners.iter().all(on)
            && circle.widest_gap(corners) <= WIDEST_SIDE
            && circle.turns(corners).abs() > TAU - 0.1;
        round.then_some(circle)
    }

    /// How far a polygon goes round the centre, in sum.
    pub fn turns(&self, corners: &[[f64; 2]]) -> f64 {
        let next = corners.iter().cycle().skip(1);
        corners
            .iter()
            .zip(next)
            .map(|(one, other)| wrapped(self.angle_of(*other) - self.angle_of(*one)))
            .sum()
    }

    /// The widest angle at the centre between neighbours of these points.
    pub fn widest_gap(&self, points: &[[f64; 2]]) -> f64 {
        let mut angles: Vec<f64> = points.iter().map(|point| self.angle_of(*point)).collect();
        angles.sort_by(f64::total_cmp);
        let Some(&first) = angles.first() else {
            return TAU;
        };
        angles.push(first + TAU);
        angles
            .windows(2)
            .map(|pair| pair[1] - pair[0])
            .fold(0.0, f64::max)
    }
}

/// An angle from -half a turn to half a turn.
pub fn wrapped(angle: f64) -> f64 {
    angle - TAU * (angle / TAU).round()
}
