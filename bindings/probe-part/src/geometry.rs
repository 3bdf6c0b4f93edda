//! Vectors, and the directions along a plane.

/// A point or a vector.
pub type Vector = [f64; 3];

/// The sum.
pub fn add(a: Vector, b: Vector) -> Vector {
    [a[0] + b[0], a[1] + b[1], a[2] + b[2]]
}

/// The difference.
pub fn subtract(a: Vector, b: Vector) -> Vector {
    [a[0] - b[0], a[1] - b[1], a[2] - b[2]]
}

/// The multiple.
pub fn scale(a: Vector, by: f64) -> Vector {
    a.map(|part| part * by)
}

/// The point so far along a direction.
pub fn along(from: Vector, direction: Vector, distance: f64) -> Vector {
    add(from, scale(direction, distance))
}

/// The dot product.
pub fn dot(a: Vector, b: Vector) -> f64 {
    a[0] * b[0] + a[1] * b[1] + a[2] * b[2]
}

/// The cross product.
pub fn cross(a: Vector, b: Vector) -> Vector {
    [
        a[1] * b[2] - a[2] * b[1],
        a[2] * b[0] - a[0] * b[2],
        a[0] * b[1] - a[1] * b[0],
    ]
}

/// The length.
pub fn length(a: Vector) -> f64 {
    dot(a, a).sqrt()
}

/// The vector of length 1, or zero where there is none.
pub fn unit(a: Vector) -> Vector {
    let length = length(a);
    if length > 0.0 {
        scale(a, 1.0 / length)
    } else {
        [0.0; 3]
    }
}

/// The point in the middle.
pub fn middle(a: Vector, b: Vector) -> Vector {
    scale(add(a, b), 0.5)
}

/// A line that things lie about.
#[derive(Clone, Copy, Debug, PartialEq)]
pub struct Axis {
    /// A point of it.
    pub point: Vector,
    /// Its unit direction.
    pub direction: Vector,
}

impl Axis {
    /// How far along the axis a point lies, from the axis's own point on.
    pub fn height(&self, point: Vector) -> f64 {
        dot(subtract(point, self.point), self.direction)
    }

    /// The vector from the axis to a point, across it.
    pub fn radial(&self, point: Vector) -> Vector {
        let from = subtract(point, self.point);
        subtract(from, scale(self.direction, dot(from, self.direction)))
    }

    /// The point of the axis at a height.
    pub fn at(&self, height: f64) -> Vector {
        along(self.point, self.direction, height)
    }

    /// The height at which it meets a plane; none where it runs along it.
    pub fn meets(&self, normal: Vector, offset: f64) -> Option<f64> {
        let lean = dot(self.direction, normal);
        (lean.abs() > 1e-6).then(|| (offset - dot(self.point, normal)) / lean)
    }
}

/// Coordinates along a plane: two unit directions across its normal and across each other.
#[derive(Clone, Copy, Debug, PartialEq)]
pub struct Sheet {
    /// The first direction.
    pub first: Vector,
    /// The second.
    pub second: Vector,
    /// The normal that the coordinates are seen from, where first × second is it.
    pub normal: Vector,
}

/// How far from an axis a normal may lean to count as that axis.
const NEARLY: f64 = 1e-6;

impl Sheet {
    /// The coordinates of a face with this normal: along x and y, x and z, or y and z where it lies across an axis,
    /// else with the first direction level, or along x.
    pub fn of(normal: Vector) -> Sheet {
        let across = (0..3).find(|&axis| normal[axis].abs() > 1.0 - NEARLY);
        let (first, second) = match across {
            Some(0) => ([0.0, 1.0, 0.0], [0.0, 0.0, 1.0]),
            Some(1) => ([1.0, 0.0, 0.0], [0.0, 0.0, 1.0]),
            Some(_) => ([1.0, 0.0, 0.0], [0.0, 1.0, 0.0]),
            None => {
                let level = unit(cross([0.0, 0.0, 1.0], normal));
                let most = (0..3).max_by(|&a, &b| level[a].abs().total_cmp(&level[b].abs()));
                let sign = level[most.unwrap_or(0)].signum();
                let first = scale(level, sign);
                (first, cross(normal, first))
            }
        };
        Sheet {
            first,
            second,
            normal,
        }
    }

    /// A point's coordinates along the plane.
    pub fn flat(&self, point: Vector) -> [f64; 2] {
        [dot(point, self.first), dot(point, self.second)]
    }

    /// The point of these coordinates at a height along the normal.
    pub fn solid(&self, [u, v]: [f64; 2], height: f64) -> Vector {
        add(
            add(scale(self.first, u), scale(self.second, v)),
            scale(self.normal, height),
        )
    }
}

/// The signed area of a polygon, seen from the normal: above 0 where it runs to the left around.
pub fn polygon_area(points: &[Vector], normal: Vector) -> f64 {
    let Some(&first) = points.first() else {
        return 0.0;
    };
    let twice: f64 = points
        .windows(2)
        .map(|pair| {
            dot(
                cross(subtract(pair[0], first), subtract(pair[1], first)),
                normal,
            )
        })
        .sum();
    twice / 2.0
}

/// The sides of a flat polygon: each corner with the next.
pub fn sides(polygon: &[[f64; 2]]) -> impl Iterator<Item = ([f64; 2], [f64; 2])> + '_ {
    let next = polygon.iter().cycle().skip(1);
    polygon.iter().copied().zip(next.copied())
}

/// How long the sides of a flat polygon are together.
pub fn perimeter(polygon: &[[f64; 2]]) -> f64 {
    sides(polygon)
        .map(|(a, b)| (b[0] - a[0]).hypot(b[1] - a[1]))
        .sum()
}

/// The least and largest coordinates of points.
pub fn box_of(points: impl IntoIterator<Item = Vector>) -> [Vector; 2] {
    let mut bounds = [[f64::INFINITY; 3], [f64::NEG_INFINITY; 3]];
    for point in points {
        for axis in 0..3 {
            bounds[0][axis] = bounds[0][axis].min(point[axis]);
            bounds[1][axis] = bounds[1][axis].max(point[axis]);
        }
    }
    bounds
}

/// Points nearer than this are one, and points so near a line lie on it.
const SAME_PLACE: f64 = 1e-3;

/// A polygon without the points that stand twice or on straight lines between others.
pub fn straightened(polygon: &[Vector]) -> Vec<Vector> {
    let is_same = |a: Vector, b: Vector| length(subtract(a, b)) <= SAME_PLACE;
    let mut points = polygon.to_vec();
    points.dedup_by(|a, b| is_same(*a, *b));
    while points.len() > 1 && is_same(points[0], points[points.len() - 1]) {
        points.pop();
    }
    let count = points.len();
    let mut kept: Vec<Vector> = Vec::new();
    for place in 0..count {
        let before = kept
            .last()
            .copied()
            .unwrap_or(points[(place + count - 1) % count]);
        let (here, after) = (points[place], points[(place + 1) % count]);
        let way = unit(subtract(after, before));
        let from = subtract(here, before);
        let off = length(subtract(from, scale(way, dot(from, way))));
        if off > SAME_PLACE || dot(from, way) < 0.0 {
            kept.push(here);
        }
    }
    kept
}

#[cfg(test)]
mod tests {
    use super::straightened;

    /// The corners of a square, with middles of sides between them and corners twice, whichever comes first.
    #[test]
    fn a_polygon_keeps_its_corners() {
        let corner = |x: f64, y: f64| [x, y, 5.0];
        let square = [
            corner(0.0, 0.0),
            corner(0.0, 0.0),
            corner(2.0, 0.0),
            corner(4.0, 0.0),
            corner(4.0, 0.0),
            corner(4.0, 1.0),
            corner(4.0, 3.0),
            corner(4.0, 4.0),
            corner(0.0, 4.0),
            corner(0.0, 4.0),
            corner(0.0, 2.0),
        ];
        for start in 0..square.len() {
            let mut turned = square;
            turned.rotate_left(start);
            let mut kept = straightened(&turned);
            kept.sort_by(|a, b| a[0].total_cmp(&b[0]).then(a[1].total_cmp(&b[1])));
            let corners = [[0.0, 0.0], [0.0, 4.0], [4.0, 0.0], [4.0, 4.0]];
            assert_eq!(kept, corners.map(|[x, y]| corner(x, y)), "from {start}");
        }
    }
}
