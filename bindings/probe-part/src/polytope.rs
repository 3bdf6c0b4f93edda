//! A convex body by its flat sides: a box, cut by planes.
use crate::geometry::{add, along, cross, dot, polygon_area, scale, subtract, unit, Sheet, Vector};

/// A convex body: the polygon of each side, to the left around where it is seen from outside, with its normal.
#[derive(Clone, Debug)]
pub struct Polytope {
    sides: Vec<(Vector, Vec<Vector>)>,
}

impl Polytope {
    /// A box.
    pub fn of_box([low, high]: [Vector; 2]) -> Polytope {
        let mut sides = Vec::new();
        for axis in 0..3 {
            let [first, second] = [(axis + 1) % 3, (axis + 2) % 3];
            for upper in [false, true] {
                let corner = |u: bool, v: bool| {
                    let mut point = low;
                    point[axis] = if upper { high[axis] } else { low[axis] };
                    point[first] = if u { high[first] } else { low[first] };
                    point[second] = if v { high[second] } else { low[second] };
                    point
                };
                let mut polygon = vec![
                    corner(false, false),
                    corner(true, false),
                    corner(true, true),
                    corner(false, true),
                ];
                if !upper {
                    polygon.reverse();
                }
                let mut normal = [0.0; 3];
                normal[axis] = if upper { 1.0 } else { -1.0 };
                sides.push((normal, polygon));
            }
        }
        Polytope { sides }
    }

    /// Cuts off what lies before a plane, by more than a tolerance.
    pub fn cut(&mut self, normal: Vector, offset: f64, tolerance: f64) {
        let height = |point: &Vector| dot(*point, normal) - offset;
        let mut points = self.sides.iter().flat_map(|side| &side.1);
        if points.all(|point| height(point) <= tolerance) {
            return;
        }
        let mut rim: Vec<Vector> = Vec::new();
        let mut sides = Vec::new();
        for (side, polygon) in self.sides.drain(..) {
            let mut kept = Vec::new();
            for place in 0..polygon.len() {
                let (here, next) = (polygon[place], polygon[(place + 1) % polygon.len()]);
                let (a, b) = (height(&here), height(&next));
                if a <= 0.0 {
                    kept.push(here);
                }
                if (a < 0.0 && b > 0.0) || (a > 0.0 && b < 0.0) {
                    let point = along(here, subtract(next, here), a / (a - b));
                    kept.push(point);
                    rim.push(point);
                } else if a == 0.0 {
                    rim.push(here);
                }
            }
            if kept.len() >= 3 {
                sides.push((side, kept));
            }
        }
        self.sides = sides;
        if rim.len() >= 3 {
            self.sides.push((normal, around(normal, rim)));
        }
    }

    /// Its volume.
    pub fn volume(&self) -> f64 {
        let Some(from) = self.sides.first().and_then(|side| side.1.first()) else {
            return 0.0;
        };
        self.sides
            .iter()
            .filter(|side| side.1.len() >= 3)
            .map(|(normal, polygon)| {
                let height = dot(subtract(polygon[0], *from), *normal);
                height * polygon_area(polygon, *normal) / 3.0
            })
            .sum()
    }

    /// The polygon of the side in a plane, to the left around.
    pub fn side(&self, normal: Vector, offset: f64, tolerance: f64) -> Option<&[Vector]> {
        self.sides
            .iter()
            .filter(|(way, _)| dot(*way, normal) > 0.999)
            .filter(|(_, polygon)| {
                let near = |point: &Vector| (dot(*point, normal) - offset).abs() <= tolerance;
                polygon.iter().all(near)
            })
            .map(|(_, polygon)| polygon.as_slice())
            .next()
    }
}

/// Points of a plane as a polygon, to the left around.
fn around(normal: Vector, points: Vec<Vector>) -> Vec<Vector> {
    let sum = points.iter().copied().fold([0.0; 3], add);
    let centre = scale(sum, 1.0 / points.len() as f64);
    let sheet = Sheet::of(normal);
    let first = unit(sheet.first);
    let second = cross(normal, first);
    let mut turned: Vec<(f64, Vector)> = points
        .into_iter()
        .map(|point| {
            let from = subtract(point, centre);
            (dot(from, second).atan2(dot(from, first)), point)
        })
        .collect();
    turned.sort_by(|a, b| a.0.total_cmp(&b.0));
    turned.dedup_by(|a, b| {
        let apart = subtract(a.1, b.1);
        dot(apart, apart) < 1e-18
    });
    turned.into_iter().map(|pair| pair.1).collect()
}
