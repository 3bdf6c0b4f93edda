//! Boards on a lattice and lines along its vectors, made so that a line meets its triangles inside, at sides, at corners and
//! along faces, and a segment starts or ends just where it meets one; in any direction, along an axis and aslant. A step of the
//! lattice is a whole number of units of the exact cast's grid, and what is cast at lies up to half a unit off the grid. Closed
//! boards stand in solids.rs.

#[path = "../../bindings/rust/tests/judge/mod.rs"]
pub mod judge;

use judge::{Depth, Point, beside, dot, first_depth, nearest, normal};
use oracle::{answer::Ray, random::Random};

/// The longest segment, and the farthest coordinate, in units of 2^-15 mm.
pub const LONGEST: i128 = 1 << 30;
pub const FARTHEST: i128 = 1 << 28;

/// 2^15 units are a millimetre; a direction is read in parts of 2^-30.
const UNIT: f64 = 1.0 / 32_768.0;
const PARTS: i128 = 1 << 30;

/// A direction of the lattice: that of a small whole vector, which the cast reads as so many times the vector.
#[derive(Clone, Copy, Debug)]
pub struct Direction {
    pub vector: Point,
    pub times: i128,
    /// The floats that are read so, of length 1.
    pub floats: [f64; 3],
}

impl Direction {
    /// That of a vector, if there are floats of length 1 that are read as a multiple of it.
    fn of(vector: Point) -> Option<Self> {
        let floats = vector.map(|x| x as f64);
        let length = floats.iter().map(|x| x * x).sum::<f64>().sqrt();
        let times = (PARTS as f64 / length).round();
        // what is left of the length is shared by the components, less than half a part each
        let left = PARTS as f64 - times * length;
        let share = left * length / floats.iter().map(|x| x.abs()).sum::<f64>();
        let part = |x: f64| (x * times + x.signum() * share) / PARTS as f64;
        (share.abs() < 0.49).then(|| Self {
            vector,
            times: times as i128,
            floats: floats.map(|x| if x == 0.0 { x } else { part(x) }),
        })
    }

    /// Along an axis, or aslant.
    pub fn any(random: &mut Random) -> Self {
        let mut vector = [0; 3];
        if random.once_in(3) {
            vector[random.below(3)] = random.pick(&[1, -1]);
            let mut along = Self::of(vector).expect("an axis");
            // a component of less than half a part is read as 0
            let slight = random.pick(&[0.0, -0.0, 4e-10, -3e-10]);
            let zeros = along.floats.iter_mut().filter(|x| **x == 0.0);
            zeros.for_each(|x| *x = slight);
            return along;
        }
        loop {
            let size = random.pick(&[1, 2, 5, 9]);
            let vector = [0; 3].map(|_: i128| whole(random, size));
            let shared = (2..=9).any(|k| vector.iter().all(|x| x % k == 0));
            if let (false, Some(direction)) = (shared, Self::of(vector)) {
                return direction;
            }
        }
    }
}

/// A segment of the lattice: near and far are in units.
#[derive(Clone, Copy, Debug)]
pub struct Line {
    pub origin: Point,
    pub direction: Direction,
    pub step: i128,
    pub near: i128,
    pub far: i128,
}

impl Line {
    /// A depth in units, as one in lengths of the vector, and the other way round.
    fn in_vectors(&self, units: i128) -> Depth {
        (units * self.direction.times, self.step * PARTS)
    }

    pub fn in_units(&self, depth: Depth) -> Depth {
        (depth.0 * self.step * PARTS, depth.1 * self.direction.times)
    }

    pub fn depth_in(&self, t: [Point; 3]) -> Option<Depth> {
        let [near, far] = [self.near, self.far].map(|units| self.in_vectors(units));
        first_depth(self.origin, self.direction.vector, near, far, t)
    }

    /// The float nearest to a depth, in millimetres.
    fn millimetres(&self, depth: Depth) -> f64 {
        let (over, under) = self.in_units(depth);
        nearest((over, under << 15))
    }
}

/// A number of units in millimetres, up to half a unit off: half ways only to an even number.
pub(crate) fn off_grid(random: &mut Random, units: i128, limit: i128) -> f64 {
    let off = match random.below(8) {
        _ if units.abs() == limit => 0.0,
        0 | 1 => random.between(-0.499, 0.499),
        2 if units % 2 == 0 => random.pick(&[0.5, -0.5]),
        _ => 0.0,
    };
    (units as f64 + off) * UNIT
}

#[derive(Clone, Debug)]
pub struct Board {
    pub line: Line,
    pub triangles: Vec<[Point; 3]>,
    /// The segment and the corners as they are cast.
    pub ray: Ray,
    pub vertices: Vec<f64>,
}

impl Board {
    /// With floats that are read as the line and the triangles.
    pub fn new(random: &mut Random, line: Line, triangles: Vec<[Point; 3]>) -> Self {
        let mut place = |x: &i128| off_grid(random, x * line.step, FARTHEST);
        let vertices = triangles
            .iter()
            .flatten()
            .flatten()
            .map(&mut place)
            .collect();
        let origin = line.origin.map(|x| place(&x));
        let maximum = off_grid(random, line.far, LONGEST).max(0.0);
        let near = match off_grid(random, line.near, LONGEST).max(0.0) {
            _ if line.near == line.far => maximum,
            near => near,
        };
        let ray = Ray {
            origin,
            direction: line.direction.floats,
            maximum,
            near,
        };
        Self {
            line,
            triangles,
            ray,
            vertices,
        }
    }

    pub fn indices(&self) -> Vec<u32> {
        (0..3 * self.triangles.len() as u32).collect()
    }

    /// The judge's listing: the rounded distance and the index of each triangle that is met, ascending.
    pub fn judged_all(&self) -> Vec<(f64, u32)> {
        let met = |(index, t): (usize, &[Point; 3])| {
            let depth = self.line.depth_in(*t)?;
            Some((self.line.millimetres(depth), index as u32))
        };
        let mut rows: Vec<(f64, u32)> = self.triangles.iter().enumerate().filter_map(met).collect();
        rows.sort_by(|a, b| a.partial_cmp(b).expect("numbers"));
        rows
    }

    /// The judge's answer: the least rounded distance, and of equal ones the lowest index.
    pub fn judged(&self) -> Option<Judged> {
        let mut least: Option<Judged> = None;
        for (index, t) in self.triangles.iter().enumerate() {
            let Some(depth) = self.line.depth_in(*t) else {
                continue;
            };
            let found = Judged {
                distance: self.line.millimetres(depth),
                index: index as u32,
                depth,
                equals: 1,
            };
            match &mut least {
                Some(least) if least.distance == found.distance => least.equals += 1,
                Some(least) if least.distance < found.distance => {}
                _ => least = Some(found),
            }
        }
        least
    }
}

#[derive(Clone, Debug)]
pub struct Judged {
    pub distance: f64,
    pub index: u32,
    pub depth: Depth,
    /// How many triangles have this distance.
    pub equals: usize,
}

pub const HITS: &str = "hits";
pub const NONES: &str = "nones";
const INSIDE: &str = "hits inside a triangle";
const SIDE: &str = "hits at a side";
const OPPOSITE: &str = "hits at the side opposite the first corner";
const CORNER: &str = "hits at a corner";
const FACE: &str = "hits of a face that the line runs along";
const FACE_INSIDE: &str = "hits of such a face, already inside it at near";
const ALONG_SIDE: &str = "hits of a side that the line runs along";
const ORIGIN: &str = "hits at the origin itself";
const NEAR: &str = "hits at near";
const MAXIMUM: &str = "hits at the maximum";
const POINT: &str = "hits of a segment of one point";
const BETWEEN: &str = "hits at a depth that is not whole";
const ASLANT: &str = "hits of a line aslant";
const ASLANT_SIDE: &str = "hits of a line aslant at a side or a corner";
const ASLANT_FACE: &str = "hits of a face that a line aslant runs along";
const OFF_GRID: &str = "boards with a corner off the grid";
const EQUAL: &str = "hits of two triangles or more at one distance";
const FACE_PASSED: &str = "nones beside a face that the line runs along";
const NO_AREA: &str = "triangles without area";

/// What a run over boards has to meet, each some thousands of times in a million boards.
pub const MET: [&str; 21] = [
    HITS,
    NONES,
    INSIDE,
    SIDE,
    OPPOSITE,
    CORNER,
    FACE,
    FACE_INSIDE,
    ALONG_SIDE,
    ORIGIN,
    NEAR,
    MAXIMUM,
    POINT,
    BETWEEN,
    ASLANT,
    ASLANT_SIDE,
    ASLANT_FACE,
    OFF_GRID,
    EQUAL,
    FACE_PASSED,
    NO_AREA,
];

/// What a board and its answer have to do with each other, told by the judge's numbers.
pub fn met(board: &Board, judged: Option<&Judged>, mut count: impl FnMut(&'static str)) {
    let line = &board.line;
    let direction = line.direction.vector;
    let face = |t: [Point; 3]| dot(normal(t), direction) == 0;
    if board.vertices.iter().any(|x| (x / UNIT).fract() != 0.0) {
        count(OFF_GRID);
    }
    for &t in &board.triangles {
        let flat = normal(t) == [0; 3];
        if flat {
            count(NO_AREA);
        }
        let in_plane = face(t) && dot(normal(t), judge::minus(line.origin, t[0])) == 0;
        if judged.is_none() && in_plane && !flat {
            count(FACE_PASSED);
        }
    }
    let Some(found) = judged else {
        return count(NONES);
    };
    let t = board.triangles[found.index as usize];
    let (over, under) = found.depth;
    let sides = [0, 1, 2].map(|side| beside(line.origin, direction, t, side));
    let on = sides.map(|(first, slope)| first * under + slope * over == 0);
    count(HITS);
    count(match on.iter().filter(|&&on| on).count() {
        0 => INSIDE,
        1 => SIDE,
        _ => CORNER,
    });
    let at = |units: i128| {
        let (end, whole) = line.in_vectors(units);
        over * whole == end * under
    };
    let aslant = direction.iter().filter(|&&x| x != 0).count() > 1;
    let (in_units, unit) = line.in_units(found.depth);
    let told = [
        (on == [false, true, false], OPPOSITE),
        (face(t), FACE),
        (face(t) && at(line.near) && on == [false; 3], FACE_INSIDE),
        (sides.contains(&(0, 0)), ALONG_SIDE),
        (over == 0, ORIGIN),
        (at(line.near), NEAR),
        (at(line.far), MAXIMUM),
        (line.near == line.far, POINT),
        (in_units % unit != 0, BETWEEN),
        (aslant, ASLANT),
        (aslant && on != [false; 3], ASLANT_SIDE),
        (aslant && face(t), ASLANT_FACE),
        (found.equals > 1, EQUAL),
    ];
    told.iter()
        .filter(|(is, _)| *is)
        .for_each(|(_, what)| count(what));
}

pub(crate) fn whole(random: &mut Random, size: i128) -> i128 {
    random.within(-size as i64, size as i64) as i128
}

pub(crate) fn below(random: &mut Random, limit: i128) -> i128 {
    random.below(limit as usize) as i128
}

/// Where three corners lie across the line, from it: through its place, beside it, or anywhere.
fn places(random: &mut Random, size: i128) -> [[i128; 2]; 3] {
    let mut any = |size: i128| [whole(random, size), whole(random, size)];
    let (p, q, r) = (any(size), any(size), any(size));
    let small = any((size / 4).clamp(1, 100));
    let times = |place: [i128; 2], k: i128| place.map(|x| x * k);
    let mut factor = || below(random, 7) - 3;
    match factor() + 3 {
        0 | 1 => [p, q, r],
        // a corner on the line
        2 => [[0; 2], q, r],
        // a side through it
        3 => [
            times(small, 1 + factor().abs()),
            times(small, -1 - factor().abs()),
            r,
        ],
        // around it
        4 => {
            let (a, b) = (p.map(|x| x / 2), q.map(|x| x / 2));
            [a, b, [-a[0] - b[0], -a[1] - b[1]]]
        }
        // a face along it, at times with a side on it, at times beside it
        5 => {
            let (k, l, m) = (factor(), factor(), factor());
            let (k, l) = if m == 0 { (0, 0) } else { (k, l) };
            let beside = if factor() == 0 { [1, 0] } else { [0; 2] };
            [k, l, m].map(|k| [small[0] * k + beside[0], small[1] * k + beside[1]])
        }
        // no area, seen along the line or in space
        _ => [p, p, if factor() > 0 { p } else { q }],
    }
}

/// A place across the line and along it: from the origin along the two axes that the direction leans to less, and along it.
fn corner(line: &Line, across: [i128; 2], along: i128) -> Point {
    let vector = line.direction.vector;
    let axis = (0..3).max_by_key(|&k| vector[k].abs()).expect("three");
    let mut corner = [0, 1, 2].map(|k| line.origin[k] + along * vector[k]);
    for side in 0..2 {
        corner[(axis + 1 + side) % 3] += across[side];
    }
    corner
}

fn triangle(random: &mut Random, size: i128, line: &Line) -> [Point; 3] {
    let places = places(random, size);
    let steepest = line.direction.vector.iter().map(|x| x.abs()).max();
    let longest = (2 * size / steepest.expect("three")).max(1);
    let mut depths = [0; 3].map(|_: i128| whole(random, longest));
    match random.below(8) {
        0 | 1 => depths = [depths[0]; 3],
        2 => depths[1] = depths[0],
        _ => {}
    }
    let mut corners = [0, 1, 2].map(|k| corner(line, places[k], depths[k]));
    random.shuffle(&mut corners);
    corners
}

/// A whole number at a depth, or just before or behind it.
fn about(random: &mut Random, depth: Depth) -> i128 {
    let low = depth.0.div_euclid(depth.1);
    let high = low + i128::from(depth.0 % depth.1 != 0);
    match random.below(8) {
        0 => low - 1,
        1 => high + 1,
        k if k % 2 == 0 => low,
        _ => high,
    }
}

/// How many units a step of a lattice may have that reaches so far: one, a whole millimetre, or any.
pub fn step(random: &mut Random, farthest: i128) -> i128 {
    let most = FARTHEST / farthest.max(1);
    let any = random.within(1, most as i64) as i128;
    let some = random.pick(&[1, 2, 3, 1 << 15, most, any, any]);
    some.min(most)
}

/// One to six triangles, and a segment whose ends are often where it meets one of them.
pub fn board(random: &mut Random) -> Board {
    let size = random.pick(&[4, 40, 1_000]);
    let mut line = Line {
        origin: [0; 3].map(|_: i128| whole(random, size)),
        direction: Direction::any(random),
        step: 1,
        near: 0,
        far: LONGEST,
    };
    let triangles: Vec<[Point; 3]> = (0..random.within(1, 6))
        .map(|_| triangle(random, size, &line))
        .collect();
    let coordinates = triangles.iter().flatten().chain([&line.origin]).flatten();
    let farthest = coordinates.map(|x| x.abs()).max().expect("an origin");
    line.step = step(random, farthest);
    let depths: Vec<Depth> = triangles.iter().filter_map(|&t| line.depth_in(t)).collect();
    let longest = (4 * size * line.step).min(LONGEST);
    let mut end = || match depths[..] {
        [] => below(random, longest + 1),
        _ if random.once_in(3) => below(random, longest + 1),
        _ => {
            let depth = line.in_units(depths[random.below(depths.len())]);
            about(random, depth).clamp(0, LONGEST)
        }
    };
    let ends = [end(), end()];
    line.near = match random.below(3) {
        0 => 0,
        _ => ends[0],
    };
    line.far = if random.once_in(16) {
        line.near
    } else {
        ends[1].max(line.near)
    };
    Board::new(random, line, triangles)
}
