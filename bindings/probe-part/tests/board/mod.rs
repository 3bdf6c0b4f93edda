//! Boards whose bores and pockets are known by construction, as facets: closed, each edge in two facets, seen to the left
//! around from outside. Nothing here uses the code under test.
#![allow(dead_code)]
mod triangles;

use probe_rays::stl::Corners;
pub use triangles::Place;

pub type Point = [f64; 3];

pub const THROUGH: f64 = f64::INFINITY;

/// A profile of x and y, to be extruded: 400 by 18, with a rabbet 15 by 8 and a groove 6 by 8.
pub const RABBET_AND_GROOVE: [Place; 10] = [
    [0.0, 0.0],
    [400.0, 0.0],
    [400.0, 10.0],
    [385.0, 10.0],
    [385.0, 18.0],
    [106.0, 18.0],
    [106.0, 10.0],
    [100.0, 10.0],
    [100.0, 18.0],
    [0.0, 18.0],
];

/// The size of the board below.
pub const DRILLED: Point = [400.0, 300.0, 19.0];

/// A board with a stepped bore, a bore of 8.5, a pocket, and bores in two more faces, away from the file's origin.
pub fn drilled() -> Vec<Corners> {
    let pocket = rounded([250.0, 150.0], [120.0, 60.0], 8.0, 8);
    let cuts = [
        Cut::bore(Side::Top, [60.0, 70.0], 20.0, 5.0).with_inner(8.0, 12.0),
        Cut::bore(Side::Top, [100.0, 200.0], 8.5, 12.25),
        Cut::new(Side::Top, pocket, [250.0, 150.0], 6.0),
        Cut::new(
            Side::Bottom,
            circle([90.0, 40.0], 15.0, 48),
            [90.0, 40.0],
            12.7,
        ),
        Cut::bore(Side::Left, [50.0, 9.5], 8.0, 30.0),
    ];
    moved(&board(DRILLED, &cuts), [7.0, -3.0, 11.0])
}

/// A face of the board, by its own table: where a place of it, and a depth below it, lie.
#[derive(Clone, Copy, Debug, PartialEq, Eq)]
pub enum Side {
    Top,
    Bottom,
    Front,
    Back,
    Left,
    Right,
}

pub const SIDES: [Side; 6] = [
    Side::Top,
    Side::Bottom,
    Side::Front,
    Side::Back,
    Side::Left,
    Side::Right,
];

impl Side {
    pub fn name(self) -> &'static str {
        match self {
            Side::Top => "top",
            Side::Bottom => "bottom",
            Side::Front => "front",
            Side::Back => "back",
            Side::Left => "left",
            Side::Right => "right",
        }
    }

    pub fn at(self, size: Point, [u, v]: Place, depth: f64) -> Point {
        let [x, y, z] = size;
        match self {
            Side::Top => [u, v, z - depth],
            Side::Bottom => [u, v, depth],
            Side::Front => [u, depth, v],
            Side::Back => [u, y - depth, v],
            Side::Left => [depth, u, v],
            Side::Right => [x - depth, u, v],
        }
    }

    /// Into the board.
    pub fn axis(self) -> Point {
        match self {
            Side::Top => [0.0, 0.0, -1.0],
            Side::Bottom => [0.0, 0.0, 1.0],
            Side::Front => [0.0, 1.0, 0.0],
            Side::Back => [0.0, -1.0, 0.0],
            Side::Left => [1.0, 0.0, 0.0],
            Side::Right => [-1.0, 0.0, 0.0],
        }
    }

    fn extent(self, [x, y, z]: Point) -> Place {
        match self {
            Side::Top | Side::Bottom => [x, y],
            Side::Front | Side::Back => [x, z],
            Side::Left | Side::Right => [y, z],
        }
    }

    pub fn thickness(self, [x, y, z]: Point) -> f64 {
        match self {
            Side::Top | Side::Bottom => z,
            Side::Front | Side::Back => y,
            Side::Left | Side::Right => x,
        }
    }

    fn opposite(self) -> Side {
        match self {
            Side::Top => Side::Bottom,
            Side::Bottom => Side::Top,
            Side::Front => Side::Back,
            Side::Back => Side::Front,
            Side::Left => Side::Right,
            Side::Right => Side::Left,
        }
    }
}

/// What is cut into a face, or stands out of it.
#[derive(Clone, Debug)]
pub struct Cut {
    pub side: Side,
    /// Its outline.
    pub outline: Vec<Place>,
    /// Its middle.
    pub middle: Place,
    /// How deep; below 0 it stands out; infinite is through.
    pub depth: f64,
    /// Further cuts in its floor: their outlines, and their depths below the face.
    pub inner: Vec<(Vec<Place>, f64)>,
    /// What is left standing in the first floor: the outline, and how deep below the face its top is.
    pub islands: Vec<(Vec<Place>, f64)>,
    /// An outline of the floor that is smaller, of as many corners: the walls lean.
    pub floor: Option<Vec<Place>>,
    /// How deep the middle of the floor is, if it is a tip.
    pub tip: Option<f64>,
    /// How far the middle moves along the face for each millimetre of depth: a bore that leans.
    pub lean: Place,
}

/// The corners of a circle's sides.
pub fn circle([x, y]: Place, diameter: f64, sides: usize) -> Vec<Place> {
    let corner = |side: usize| {
        let turn = std::f64::consts::TAU * (side as f64 + 0.25) / sides as f64;
        let (sine, cosine) = turn.sin_cos();
        [x + diameter / 2.0 * cosine, y + diameter / 2.0 * sine]
    };
    (0..sides).map(corner).collect()
}

/// The corners of an ellipse's sides.
pub fn ellipse([x, y]: Place, [width, height]: Place, sides: usize) -> Vec<Place> {
    let stretched = |[u, v]: Place| [x + width / 2.0 * u, y + height / 2.0 * v];
    circle([0.0, 0.0], 2.0, sides)
        .into_iter()
        .map(stretched)
        .collect()
}

/// A rectangle whose corners are arcs, each of so many sides.
pub fn rounded([x, y]: Place, [width, height]: Place, radius: f64, sides: usize) -> Vec<Place> {
    let mut corners = Vec::new();
    for quarter in 0..4 {
        let [right, up] = [[1.0, 1.0], [-1.0, 1.0], [-1.0, -1.0], [1.0, -1.0]][quarter];
        let [cx, cy] = [
            x + right * (width / 2.0 - radius),
            y + up * (height / 2.0 - radius),
        ];
        for side in 0..=sides {
            let share = quarter as f64 + side as f64 / sides as f64;
            let (sine, cosine) = (std::f64::consts::FRAC_PI_2 * share).sin_cos();
            corners.push([cx + radius * cosine, cy + radius * sine]);
        }
    }
    corners.dedup_by(|a, b| (a[0] - b[0]).hypot(a[1] - b[1]) < 1e-9);
    if let (Some(first), Some(last)) = (corners.first(), corners.last()) {
        if (first[0] - last[0]).hypot(first[1] - last[1]) < 1e-9 {
            corners.pop();
        }
    }
    corners
}

/// A slot along x whose ends are half circles, each of so many sides: with an odd number no corner lies at the ends.
pub fn slot([x, y]: Place, [long, wide]: Place, sides: usize) -> Vec<Place> {
    let (radius, half) = (wide / 2.0, (long - wide) / 2.0);
    let end = |sign: f64| {
        (0..=sides).map(move |side| {
            let turn = std::f64::consts::PI * (side as f64 / sides as f64 - 0.5);
            let (sine, cosine) = turn.sin_cos();
            [
                x + sign * (half + radius * cosine),
                y + sign * radius * sine,
            ]
        })
    };
    end(1.0).chain(end(-1.0)).collect()
}

pub fn rectangle([x, y]: Place, [width, height]: Place) -> Vec<Place> {
    let [w, h] = [width / 2.0, height / 2.0];
    vec![
        [x + w, y + h],
        [x - w, y + h],
        [x - w, y - h],
        [x + w, y - h],
    ]
}

/// A polygon turned about a middle, in degrees.
pub fn turned(outline: &[Place], [x, y]: Place, degrees: f64) -> Vec<Place> {
    let (sine, cosine) = degrees.to_radians().sin_cos();
    let turn = |&[u, v]: &Place| {
        [
            x + cosine * (u - x) - sine * (v - y),
            y + sine * (u - x) + cosine * (v - y),
        ]
    };
    outline.iter().map(turn).collect()
}

/// A slot bent along an arc from one angle to another, in degrees, with round ends.
pub fn arc([x, y]: Place, radius: f64, width: f64, [from, to]: Place, sides: usize) -> Vec<Place> {
    let mut corners = Vec::new();
    let at = |radius: f64, degrees: f64| {
        let (sine, cosine) = degrees.to_radians().sin_cos();
        [x + radius * cosine, y + radius * sine]
    };
    let share = |n: usize| n as f64 / sides as f64;
    corners.extend((0..=sides).map(|n| at(radius + width / 2.0, from + (to - from) * share(n))));
    let cap = |degrees: f64, half: f64| {
        let [cx, cy] = at(radius, degrees);
        (1..sides).map(move |n| {
            let (sine, cosine) = (degrees + half + 180.0 * share(n)).to_radians().sin_cos();
            [cx + width / 2.0 * cosine, cy + width / 2.0 * sine]
        })
    };
    corners.extend(cap(to, 0.0));
    corners.extend((0..=sides).map(|n| at(radius - width / 2.0, to + (from - to) * share(n))));
    corners.extend(cap(from, 180.0));
    corners
}

impl Cut {
    pub fn new(side: Side, outline: Vec<Place>, middle: Place, depth: f64) -> Cut {
        Cut {
            side,
            outline,
            middle,
            depth,
            inner: Vec::new(),
            islands: Vec::new(),
            floor: None,
            tip: None,
            lean: [0.0, 0.0],
        }
    }

    pub fn bore(side: Side, middle: Place, diameter: f64, depth: f64) -> Cut {
        Cut::new(side, circle(middle, diameter, 32), middle, depth)
    }

    pub fn with_inner(mut self, diameter: f64, depth: f64) -> Cut {
        let sides = self.outline.len();
        self.inner
            .push((circle(self.middle, diameter, sides), depth));
        self
    }
}

/// A closed surface that is being built.
#[derive(Default)]
pub struct Solid {
    pub facets: Vec<Corners>,
}

impl Solid {
    /// A flat polygon with holes, seen from a normal.
    pub fn flat(&mut self, rings: &[Vec<Point>], normal: Point) {
        let axis = (0..3)
            .max_by(|&a, &b| normal[a].abs().total_cmp(&normal[b].abs()))
            .unwrap();
        let [first, second] = [(axis + 1) % 3, (axis + 2) % 3];
        let points: Vec<Point> = rings.concat();
        let places: Vec<Place> = points
            .iter()
            .map(|point| [point[first], point[second]])
            .collect();
        let mut start = 0;
        let numbers: Vec<Vec<usize>> = rings
            .iter()
            .map(|ring| {
                start += ring.len();
                (start - ring.len()..start).collect()
            })
            .collect();
        for [a, b, c] in triangles::triangles(&places, &numbers) {
            let mut facet = [points[a], points[b], points[c]];
            if normal[axis] < 0.0 {
                facet.swap(1, 2);
            }
            self.facets.push(facet);
        }
    }

    /// Walls between a polygon, to the left around where it is seen from above, and one below it: they face inwards.
    pub fn walls(&mut self, upper: &[Point], lower: &[Point]) {
        for n in 0..upper.len() {
            let m = (n + 1) % upper.len();
            self.facets.push([upper[n], upper[m], lower[n]]);
            self.facets.push([upper[m], lower[m], lower[n]]);
        }
    }
}

fn signed(outline: &[Place]) -> f64 {
    let next = outline.iter().cycle().skip(1);
    outline
        .iter()
        .zip(next)
        .map(|(a, b)| a[0] * b[1] - a[1] * b[0])
        .sum()
}

/// A board with cuts, as facets.
pub fn board(size: Point, cuts: &[Cut]) -> Vec<Corners> {
    let mut solid = Solid::default();
    for side in SIDES {
        let [w, h] = side.extent(size);
        let outline = vec![[0.0, 0.0], [w, 0.0], [w, h], [0.0, h]];
        let place = |places: &[Place]| -> Vec<Point> {
            places.iter().map(|&p| side.at(size, p, 0.0)).collect()
        };
        let mut rings = vec![place(&outline)];
        for cut in cuts {
            if cut.side == side {
                rings.push(place(&cut.outline));
                let tops = cut.islands.iter().filter(|island| island.1 == 0.0);
                for island in tops {
                    solid.flat(&[place(&island.0)], side.axis().map(|part| -part));
                }
            } else if cut.side.opposite() == side {
                if cut.depth.is_infinite() {
                    rings.push(place(&leaned(cut, &cut.outline, cut.side.thickness(size))));
                }
                let through = cut.inner.iter().filter(|(_, depth)| depth.is_infinite());
                rings.extend(through.map(|(inner, _)| place(inner)));
            }
        }
        solid.flat(&rings, side.axis().map(|part| -part));
    }
    for cut in cuts {
        cut_walls(&mut solid, size, cut);
    }
    solid.facets
}

/// An outline at a depth.
fn leaned(cut: &Cut, outline: &[Place], depth: f64) -> Vec<Place> {
    outline
        .iter()
        .map(|[u, v]| [u + cut.lean[0] * depth, v + cut.lean[1] * depth])
        .collect()
}

/// The walls and floors of a cut.
fn cut_walls(solid: &mut Solid, size: Point, cut: &Cut) {
    let side = cut.side;
    let thickness = side.thickness(size);
    let normal = side.axis().map(|part| -part);
    // seen from outside a face may have its axes mirrored
    let mirrored = matches!(side, Side::Bottom | Side::Back | Side::Left);
    let left = |outline: &[Place]| {
        let mut outline = outline.to_vec();
        if (signed(&outline) > 0.0) == mirrored {
            outline.reverse();
        }
        outline
    };
    let at = |outline: &[Place], depth: f64| -> Vec<Point> {
        let depth = depth.min(thickness);
        let places = leaned(cut, outline, depth);
        places
            .iter()
            .map(|&place| side.at(size, place, depth))
            .collect()
    };
    let outline = left(&cut.outline);
    let floor = cut
        .floor
        .as_ref()
        .map_or(outline.clone(), |floor| left(floor));
    if cut.depth < 0.0 {
        // what stands out has its walls turned outwards
        let (mut foot, mut top) = (at(&outline, 0.0), at(&outline, cut.depth));
        solid.flat(&[top.clone()], normal);
        foot.reverse();
        top.reverse();
        solid.walls(&top, &foot);
        return;
    }
    solid.walls(&at(&outline, 0.0), &at(&floor, cut.depth));
    for (island, top) in &cut.islands {
        let mut island = left(island);
        if *top > 0.0 {
            solid.flat(&[at(&island, *top)], normal);
        }
        island.reverse();
        solid.walls(&at(&island, *top), &at(&island, cut.depth));
    }
    let nested = |(inner, _): &(Vec<Place>, f64)| inner.clone();
    if let Some(tip) = cut.tip {
        let middle = side.at(size, cut.middle, tip);
        let around = at(&floor, cut.depth);
        for n in 0..around.len() {
            solid
                .facets
                .push([middle, around[n], around[(n + 1) % around.len()]]);
        }
    } else if cut.depth < thickness && (cut.floor.is_none() || cut.inner.is_empty()) {
        let mut rings = vec![at(&floor, cut.depth)];
        rings.extend(cut.islands.iter().map(|island| at(&island.0, cut.depth)));
        rings.extend(
            cut.inner
                .iter()
                .map(nested)
                .map(|inner| at(&inner, cut.depth)),
        );
        solid.flat(&rings, normal);
    }
    for (inner, depth) in &cut.inner {
        let inner = left(inner);
        solid.walls(&at(&inner, cut.depth), &at(&inner, *depth));
        if depth.is_finite() {
            solid.flat(&[at(&inner, *depth)], normal);
        }
    }
}

/// A prism: a polygon of x and y, to the left around, with holes, from z = 0 up.
pub fn extruded(outline: &[Place], holes: &[Vec<Place>], height: f64) -> Vec<Corners> {
    let mut solid = Solid::default();
    let at = |outline: &[Place], z: f64| -> Vec<Point> {
        outline.iter().map(|[x, y]| [*x, *y, z]).collect()
    };
    for (z, up) in [(height, 1.0), (0.0, -1.0)] {
        let mut rings = vec![at(outline, z)];
        rings.extend(holes.iter().map(|hole| at(hole, z)));
        solid.flat(&rings, [0.0, 0.0, up]);
    }
    let mut around = outline.to_vec();
    around.reverse();
    solid.walls(&at(&around, height), &at(&around, 0.0));
    for hole in holes {
        let mut hole = hole.clone();
        if signed(&hole) < 0.0 {
            hole.reverse();
        }
        solid.walls(&at(&hole, height), &at(&hole, 0.0));
    }
    solid.facets
}

/// Facets whose places are moved by a function; turned inside out where that mirrors.
pub fn mapped(facets: &[Corners], place: impl Fn(Point) -> Point, mirrors: bool) -> Vec<Corners> {
    let one = |facet: &Corners| {
        let mut facet = facet.map(&place);
        if mirrors {
            facet.swap(1, 2);
        }
        facet
    };
    facets.iter().map(one).collect()
}

/// Facets moved along a vector.
pub fn moved(facets: &[Corners], by: Point) -> Vec<Corners> {
    mapped(
        facets,
        |point| std::array::from_fn(|axis| point[axis] + by[axis]),
        false,
    )
}

/// Each facet in four, so many times.
pub fn finer(facets: &[Corners], times: usize) -> Vec<Corners> {
    let mut facets = facets.to_vec();
    for _ in 0..times {
        facets = facets.iter().flat_map(|facet| quartered(*facet)).collect();
    }
    facets
}

fn quartered([a, b, c]: Corners) -> [Corners; 4] {
    let middle = |p: Point, q: Point| std::array::from_fn(|axis| (p[axis] + q[axis]) / 2.0);
    let [ab, bc, ca] = [middle(a, b), middle(b, c), middle(c, a)];
    [[a, ab, ca], [ab, b, bc], [ca, bc, c], [ab, bc, ca]]
}

/// The bytes of a binary STL file.
pub fn binary(facets: &[Corners]) -> Vec<u8> {
    let mut bytes = vec![b' '; 80];
    bytes.extend((facets.len() as u32).to_le_bytes());
    for facet in facets {
        bytes.extend([0; 12]);
        for coordinate in facet.as_flattened() {
            bytes.extend((*coordinate as f32).to_le_bytes());
        }
        bytes.extend([0; 2]);
    }
    bytes
}

/// The text of an ASCII STL file in a unit of so many millimetres, with so many places.
pub fn ascii(facets: &[Corners], millimetres: f64, places: usize) -> Vec<u8> {
    let mut text = String::from("solid board\n");
    for facet in facets {
        text += "facet normal 0 0 0\nouter loop\n";
        for corner in facet {
            let words = corner.map(|part| format!("{:.places$}", part / millimetres));
            text += &format!("vertex {}\n", words.join(" "));
        }
        text += "endloop\nendfacet\n";
    }
    (text + "endsolid board\n").into_bytes()
}

/// The facets as a binary STL file keeps them: in single precision.
pub fn single(facets: &[Corners]) -> Vec<Corners> {
    mapped(
        facets,
        |point| point.map(|part| f64::from(part as f32)),
        false,
    )
}

/// Numbers that look like chance (splitmix64).
pub struct Chance(pub u64);

impl Chance {
    pub fn next(&mut self) -> u64 {
        self.0 = self.0.wrapping_add(0x9e37_79b9_7f4a_7c15);
        let mut z = self.0;
        z = (z ^ (z >> 30)).wrapping_mul(0xbf58_476d_1ce4_e5b9);
        z = (z ^ (z >> 27)).wrapping_mul(0x94d0_49bb_1331_11eb);
        z ^ (z >> 31)
    }

    pub fn below(&mut self, count: u64) -> u64 {
        self.next() % count
    }

    /// From low to high.
    pub fn between(&mut self, low: f64, high: f64) -> f64 {
        low + (high - low) * (self.next() >> 11) as f64 / (1_u64 << 53) as f64
    }
}
