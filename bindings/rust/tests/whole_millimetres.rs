//! Document 02's M-112 over the library: boards on whole millimetres, bored along an axis, against a judge in exact
//! fractions of whole numbers. What the theorem leaves open (the side opposite the first corner, a depth equal to the
//! maximum) is met both ways.
use probe_rays::{ray_triangle, Cast, Ray};

type Point = [i128; 3];

fn sub(a: Point, b: Point) -> Point {
    [a[0] - b[0], a[1] - b[1], a[2] - b[2]]
}

fn cross(a: Point, b: Point) -> Point {
    [
        a[1] * b[2] - a[2] * b[1],
        a[2] * b[0] - a[0] * b[2],
        a[0] * b[1] - a[1] * b[0],
    ]
}

fn dot(a: Point, b: Point) -> i128 {
    a[0] * b[0] + a[1] * b[1] + a[2] * b[2]
}

struct Board {
    origin: Point,
    direction: Point,
    maximum: i128,
    corners: [Point; 3],
}

#[derive(Debug, PartialEq)]
enum Verdict {
    Hit,
    None,
    Open,
}

impl Board {
    /// What the cast has to answer, and the exact depth as a fraction where there is a crossing: the line's point is
    /// found on the triangle's plane, and its three areas are compared with the triangle's own.
    fn judged(&self) -> (Verdict, Option<(i128, i128)>) {
        let [a, b, c] = self.corners;
        let normal = cross(sub(b, a), sub(c, a));
        let (mut along, mut depth) = (
            dot(self.direction, normal),
            dot(sub(a, self.origin), normal),
        );
        if along == 0 {
            return (Verdict::None, None);
        }
        if along < 0 {
            (along, depth) = (-along, -depth);
        }
        // the crossing times `along`
        let at = |k: usize| self.origin[k] * along + self.direction[k] * depth;
        let point = [at(0), at(1), at(2)];
        let times = |p: Point| [p[0] * along, p[1] * along, p[2] * along];
        let area =
            |p: Point, q: Point| dot(normal, cross(sub(times(q), times(p)), sub(point, times(p))));
        let (opposite, second, third) = (area(b, c), area(c, a), area(a, b));
        let outside = opposite < 0 || second < 0 || third < 0;
        let verdict = if outside || depth < 0 || depth > self.maximum * along {
            Verdict::None
        } else if opposite == 0 || depth == self.maximum * along {
            Verdict::Open
        } else {
            Verdict::Hit
        };
        (verdict, Some((depth, along)))
    }
}

/// Whether a distance lies within 2^-51 times depth / along of it; both are whole, so nothing is rounded.
fn near(distance: f64, depth: i128, along: i128) -> bool {
    if depth == 0 {
        return distance == 0.0;
    }
    let bits = distance.to_bits();
    let places = 1075 - (bits >> 52) as i128;
    if !(distance > 0.0) || !(0..=90).contains(&places) {
        return false;
    }
    let digits = (bits & ((1 << 52) - 1) | 1 << 52) as i128;
    let exact = depth << places;
    (digits * along - exact).abs() <= exact >> 51
}

/// A small generator of numbers, so that the run is the same each time.
struct Random(u64);

impl Random {
    fn next(&mut self) -> u64 {
        self.0 ^= self.0 << 13;
        self.0 ^= self.0 >> 7;
        self.0 ^= self.0 << 17;
        self.0
    }

    fn below(&mut self, n: u64) -> i128 {
        (self.next() % n) as i128
    }

    /// A whole number from -size to size.
    fn whole(&mut self, size: i128) -> i128 {
        self.below(2 * size as u64 + 1) - size
    }

    fn point(&mut self, size: i128) -> Point {
        [self.whole(size), self.whole(size), self.whole(size)]
    }

    fn one_of<T: Copy>(&mut self, list: &[T]) -> T {
        list[self.below(list.len() as u64) as usize]
    }
}

/// A hard board: slivers, lattice points on and beside sides and corners, depths at and beside 0 and the maximum.
fn hard(random: &mut Random) -> Board {
    let size = random.one_of(&[2, 9, 100, 1000, 4096]);
    let a = random.point(size);
    let b = random.point(size);
    let mut c = random.point(size);
    if random.below(3) == 0 {
        // a sliver: the third corner beside the line through the others
        let k = random.whole(3);
        let off = random.point(1);
        for i in 0..3 {
            c[i] = (a[i] + k * (b[i] - a[i]) + off[i]).clamp(-4096, 4096);
        }
    }
    let corners = random.one_of(&[[a, b, c], [b, c, a], [c, a, b]]);
    let axis = random.below(3) as usize;
    let mut direction = [0; 3];
    direction[axis] = random.one_of(&[1, -1]);
    // aimed at a corner, a side or the inside, and then perhaps a step beside
    let (p, q, r) = (random.below(5), random.below(5), random.below(5));
    let sum = (p + q + r).max(1);
    let mut origin = [0; 3];
    for i in 0..3 {
        origin[i] = (p * a[i] + q * b[i] + r * c[i]) / sum;
    }
    let step = random.one_of(&[0, 0, 1]);
    let beside = random.point(step);
    for i in 0..3 {
        origin[i] += beside[i];
    }
    origin[axis] -= direction[axis] * random.one_of(&[0, 1, 3, 75, size, 2 * size]);
    for o in &mut origin {
        *o = (*o).clamp(-4096, 4096);
    }
    let mut board = Board {
        origin,
        direction,
        maximum: 16384,
        corners,
    };
    if let (_, Some((depth, along))) = board.judged() {
        let at = (depth / along).clamp(1, 16384);
        board.maximum = random.one_of(&[at, (at + 1).min(16384), (at - 1).max(1), 16384, 1]);
    }
    board
}

#[test]
fn a_million_hard_boards() {
    let mut random = Random(0x9e37_79b9_7f4a_7c15);
    let mut met = [[0u32; 2]; 3];
    for number in 0..1_000_000 {
        let board = hard(&mut random);
        // a zero has either sign
        let mut float = |z: i128| {
            if z == 0 {
                random.one_of(&[0.0, -0.0])
            } else {
                z as f64
            }
        };
        let mut vector = |p: Point| [float(p[0]), float(p[1]), float(p[2])];
        let corners = board.corners.map(&mut vector);
        let ray = Ray::new(
            vector(board.origin),
            vector(board.direction),
            board.maximum as f64,
        );
        let (verdict, depth) = board.judged();
        let text = || format!("board {number}: {ray:?} {corners:?}, {verdict:?}, {depth:?}");
        let cast = ray_triangle(&ray, &corners);
        let hit = match cast {
            Cast::Hit(hit) => {
                let (depth, along) = depth.unwrap_or_else(|| panic!("{}", text()));
                assert!(
                    near(hit.distance, depth, along),
                    "{}: {}",
                    text(),
                    hit.distance
                );
                true
            }
            Cast::None => false,
            Cast::Refused(refusal) => panic!("{}: {refusal}", text()),
        };
        match verdict {
            Verdict::Hit => assert!(hit, "{}", text()),
            Verdict::None => assert!(!hit, "{}", text()),
            Verdict::Open => {}
        }
        met[verdict as usize][usize::from(hit)] += 1;
    }
    // hits, nones, and the open cases both ways
    let [[_, hits], [nones, _], open] = met;
    assert!(
        hits > 50_000 && nones > 50_000 && open.iter().all(|&n| n > 100),
        "{met:?}"
    );
}

/// The open cases that the theorem's examples compute (crates/whole_numbers/proofs/Examples.antt).
#[test]
fn the_open_cases() {
    let cast = |origin: [f64; 3], maximum, corners: [[f64; 3]; 3]| {
        ray_triangle(&Ray::new(origin, [0.0, 0.0, -1.0], maximum), &corners)
    };
    let sliver = [[0.0; 3], [1.0, 0.0, 0.0], [92.0, 91.0, 0.0]];
    assert_eq!(cast([86.0, 85.0, 5.0], 10.0, sliver), Cast::None);
    let quarter = [[0.0; 3], [4.0, 0.0, 0.0], [0.0, 4.0, 0.0]];
    assert!(matches!(cast([2.0, 2.0, 4.0], 5.0, quarter), Cast::Hit(_)));
    let narrow = [[0.0; 3], [25.0, 0.0, 0.0], [0.0, 3.0, 0.0]];
    assert_eq!(cast([1.0, 1.0, 7.0], 7.0, narrow), Cast::None);
    assert!(matches!(cast([1.0, 1.0, 4.0], 4.0, quarter), Cast::Hit(_)));
}
