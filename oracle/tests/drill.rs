//! The model of the drill, at boards whose answers follow from their measures; and the whole numbers that it computes with.

use oracle::{
    answer::{Answer as Cast, Ray},
    big::Big,
    drill::{Answer, Drill, drill_plain, refused_before_walk, triangle_at},
    mesh_exact::ray_mesh_exact_plain,
    model::Tree,
    tree,
};

const DOWN: [f64; 3] = [0.0, 0.0, -1.0];
const UNIT: f64 = 1.0 / 32_768.0;

/// Down from 10 above the origin.
fn drill(depth: f64, radius: f64) -> Drill {
    Drill {
        ray: Ray {
            origin: [0.0, 0.0, 10.0],
            direction: DOWN,
            maximum: depth,
            near: 0.0,
        },
        radius,
    }
}

fn at(drill: &Drill, triangle: [[f64; 3]; 3]) -> bool {
    match drill_plain(drill, triangle.as_flattened(), &[0, 1, 2]) {
        Answer::Clear => false,
        Answer::Touched(0) => true,
        other => panic!("{other:?}"),
    }
}

fn cast(drill: &Drill, triangle: [[f64; 3]; 3]) -> bool {
    let answer = ray_mesh_exact_plain(&drill.ray, triangle.as_flattened(), &[0, 1, 2]);
    matches!(answer, Cast::Hit { .. })
}

/// A wall at x = 4, beyond which the wood is: a drill of radius 3.95 passes, one of 4.05 does not, and one of 4 touches it.
#[test]
fn the_wall_of_a_bore() {
    let wall = [[4.0, -9.0, 0.0], [4.0, 9.0, 0.0], [4.0, 0.0, 20.0]];
    let touched = [3.95, 4.0 - UNIT, 4.0, 4.05].map(|radius| at(&drill(5.0, radius), wall));
    assert_eq!(touched, [false, false, true, true]);
    assert!(!cast(&drill(5.0, 4.05), wall));
}

/// Radius 5 and a corner at (3, 4), which the rim reaches exactly; and a side whose nearest point that is.
#[test]
fn a_corner_and_a_side_at_the_rim() {
    let corner = [[3.0, 4.0, 8.0], [6.0, 8.0, 8.0], [6.0, 8.0, 9.0]];
    let side = [[-1.0, 7.0, 8.0], [7.0, 1.0, 8.0], [9.0, 9.0, 8.0]];
    for triangle in [corner, side] {
        let touched = [5.0 - UNIT, 5.0].map(|radius| at(&drill(5.0, radius), triangle));
        assert_eq!(touched, [false, true]);
    }
}

/// The ends are flat and belong to the drill: a face at the end's depth is touched, one a unit deeper is not, and neither is a
/// corner that a ball at the end would reach.
#[test]
fn flat_ends() {
    let face = |z: f64| [[-9.0, -9.0, z], [9.0, -9.0, z], [0.0, 9.0, z]];
    let touched = [4.0, 4.0 - UNIT].map(|z| at(&drill(6.0, 2.0), face(z)));
    assert_eq!(touched, [true, false]);
    let touched = [10.0, 10.0 + UNIT].map(|z| at(&drill(6.0, 2.0), face(z)));
    assert_eq!(touched, [true, false]);
    let beyond = [[0.0, 0.0, 3.0], [1.0, 0.0, 2.0], [0.0, 1.0, 2.0]];
    assert!(!at(&drill(6.0, 2.0), beyond));
    // the rim of the end: beside the axis, at the depth of the end
    let at_rim = [[2.0, 0.0, 4.0], [5.0, 0.0, 3.0], [5.0, 1.0, 3.0]];
    assert!(at(&drill(6.0, 2.0), at_rim));
    assert!(!at(&drill(6.0 - UNIT, 2.0), at_rim));
}

/// Inside of the drill, meeting neither axis nor wall; through the axis alone; without area; what the exact cast says of each.
#[test]
fn what_no_line_meets() {
    let wide = drill(6.0, 2.0);
    let inside = [[1.0, 0.0, 8.0], [1.5, 0.0, 8.0], [1.0, 0.5, 7.0]];
    let around = [[-50.0, -50.0, 8.0], [50.0, -50.0, 8.0], [0.0, 50.0, 8.0]];
    let point = [[1.0, 1.0, 8.0]; 3];
    let line = [[0.0, 0.0, 8.0], [0.0, 0.0, 7.0], [0.0, 0.0, 6.0]];
    let touched = [inside, around, point, line].map(|triangle| at(&wide, triangle));
    let hit = [inside, around, point, line].map(|triangle| cast(&wide, triangle));
    assert_eq!((touched, hit), ([true; 4], [false, true, false, false]));
    // a drill of radius 0 is the exact cast's segment, but for a triangle without area
    let thin = [inside, around, point, line].map(|triangle| at(&drill(6.0, 0.0), triangle));
    assert_eq!(thin, [false, true, false, true]);
}

/// Near and the maximum on the axis; near equal to the maximum is a disc.
#[test]
fn from_near_to_the_maximum() {
    let from = |near: f64, maximum: f64| {
        let mut some = drill(maximum, 2.0);
        some.ray.near = near;
        some
    };
    let face = [[-9.0, -9.0, 5.0], [9.0, -9.0, 5.0], [0.0, 9.0, 5.0]];
    let ends = [(0.0, 5.0), (5.0, 9.0), (5.0, 5.0), (5.1, 9.0), (0.0, 4.9)];
    let touched = ends.map(|(near, maximum)| at(&from(near, maximum), face));
    assert_eq!(touched, [true, true, true, false, false]);
}

/// Along (1, 1, 0), which is read as 759,250,125 parts on both axes; across z distances are whole.
#[test]
fn aslant() {
    let half = 0.5f64.sqrt();
    let aslant = |radius: f64| Drill {
        ray: Ray {
            origin: [0.0; 3],
            direction: [half, half, 0.0],
            maximum: 20.0,
            near: 0.0,
        },
        radius,
    };
    let above = [[4.0, 4.0, 3.0], [8.0, 0.0, 9.0], [0.0, 8.0, 9.0]];
    // (2, -2, 1) is 3 from the axis, and square to it at the flat start
    let start = [[2.0, -2.0, 1.0], [-4.0, -9.0, 1.0], [-9.0, -4.0, 1.0]];
    for triangle in [above, start] {
        let touched = [3.0 - UNIT, 3.0].map(|radius| at(&aslant(radius), triangle));
        assert_eq!(touched, [false, true], "{triangle:?}");
    }
    let before = start.map(|[x, y, z]| [x - UNIT, y - UNIT, z]);
    assert!(!at(&aslant(3.0), before));
}

/// The radius upward to the next whole unit.
#[test]
fn a_radius_is_read_upward() {
    let wall = |units: f64| {
        let x = units * UNIT;
        [[x, -9.0, 0.0], [x, 9.0, 0.0], [x, 0.0, 20.0]]
    };
    let reads = |radius: f64, units: f64| {
        let here = at(&drill(5.0, radius), wall(units));
        here && !at(&drill(5.0, radius), wall(units + 1.0))
    };
    assert!(reads(0.0, 0.0) && reads(-0.0, 0.0));
    assert!(reads(5e-324, 1.0) && reads(0.25 * UNIT, 1.0) && reads(UNIT, 1.0));
    assert!(reads(1.25 * UNIT, 2.0) && reads(1.0, 32_768.0) && reads(1f64.next_up(), 32_769.0));
    assert!(reads(128.0, 4_194_304.0));
}

/// 1 of ray and radius, 12 of both, 2, 5, 12 of a corner; of several triangles the lowest index.
#[test]
fn refusals_and_indices_in_their_order() {
    let flat = [0.0, 0.0, 5.0, 9.0, 0.0, 5.0, 0.0, 9.0, 5.0];
    let number = |drill: &Drill, vertices: &[f64], indices: &[u32]| match drill_plain(
        drill, vertices, indices,
    ) {
        Answer::Refused(number) => number,
        _ => 0,
    };
    let good = drill(20.0, 1.0);
    let with = |radius| Drill { radius, ..good };
    let beyond = drill(40_000.0, -1.0);
    let mut slow = beyond;
    slow.ray.direction = [0.0, 0.0, -2.0];
    let radii = [f64::NAN, f64::INFINITY, -1e-300, 128.0f64.next_up(), 128.0];
    let of_radii = radii.map(|radius| number(&with(radius), &flat[1..], &[0, 1, 9]));
    assert_eq!(of_radii, [1, 1, 1, 12, 2]);
    let mut far = flat;
    far[0] = 8_192.5;
    let found = [
        number(&slow, &flat, &[0, 1, 2]),
        number(&beyond, &flat, &[0, 1, 2]),
        number(&drill(40_000.0, 1.0), &flat[1..], &[0, 1, 2]),
        number(&good, &flat[1..], &[0, 1, 9]),
        number(&good, &far, &[0, 1, 2, 0, 1, 9]),
        number(&good, &far, &[0, 1, 2]),
        number(&good, &flat, &[0, 1, 2]),
    ];
    assert_eq!(found, [1, 1, 12, 2, 5, 12, 0]);
    let mut two = flat.to_vec();
    two.extend(flat.map(|x| x + 1.0));
    two.extend(flat);
    let lowest = drill_plain(&good, &two, &[3, 4, 5, 6, 7, 8, 0, 1, 2]);
    assert_eq!(lowest, Answer::Touched(1));
    assert_eq!(triangle_at(&good, &two, &[3, 4, 5], 0), Answer::Clear);
    assert_eq!(triangle_at(&good, &two, &[3, 4, 99], 0), Answer::Refused(5));
}

/// Through a tree 1, 12, 2 and 3 come before the walk.
#[test]
fn through_a_tree() {
    let vertices = [0.0, 0.0, 0.0, 9.0, 0.0, 0.0, 0.0, 9.0, 0.0];
    let indices = [0, 1, 2];
    let built = tree::build(&vertices, &indices).expect("a tree").padded(1);
    let before = |drill: &Drill, vertices: &[f64], list, stack| {
        refused_before_walk(drill, vertices, &indices, Tree::from(&built), list, stack)
    };
    let (good, wide) = (drill(5.0, 1.0), drill(5.0, 129.0));
    let found = [
        before(&good, &vertices, 1, 2),
        before(&wide, &vertices[1..], 0, 0),
        before(&good, &vertices[1..], 0, 0),
        before(&good, &vertices, 0, 2),
        before(&good, &vertices, 1, 1),
    ];
    assert_eq!(found, [None, Some(12), Some(2), Some(3), Some(3)]);
}

#[test]
fn whole_numbers_of_any_size() {
    let [a, b, c] = [(1 << 126) - 3, -(1 << 100) + 7, 12].map(Big::from);
    let (sum, difference) = (&a + &b, &a - &b);
    // (a + b) (a - b) = a a - b b
    assert_eq!(&sum * &difference, &(&a * &a) - &(&b * &b));
    let cube = &(&a * &a) * &a;
    assert!(cube > &a * &a && &cube * &b < Big::ZERO && b < c);
    assert_eq!((&a - &a, (&b - &b).sign()), (Big::ZERO, 0));
    assert_eq!([a.sign(), b.sign(), (-&b).sign()], [1, -1, 1]);
    assert_eq!(&Big::from(-5) * &Big::from(7), Big::from(-35));
    let carry = Big::from(i128::from(u64::MAX));
    assert_eq!(&carry + &Big::from(1), Big::from(1 << 64));
    assert_eq!(&Big::from(1 << 64) - &Big::from(1), carry);
}
