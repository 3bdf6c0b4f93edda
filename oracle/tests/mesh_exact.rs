//! The model of the exact cast, at boards whose answers are told by their measures.

use oracle::{
    answer::{Answer, Ray},
    listing::HitArea,
    mesh_exact::{
        mesh_has_numbers, ray_mesh_exact_all, ray_mesh_exact_plain, refused_before_walk,
        triangle_at,
    },
    mesh_plain::ray_mesh_plain,
    model::Tree,
    tree::{self, FlatTree},
};

const DOWN: [f64; 3] = [0.0, 0.0, -1.0];
const EAST: [f64; 3] = [1.0, 0.0, 0.0];

fn ray(origin: [f64; 3], direction: [f64; 3], maximum: f64) -> Ray {
    Ray {
        origin,
        direction,
        maximum,
        near: 0.0,
    }
}

fn at_triangle(ray: &Ray, corners: [[f64; 3]; 3]) -> Answer {
    ray_mesh_exact_plain(ray, corners.as_flattened(), &[0, 1, 2])
}

fn distance(answer: Answer) -> Option<f64> {
    match answer {
        Answer::Hit { distance, .. } => Some(distance),
        Answer::None => None,
        Answer::Refused(number) => panic!("refused {number}"),
    }
}

/// docs/DIFFERENCES.md, 'Found in the Rust' 2: the rounded cast passes between two triangles.
#[test]
fn a_square_of_31_does_not_leak() {
    let vertices = [
        0.0, 0.0, 0.0, 31.0, 0.0, 0.0, 0.0, 31.0, 0.0, 31.0, 31.0, 0.0,
    ];
    let indices = [0, 1, 2, 3, 2, 1];
    let down = ray([1.0, 30.0, 1.0], DOWN, 2.0);
    assert_eq!(ray_mesh_plain(&down, &vertices, &indices), Answer::None);
    let hit = Answer::Hit {
        normal: [0.0, 0.0, 1.0],
        distance: 1.0,
        index: Some(0),
    };
    assert_eq!(ray_mesh_exact_plain(&down, &vertices, &indices), hit);
    // both triangles are listed; one place is too few, and a corner out of range goes before that
    let listed = |vertices: &[f64], places| {
        let (mut found, mut numbers) = (vec![9; places], vec![9.0; 4 * places]);
        let area = &mut HitArea {
            indices: &mut found,
            numbers: &mut numbers,
        };
        let count = ray_mesh_exact_all(&down, vertices, &indices, area);
        (count, found, numbers)
    };
    let row = [1.0, 0.0, 0.0, 1.0];
    let both = [row, row].concat();
    assert_eq!(listed(&vertices, 2), (Ok(2), vec![0, 1], both));
    assert_eq!(listed(&vertices, 1), (Err(3), vec![0], vec![0.0; 4]));
    let mut far = vertices;
    far[9] = 8_193.0;
    assert_eq!(listed(&far, 1), (Err(12), vec![0], vec![0.0; 4]));
}

/// A tetrahedron, and a ray in by its slanted face and out by the floor.
#[test]
fn a_way_through_a_closed_body_has_two_rows() {
    let vertices = [0.0, 0.0, 0.0, 8.0, 0.0, 0.0, 0.0, 8.0, 0.0, 0.0, 0.0, 8.0];
    let indices = [0, 2, 1, 0, 1, 3, 0, 3, 2, 1, 2, 3];
    let (mut found, mut numbers) = ([9; 4], [9.0; 16]);
    let area = &mut HitArea {
        indices: &mut found,
        numbers: &mut numbers,
    };
    // at (1, 2) the slanted face is 5 high
    let down = ray([1.0, 2.0, 10.0], DOWN, 20.0);
    assert_eq!(ray_mesh_exact_all(&down, &vertices, &indices, area), Ok(2));
    assert_eq!(found, [3, 0, 9, 9]);
    assert_eq!((numbers[0], numbers[4], numbers[8]), (5.0, 10.0, 9.0));
}

#[test]
fn the_open_side_and_the_outline_are_hit() {
    let open = [[0.0; 3], [1.0, 0.0, 0.0], [92.0, 91.0, 0.0]];
    let down = ray([86.0, 85.0, 5.0], DOWN, 10.0);
    assert_eq!(distance(at_triangle(&down, open)), Some(5.0));
    let lying = [[0.0; 3], [4.0, 0.0, 0.0], [0.0, 4.0, 0.0]];
    let along = |height| ray([-3.0, 0.0, height], EAST, 10.0);
    assert_eq!(distance(at_triangle(&along(0.0), lying)), Some(3.0));
    assert_eq!(distance(at_triangle(&along(1.0), lying)), None);
    // into the same face, before it, in it and past it
    let inside = |near| Ray {
        near,
        ..ray([-3.0, 1.0, 0.0], EAST, 10.0)
    };
    let found = [0.0, 3.0, 5.0, 6.0, 7.0].map(|near| distance(at_triangle(&inside(near), lying)));
    assert_eq!(found, [Some(3.0), Some(3.0), Some(5.0), Some(6.0), None]);
}

#[test]
fn near_and_maximum_belong_to_the_segment() {
    let corners = [[0.0; 3], [25.0, 0.0, 0.0], [0.0, 3.0, 0.0]];
    let down = |near, maximum| Ray {
        near,
        ..ray([1.0, 1.0, 7.0], DOWN, maximum)
    };
    let found = [(0.0, 7.0), (0.0, 6.0), (7.0, 7.0), (8.0, 9.0)];
    let found = found.map(|(near, maximum)| distance(at_triangle(&down(near, maximum), corners)));
    assert_eq!(found, [Some(7.0), None, Some(7.0), None]);
}

/// A unit of the grid is 2^-15 mm; a half goes to the even number.
#[test]
fn coordinates_are_read_on_the_grid() {
    let unit = 2f64.powi(-15);
    let corners = |z: f64| [[0.0, 0.0, z], [9.0, 0.0, z], [0.0, 9.0, z]];
    let down = ray([1.0, 1.0, 5.0], DOWN, 10.0);
    let depth = |units: f64| distance(at_triangle(&down, corners(units * unit)));
    let read = [0.25, 0.5, 0.75, 1.5, 2.5, -0.5, -1.5].map(depth);
    let whole = [0.0, 0.0, 1.0, 2.0, 2.0, 0.0, -2.0].map(|units| Some(5.0 - units * unit));
    assert_eq!(read, whole);
    // half a unit before the maximum, and half a unit behind it, which is read as the maximum
    let to = |maximum: f64| {
        distance(at_triangle(
            &ray([1.0, 1.0, 5.0], DOWN, maximum),
            corners(0.0),
        ))
    };
    let ends = [5.0 - unit, 5.0 - 0.75 * unit, 5.0 - 0.25 * unit].map(to);
    assert_eq!(ends, [None, None, Some(5.0)]);
    // a slant of less than half of 2^-30 is none
    let [slight, slant] = [0.25, 0.75].map(|part| part * 2f64.powi(-30));
    let beside = |across| {
        ray(
            [9.0 - 2.0 * unit, 0.0, 8_000.0],
            [across, 0.0, -1.0],
            9_000.0,
        )
    };
    assert_eq!(
        distance(at_triangle(&beside(slight), corners(0.0))),
        Some(8_000.0)
    );
    assert_eq!(
        distance(at_triangle(&beside(slant), corners(0.0))),
        Some(8_000.0)
    );
    assert_eq!(
        distance(at_triangle(&beside(16.0 * slant), corners(0.0))),
        None
    );
}

/// Along (1, 1, 1), which is read as 619,925,131 parts of 2^-30 on each axis.
#[test]
fn aslant_through_a_corner_a_side_and_along_a_face() {
    let aslant = [(1.0f64 / 3.0).sqrt(); 3];
    let from = |origin| ray(origin, aslant, 50.0);
    let after = |steps: f64| Some(steps * 1_073_741_824.0 / 619_925_131.0);
    let corners = [[0.0; 3], [4.0, 0.0, 0.0], [0.0, 4.0, 0.0]];
    let met = [
        // the first corner, the side opposite it, inside, and beside
        [-3.0, -3.0, -3.0],
        [-1.0, -1.0, -3.0],
        [-2.0, -2.0, -3.0],
        [0.5, 0.5, -3.0],
    ];
    let found = met.map(|origin| distance(at_triangle(&from(origin), corners)));
    assert_eq!(found, [after(3.0), after(3.0), after(3.0), None]);
    // along a face, from before it, and a segment that ends there
    let face = [[0.0; 3], [4.0, 4.0, 4.0], [4.0, 0.0, 0.0]];
    let along = from([-2.0, -3.0, -3.0]);
    assert_eq!(distance(at_triangle(&along, face)), after(3.0));
    let short = Ray {
        maximum: 5.0,
        ..along
    };
    assert_eq!(distance(at_triangle(&short, face)), None);
}

/// A triangle whose grid corners lie on one line does not count; its neighbour has the side.
#[test]
fn a_flattened_triangle_does_not_count() {
    let sliver = [[0.0; 3], [10.0, 0.0, 0.0], [5.0, 1e-6, 0.0]];
    let neighbour = [[0.0; 3], [10.0, 0.0, 0.0], [5.0, -4.0, 0.0]];
    let down = ray([5.0, 0.0, 3.0], DOWN, 10.0);
    assert_eq!(distance(at_triangle(&down, sliver)), None);
    let vertices = [sliver, neighbour].concat();
    let answer = ray_mesh_exact_plain(&down, vertices.as_flattened(), &[0, 1, 2, 3, 4, 5]);
    let hit = Answer::Hit {
        normal: [0.0, 0.0, 1.0],
        distance: 3.0,
        index: Some(1),
    };
    assert_eq!(answer, hit);
    // with a whole unit of area it counts
    let [a, b, _] = sliver;
    let thin = [a, b, [5.0, 2f64.powi(-15), 0.0]];
    assert_eq!(distance(at_triangle(&down, thin)), Some(3.0));
}

/// 1, 12 of the ray, 2, 5 of any triangle, 12 of any corner.
#[test]
fn refusals_in_their_order() {
    let flat = [0.0, 0.0, 0.0, 9.0, 0.0, 0.0, 0.0, 9.0, 0.0];
    let down = ray([1.0, 1.0, 1.0], DOWN, 2.0);
    let refused = |ray: &Ray, vertices: &[f64], indices: &[u32]| match ray_mesh_exact_plain(
        ray, vertices, indices,
    ) {
        Answer::Refused(number) => number,
        _ => 0,
    };
    let long = ray([1.0, 1.0, 1.0], [0.0, 0.0, -2.0], 32_769.0);
    let beyond = ray([1.0, 1.0, 1.0], DOWN, 32_769.0);
    let moved = |x: f64| [x, 0.0, 0.0, 9.0, 0.0, 0.0, 0.0, 9.0, 0.0];
    let next = 8_192.000_000_000_002;
    let told = [
        refused(&down, &flat, &[0, 1, 2]),
        refused(&long, &flat[1..], &[0, 1, 9]),
        refused(&beyond, &flat[1..], &[0, 1, 9]),
        refused(&down, &flat[1..], &[0, 1, 9]),
        refused(&down, &moved(next), &[0, 1, 2, 0, 1, 9]),
        refused(&down, &moved(next), &[0, 1, 2]),
        refused(&down, &moved(-8_192.0), &[0, 1, 2]),
        refused(&down, &moved(f64::NAN), &[0, 1, 2]),
        refused(&down, &moved(f64::INFINITY), &[0, 1, 2]),
        refused(&ray([1.0, 1.0, next], DOWN, 2.0), &flat, &[0, 1, 2]),
        refused(&ray([1.0, 1.0, 8_192.0], DOWN, 32_768.0), &flat, &[0, 1, 2]),
    ];
    assert_eq!(told, [0, 1, 12, 2, 5, 12, 0, 12, 5, 12, 0]);
    // 12 of a triangle far from the segment, behind one that is hit
    let mut two = flat.to_vec();
    two.extend([0.5, 0.0, 50.0, 9.0, 0.0, 50.0, 0.0, 9_000.0, 50.0]);
    assert_eq!(refused(&down, &two, &[0, 1, 2, 3, 4, 5]), 12);
}

/// Through a tree 1, 12, 2, 3 and 4 come before the walk.
#[test]
fn through_a_tree() {
    let vertices = [
        0.0, 0.0, 0.0, 31.0, 0.0, 0.0, 0.0, 31.0, 0.0, 31.0, 31.0, 0.0,
    ];
    let indices = [0, 1, 2, 3, 2, 1];
    let built = tree::build(&vertices, &indices).expect("a tree").padded(2);
    let down = ray([1.0, 30.0, 1.0], DOWN, 2.0);
    let before = |ray: &Ray, pose: &[f64], tree: &FlatTree, stack| {
        refused_before_walk(ray, &vertices, &indices, pose, Tree::from(tree), stack)
    };
    let room = built.node_count + 1;
    let beyond = ray([1.0, 30.0, 1.0], DOWN, 32_769.0);
    let told = [
        before(&down, &vertices, &built, room),
        before(&beyond, &vertices[1..], &built, room - 1),
        before(&down, &vertices[1..], &built, room - 1),
        before(&down, &vertices[3..], &built, room - 1),
        before(&down, &vertices[3..], &built, room),
    ];
    assert_eq!(told, [None, Some(12), Some(2), Some(3), Some(4)]);
    let first = triangle_at(&down, &vertices, &indices, 0);
    assert_eq!(distance(first), Some(1.0));
}

#[test]
fn a_nan_of_a_triangle_is_told() {
    let mut vertices = [0.0; 12];
    assert!(mesh_has_numbers(&vertices, &[0, 1, 2, 1, 2, 3]));
    assert!(!mesh_has_numbers(&vertices, &[0, 1, 2, 1, 2, 4]));
    vertices[4] = f64::INFINITY;
    assert!(mesh_has_numbers(&vertices, &[0, 1, 2]));
    vertices[11] = f64::NAN;
    assert!(mesh_has_numbers(&vertices, &[0, 1, 2]));
    assert!(!mesh_has_numbers(&vertices, &[0, 1, 2, 1, 2, 3]));
    assert!(mesh_has_numbers(&[f64::NAN; 3], &[]));
}
