//! The drill, against the measures of small parts: rims and flat ends exactly touched, what is refused and in which order; and that a
//! tree, many drills in one call and a mesh in pieces answer what the call without a tree answers.
use probe_rays::lent::{self, DrillAreas};
use probe_rays::{calls, sys, Cast, Drill, LargeMesh, Mesh, PlainMesh, Ray, Refusal, Scratch};

/// The grid's unit.
const UNIT: f64 = 1.0 / 32768.0;

/// A square of 4 by 4 at height 0, in two triangles: below the diagonal and above it.
fn square() -> PlainMesh {
    let corners = [
        [0.0, 0.0, 0.0],
        [4.0, 0.0, 0.0],
        [4.0, 4.0, 0.0],
        [0.0, 4.0, 0.0],
    ];
    PlainMesh::new(corners, [[0, 1, 2], [0, 2, 3]])
}

fn down(x: f64, y: f64, z: f64, maximum: f64) -> Ray {
    Ray::new([x, y, z], [0.0, 0.0, -1.0], maximum)
}

/// The answer, which is the same without a tree, through one, among many, and in pieces.
fn answer(part: &PlainMesh, ray: Ray, radius: f64) -> Result<Option<u32>, Refusal> {
    let plain = part.drill(&ray, radius);
    let mut mesh = part.clone().build().unwrap();
    assert_eq!(mesh.drill(&ray, radius), plain);
    let drill = Drill { ray, radius };
    let mut scratch = Scratch::new();
    assert_eq!(mesh.drill_many_with(&[drill; 2], &mut scratch), [plain; 2]);
    assert_eq!(mesh.drill_many(&[drill]), [plain]);
    let mut pieces = LargeMesh::in_pieces(part.vertices(), part.triangles(), 1).unwrap();
    assert_eq!(pieces.drill(&ray, radius), plain);
    assert_eq!(pieces.drill_many(&[drill]), [plain]);
    plain
}

#[test]
fn a_rim_that_touches_a_corner_exactly() {
    // the axis is 3 and 4 off the corner (4, 0, 0)
    let beside = down(7.0, -4.0, 1.0, 2.0);
    assert_eq!(answer(&square(), beside, 5.0), Ok(Some(0)));
    assert_eq!(answer(&square(), beside, 5.0 - UNIT), Ok(None));
    // the radius is read upward
    assert_eq!(answer(&square(), beside, 5.0 - UNIT * 0.75), Ok(Some(0)));
    assert_eq!(answer(&square(), beside, 5.0 - UNIT * 1.001), Ok(None));
}

#[test]
fn flat_ends_that_lie_in_the_face() {
    assert_eq!(
        answer(&square(), down(1.0, 3.0, 5.0, 5.0), 0.25),
        Ok(Some(1))
    );
    assert_eq!(
        answer(&square(), down(1.0, 3.0, 5.0, 5.0 - UNIT), 0.25),
        Ok(None)
    );
    let through = down(1.0, 3.0, 5.0, 10.0);
    assert_eq!(answer(&square(), through.with_near(5.0), 0.25), Ok(Some(1)));
    assert_eq!(
        answer(&square(), through.with_near(5.0 + UNIT), 0.25),
        Ok(None)
    );
}

#[test]
fn the_lowest_of_several_and_a_line() {
    assert_eq!(
        answer(&square(), down(2.0, 2.0, 5.0, 10.0), 0.5),
        Ok(Some(0))
    );
    assert_eq!(
        answer(&square(), down(1.0, 3.0, 5.0, 10.0), 128.0),
        Ok(Some(0))
    );
    assert_eq!(
        answer(&square(), down(4.0, 2.0, 5.0, 10.0), 0.0),
        Ok(Some(0))
    );
    assert_eq!(answer(&square(), down(5.0, 2.0, 5.0, 10.0), -0.0), Ok(None));
}

#[test]
fn along_the_face() {
    let along = |z, maximum| Ray::new([-2.0, 2.0, z], [1.0, 0.0, 0.0], maximum);
    assert_eq!(answer(&square(), along(0.5, 10.0), 0.5), Ok(Some(0)));
    assert_eq!(answer(&square(), along(0.5, 10.0), 0.5 - UNIT), Ok(None));
    // the flat end touches the edge x = 0, which is the second triangle's
    assert_eq!(answer(&square(), along(0.0, 2.0), 0.5), Ok(Some(1)));
    assert_eq!(answer(&square(), along(0.0, 1.5), 0.5), Ok(None));
}

#[test]
fn a_bore_of_eight_and_its_floor() {
    let corners = |z| {
        [
            [-4.0, -4.0, z],
            [4.0, -4.0, z],
            [4.0, 4.0, z],
            [-4.0, 4.0, z],
        ]
    };
    let walls = [
        [0, 1, 5],
        [0, 5, 4],
        [1, 2, 6],
        [1, 6, 5],
        [2, 3, 7],
        [2, 7, 6],
        [3, 0, 4],
        [3, 4, 7],
    ];
    let bore = PlainMesh::new(
        [corners(0.0), corners(-12.0)].concat(),
        [&walls[..], &[[4, 5, 6], [4, 6, 7]]].concat(),
    );
    let straight = |maximum| down(0.0, 0.0, 1.0, maximum);
    assert_eq!(answer(&bore, straight(12.0), 7.9 / 2.0), Ok(None));
    assert_eq!(answer(&bore, straight(12.0), 8.0 / 2.0), Ok(Some(0)));
    assert_eq!(answer(&bore, straight(12.0), 8.1 / 2.0), Ok(Some(0)));
    // the floor is 13 below
    assert_eq!(answer(&bore, straight(13.0), 7.9 / 2.0), Ok(Some(8)));
    assert_eq!(answer(&bore, straight(13.0 - UNIT), 7.9 / 2.0), Ok(None));
    assert_eq!(
        answer(&bore, straight(20.0).with_near(13.1), 7.9 / 2.0),
        Ok(None)
    );
}

#[test]
fn what_a_line_along_the_axis_does_not_meet() {
    let middle = down(0.0, 0.0, 5.0, 10.0);
    let inside = PlainMesh::new(
        [[1.0, 0.0, 0.0], [2.0, 0.0, 0.0], [1.0, 1.0, 0.0]],
        [[0, 1, 2]],
    );
    assert_eq!(inside.cast_exact(&middle), Cast::None);
    assert_eq!(answer(&inside, middle, 5.0), Ok(Some(0)));
    assert_eq!(answer(&inside, middle, 1.0), Ok(Some(0)));
    assert_eq!(answer(&inside, middle, 1.0 - UNIT), Ok(None));

    // no area: three corners on a line, and three equal ones
    let flat = PlainMesh::new(
        [[0.0, 0.0, 0.0], [4.0, 0.0, 0.0], [2.0, 0.0, 0.0]],
        [[0, 1, 2], [1, 1, 1]],
    );
    assert_eq!(flat.cast_exact(&middle), Cast::None);
    assert_eq!(answer(&flat, middle, 0.0), Ok(Some(0)));
    assert_eq!(answer(&flat, down(5.0, 0.0, 5.0, 10.0), 1.0), Ok(Some(0)));
    let point = PlainMesh::new(flat.vertices(), [[1, 1, 1]]);
    assert_eq!(answer(&point, down(4.0, 3.0, 5.0, 10.0), 3.0), Ok(Some(0)));
    assert_eq!(
        answer(&point, down(4.0, 3.0, 5.0, 10.0), 3.0 - UNIT),
        Ok(None)
    );
}

#[test]
fn refusals_in_their_order() {
    let [valid, long] = [down(2.0, 2.0, 5.0, 10.0), down(2.0, 2.0, 5.0, 32769.0)];
    let far = down(2.0, 2.0, 8192.5, 10.0);
    for radius in [f64::NAN, f64::INFINITY, f64::NEG_INFINITY, -1.0, -1e-300] {
        for ray in [valid, far, down(2.0, 2.0, 5.0, -1.0)] {
            assert_eq!(answer(&square(), ray, radius), Err(Refusal::InvalidInput));
        }
    }
    assert_eq!(
        answer(&square(), down(2.0, 2.0, 5.0, -1.0), 129.0),
        Err(Refusal::InvalidInput)
    );
    for (ray, radius) in [
        (valid, 128.000_000_01),
        (valid, 1e300),
        (far, 1.0),
        (long, 1.0),
    ] {
        assert_eq!(answer(&square(), ray, radius), Err(Refusal::OutOfRange));
    }

    // of the mesh: an index past the vertices, a corner out of range wherever the drill is, more vertices than admitted
    let corners = square().vertices().to_vec();
    let past = PlainMesh::new(corners.clone(), [[0, 1, 2], [0, 1, 4]]);
    assert_eq!(past.drill(&valid, 1.0), Err(Refusal::OutOfBounds));
    assert_eq!(past.drill(&far, 1.0), Err(Refusal::OutOfRange));
    let wide = PlainMesh::new(
        [&corners[..], &[[8192.5, 0.0, 0.0]]].concat(),
        [[0, 1, 2], [1, 4, 2]],
    );
    assert_eq!(answer(&wide, valid, 1.0), Err(Refusal::OutOfRange));
    let large = PlainMesh::new(vec![[0.0; 3]; 65_537], [[0, 1, 2]]);
    assert_eq!(large.drill(&valid, 1.0), Err(Refusal::BadShape));
    assert_eq!(PlainMesh::new([], []).drill(&valid, 1.0), Ok(None));
}

#[test]
fn an_index_slice_without_a_place() {
    let (part, ray) = (square(), down(2.0, 2.0, 5.0, 10.0));
    let (vertices, triangles) = (
        part.vertices().as_flattened(),
        part.triangles().as_flattened(),
    );
    let short =
        |ray: &Ray, radius, vertices| calls::drill_plain(ray, radius, vertices, triangles, &mut []);
    assert_eq!(short(&ray, 1.0, vertices), sys::REFUSED_NO_ROOM);
    assert_eq!(short(&ray, -1.0, vertices), sys::REFUSED_INVALID_INPUT);
    assert_eq!(short(&ray, 129.0, vertices), sys::REFUSED_OUT_OF_RANGE);
    assert_eq!(short(&ray, 1.0, &vertices[1..]), sys::REFUSED_BAD_SHAPE);
    // before 5 of a triangle, and through a tree before its own 3
    assert_eq!(
        calls::drill_plain(&ray, 1.0, vertices, &[0, 1, 9], &mut []),
        sys::REFUSED_NO_ROOM
    );
    let mesh = part.clone().build().unwrap();
    let tree = mesh.tree().as_lent();
    let through = |radius, list: &mut [u32], stack: &mut [u32], index: &mut [u32]| {
        calls::drill(&ray, radius, vertices, triangles, &tree, list, stack, index)
    };
    let (mut list, mut stack) = ([7; 2], [7; 9]);
    assert_eq!(
        through(1.0, &mut list, &mut stack, &mut []),
        sys::REFUSED_NO_ROOM
    );
    assert_eq!(
        through(f64::NAN, &mut list, &mut stack, &mut []),
        sys::REFUSED_INVALID_INPUT
    );
    assert_eq!(
        through(1.0, &mut list[..1], &mut stack, &mut [7]),
        sys::REFUSED_NO_ROOM
    );
    assert_eq!(
        through(1.0, &mut list, &mut [], &mut [7]),
        sys::REFUSED_NO_ROOM
    );
    assert_eq!((list, stack), ([7; 2], [7; 9]));
    // the index is written where something is touched
    let mut index = [7, 7];
    assert_eq!(through(0.25, &mut list, &mut stack, &mut index), sys::HIT);
    assert_eq!(index, [0, 7]);
}

#[test]
fn many_drills_in_one_call() {
    let mesh = square().build().unwrap();
    let (vertices, triangles) = (
        mesh.vertices().as_flattened(),
        mesh.triangles().as_flattened(),
    );
    let drill = |ray, radius| Drill { ray, radius };
    let drills = [
        drill(down(7.0, -4.0, 1.0, 2.0), 5.0),
        drill(down(7.0, -4.0, 1.0, 2.0), 4.9999),
        drill(down(2.0, 2.0, 5.0, 10.0), -1.0),
        drill(down(2.0, 2.0, 5.0, 10.0), 129.0),
        drill(down(1.0, 3.0, 5.0, 5.0), 0.25),
    ];
    let expected = [
        Ok(Some(0)),
        Ok(None),
        Err(Refusal::InvalidInput),
        Err(Refusal::OutOfRange),
        Ok(Some(1)),
    ];
    assert_eq!(mesh.drill_many(&drills), expected);
    assert_eq!(mesh.drill_many_with(&drills, &mut Scratch::new()), expected);
    assert!(mesh.drill_many(&[]).is_empty());

    // the places: a code and an index a drill, and nothing past them
    let numbers: Vec<f64> = drills.iter().flat_map(Drill::numbers).collect();
    let (mut list, mut stack, mut codes, mut indices) = ([5; 2], [5; 9], [77; 6], [78; 6]);
    let mut call = |numbers: &[f64], codes: &mut [u32], indices: &mut [u32]| {
        let mut areas = DrillAreas { codes, indices };
        lent::drill_many(
            numbers,
            vertices,
            triangles,
            &mesh.tree().as_lent(),
            &mut list,
            &mut stack,
            &mut areas,
        )
    };
    assert_eq!(call(&numbers, &mut codes, &mut indices), Ok(()));
    assert_eq!(codes, [sys::HIT, sys::NONE, 1, 12, sys::HIT, 77]);
    assert_eq!(indices, [0, 78, 78, 78, 1, 78]);

    // what refuses the whole call changes nothing
    let (mut codes, mut indices) = ([77; 5], [78; 5]);
    assert_eq!(
        call(&numbers[1..], &mut codes, &mut indices),
        Err(Refusal::BadShape)
    );
    assert_eq!(
        call(&numbers, &mut codes[..4], &mut indices),
        Err(Refusal::NoRoom)
    );
    assert_eq!(
        call(&numbers, &mut codes, &mut indices[..4]),
        Err(Refusal::NoRoom)
    );
    assert_eq!((codes, indices), ([77; 5], [78; 5]));
    assert_eq!(call(&[], &mut [], &mut []), Ok(()));
}

#[test]
fn a_mesh_with_a_nan_is_asked_without_its_tree() {
    let corners = [
        [0.0, 0.0, 0.0],
        [31.0, 0.0, 0.0],
        [0.0, 31.0, 0.0],
        [f64::NAN, 1.0, 1.0],
    ];
    let mut mesh = Mesh::build(corners, [[0, 1, 2], [0, 1, 3]]).unwrap();
    let beside = down(40.0, 1.0, 1.0, 2.0);
    assert_eq!(mesh.drill(&beside, 1.0), Err(Refusal::OutOfRange));
    assert_eq!(
        mesh.drill_many(&[Drill {
            ray: beside,
            radius: 1.0
        }]),
        [Err(Refusal::OutOfRange)]
    );
}

#[test]
fn the_test_of_refusal_1_in_words() {
    let ray = down(0.0, 0.0, 1.0, 2.0);
    let fault = |radius| Drill { ray, radius }.fault();
    assert_eq!(fault(f64::NAN), Some("the radius is NaN"));
    assert_eq!(fault(-1.0), Some("the radius is below 0"));
    assert_eq!(fault(f64::NEG_INFINITY), Some("the radius is below 0"));
    assert_eq!(fault(f64::INFINITY), Some("the radius is infinite"));
    let wrong = down(0.0, 0.0, 1.0, -2.0);
    assert_eq!(
        Drill {
            ray: wrong,
            radius: -1.0
        }
        .fault(),
        Some("the maximum is below 0")
    );
}
