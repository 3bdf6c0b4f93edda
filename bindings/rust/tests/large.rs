//! A mesh in pieces answers what the whole one does.
use probe_rays::{Cast, LargeMesh, Mesh, Ray, Refusal};

type Faces = (Vec<[f64; 3]>, Vec<[u32; 3]>);

/// A floor of squares 4 wide, each at a height of its own and in two triangles with corners of their own.
fn floor(side: u32) -> Faces {
    let mut faces = Faces::default();
    for n in 0..side * side {
        let [x, y] = [n % side * 4, n / side * 4].map(f64::from);
        let z = f64::from(n * 7 % 5);
        let first = faces.0.len() as u32;
        for [dx, dy] in [[0.0, 0.0], [4.0, 0.0], [4.0, 4.0], [0.0, 4.0]] {
            faces.0.push([x + dx, y + dy, z]);
        }
        for corners in [[0, 1, 2], [0, 2, 3]] {
            faces.1.push(corners.map(|corner| first + corner));
        }
    }
    faces
}

/// Straight down at every millimetre, so also at sides and corners, and past the floor.
fn rays(side: u32) -> Vec<Ray> {
    let ends = -1..=i32::try_from(side).unwrap() * 4 + 1;
    let all = ends.clone().flat_map(|x| ends.clone().map(move |y| [x, y]));
    all.map(|[x, y]| [f64::from(x), f64::from(y), 9.0])
        .map(|origin| Ray::new(origin, [0.0, 0.0, -1.0], 20.0))
        .collect()
}

#[test]
fn pieces_answer_what_the_whole_mesh_does() {
    let (vertices, triangles) = floor(6);
    let mut whole = Mesh::build(vertices.clone(), triangles.clone()).unwrap();
    for most in [1, 5, 12, 72] {
        let mut large = LargeMesh::in_pieces(vertices.clone(), triangles.clone(), most).unwrap();
        assert!(large.pieces() >= 72 / most);
        let mut hits = 0;
        for ray in rays(6) {
            let expected = whole.cast_exact(&ray);
            assert_eq!(large.cast(&ray), expected, "{ray:?}");
            hits += usize::from(matches!(expected, Cast::Hit(_)));
        }
        // every ray from 0 to 24 in both directions
        assert_eq!(hits, 25 * 25);
    }
}

#[test]
fn the_rounded_cast_has_the_same_distances() {
    let (vertices, triangles) = floor(6);
    let mut whole = Mesh::build(vertices.clone(), triangles.clone()).unwrap();
    let mut large = LargeMesh::in_pieces(vertices, triangles, 5).unwrap();
    let distance =
        |cast: Cast<probe_rays::MeshHit>| cast.into_result().unwrap().map(|hit| hit.distance);
    for ray in rays(6) {
        assert_eq!(
            distance(large.cast_rounded(&ray)),
            distance(whole.cast(&ray)),
            "{ray:?}"
        );
    }
}

/// Two floors, one 10 below the other: at a side or a corner a ray hits several triangles of each.
#[test]
fn every_hit_of_the_pieces_is_one_of_the_whole_mesh() {
    let (mut vertices, mut triangles) = floor(6);
    let count = vertices.len() as u32;
    vertices.extend_from_within(..);
    for vertex in &mut vertices[..count as usize] {
        vertex[2] -= 10.0;
    }
    triangles.extend_from_within(..);
    for corner in triangles[72..].as_flattened_mut() {
        *corner += count;
    }
    let mut whole = Mesh::build(vertices.clone(), triangles.clone()).unwrap();
    for most in [1, 12, 144] {
        let mut large = LargeMesh::in_pieces(vertices.clone(), triangles.clone(), most).unwrap();
        let mut hits = 0;
        for mut ray in rays(6) {
            ray.max_distance = 30.0;
            let expected = whole.cast_all(&ray).unwrap();
            assert_eq!(large.cast_all(&ray).unwrap(), expected, "{ray:?}");
            hits += expected.len();
            let exact = whole.cast_exact_all(&ray).unwrap();
            assert_eq!(large.cast_exact_all(&ray).unwrap(), exact, "{ray:?}");
            assert_eq!(
                exact.first().copied(),
                large.cast(&ray).into_result().unwrap()
            );
        }
        // two floors, at least one triangle of each; more on sides
        assert!(hits > 2 * 25 * 25, "{hits}");
        assert!(large.nodes() >= large.pieces());
    }
    let one = LargeMesh::build(vertices, triangles).unwrap();
    assert_eq!((one.pieces(), one.nodes()), (1, whole.tree().nodes));
}

/// The first triangle stands at the larger x, so that the pieces have them in the other order.
#[test]
fn of_equally_near_triangles_the_lowest_number_is_the_answer() {
    let board = [
        [0.0, 0.0, 0.0],
        [8.0, 0.0, 0.0],
        [8.0, 4.0, 0.0],
        [0.0, 4.0, 0.0],
    ];
    let mut large = LargeMesh::in_pieces(board, [[0, 1, 2], [0, 2, 3]], 1).unwrap();
    assert_eq!(large.pieces(), 2);
    let hit = large.cast(&Ray::new([4.0, 2.0, 3.0], [0.0, 0.0, -1.0], 5.0));
    assert!(matches!(hit, Cast::Hit(hit) if (hit.distance, hit.triangle) == (3.0, 0)));
}

#[test]
fn refusals_are_those_of_a_mesh() {
    let corners = [[0.0, 0.0, 0.0], [1.0, 0.0, 0.0], [0.0, 1.0, 0.0]];
    let none: [[u32; 3]; 0] = [];
    assert_eq!(
        LargeMesh::build(corners, none).unwrap_err(),
        Refusal::OutOfBounds
    );
    assert_eq!(
        LargeMesh::build(corners, [[0, 1, 3]]).unwrap_err(),
        Refusal::OutOfBounds
    );
    let infinite = [[0.0, 0.0, 0.0], [f64::INFINITY, 0.0, 0.0], [0.0, 1.0, 0.0]];
    assert_eq!(
        LargeMesh::build(infinite, [[0, 1, 2]]).unwrap_err(),
        Refusal::OutOfBounds
    );
    let mut one = LargeMesh::build(corners, [[0, 1, 2]]).unwrap();
    let no_direction = Ray::new([0.0, 0.0, 1.0], [0.0, 0.0, 0.0], 2.0);
    assert_eq!(
        one.cast(&no_direction),
        Cast::Refused(Refusal::InvalidInput)
    );
    assert_eq!(
        one.cast_rounded(&no_direction),
        Cast::Refused(Refusal::InvalidInput)
    );
}
