//! The exact cast beside a judge that decides every triangle in fractions, by its plane and its sides in space: random boards on
//! whole millimetres, rays at sides and corners, and rays along faces; rays out of a cube in every direction; what lies off the
//! grid and out of range; and the same cast through a tree. tests/exact.sh has a million boards, in any direction.
mod judge;

use judge::{dot, first_depth, nearest, normal, Depth, Point};
use probe_rays::{Cast, Mesh, PlainMesh, Ray, Refusal, Scratch};

/// xorshift, so that a run can be had again.
struct Random(u64);

impl Random {
    fn below(&mut self, n: u64) -> u64 {
        self.0 ^= self.0 << 13;
        self.0 ^= self.0 >> 7;
        self.0 ^= self.0 << 17;
        self.0 % n
    }

    fn within(&mut self, size: i128) -> i128 {
        self.below(2 * size as u64 + 1) as i128 - size
    }

    fn point(&mut self, size: i128) -> Point {
        [self.within(size), self.within(size), self.within(size)]
    }
}

fn floats(p: Point) -> [f64; 3] {
    [p[0] as f64, p[1] as f64, p[2] as f64]
}

#[test]
fn as_a_judge_in_fractions_has_it() {
    let random = &mut Random(0x9e37_79b9_7f4a_7c15);
    // hits, misses, hits at near or far, and hits of triangles whose plane the line lies in
    let mut seen = [0_u32; 4];
    for board in 0..60_000 {
        // small boards meet their rays at sides and corners; large ones have large numbers
        let size = if board % 4 == 0 { 4096 } else { 4 };
        let count = 1 + random.below(6) as usize;
        let triangles: Vec<[Point; 3]> = (0..count)
            .map(|_| [random.point(size), random.point(size), random.point(size)])
            .collect();
        let axis = random.below(3) as usize;
        let mut direction = [0; 3];
        direction[axis] = if random.below(2) == 0 { 1 } else { -1 };
        let mut origin = random.point(size);
        if random.below(2) == 0 {
            // at a corner's own place across the axis
            let corner = triangles[random.below(count as u64) as usize][random.below(3) as usize];
            let along = origin[axis];
            origin = corner;
            origin[axis] = along;
        }
        let near = random.below(size as u64 + 1) as i128;
        let far = near + random.below(2 * size as u64) as i128;

        let mut expected: Option<(f64, u32, Depth, bool)> = None;
        let mut rows = Vec::new();
        for (index, t) in triangles.iter().enumerate() {
            if let Some(depth) = first_depth(origin, direction, (near, 1), (far, 1), *t) {
                let distance = nearest(depth);
                rows.push((distance, index as u32));
                let flat = dot(normal(*t), direction) == 0;
                if expected.map_or(true, |least| distance < least.0) {
                    expected = Some((distance, index as u32, depth, flat));
                }
            }
        }
        let vertices: Vec<[f64; 3]> = triangles.iter().flatten().map(|&p| floats(p)).collect();
        let indices: Vec<[u32; 3]> = (0..count as u32)
            .map(|k| [3 * k, 3 * k + 1, 3 * k + 2])
            .collect();
        let ray = Ray::new(floats(origin), floats(direction), far as f64).with_near(near as f64);
        let board_of = PlainMesh::new(vertices, indices);
        let answer = board_of.cast_exact(&ray);
        let mut with_tree = board_of.build().unwrap();
        assert_eq!(with_tree.cast_exact(&ray), answer, "board {board}: a tree");
        // every triangle that the judge meets, in order of depth, then of index; the cast's hit first
        rows.sort_by(|a, b| a.partial_cmp(b).unwrap());
        let hits = with_tree.cast_exact_all(&ray).unwrap();
        let listed: Vec<(f64, u32)> = hits.iter().map(|h| (h.distance, h.triangle)).collect();
        assert_eq!(listed, rows, "board {board}: the list");
        let first = hits.first().copied();
        assert_eq!(
            first,
            answer.into_result().unwrap(),
            "board {board}: the first"
        );
        match (expected, &answer) {
            (None, Cast::None) => seen[1] += 1,
            (Some((distance, index, depth, flat)), Cast::Hit(hit)) => {
                assert_eq!(
                    (hit.distance, hit.triangle),
                    (distance, index),
                    "board {board}"
                );
                let toward: f64 = (0..3).map(|k| hit.normal[k] * direction[k] as f64).sum();
                assert!(toward <= 0.0, "board {board}: the normal faces the ray");
                seen[0] += 1;
                seen[2] += u32::from(depth.0 == near * depth.1 || depth.0 == far * depth.1);
                seen[3] += u32::from(flat);
            }
            _ => panic!("board {board}: {answer:?} where the judge has {expected:?}"),
        }
    }
    assert!(seen.iter().all(|&count| count > 500), "{seen:?}");
}

/// A cube of 8.
fn cube() -> PlainMesh {
    let corner = |k: u32| [0, 1, 2].map(|axis| if k >> axis & 1 == 1 { 8.0 } else { 0.0 });
    let vertices: Vec<[f64; 3]> = (0..8).map(corner).collect();
    let faces = [
        [0, 1, 3, 2],
        [4, 5, 7, 6],
        [0, 1, 5, 4],
        [2, 3, 7, 6],
        [0, 2, 6, 4],
        [1, 3, 7, 5],
    ];
    let triangles: Vec<[u32; 3]> = faces
        .iter()
        .flat_map(|f| [[f[0], f[1], f[2]], [f[0], f[2], f[3]]])
        .collect();
    PlainMesh::new(vertices, triangles)
}

#[test]
fn every_ray_into_a_closed_board_hits() {
    // each way in from outside over every place of a face, the outline and the diagonals too
    let cube = cube();
    let with_tree = cube.clone().build().unwrap();
    let scratch = &mut Scratch::new();
    for axis in 0..3 {
        for side in [-1.0, 1.0] {
            for place in 0..81 {
                let mut origin = [0.0; 3];
                origin[axis] = if side > 0.0 { -3.0 } else { 11.0 };
                origin[(axis + 1) % 3] = f64::from(place % 9);
                origin[(axis + 2) % 3] = f64::from(place / 9);
                let mut direction = [0.0; 3];
                direction[axis] = side;
                let ray = Ray::new(origin, direction, 20.0);
                let answer = cube.cast_exact(&ray);
                assert_eq!(with_tree.cast_exact_with(&ray, scratch), answer);
                let Cast::Hit(hit) = answer else {
                    panic!("from {origin:?}")
                };
                assert_eq!(hit.distance, 3.0);
                // in and out, each place by one triangle or more; a face along the ray has depths of its own
                let mut depths: Vec<f64> = with_tree
                    .cast_exact_all_with(&ray, scratch)
                    .unwrap()
                    .iter()
                    .map(|hit| hit.distance)
                    .collect();
                depths.dedup();
                let along = [1, 2].map(|k| origin[(axis + k) % 3] % 8.0 == 0.0);
                if !along.contains(&true) {
                    assert_eq!(depths, [3.0, 11.0], "from {origin:?}");
                }
                let ends = (depths.first(), depths.last());
                assert_eq!(ends, (Some(&3.0), Some(&11.0)), "from {origin:?}");
            }
        }
    }
}

/// A board of 64 by 64 squares with a hole, 8,190 triangles: every place of the grid, as without a tree.
#[test]
fn a_large_board_through_its_tree() {
    let side = 64_u32;
    let corner = |k: u32| [f64::from(k % (side + 1)), f64::from(k / (side + 1)), 0.0];
    let vertices: Vec<[f64; 3]> = (0..(side + 1) * (side + 1)).map(corner).collect();
    let (hole_x, hole_y) = (20, 41);
    let mut triangles: Vec<[u32; 3]> = Vec::new();
    for y in 0..side {
        for x in 0..side {
            if (x, y) != (hole_x, hole_y) {
                let at = y * (side + 1) + x;
                triangles.push([at, at + 1, at + side + 1]);
                triangles.push([at + side + 2, at + side + 1, at + 1]);
            }
        }
    }
    let plain = PlainMesh::new(vertices, triangles);
    let mut board = plain.clone().build().unwrap();
    for place in 0..(side + 3) * (side + 3) {
        let (x, y) = (place % (side + 3), place / (side + 3));
        let ray = Ray::new(
            [f64::from(x) - 1.0, f64::from(y) - 1.0, 7.0],
            [0.0, 0.0, -1.0],
            9.0,
        );
        let answer = board.cast_exact(&ray);
        assert_eq!(answer, plain.cast_exact(&ray));
        let on = |p: u32| (1..=side + 1).contains(&p);
        assert_eq!(matches!(answer, Cast::Hit(_)), on(x) && on(y));
    }
    // along the board, down a side of the hole
    let inside = Ray::new(
        [f64::from(hole_x), f64::from(hole_y) + 1.0, 0.0],
        [0.0, -1.0, 0.0],
        1.0,
    );
    assert_eq!(board.cast_exact(&inside), plain.cast_exact(&inside));
}

#[test]
fn refusals_and_moved_vertices_through_a_tree() {
    let square = [
        [0.0, 0.0, 0.0],
        [31.0, 0.0, 0.0],
        [0.0, 31.0, 0.0],
        [31.0, 31.0, 0.0],
    ];
    let part = Mesh::build(square, [[0, 1, 2], [3, 2, 1]]).unwrap();
    let scratch = &mut Scratch::new();
    let down = |x: f64, far: f64| Ray::new([x, 30.0, 1.0], [0.0, 0.0, -1.0], far);
    // 12 after 1, and before 4 and 2
    assert_eq!(
        part.cast_exact_with(&down(8193.0, -1.0), scratch),
        Cast::Refused(Refusal::InvalidInput)
    );
    assert_eq!(
        part.cast_exact_at(&down(8193.0, 2.0), &square[..3], scratch),
        Cast::Refused(Refusal::OutOfRange)
    );
    assert_eq!(
        part.cast_exact_with(&down(1.0, 32768.5), scratch),
        Cast::Refused(Refusal::OutOfRange)
    );
    assert_eq!(
        part.cast_exact_at(&down(1.0, 2.0), &square[..3], scratch),
        Cast::Refused(Refusal::WrongPose)
    );
    let all = |ray: &Ray, pose: &[[f64; 3]]| {
        let mut scratch = Scratch::new();
        let hits = part.cast_exact_all_at(ray, pose, &mut scratch)?;
        Ok(hits
            .iter()
            .map(|h| (h.distance, h.triangle))
            .collect::<Vec<_>>())
    };
    assert_eq!(all(&down(1.0, 2.0), &square), Ok(vec![(1.0, 0), (1.0, 1)]));
    for (ray, refusal) in [
        (down(8193.0, -1.0), Refusal::InvalidInput),
        (down(8193.0, 2.0), Refusal::OutOfRange),
        (down(1.0, 32768.5), Refusal::OutOfRange),
        (down(1.0, 2.0), Refusal::WrongPose),
    ] {
        assert_eq!(all(&ray, &square[..3]), Err(refusal));
    }
    // moved down by 2, past the segment; by 1, at its end; up by half a millimetre; out of range
    let moved = |z: f64| square.map(|[x, y, _]| [x, y, z]);
    assert_eq!(all(&down(1.0, 2.0), &moved(-2.0)), Ok(vec![]));
    assert_eq!(
        all(&down(1.0, 2.0), &moved(0.5)),
        Ok(vec![(0.5, 0), (0.5, 1)])
    );
    assert_eq!(
        all(&down(1.0, 2.0), &moved(-8192.5)),
        Err(Refusal::OutOfRange)
    );
    assert_eq!(
        part.cast_exact_at(&down(1.0, 2.0), &moved(-2.0), scratch),
        Cast::None
    );
    let Cast::Hit(hit) = part.cast_exact_at(&down(1.0, 2.0), &moved(-1.0), scratch) else {
        panic!()
    };
    assert_eq!((hit.distance, hit.triangle), (2.0, 0));
    let Cast::Hit(hit) = part.cast_exact_at(&down(1.0, 2.0), &moved(0.5), scratch) else {
        panic!()
    };
    assert_eq!((hit.distance, hit.triangle), (0.5, 0));
    assert_eq!(
        part.cast_exact_at(&down(1.0, 2.0), &moved(-8192.5), scratch),
        Cast::Refused(Refusal::OutOfRange)
    );
}

/// From a place in a cube toward each place of a raster of its surface, and in directions of chance.
#[test]
fn every_ray_out_of_a_closed_board_hits() {
    let cube = cube();
    let with_tree = cube.clone().build().unwrap();
    let random = &mut Random(0x2545_f491_4f6c_dd1d);
    let scratch = &mut Scratch::new();
    let mut missed = 0;
    for number in 0..20_000_u32 {
        let origin = [0; 3].map(|_: i32| 0.001 * (1 + random.below(7_999)) as f64);
        // a place of the surface, on its raster of whole millimetres: outlines, diagonals and corners too
        let mut toward = [0; 3].map(|_: i32| random.below(9) as f64);
        toward[random.below(3) as usize] = 8.0 * random.below(2) as f64;
        if number % 4 == 0 {
            toward = [0; 3].map(|_: i32| random.below(1_000_000) as f64 - 500_000.0);
        }
        let ray = Ray::toward(origin, [0, 1, 2].map(|k| toward[k] - origin[k]), 100.0);
        let answer = cube.cast_exact(&ray);
        assert_eq!(with_tree.cast_exact_with(&ray, scratch), answer);
        let Cast::Hit(hit) = answer else {
            panic!("from {origin:?} toward {toward:?}")
        };
        let place = [0, 1, 2].map(|k| origin[k] + hit.distance * ray.direction[k]);
        let off = |x: f64| x.abs().min((x - 8.0).abs());
        let least = place.map(off).into_iter().fold(f64::INFINITY, f64::min);
        assert!(least < 1e-4, "{place:?} lies on the surface");
        missed += u32::from(cube.cast(&ray) == Cast::None);
    }
    // the rounded cast passes between two triangles now and then
    assert!(missed < 2_000, "{missed}");
}

/// A corner that is NaN in a box that is valid: the mesh is cast at without its tree, which need not meet it.
#[test]
fn a_nan_is_found_without_the_tree() {
    let corner = |x: f64, y: f64, z: f64| [x, y, z];
    let vertices = [
        corner(0.0, 0.0, 0.0),
        corner(9.0, 0.0, 0.0),
        corner(0.0, 9.0, 0.0),
        corner(500.0, f64::NAN, 0.0),
        corner(509.0, 0.0, 0.0),
        corner(500.0, 9.0, 0.0),
    ];
    let plain = PlainMesh::new(vertices, [[0, 1, 2], [3, 4, 5]]);
    let mut mesh = plain.clone().build().unwrap();
    let down = Ray::new([1.0, 1.0, 1.0], [0.0, 0.0, -1.0], 2.0);
    let refused = Cast::Refused(Refusal::OutOfRange);
    assert_eq!(
        (plain.cast_exact(&down), mesh.cast_exact(&down)),
        (refused, refused)
    );
    assert_eq!(mesh.cast_exact_all(&down), Err(Refusal::OutOfRange));
    assert!(!probe_rays::lent::mesh_has_numbers(
        vertices.as_flattened(),
        &[0, 1, 2, 3, 4, 5]
    ));
    assert!(probe_rays::lent::mesh_has_numbers(
        vertices.as_flattened(),
        &[0, 1, 2]
    ));
}
