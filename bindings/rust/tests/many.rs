//! Many rays in one call: each ray's places hold what the single call leaves there, and what refuses the whole call changes nothing.
use probe_rays::lent::{self, CastAreas, TreeRef};
use probe_rays::{sys, Cast, Mesh, Ray, Refusal, Scratch};

/// A square of 4 by 4 at height 0, in two triangles: below the diagonal and above it.
fn square() -> Mesh {
    let corners = [
        [0.0, 0.0, 0.0],
        [4.0, 0.0, 0.0],
        [4.0, 4.0, 0.0],
        [0.0, 4.0, 0.0],
    ];
    Mesh::build(corners, [[0, 1, 2], [0, 2, 3]]).unwrap()
}

fn down(x: f64, y: f64, maximum: f64) -> Ray {
    Ray::new([x, y, 5.0], [0.0, 0.0, -1.0], maximum)
}

/// A hit of the second triangle, one that is too short, a maximum below 0, and a hit of the first triangle.
fn four() -> [Ray; 4] {
    let [hit, short] = [down(1.0, 3.0, 10.0), down(1.0, 3.0, 4.0)];
    [hit, short, down(1.0, 3.0, -1.0), down(3.0, 1.0, 10.0)]
}

/// Result areas for so many codes, numbers and indices, all of them marked.
struct Marked {
    codes: Vec<u32>,
    hits: Vec<f64>,
    indices: Vec<u32>,
}

impl Marked {
    fn new(codes: usize, hits: usize, indices: usize) -> Marked {
        Marked {
            codes: vec![77; codes],
            hits: vec![7.5; hits],
            indices: vec![78; indices],
        }
    }

    fn areas(&mut self) -> CastAreas<'_> {
        CastAreas {
            codes: &mut self.codes,
            hits: &mut self.hits,
            indices: &mut self.indices,
        }
    }

    fn is_marked(&self) -> bool {
        self.codes.iter().all(|&code| code == 77)
            && self.hits.iter().all(|&number| number == 7.5)
            && self.indices.iter().all(|&index| index == 78)
    }
}

/// Both calls at the square: by the mesh cast, and exactly. `list` and `stack` are their lengths.
fn both(
    rays: &[f64],
    pose: &[f64],
    tree: &TreeRef<'_>,
    (list, stack): (usize, usize),
    marked: &mut Marked,
) -> [Result<(), Refusal>; 2] {
    let mesh = square();
    let (vertices, triangles) = (
        mesh.vertices().as_flattened(),
        mesh.triangles().as_flattened(),
    );
    let (mut list, mut stack) = (vec![0; list], vec![0; stack]);
    let (l, s) = (&mut list, &mut stack);
    [
        lent::ray_mesh_many(
            rays,
            vertices,
            triangles,
            pose,
            tree,
            l,
            s,
            &mut marked.areas(),
        ),
        lent::ray_mesh_exact_many(
            rays,
            vertices,
            triangles,
            pose,
            tree,
            s,
            &mut marked.areas(),
        ),
    ]
}

#[test]
fn each_ray_at_its_places() {
    let mesh = square();
    let numbers: Vec<f64> = four().iter().flat_map(Ray::numbers).collect();
    let marked = &mut Marked::new(5, 18, 6);
    let pose = mesh.vertices().as_flattened();
    assert_eq!(
        both(&numbers, pose, &mesh.tree().as_lent(), (2, 2), marked),
        [Ok(()), Ok(())]
    );
    assert_eq!(marked.codes, [sys::HIT, sys::NONE, 1, sys::HIT, 77]);
    let met = [0.0, 0.0, 1.0, 5.0];
    assert_eq!(marked.hits, [&met[..], &[7.5; 8], &met, &[7.5; 2]].concat());
    assert_eq!(marked.indices, [1, 78, 78, 0, 78, 78]);
    assert_eq!(marked.areas().cast(1), Cast::None);
    assert_eq!(marked.areas().cast(2), Cast::Refused(Refusal::InvalidInput));
}

#[test]
fn what_refuses_the_call_changes_nothing() {
    let mesh = square();
    let own = mesh.vertices().as_flattened();
    let tree = &mesh.tree().as_lent();
    let numbers: Vec<f64> = four().iter().flat_map(Ray::numbers).collect();
    let short = [0.0; 9];
    let more = TreeRef { nodes: 5, ..*tree };
    let [bad, room, pose] = [Refusal::BadShape, Refusal::NoRoom, Refusal::WrongPose];
    let cases: [(
        &[f64],
        &[f64],
        &TreeRef<'_>,
        (usize, usize),
        Marked,
        Refusal,
    ); 9] = [
        // 31 numbers are no four rays, whatever else is wrong; one more node than two a triangle
        (
            &numbers[..31],
            &short,
            &more,
            (2, 0),
            Marked::new(0, 0, 0),
            bad,
        ),
        (&numbers, own, &more, (2, 9), Marked::new(4, 16, 4), bad),
        (
            &numbers,
            &short[..8],
            tree,
            (2, 2),
            Marked::new(4, 16, 4),
            bad,
        ),
        // a place too few, before a pose of three vertices
        (&numbers, &short, tree, (2, 1), Marked::new(4, 16, 4), room),
        (&numbers, own, tree, (2, 2), Marked::new(3, 16, 4), room),
        (&numbers, own, tree, (2, 2), Marked::new(4, 15, 4), room),
        (&numbers, own, tree, (2, 2), Marked::new(4, 16, 3), room),
        (&numbers, &short, tree, (2, 2), Marked::new(4, 16, 4), pose),
        // no ray is admitted, and asks for a tree and a pose that fit all the same
        (&[], &short, tree, (2, 2), Marked::new(0, 0, 0), pose),
    ];
    for (number, (rays, pose, tree, work, mut marked, refusal)) in cases.into_iter().enumerate() {
        let answers = both(rays, pose, tree, work, &mut marked);
        assert_eq!(answers, [Err(refusal), Err(refusal)], "case {number}");
        assert!(marked.is_marked(), "case {number}");
    }
    // the exact cast has no list
    let answers = both(&numbers, own, tree, (1, 2), &mut Marked::new(4, 16, 4));
    assert_eq!(answers, [Err(room), Ok(())]);
    // no ray needs no place
    assert_eq!(
        both(&[], own, tree, (2, 2), &mut Marked::new(0, 0, 0)),
        [Ok(()), Ok(())]
    );
}

/// A scratch that served more rays and another mesh, and one that is new.
#[test]
fn as_the_single_casts() {
    let mesh = square();
    let rays: Vec<Ray> = (0..300)
        .map(|n| {
            let (x, y) = (f64::from(n % 17) / 3.0, f64::from(n % 23) / 5.0);
            let ray = down(
                x,
                y,
                if n % 7 == 2 {
                    -1.0
                } else {
                    4.0 + f64::from(n % 3)
                },
            );
            ray.with_near(f64::from(n % 5))
        })
        .collect();
    let served = &mut Scratch::new();
    assert_eq!(mesh.cast_many_with(&rays, served).len(), 300);
    for scratch in [served, &mut Scratch::new()] {
        for count in [0, 1, 64, 65, 300] {
            let rays = &rays[..count];
            let casts = mesh.cast_many_with(rays, scratch);
            let exact = mesh.cast_exact_many_with(rays, scratch);
            let one = &mut Scratch::new();
            for (n, ray) in rays.iter().enumerate() {
                assert_eq!(casts[n], mesh.cast_with(ray, one), "{ray:?}");
                assert_eq!(exact[n], mesh.cast_exact_with(ray, one), "{ray:?}");
            }
            assert_eq!((casts.len(), exact.len()), (count, count));
        }
    }
}

/// A mesh with a NaN is cast at without its tree: its corner is refused with 12, wherever the ray.
#[test]
fn a_nan_at_a_corner() {
    let corners = [
        [0.0, 0.0, 0.0],
        [4.0, 0.0, 0.0],
        [0.0, 4.0, 0.0],
        [f64::NAN, 1.0, 1.0],
    ];
    let mesh = Mesh::build(corners, [[0, 1, 2], [0, 1, 3]]).unwrap();
    let rays = [down(1.0, 1.0, 10.0), down(9.0, 1.0, 10.0)];
    let refused = Cast::Refused(Refusal::OutOfRange);
    assert_eq!(
        mesh.cast_exact_many_with(&rays, &mut Scratch::new()),
        [refused; 2]
    );
    assert_eq!(mesh.cast_exact_many(&rays), [refused; 2]);
}
