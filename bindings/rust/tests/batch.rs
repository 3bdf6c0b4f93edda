//! Many rays over threads: each answer is the ray's own, in the order of the rays, whatever the threads.
use probe_rays::{Batch, Cast, Mesh, MeshHit, Ray, Refusal};
use std::sync::atomic::{AtomicUsize, Ordering};

/// A floor of 20 by 20 squares of 1 mm, each at a height of its own: the square of column x and row y at x + 20 y.
fn steps() -> Mesh {
    let mut vertices = Vec::new();
    let mut triangles = Vec::new();
    for row in 0..20_u32 {
        for column in 0..20_u32 {
            let height = f64::from(column + 20 * row);
            let first = vertices.len() as u32;
            for (x, y) in [(0, 0), (1, 0), (1, 1), (0, 1)] {
                vertices.push([f64::from(column + x), f64::from(row + y), height]);
            }
            triangles.push([first, first + 1, first + 2]);
            triangles.push([first, first + 2, first + 3]);
        }
    }
    Mesh::build(vertices, triangles).unwrap()
}

/// Rays straight down from z = 1000 into each square, below and beside them; every seventh is refused.
fn rays(count: usize) -> Vec<Ray> {
    (0..count)
        .map(|n| {
            let place = (n * 37) % 441;
            let (x, y) = ((place % 21) as f64 + 0.7, (place / 21) as f64 + 0.2);
            let maximum = if n % 7 == 3 { -1.0 } else { 2000.0 };
            Ray::new([x, y, 1000.0], [0.0, 0.0, -1.0], maximum)
        })
        .collect()
}

/// What the geometry says of a ray: its square's height, and which of the square's triangles (y < x within it: the
/// first).
fn expected(ray: &Ray) -> Cast<MeshHit> {
    let (column, row) = (ray.origin[0].floor() as u32, ray.origin[1].floor() as u32);
    if ray.max_distance < 0.0 {
        Cast::Refused(Refusal::InvalidInput)
    } else if column >= 20 || row >= 20 {
        Cast::None
    } else {
        let square = column + 20 * row;
        Cast::Hit(MeshHit {
            normal: [0.0, 0.0, 1.0],
            distance: 1000.0 - f64::from(square),
            triangle: 2 * square,
        })
    }
}

#[test]
fn each_answer_in_its_place() {
    let mesh = steps();
    for count in [0, 1, 2, 255, 256, 257, 3000, 20_000] {
        let rays = rays(count);
        let all: Vec<Cast<MeshHit>> = rays.iter().map(expected).collect();
        assert_eq!(mesh.cast_many(&rays), all, "{count}");
        assert_eq!(mesh.cast_exact_many(&rays), all, "{count}");
        for threads in [0, 1, 2, 3, 64] {
            let batch = Batch::new().threads(threads).progress("casting");
            let casts = batch.run(&rays, |ray, scratch| mesh.cast_with(ray, scratch));
            assert_eq!(casts, all, "{count} over {threads}");
        }
        for lists in [mesh.cast_all_many(&rays), mesh.cast_exact_all_many(&rays)] {
            assert_eq!(lists.len(), count);
            for (listed, one) in lists.into_iter().zip(&all) {
                let listed = listed.map(|hits| hits.first().copied());
                assert_eq!(listed, one.into_result());
            }
        }
        for (listed, one) in mesh.cast_all_many(&rays).into_iter().zip(all) {
            let listed = listed.map(|hits| hits.first().copied());
            assert_eq!(listed, one.into_result());
        }
    }
}

/// Each item is answered once, and every thread has a scratch of its own.
#[test]
fn each_item_once() {
    let calls = AtomicUsize::new(0);
    let items: Vec<usize> = (0..10_000).collect();
    let twice = Batch::new().threads(4).run(&items, |&item, _| {
        calls.fetch_add(1, Ordering::Relaxed);
        2 * item
    });
    assert_eq!(twice, (0..10_000).map(|item| 2 * item).collect::<Vec<_>>());
    assert_eq!(calls.into_inner(), 10_000);
}

#[test]
#[should_panic]
fn a_panic_is_passed_on() {
    let items: Vec<usize> = (0..10_000).collect();
    let _ = Batch::new()
        .threads(4)
        .run(&items, |&item, _| assert!(item != 7_777));
}
