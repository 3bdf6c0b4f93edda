//! CGAL's tree of boxes beside ours, where tools/bench has built its side (bench/cgal.cpp) and BENCH_CGAL names it.

use crate::{
    areas::{self, Lent, Mesh, Ray, Tree},
    clock, inputs,
    other::Other,
    rows::{Both, Planned, plan, turns},
    timing::Row,
};
use probe_rays::sys::{DONE, HIT, NONE};
use std::{ffi::c_void, hint::black_box, mem::transmute, rc::Rc};

type Build = unsafe extern "C" fn(*const f64, *const u32, usize) -> *mut c_void;
type Free = unsafe extern "C" fn(*mut c_void);
type Cast = unsafe extern "C" fn(*mut c_void, *const f64, *mut f64) -> u32;

#[derive(Clone, Copy)]
struct Side {
    build: Build,
    free: Free,
    /// The first triangle along the ray.
    first: Cast,
    /// The nearest of all triangles that the segment meets.
    nearest: Cast,
}

/// A mesh as CGAL's side holds it.
struct Board {
    side: Side,
    board: *mut c_void,
}

impl Side {
    /// The side of one of the kernels, by what its functions' names begin with.
    fn loaded(file: &str, kernel: &str) -> Self {
        let side = Other::loaded(file);
        let named = |name: &str| side.named(&format!("{kernel}_{name}"));
        // SAFETY: the types are those of a kernel's four functions in bench/cgal.cpp.
        unsafe {
            Self {
                build: transmute::<*mut c_void, Build>(named("build")),
                free: transmute::<*mut c_void, Free>(named("free")),
                first: transmute::<*mut c_void, Cast>(named("first")),
                nearest: transmute::<*mut c_void, Cast>(named("nearest")),
            }
        }
    }

    fn built(self, mesh: &Mesh) -> Board {
        let (vertices, triangles) = (mesh.vertices.as_ptr(), mesh.triangles.as_ptr());
        // SAFETY: every index of the benchmark's meshes is one of a vertex.
        let board = unsafe { (self.build)(vertices, triangles, mesh.count()) };
        Board { side: self, board }
    }
}

impl Board {
    /// A hit's distance, by one of the side's two casts.
    fn hit(&self, cast: Cast, ray: &[f64; 7]) -> Option<f64> {
        let mut distance = 0.0;
        // SAFETY: the board is one that was built, and the ray has seven numbers.
        let hit = unsafe { cast(self.board, ray.as_ptr(), &mut distance) };
        (hit == 1).then_some(distance)
    }
}

impl Drop for Board {
    fn drop(&mut self) {
        // SAFETY: it was built, and is freed once.
        unsafe { (self.side.free)(self.board) }
    }
}

fn numbers(ray: &Ray) -> [f64; 7] {
    let ([a, b, c], [d, e, f]) = (ray.origin, ray.direction);
    [a, b, c, d, e, f, ray.max_distance]
}

fn build(name: &str, side: Side, mesh: Mesh) -> Row {
    let (n, mesh) = (mesh.count(), Rc::new(mesh));
    let (mut tree, mut work, same) = (Tree::for_triangles(n), vec![0; n], mesh.clone());
    assert_eq!(areas::build(&mesh, &mut tree, &mut work), DONE, "{name}");
    Row {
        name: name.to_owned(),
        units: 1.0,
        clock: clock::thread,
        ours: Box::new(move || {
            black_box(areas::build(black_box(&mesh), &mut tree, &mut work));
            black_box(&mut tree);
        }),
        rust: Some(Box::new(move || drop(side.built(black_box(&same))))),
    }
}

/// One of our casts through a tree, and how far its distances may be from CGAL's.
#[derive(Clone, Copy)]
struct Ours {
    cast: fn(&Ray, &Mesh, &Tree, &mut Lent) -> u32,
    off: f64,
}

/// But for rounding.
const ROUNDED: Ours = Ours {
    cast: areas::mesh,
    off: 1e-9,
};

/// But for some units of the grid.
const EXACT: Ours = Ours {
    cast: areas::exact_mesh,
    off: 1e-3,
};

/// Both answers are compared first: a hit on both sides or none, and distances that agree.
fn casts(name: &str, side: Side, cast: Cast, ours: Ours, both: &Rc<Both>, rays: Vec<Ray>) -> Row {
    let (both, board) = (both.clone(), side.built(&both.mesh));
    let mut lent = both.lent();
    for ray in &rays {
        let number = (ours.cast)(ray, &both.mesh, &both.tree, &mut lent);
        match board.hit(cast, &numbers(ray)) {
            None => assert_eq!(number, NONE, "{name}: {ray:?}"),
            Some(distance) => {
                assert_eq!(number, HIT, "{name}: {ray:?}");
                let off = (lent.hit[3] - distance).abs();
                assert!(
                    off <= ours.off * (1.0 + distance),
                    "{name}: {ray:?}, {distance}"
                );
            }
        }
    }
    let theirs = rays.iter().map(numbers).collect();
    turns(
        name,
        rays,
        theirs,
        move |ray, hit| {
            let number = (ours.cast)(ray, &both.mesh, &both.tree, &mut lent);
            *hit = lent.hit;
            number
        },
        move |ray| board.hit(cast, ray),
    )
}

/// No row where BENCH_CGAL names no side. The other side's times are CGAL's.
pub fn rows() -> Vec<Planned> {
    let Some(file) = std::env::var_os("BENCH_CGAL") else {
        return Vec::new();
    };
    let side = Side::loaded(&file.to_string_lossy(), "cgal");
    let sharp = Side::loaded(&file.to_string_lossy(), "cgal_exact");
    let at = |name: &str, cast: Cast, mesh: fn() -> Mesh, rays: Vec<Ray>| {
        plan(name, move |name: &str| {
            casts(name, side, cast, ROUNDED, &Both::of(mesh()), rays)
        })
    };
    // the exact cast beside the kernel whose predicates are exact
    let exact = |kind: &str, cast: Cast, mesh: fn() -> Mesh, rays: Vec<Ray>| {
        let name = format!("exact, {kind}, beside CGAL's exact predicates");
        plan(&name, move |name: &str| {
            casts(name, sharp, cast, EXACT, &Both::of(mesh()), rays)
        })
    };
    vec![
        exact(
            "drawer front, hit",
            sharp.nearest,
            inputs::front,
            inputs::front_rays(256),
        ),
        exact(
            "panel, short axis probes",
            sharp.nearest,
            inputs::panel,
            inputs::short_probes(1_024),
        ),
        exact(
            "panel, long oblique rays",
            sharp.first,
            inputs::panel,
            inputs::long_rays(8),
        ),
        exact(
            "panel, miss through a hole",
            sharp.nearest,
            inputs::panel,
            inputs::through_holes(1_024),
        ),
        exact(
            "panel, miss far off",
            sharp.nearest,
            inputs::panel,
            inputs::far_rays(1_024),
        ),
        plan("build, panel, beside CGAL", move |name: &str| {
            build(name, side, inputs::panel())
        }),
        at(
            "drawer front, hit, beside CGAL",
            side.nearest,
            inputs::front,
            inputs::front_rays(256),
        ),
        at(
            "panel, short axis probes, beside CGAL",
            side.nearest,
            inputs::panel,
            inputs::short_probes(1_024),
        ),
        at(
            "panel, long oblique rays, beside CGAL",
            side.first,
            inputs::panel,
            inputs::long_rays(8),
        ),
        at(
            "panel, miss through a hole, beside CGAL",
            side.nearest,
            inputs::panel,
            inputs::through_holes(1_024),
        ),
    ]
}
