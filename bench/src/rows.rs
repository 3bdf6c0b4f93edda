//! The rows of the table. Each is made only after both sides' answers were compared on its inputs.

use crate::{
    Vec2, Vec3,
    aabb::Aabb,
    areas::{self, Lent, Mesh, Ray, Tree},
    clock,
    collision::{
        CollisionError, QueryError, mesh as bvh,
        mesh::{MeshQueryWorkspace, TriangleBvh},
        query::{QueryScratch, Ray as RustRay, timed},
    },
    conversion, drill, empty, exact, inputs, listing, many, merge, near, plain, ranges, records,
    shape::{self, TriangleMesh},
    timing::Row,
};
use probe_rays::{
    Cabinet, Cast,
    sys::{DONE, HIT, NONE, YES},
};
use std::{cell::LazyCell, hint::black_box, rc::Rc};

fn rust_ray(ray: &Ray) -> RustRay {
    timed::ray(
        Vec3::from_array(ray.origin),
        Vec3::from_array(ray.direction),
        ray.max_distance,
    )
}

/// The Rust's answer as our call gives it: a number, and a hit's normal and distance.
pub fn numbered(cast: timed::Cast) -> (u32, [f64; 4]) {
    let refused = |number| (number, [0.0; 4]);
    match cast {
        Ok((Some(n), distance)) => (HIT, [n.x, n.y, n.z, distance]),
        Ok((None, _)) => (NONE, [0.0; 4]),
        Err(QueryError::InvalidInput) => refused(1),
        Err(QueryError::ArithmeticOverflow) => refused(6),
        Err(QueryError::NonConvergent) => refused(8),
        Err(QueryError::Geometry(CollisionError::GeometryBounds)) => refused(5),
        Err(QueryError::Geometry(CollisionError::InvalidContact)) => refused(7),
        Err(error) => panic!("no input of the benchmark gives {error:?}"),
    }
}

/// Document 01's agreement: numbers equal under IEEE 754, any two NaN agree.
fn agree(a: f64, b: f64) -> bool {
    a == b || (a.is_nan() && b.is_nan())
}

fn compare(name: &str, wanted: u32, ours: (u32, [f64; 4]), rust: (u32, [f64; 4])) {
    assert_eq!(ours.0, rust.0, "{name}: the answers' numbers differ");
    assert!(
        ours.0 != HIT || ours.1.iter().zip(rust.1).all(|(&a, b)| agree(a, b)),
        "{name}: {:?} here, {:?} from the Rust",
        ours.1,
        rust.1
    );
    assert!(
        wanted == 0 || ours.0 == wanted,
        "{name}: an input was meant to answer {wanted}, not {}",
        ours.0
    );
}

/// A row of casts: `ours` and `rust` cast one item, given as each side holds it. A `wanted` of 0 admits any answer.
pub fn casts<A: 'static, B: 'static>(
    name: &str,
    wanted: u32,
    ours_items: Vec<A>,
    rust_items: Vec<B>,
    mut ours: impl FnMut(&A, &mut [f64; 4]) -> u32 + 'static,
    mut rust: impl FnMut(&B) -> timed::Cast + 'static,
) -> Row {
    for (a, b) in ours_items.iter().zip(&rust_items) {
        let mut hit = [0.0; 4];
        let number = ours(a, &mut hit);
        compare(name, wanted, (number, hit), numbered(rust(b)));
    }
    turns(name, ours_items, rust_items, ours, rust)
}

/// The row itself, of items whose answers were compared.
pub fn turns<A: 'static, B: 'static, C: 'static>(
    name: &str,
    ours_items: Vec<A>,
    other_items: Vec<B>,
    mut ours: impl FnMut(&A, &mut [f64; 4]) -> u32 + 'static,
    mut other: impl FnMut(&B) -> C + 'static,
) -> Row {
    Row {
        name: name.to_owned(),
        units: ours_items.len() as f64,
        clock: clock::thread,
        ours: Box::new(move || {
            let mut hit = [0.0; 4];
            for item in black_box(&ours_items[..]) {
                black_box(ours(item, &mut hit));
                black_box(&mut hit);
            }
        }),
        rust: Some(Box::new(move || {
            for item in black_box(&other_items[..]) {
                black_box(&other(item));
            }
        })),
    }
}

pub fn rust_rays(rays: &[Ray]) -> Vec<RustRay> {
    rays.iter().map(rust_ray).collect()
}

type TrianglePair = (Ray, [[f64; 3]; 3]);

fn rust_pairs(pairs: &[TrianglePair]) -> Vec<(RustRay, [Vec3; 3])> {
    pairs
        .iter()
        .map(|(ray, corners)| (rust_ray(ray), corners.map(Vec3::from_array)))
        .collect()
}

/// Ours is handed the numbers as slices, as the Rust is handed two addresses.
fn triangles(name: &str, wanted: u32, pairs: Vec<TrianglePair>) -> Row {
    let nine = |corners: &[[f64; 3]; 3]| std::array::from_fn(|place| corners[place / 3][place % 3]);
    let slices = |(ray, corners): &TrianglePair| (ray.numbers(), nine(corners));
    casts(
        name,
        wanted,
        pairs.iter().map(slices).collect(),
        rust_pairs(&pairs),
        |(ray, corners), hit| areas::triangle_slices(ray, corners, hit),
        |(ray, corners)| timed::triangle(*ray, *corners),
    )
}

/// Ours is handed each number by itself.
fn triangles_by_numbers(name: &str, wanted: u32, pairs: Vec<TrianglePair>) -> Row {
    let rust = rust_pairs(&pairs);
    casts(
        name,
        wanted,
        pairs,
        rust,
        |(ray, corners), hit| areas::triangle(ray, corners, hit),
        |(ray, corners)| timed::triangle(*ray, *corners),
    )
}

type PlanePair = (Ray, [f64; 3], f64);

fn rust_planes(items: &[PlanePair]) -> Vec<(RustRay, shape::Plane)> {
    items
        .iter()
        .map(|(ray, normal, distance)| {
            let normal = Vec3::from_array(*normal);
            (rust_ray(ray), shape::plane::unchecked(normal, *distance))
        })
        .collect()
}

fn plane(name: &str) -> Row {
    let items = inputs::at_planes(256);
    let slices = |(ray, n, distance): &PlanePair| (ray.numbers(), [n[0], n[1], n[2], *distance]);
    casts(
        name,
        HIT,
        items.iter().map(slices).collect(),
        rust_planes(&items),
        |(ray, plane), hit| areas::plane_slices(ray, plane, hit),
        |(ray, plane)| timed::plane(*ray, plane),
    )
}

fn plane_by_numbers(name: &str) -> Row {
    let items = inputs::at_planes(256);
    let rust = rust_planes(&items);
    casts(
        name,
        HIT,
        items,
        rust,
        |(ray, normal, distance), hit| areas::plane(ray, normal, *distance, hit),
        |(ray, plane)| timed::plane(*ray, plane),
    )
}

/// A mesh and its tree as each side holds them.
pub struct Both {
    pub mesh: Mesh,
    pub tree: Tree,
    pub rust_mesh: TriangleMesh,
    pub rust_tree: TriangleBvh,
}

impl Both {
    /// Builds both trees and compares them.
    pub fn of(mesh: Mesh) -> Rc<Self> {
        let n = mesh.count();
        let mut tree = Tree::for_triangles(n);
        assert_eq!(areas::build(&mesh, &mut tree, &mut vec![0; n]), DONE);
        let points = mesh.vertices.chunks_exact(3);
        let corners = mesh.triangles.chunks_exact(3);
        let rust_mesh = shape::triangle_mesh::unchecked(
            points.map(|p| Vec3::new(p[0], p[1], p[2])).collect(),
            corners
                .map(|t| [t[0] as usize, t[1] as usize, t[2] as usize])
                .collect(),
        );
        let rust_tree = bvh::build(&rust_mesh).expect("the Rust's tree");
        assert!(tree == bvh::areas(&rust_tree), "the trees differ");
        Rc::new(Self {
            mesh,
            tree,
            rust_mesh,
            rust_tree,
        })
    }

    pub fn lent(&self) -> Lent {
        Lent::for_tree(self.mesh.count(), self.tree.nodes)
    }
}

pub fn build(name: &str, both: &Rc<Both>) -> Row {
    let (a, b) = (both.clone(), both.clone());
    let mut tree = Tree::for_triangles(a.mesh.count());
    let mut work = vec![0; a.mesh.count()];
    Row {
        name: name.to_owned(),
        units: 1.0,
        clock: clock::thread,
        ours: Box::new(move || {
            black_box(areas::build(black_box(&a.mesh), &mut tree, &mut work));
            black_box(&mut tree);
        }),
        rust: Some(Box::new(move || {
            black_box(&bvh::build(black_box(&b.rust_mesh)));
        })),
    }
}

/// The time is a triangle's. The Rust has no check.
pub fn check(name: &str, both: &Rc<Both>) -> Row {
    let both = both.clone();
    let mut marks = vec![0; 3 * both.mesh.count()];
    assert_eq!(areas::check(&both.mesh, &both.tree, &mut marks), YES);
    Row {
        name: name.to_owned(),
        units: both.mesh.count() as f64,
        clock: clock::thread,
        ours: Box::new(move || {
            black_box(areas::check(black_box(&both.mesh), &both.tree, &mut marks));
        }),
        rust: None,
    }
}

/// The index, which the Rust does not return: its triangle alone must give the same hit.
pub fn index_agrees(name: &str, both: &Both, ray: &Ray, lent: &Lent) {
    let mut hit = [0.0; 4];
    let corners = both.mesh.corners(lent.index[0] as usize);
    assert_eq!(
        areas::triangle(ray, &corners, &mut hit),
        HIT,
        "{name}: index"
    );
    let same = hit.iter().zip(lent.hit).all(|(&a, b)| agree(a, b));
    assert!(same, "{name}: index");
}

pub fn mesh(name: &str, wanted: u32, both: &Rc<Both>, rays: Vec<Ray>) -> Row {
    let (a, b) = (both.clone(), both.clone());
    let (mut lent, mut scratch) = (both.lent(), QueryScratch::default());
    for ray in &rays {
        if areas::mesh(ray, &a.mesh, &a.tree, &mut lent) == HIT {
            index_agrees(name, &a, ray, &lent);
        }
    }
    let rust = rust_rays(&rays);
    casts(
        name,
        wanted,
        rays,
        rust,
        move |ray, hit| {
            let number = areas::mesh(ray, &a.mesh, &a.tree, &mut lent);
            *hit = lent.hit;
            number
        },
        move |ray| timed::mesh(*ray, &b.rust_mesh, &b.rust_tree, &mut scratch),
    )
}

/// The parts of a cabinet, four side by side.
const PARTS: usize = 40;

fn part_origin(part: usize) -> [f64; 3] {
    [600.0 * (part % 4) as f64, 143.0 * (part / 4) as f64, 0.0]
}

/// The same mesh forty times, each ray at one of the parts. The Rust has no such cast: it casts at each part in turn.
fn cabinet(name: &str, both: &Rc<Both>, mut rays: Vec<Ray>) -> Row {
    let rows = |numbers: &[f64]| {
        numbers
            .chunks_exact(3)
            .map(|p| [p[0], p[1], p[2]])
            .collect::<Vec<_>>()
    };
    let corners = both
        .mesh
        .triangles
        .chunks_exact(3)
        .map(|t| [t[0], t[1], t[2]])
        .collect::<Vec<_>>();
    let one = probe_rays::Mesh::build(rows(&both.mesh.vertices), corners).expect("a tree");
    let mut ours = Cabinet::new();
    ours.push(&one, part_origin(0));
    for part in 1..PARTS {
        ours.place_again(0, part_origin(part));
    }
    for (number, ray) in rays.iter_mut().enumerate() {
        let origin = part_origin(7 * number % PARTS);
        (0..3).for_each(|axis| ray.origin[axis] += origin[axis]);
    }
    let (b, mut scratch, limit) = (both.clone(), QueryScratch::default(), ours.nodes());
    let rust = rust_rays(&rays);
    casts(
        name,
        HIT,
        rays,
        rust,
        move |ray, hit| match ours.cast(ray, limit).answer {
            Cast::Hit(found) => {
                let [x, y, z] = found.normal;
                *hit = [x, y, z, found.distance];
                HIT
            }
            Cast::None => NONE,
            Cast::Refused(refusal) => refusal.number(),
        },
        move |ray| {
            let mut best: timed::Cast = Ok((None, 0.0));
            for part in 0..PARTS {
                let moved = timed::moved(*ray, Vec3::from_array(part_origin(part)));
                let (normal, distance) =
                    timed::mesh(moved, &b.rust_mesh, &b.rust_tree, &mut scratch)?;
                if normal.is_some()
                    && best
                        .as_ref()
                        .is_ok_and(|(n, least)| n.is_none() || distance < *least)
                {
                    best = Ok((normal, distance));
                }
            }
            best
        },
    )
}

fn segment_box(ray: &Ray) -> [f64; 6] {
    let mut bounds = [0.0; 6];
    for axis in 0..3 {
        let end = ray.origin[axis] + ray.direction[axis] * ray.max_distance;
        bounds[axis] = ray.origin[axis].min(end);
        bounds[axis + 3] = ray.origin[axis].max(end);
    }
    bounds
}

fn rust_box(bounds: &[f64; 6]) -> Aabb {
    let [a, b, c, d, e, f] = *bounds;
    Aabb::new(Vec3::new(a, b, c), Vec3::new(d, e, f)).expect("a box")
}

fn query(name: &str, both: &Rc<Both>, rays: &[Ray]) -> Row {
    let (a, b) = (both.clone(), both.clone());
    let (mut lent, n) = (both.lent(), both.mesh.count());
    let (mut workspace, mut output) = (MeshQueryWorkspace::new(), Vec::new());
    let ours_boxes: Vec<[f64; 6]> = rays.iter().map(segment_box).collect();
    let rust_boxes: Vec<Aabb> = ours_boxes.iter().map(rust_box).collect();
    for (ours, rust) in ours_boxes.iter().zip(&rust_boxes) {
        assert_eq!(areas::query(ours, n, &a.tree, &mut lent), DONE);
        bvh::query(&b.rust_tree, *rust, &mut workspace, &mut output).expect("the Rust's list");
        let list = lent.list[..lent.found[0]].iter().map(|&t| t as usize);
        assert!(list.eq(output.iter().copied()), "{name}: the lists differ");
    }
    Row {
        name: name.to_owned(),
        units: rays.len() as f64,
        clock: clock::thread,
        ours: Box::new(move || {
            for bounds in black_box(&ours_boxes[..]) {
                black_box(areas::query(bounds, n, &a.tree, &mut lent));
                black_box(&mut lent);
            }
        }),
        rust: Some(Box::new(move || {
            for bounds in black_box(&rust_boxes[..]) {
                let done = bvh::query(&b.rust_tree, *bounds, &mut workspace, &mut output);
                black_box(&done);
                black_box(&mut output);
            }
        })),
    }
}

fn height(name: &str, wanted: u32, rays: Vec<Ray>) -> Row {
    let field = inputs::heights(256);
    let rust_field = shape::height_field::unchecked(
        field.rows,
        field.columns,
        Vec2::new(field.spacing[0], field.spacing[1]),
        field.heights.clone(),
    );
    let rust = rust_rays(&rays);
    let mut scratch = QueryScratch::default();
    casts(
        name,
        wanted,
        rays,
        rust,
        move |ray, hit| areas::height_field(ray, &field, hit),
        move |ray| timed::height_field(*ray, &rust_field, &mut scratch),
    )
}

/// Rays that the Rust answers as wanted: a last sample past the box by a rounding is 5 in the Rust, and not timed.
fn distance(name: &str, wanted: u32, mut rays: Vec<Ray>) -> Row {
    let grid = inputs::ball(64);
    let rust_grid = shape::level_set::unchecked(
        Vec3::from_array(grid.origin),
        grid.sides.map(|side| side as usize),
        Vec3::from_array(grid.spacing),
        grid.values.clone(),
    );
    rays.retain(|ray| numbered(timed::level_set(rust_ray(ray), &rust_grid)).0 == wanted);
    assert!(rays.len() > 100, "{name}: too few rays are left");
    let rust = rust_rays(&rays);
    casts(
        name,
        wanted,
        rays,
        rust,
        move |ray, hit| areas::level_set(ray, &grid, hit),
        move |ray| timed::level_set(*ray, &rust_grid),
    )
}

/// A row of the table that is made when its turn comes.
pub struct Planned {
    pub name: String,
    pub make: Box<dyn FnOnce(&str) -> Row>,
}

pub fn plan(name: &str, make: impl FnOnce(&str) -> Row + 'static) -> Planned {
    Planned {
        name: name.to_owned(),
        make: Box::new(make),
    }
}

/// A mesh that the first row to ask for it makes.
#[derive(Clone)]
struct Lazy(Rc<LazyCell<Rc<Both>, Make>>);

type Make = fn() -> Rc<Both>;

impl Lazy {
    fn of(make: Make) -> Self {
        Self(Rc::new(LazyCell::new(make)))
    }

    fn build(&self, name: &str) -> Planned {
        let lazy = self.clone();
        plan(name, move |name| build(name, &lazy.0))
    }

    fn check(&self, name: &str) -> Planned {
        let lazy = self.clone();
        plan(name, move |name| check(name, &lazy.0))
    }

    fn mesh(&self, name: &str, wanted: u32, rays: Vec<Ray>) -> Planned {
        let lazy = self.clone();
        plan(name, move |name| mesh(name, wanted, &lazy.0, rays))
    }

    fn cabinet(&self, name: &str, rays: Vec<Ray>) -> Planned {
        let lazy = self.clone();
        plan(name, move |name| cabinet(name, &lazy.0, rays))
    }

    fn query(&self, name: &str, rays: Vec<Ray>) -> Planned {
        let lazy = self.clone();
        plan(name, move |name| query(name, &lazy.0, &rays))
    }

    fn listing(&self, name: &str, rays: Vec<Ray>, all: bool) -> Planned {
        let lazy = self.clone();
        plan(name, move |name| {
            listing::row(name, &lazy.0, rays, all, false)
        })
    }

    fn exact_listing(&self, name: &str, rays: Vec<Ray>) -> Planned {
        let lazy = self.clone();
        plan(name, move |name| {
            listing::row(name, &lazy.0, rays, false, true)
        })
    }
}

fn shapes() -> Vec<Planned> {
    let with = |change: fn(&mut TrianglePair)| {
        let mut pairs = inputs::at_triangles(256, true);
        pairs.iter_mut().for_each(change);
        pairs
    };
    let long = with(|(ray, _)| ray.direction = ray.direction.map(|c| c * (1.0 + 1.0e-9)));
    let point = with(|(_, corners)| *corners = [corners[0]; 3]);
    let hits = inputs::at_triangles(256, true);
    let misses = inputs::at_triangles(256, false);
    let both = |name: &str, wanted: u32, pairs: Vec<TrianglePair>| {
        let same = pairs.clone();
        [
            plan(name, move |name| triangles(name, wanted, pairs)),
            plan(&format!("{name}, by numbers"), move |name| {
                triangles_by_numbers(name, wanted, same)
            }),
        ]
    };
    let planes = [
        plan("plane, hit", plane),
        plan("plane, hit, by numbers", plane_by_numbers),
    ];
    [
        both("validate, refused", 1, long),
        both("validate, passed", NONE, point),
        planes,
        both("triangle, hit", HIT, hits),
        both("triangle, miss", NONE, misses),
    ]
    .into_iter()
    .flatten()
    .collect()
}

fn meshes() -> Vec<Planned> {
    let front = Lazy::of(|| Both::of(inputs::front()));
    let small = Lazy::of(|| Both::of(inputs::sheet(25, 20)));
    let panel = Lazy::of(|| Both::of(inputs::panel()));
    let sheet = Lazy::of(|| Both::of(inputs::sheet(256, 128)));
    let mixed = Lazy::of(|| Both::of(inputs::shuffled(inputs::sheet(256, 128))));
    let stack = Lazy::of(|| Both::of(inputs::stack()));
    let (short, long) = (inputs::short_probes(1_024), inputs::long_rays(8));
    let (holes, far) = (inputs::through_holes(1_024), inputs::far_rays(1_024));
    vec![
        front.build("build, 12 triangles (drawer front)"),
        small.build("build, 1,000 triangles (sheet)"),
        panel.build("build, 58,880 triangles (panel)"),
        sheet.build("build, 65,536 triangles (sheet)"),
        mixed.build("build, 65,536 triangles (sheet, shuffled)"),
        front.mesh("mesh, drawer front, hit", HIT, inputs::front_rays(256)),
        panel.mesh("mesh, panel, short axis probes", 0, short.clone()),
        panel.mesh(
            "mesh, panel, short probes from near",
            0,
            near::above_panel(&short),
        ),
        panel.mesh("mesh, panel, long oblique rays", 0, long.clone()),
        panel.mesh("mesh, panel, miss through a hole", NONE, holes),
        panel.mesh("mesh, panel, miss far off", NONE, far),
        panel.listing("listing, panel, short axis probes", short.clone(), false),
        panel.listing("listing, panel, long oblique rays", long.clone(), false),
        stack.listing(
            "listing, 65,536 triangles all hit, a hit",
            inputs::down_the_stack(),
            true,
        ),
        panel.exact_listing("exact listing, panel, short axis probes", short.clone()),
        panel.exact_listing("exact listing, panel, long oblique rays", long.clone()),
        panel.query("query, panel, short axis probes", short),
        panel.query("query, panel, long oblique rays", long),
        panel.check("tree check, panel, a triangle"),
        sheet.check("tree check, sheet, a triangle"),
        front.cabinet("cabinet, 40 drawer fronts, hit", inputs::front_rays(256)),
    ]
}

fn grids() -> Vec<Planned> {
    let short = inputs::from_above(1_024, 255.0, 255.0);
    let long = inputs::across(4, 255.0);
    let above = inputs::above(4, 255.0);
    let through = inputs::at_ball(256, 0.0, 0.9);
    let beside = inputs::at_ball(256, 1.1, 1.4);
    // the box's corners are 2.6 from its middle
    let outside = inputs::at_ball(256, 2.7, 3.5);
    vec![
        plan("height grid, short probes", |name| height(name, HIT, short)),
        plan("height grid, long oblique rays", |name| {
            height(name, HIT, long)
        }),
        plan("height grid, long rays above", |name| {
            height(name, NONE, above)
        }),
        plan("distance grid, hit", |name| distance(name, HIT, through)),
        plan("distance grid, miss", |name| distance(name, NONE, beside)),
        plan("distance grid, outside its box", |name| {
            distance(name, NONE, outside)
        }),
        plan("distance grid, hit from near", near::in_ball),
    ]
}

pub fn all() -> Vec<Planned> {
    let streams = vec![
        plan("probe, a record", records::row),
        plan("probe, a record of version 3", records::short_row),
    ];
    let parts = [
        shapes(),
        empty::rows(inputs::at_planes(256), inputs::at_triangles(256, true)),
        meshes(),
        plain::rows(),
        exact::rows(),
        many::rows(),
        drill::rows(),
        merge::rows(),
        grids(),
        ranges::rows(),
        streams,
        conversion::rows(),
    ];
    parts.into_iter().flatten().collect()
}

/// A sheet of some triangles, a power of 4: its build, its tree check, and short probes at it.
pub fn growth(triangles: usize) -> [Row; 3] {
    let rows = (triangles / 2).isqrt().next_power_of_two() / 2;
    let columns = triangles / 2 / rows;
    let both = Both::of(inputs::sheet(columns, rows));
    let probes = inputs::from_above(1_024, columns as f64, rows as f64);
    [
        build("build", &both),
        check("tree check", &both),
        mesh("short probes", HIT, &both, probes),
    ]
}
