//! The five casts: `Ray::validate`, then the refusals 2 of document 01, then the
//! named Rust function.

use crate::{
    aabb::Aabb,
    collision::{
        CollisionError, QueryError, height_field,
        mesh::{self as bvh, TriangleBvh},
        query::open,
    },
    math::{Vec2, Vec3},
    shape::{self, TriangleMesh},
    tree::{self, FlatTree},
};

#[derive(Clone, Copy, Debug, PartialEq)]
pub struct Ray {
    pub origin: [f64; 3],
    pub direction: [f64; 3],
    pub maximum: f64,
    /// A surface nearer than this is not hit (document 02, M-106); the Rust has no such distance.
    pub near: f64,
}

/// 'a near distance, finite, from 0 to the maximum, else 1'
pub fn near_admitted(ray: &Ray) -> bool {
    ray.near.is_finite() && !(ray.near < 0.0) && !(ray.near > ray.maximum)
}

/// The Rust's answer, if its own distance is not below near.
fn not_below_near(near: f64, answer: Answer) -> Answer {
    match answer {
        Answer::Hit { distance, .. } if distance < near => Answer::None,
        other => other,
    }
}

#[derive(Clone, Copy, Debug, PartialEq)]
pub enum Answer {
    Hit {
        normal: [f64; 3],
        distance: f64,
        index: Option<u32>,
    },
    None,
    Refused(u32),
}

/// What the Rust's own constructor makes of a shape that document 01 admits.
#[derive(Clone, Copy, Debug, PartialEq, Eq)]
pub enum Constructed {
    Kept,
    Changed,
    Refused,
}

pub const MOST_VERTICES: usize = 65_536;
pub const MOST_TRIANGLES: usize = 65_536;

pub(crate) fn refusal_of_collision(error: CollisionError) -> u32 {
    match error {
        CollisionError::InvalidSkinPose => 4,
        CollisionError::GeometryBounds => 5,
        CollisionError::ArithmeticOverflow => 6,
        CollisionError::InvalidContact => 7,
        CollisionError::NonConvergent => 8,
        other => panic!("document 01 has no number for {other:?}"),
    }
}

fn refusal(error: QueryError) -> u32 {
    match error {
        QueryError::InvalidInput => 1,
        QueryError::ArithmeticOverflow => 6,
        QueryError::NonConvergent => 8,
        QueryError::Geometry(error) => refusal_of_collision(error),
        QueryError::UnsupportedQueryShape => panic!("document 01 has no number for {error:?}"),
    }
}

fn answer(cast: open::Cast) -> Answer {
    match cast {
        Ok((Some(normal), distance)) => Answer::Hit {
            normal: normal.to_array(),
            distance,
            index: None,
        },
        Ok((None, _)) => Answer::None,
        Err(error) => Answer::Refused(refusal(error)),
    }
}

type RustRay = crate::collision::query::Ray;

fn rust_ray(ray: &Ray) -> RustRay {
    open::ray(
        Vec3::from_array(ray.origin),
        Vec3::from_array(ray.direction),
        ray.maximum,
    )
}

/// Refusal 1, then refusal 2, then the cast.
fn behind_refusals(ray: &Ray, admitted: bool, cast: impl FnOnce(RustRay) -> Answer) -> Answer {
    let near = near_admitted(ray);
    let ray = rust_ray(ray);
    match ray.validate() {
        Err(error) => Answer::Refused(refusal(error)),
        Ok(()) if !near => Answer::Refused(1),
        Ok(()) if !admitted => Answer::Refused(2),
        Ok(()) => cast(ray),
    }
}

/// Whether refusal 1 lets the ray pass.
pub fn ray_admitted(ray: &Ray) -> bool {
    rust_ray(ray).validate().is_ok() && near_admitted(ray)
}

/// Whether the Rust's own constructor admits the ray, and keeps its direction.
pub fn ray_constructed(ray: &Ray) -> Constructed {
    let given = rust_ray(ray);
    match RustRay::new(given.origin(), given.direction(), given.max_distance()) {
        Err(_) => Constructed::Refused,
        Ok(made) if made == given => Constructed::Kept,
        Ok(_) => Constructed::Changed,
    }
}

fn spacing_admitted(spacing: &[f64]) -> bool {
    spacing.iter().all(|&s| s.is_finite() && s > 0.0)
}

pub fn plane(ray: &Ray, normal: [f64; 3], distance: f64) -> Answer {
    let normal = Vec3::from_array(normal);
    let admitted = (normal.length() - 1.0).abs() <= 1.0e-12 && distance.is_finite();
    let near = ray.near;
    behind_refusals(ray, admitted, |ray| {
        let cast = answer(open::plane(&shape::plane::unchecked(normal, distance), ray));
        not_below_near(near, cast)
    })
}

pub fn plane_constructed(normal: [f64; 3], distance: f64) -> Constructed {
    let normal = Vec3::from_array(normal);
    match shape::Plane::from_vec(normal, distance) {
        Err(_) => Constructed::Refused,
        Ok(made) if made.normal() == normal && made.distance() == distance => Constructed::Kept,
        Ok(_) => Constructed::Changed,
    }
}

fn kept<T, E>(made: Result<T, E>) -> Constructed {
    match made {
        Ok(_) => Constructed::Kept,
        Err(_) => Constructed::Refused,
    }
}

pub fn triangle(ray: &Ray, corners: [[f64; 3]; 3]) -> Answer {
    let near = ray.near;
    behind_refusals(ray, true, |ray| {
        let cast = answer(open::triangle(corners.map(Vec3::from_array), ray));
        not_below_near(near, cast)
    })
}

pub fn triangle_constructed(corners: [[f64; 3]; 3]) -> Constructed {
    kept(shape::Triangle::from_vertices(
        corners.map(Vec3::from_array),
    ))
}

/// The triangle cast without refusal 1, for casts that have tested the ray.
pub fn triangle_of_admitted_ray(ray: &Ray, corners: [[f64; 3]; 3]) -> Answer {
    answer(open::triangle(corners.map(Vec3::from_array), rust_ray(ray)))
}

fn mesh_admitted(vertices: &[f64], indices: &[u32]) -> bool {
    vertices.len().is_multiple_of(3)
        && indices.len().is_multiple_of(3)
        && vertices.len() <= 3 * MOST_VERTICES
        && indices.len() <= 3 * MOST_TRIANGLES
}

/// The mesh cast at the mesh's own vertices, over the tree that the Rust builds
/// after the refusals 1 and 2. A refusal of the build is the answer.
pub fn mesh(ray: &Ray, vertices: &[f64], indices: &[u32]) -> Answer {
    let near = ray.near;
    behind_refusals(ray, mesh_admitted(vertices, indices), |ray| {
        let mesh = tree::rust_mesh(vertices, indices);
        match tree::rust_tree(&mesh) {
            Err(number) => Answer::Refused(number),
            Ok(bvh) => mesh_over(&mesh, mesh.vertices(), &bvh, ray, near),
        }
    })
}

/// The mesh cast at other vertices and over a tree of any builder with no cycle in
/// it. Areas are taken to be long enough.
pub fn mesh_with_tree(
    ray: &Ray,
    vertices: &[f64],
    indices: &[u32],
    cast_vertices: &[f64],
    tree: &FlatTree,
) -> Answer {
    let admitted = mesh_admitted(vertices, indices) && mesh_admitted(cast_vertices, &[]);
    let near = ray.near;
    behind_refusals(ray, admitted, |ray| {
        let mesh = tree::rust_mesh(vertices, indices);
        let bvh = bvh::from_flat(tree, indices.len() / 3);
        mesh_over(&mesh, &tree::points(cast_vertices), &bvh, ray, near)
    })
}

pub fn mesh_constructed(vertices: &[f64], indices: &[u32]) -> Constructed {
    kept(TriangleMesh::new(
        tree::points(vertices),
        tree::corners(indices),
    ))
}

/// The Rust's answer with the triangle's index, which the Rust does not return:
/// found by the same fold over the Rust's own list, and held against its answer.
///
/// With a near distance above 0 the fold over the Rust's answers at each triangle of
/// its list is the answer, those nearer left out.
fn mesh_over(
    mesh: &TriangleMesh,
    vertices: &[Vec3],
    tree: &TriangleBvh,
    ray: RustRay,
    near: f64,
) -> Answer {
    match answer(open::mesh(mesh, vertices, tree, ray)) {
        Answer::Hit { .. } if near > 0.0 => first_least(mesh, vertices, tree, ray, near).map_or(
            Answer::None,
            |(index, normal, distance)| Answer::Hit {
                normal,
                distance,
                index: Some(index),
            },
        ),
        Answer::Hit {
            normal, distance, ..
        } => {
            let (index, own_normal, own_distance) =
                first_least(mesh, vertices, tree, ray, near).expect("the Rust hit one");
            assert!(agree(distance, own_distance), "distance of the fold");
            assert!(
                (0..3).all(|axis| agree(normal[axis], own_normal[axis])),
                "normal of the fold"
            );
            Answer::Hit {
                normal,
                distance,
                index: Some(index),
            }
        }
        other => other,
    }
}

fn first_least(
    mesh: &TriangleMesh,
    vertices: &[Vec3],
    tree: &TriangleBvh,
    ray: RustRay,
    near: f64,
) -> Option<(u32, [f64; 3], f64)> {
    let end = ray.origin() + ray.direction() * ray.max_distance();
    let bounds = Aabb::new(ray.origin().min(end), ray.origin().max(end)).expect("segment box");
    let mut best: Option<(u32, [f64; 3], f64)> = None;
    for triangle in bvh::listed(tree, bounds).expect("the Rust listed it") {
        let corners = mesh.triangles()[triangle].map(|vertex| vertices[vertex]);
        let (normal, distance) = open::triangle(corners, ray).expect("the Rust cast it");
        if let Some(normal) = normal
            && !(distance < near)
            && best.is_none_or(|(_, _, least)| distance < least)
        {
            best = Some((triangle as u32, normal.to_array(), distance));
        }
    }
    best
}

/// Equal under IEEE 754; any two NaN agree.
pub fn agree(a: f64, b: f64) -> bool {
    a == b || (a.is_nan() && b.is_nan())
}

pub fn height_field(
    ray: &Ray,
    rows: u32,
    columns: u32,
    spacing: [f64; 2],
    heights: &[f64],
) -> Answer {
    let near = ray.near;
    let sides = [rows, columns].map(|side| side as usize);
    let admitted = sides.iter().all(|side| (2..=1_024).contains(side))
        && spacing_admitted(&spacing)
        && heights.len() == sides[0] * sides[1];
    behind_refusals(ray, admitted, |ray| {
        let field = shape::height_field::unchecked(
            sides[0],
            sides[1],
            Vec2::new(spacing[0], spacing[1]),
            heights.to_vec(),
        );
        match answer(open::height_field(&field, ray)) {
            Answer::Hit { .. } if near > 0.0 => height_over(&field, ray, near),
            cast => cast,
        }
    })
}

/// The same fold over the Rust's own list, triangles nearer than near left out.
fn height_over(field: &shape::HeightField, ray: RustRay, near: f64) -> Answer {
    let end = ray.origin() + ray.direction() * ray.max_distance();
    let bounds = Aabb::new(ray.origin().min(end), ray.origin().max(end)).expect("segment box");
    let mut best = Answer::None;
    for corners in height_field::listed(field, bounds).expect("the Rust listed it") {
        let cast = not_below_near(near, answer(open::triangle(corners, ray)));
        let nearer = match (&best, &cast) {
            (
                Answer::Hit {
                    distance: least, ..
                },
                Answer::Hit { distance, .. },
            ) => distance < least,
            (_, Answer::Hit { .. }) => true,
            _ => false,
        };
        if nearer {
            best = cast;
        }
    }
    best
}

pub fn height_field_constructed(
    rows: u32,
    columns: u32,
    spacing: [f64; 2],
    heights: &[f64],
) -> Constructed {
    kept(shape::HeightField::from_vec(
        rows as usize,
        columns as usize,
        Vec2::new(spacing[0], spacing[1]),
        heights.to_vec(),
    ))
}

pub fn level_set(
    ray: &Ray,
    sides: [u32; 3],
    origin: [f64; 3],
    spacing: [f64; 3],
    values: &[f64],
) -> Answer {
    let dimensions = sides.map(|side| side as usize);
    let admitted = dimensions.iter().all(|side| (2..=256).contains(side))
        && spacing_admitted(&spacing)
        && origin.iter().all(|o| o.is_finite())
        && values.len() == dimensions.iter().product::<usize>();
    behind_refusals(ray, admitted, |ray| {
        let field = shape::level_set::unchecked(
            Vec3::from_array(origin),
            dimensions,
            Vec3::from_array(spacing),
            values.to_vec(),
        );
        answer(open::level_set(&field, ray))
    })
}

pub fn level_set_constructed(
    sides: [u32; 3],
    origin: [f64; 3],
    spacing: [f64; 3],
    values: &[f64],
) -> Constructed {
    kept(shape::LevelSet::from_vec(
        Vec3::from_array(origin),
        sides.map(|side| side as usize),
        Vec3::from_array(spacing),
        values.to_vec(),
    ))
}
