//! Flat regions: connected triangles in one plane. A flat face is one region, and so is each side of a tessellated curve.
use crate::geometry::{add, dot, length, scale, subtract, unit, Vector};
use crate::loops::{self, Loop};
use crate::model::Frame;
use crate::topology::{Shell, NONE};

/// How far a corner may lie off the plane of its region, beside the rounding of its coordinates: 0.0005 mm.
const OFF: f64 = 5e-4;

/// How far a triangle's normal may lean from that of its region, beside what the rounding of its corners makes: 0.1 degrees.
const LEAN: f64 = 2e-3;

/// Connected triangles in one plane.
#[derive(Clone, Debug)]
pub struct Region {
    /// Its unit normal, outwards.
    pub normal: Vector,
    /// How far along the normal the plane lies.
    pub offset: f64,
    /// Its area.
    pub area: f64,
    /// The middle of its corners.
    pub centre: Vector,
    /// How wide it is, as far as its normal is known by that: the least height of its widest triangle, or about its own.
    pub height: f64,
    /// Its triangles.
    pub triangles: Vec<u32>,
    /// The polygons around it: the outer one first, which runs to the left around, then those of its holes.
    pub loops: Vec<Loop>,
}

/// The flat regions of a shell, and the region of each triangle.
#[derive(Clone, Debug)]
pub struct Regions {
    /// The regions.
    pub all: Vec<Region>,
    /// The region of each triangle.
    pub of: Vec<u32>,
}

impl Region {
    /// Whether its triangles are so thin that their normal says nothing.
    pub fn is_sliver(&self, shell: &Shell) -> bool {
        self.height < 20.0 * shell.rounding + 1e-9
    }

    /// How far its normal may be off, by the rounding of its corners.
    pub fn lean(&self, shell: &Shell) -> f64 {
        4.0 * shell.rounding / self.height.max(1e-9)
    }
}

/// The axis that a region looks along, as far as the rounding of its corners lets it be known.
fn axis_of(region: &Region, shell: &Shell) -> Option<Vector> {
    let lean = region.lean(shell).min(LEAN);
    let across = |axis: usize| (0..3).filter(move |&other| other != axis);
    let is_it = |axis: &usize| across(*axis).all(|other| region.normal[other].abs() <= lean);
    let axis = (0..3).find(is_it)?;
    let mut exact = [0.0; 3];
    exact[axis] = region.normal[axis].signum();
    Some(exact)
}

/// About how wide a region is: twice its area by the length of its borders.
fn width(shell: &Shell, region: &Region) -> f64 {
    let around = |around: &Loop| -> f64 {
        let points = || around.vertices.iter().map(|&v| shell.vertices[v as usize]);
        let next = points().cycle().skip(1);
        points()
            .zip(next)
            .map(|(a, b)| length(subtract(b, a)))
            .sum()
    };
    let borders: f64 = region.loops.iter().map(around).sum();
    2.0 * region.area / borders.max(1e-12)
}

/// How far a point may lie off a plane.
pub fn off_plane(shell: &Shell) -> f64 {
    OFF + 4.0 * shell.rounding
}

impl Regions {
    /// Grows the regions, from the largest triangles on.
    pub fn grow(shell: &Shell) -> Regions {
        let count = shell.triangles.len();
        let mut order: Vec<u32> = (0..count as u32).collect();
        order.sort_by(|&a, &b| shell.areas[b as usize].total_cmp(&shell.areas[a as usize]));
        let mut of = vec![NONE; count];
        let mut all = Vec::new();
        for seed in order {
            if of[seed as usize] == NONE {
                let region = grown(shell, seed, all.len() as u32, &mut of);
                all.push(region);
            }
        }
        for (label, region) in all.iter_mut().enumerate() {
            region.loops = loops::around(shell, region, label as u32, &of);
            region.height = region.height.max(width(shell, region));
        }
        Regions { all, of }
    }

    /// Follows a shell that was moved into a frame.
    pub fn turn(&mut self, shell: &Shell, frame: &Frame) {
        for region in &mut self.all {
            region.normal = frame.direction(region.normal);
            region.centre = frame.place(region.centre);
            if let Some(axis) = axis_of(region, shell) {
                region.normal = axis;
            }
            let corners = region.triangles.iter().flat_map(|&t| shell.corners(t));
            let heights = corners.map(|corner| dot(corner, region.normal));
            region.offset = heights.sum::<f64>() / (3 * region.triangles.len()) as f64;
        }
    }

    /// The regions across a loop, edge by edge; [`NONE`] at an open edge.
    pub fn across<'a>(&'a self, around: &'a Loop) -> impl Iterator<Item = u32> + 'a {
        around
            .across
            .iter()
            .map(|&triangle| self.of_triangle(triangle))
    }

    /// The region of a triangle, if it is one.
    pub fn of_triangle(&self, triangle: u32) -> u32 {
        if triangle == NONE {
            NONE
        } else {
            self.of[triangle as usize]
        }
    }
}

/// The plane of a growing region: its normals weighed by area, and the mean of its corners' heights.
struct Plane {
    normal: Vector,
    offset: f64,
    sum: Vector,
    corners: Vector,
    count: f64,
}

impl Plane {
    fn add(&mut self, shell: &Shell, triangle: u32) {
        let weighed = scale(
            shell.normals[triangle as usize],
            shell.areas[triangle as usize],
        );
        self.sum = add(self.sum, weighed);
        for corner in shell.corners(triangle) {
            self.corners = add(self.corners, corner);
            self.count += 1.0;
        }
    }

    fn settle(&mut self) {
        self.normal = unit(self.sum);
        self.offset = dot(self.normal, self.corners) / self.count;
    }
}

fn grown(shell: &Shell, seed: u32, label: u32, of: &mut [u32]) -> Region {
    let off = off_plane(shell);
    let mut plane = Plane {
        normal: shell.normals[seed as usize],
        offset: 0.0,
        sum: [0.0; 3],
        corners: [0.0; 3],
        count: 0.0,
    };
    plane.add(shell, seed);
    plane.settle();
    of[seed as usize] = label;
    let mut triangles = vec![seed];
    let (mut next, mut settled) = (0, 1);
    while let Some(&triangle) = triangles.get(next) {
        next += 1;
        for other in shell.neighbours[triangle as usize] {
            if other == NONE || of[other as usize] != NONE || !fits(shell, other, &plane, off) {
                continue;
            }
            of[other as usize] = label;
            triangles.push(other);
            plane.add(shell, other);
            // a wider region knows its plane better
            if triangles.len() >= 2 * settled {
                settled = triangles.len();
                plane.settle();
            }
        }
    }
    plane.settle();
    let heights = triangles.iter().map(|&t| shell.least_height(t));
    Region {
        normal: plane.normal,
        offset: plane.offset,
        centre: scale(plane.corners, 1.0 / plane.count),
        height: heights.fold(0.0, f64::max),
        area: triangles.iter().map(|&t| shell.areas[t as usize]).sum(),
        triangles,
        loops: Vec::new(),
    }
}

/// Whether a triangle lies in a plane and faces its way. The normal of a sliver says nothing.
fn fits(shell: &Shell, triangle: u32, plane: &Plane, off: f64) -> bool {
    let near = |corner: Vector| (dot(plane.normal, corner) - plane.offset).abs() <= off;
    if !shell.corners(triangle).into_iter().all(near) {
        return false;
    }
    let lean = LEAN + 4.0 * shell.rounding / shell.least_height(triangle).max(1e-12);
    if lean >= 0.5 {
        return is_nearest(shell, triangle, plane, off);
    }
    let cosine = dot(shell.normals[triangle as usize], plane.normal);
    cosine >= 1.0 - lean * lean / 2.0 - 1e-12
}

/// Whether no neighbour of a sliver that lies in another plane has it nearer to its own.
fn is_nearest(shell: &Shell, sliver: u32, plane: &Plane, off: f64) -> bool {
    let corners = shell.corners(sliver);
    let from = |normal: Vector, offset: f64| {
        let off = corners.map(|corner| (dot(normal, corner) - offset).abs());
        off.into_iter().fold(0.0, f64::max)
    };
    let own = from(plane.normal, plane.offset);
    let neighbours = shell.neighbours[sliver as usize].into_iter();
    neighbours.filter(|&other| other != NONE).all(|other| {
        let normal = shell.normals[other as usize];
        let offset = dot(normal, shell.corners(other)[0]);
        let height = |corner: Vector| (dot(plane.normal, corner) - plane.offset).abs();
        let is_in_plane = shell.corners(other).into_iter().all(|c| height(c) <= off);
        is_in_plane || from(normal, offset) >= own
    })
}
