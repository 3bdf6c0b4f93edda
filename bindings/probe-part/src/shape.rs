//! A part of any number of triangles.
use crate::kinds::kind_of;
use crate::model::Unit;
use crate::step::{self, Solid, Surface};
use crate::steps::step_of;
use probe_rays::stl::{self, Corners};
use probe_rays::{facts, Batch, Cast, LargeMesh, MeshHit, Ray, Refusal, Scratch, MAX_COUNT};
use std::fs;
use std::path::Path;

/// A part: its triangles, counted from 0 in the order that they were given in, ready to be cast at.
///
/// The exact casts reach 8,192 mm from zero. A part that lies further away is cast at as if it were shifted by whole
/// millimetres, to where its middle is near zero; rays, vertices and bounds are the file's all the same.
pub struct Shape {
    mesh: LargeMesh,
    step: f64,
    shift: Option<Shift>,
    surfaces: Vec<Surface>,
    surface_of: Vec<u32>,
}

/// How a part that lies far away is shifted.
struct Shift {
    /// From where the part is cast at to where it lies, in whole millimetres.
    by: [f64; 3],
    /// The vertices where they lie.
    vertices: Vec<[f64; 3]>,
}

/// A part that reaches further from zero is shifted, in millimetres: probes start up to some millimetres beside a part.
const FAR: f64 = 8000.0;

/// Coordinates in larger steps than this say too little about a curve, in millimetres: inches with three places are finer.
const LARGEST_STEP: f64 = 0.03;

/// The corners of a box along the axes.
#[derive(Clone, Copy, Debug, PartialEq)]
pub struct Bounds {
    /// The least coordinates.
    pub low: [f64; 3],
    /// The largest.
    pub high: [f64; 3],
}

impl Shape {
    /// The part of an STL file in millimetres. What cannot be read is said in words, with the file's name.
    pub fn load(file: &str) -> Result<Shape, String> {
        Shape::load_in(file, Unit::Millimetre)
    }

    /// The part of an STL file in some unit, in millimetres; of a STEP file, which has its own unit, all solids together.
    pub fn load_in(file: &str, unit: Unit) -> Result<Shape, String> {
        if step::is_step(file)? {
            let assembly = step::read(Path::new(file)).map_err(|why| format!("{file}: {why}"))?;
            return Shape::of_solid(assembly.joined()).map_err(|why| format!("{file}: {why}"));
        }
        let bytes = fs::read(file).map_err(|why| format!("{file}: {why}"))?;
        Shape::read(&bytes, unit).map_err(|why| format!("{file}: {why}"))
    }

    /// The part of an STL file's bytes, in some unit.
    pub fn read(bytes: &[u8], unit: Unit) -> Result<Shape, String> {
        let mut facets = stl::facets(bytes).map_err(|why| match kind_of(bytes) {
            Some(kind) => format!("this is {}: {}", kind.name, kind.advice),
            None => why.to_string(),
        })?;
        let step = step_in(&facets, unit);
        if unit != Unit::Millimetre {
            let numbers = facets.as_flattened_mut().as_flattened_mut();
            numbers
                .iter_mut()
                .for_each(|number| *number *= unit.millimetres());
        }
        Shape::built(&facets, MAX_COUNT, step)
    }

    /// The part of these facets. No facets, or one whose box is not finite, is refused.
    pub fn of(facets: &[Corners]) -> Result<Shape, String> {
        Shape::in_pieces(facets, MAX_COUNT)
    }

    /// The same with pieces of at most so many triangles, and as many vertices.
    pub fn in_pieces(facets: &[Corners], most: usize) -> Result<Shape, String> {
        Shape::built(facets, most, step_in(facets, Unit::Millimetre))
    }

    fn built(facets: &[Corners], most: usize, step: f64) -> Result<Shape, String> {
        if facets.is_empty() {
            return Err("no triangles".into());
        }
        let (vertices, triangles) = stl::merged(facets);
        Shape::placed(vertices, triangles, most, step)
    }

    /// A solid of a STEP file. Its numbers are not rounded.
    pub fn of_solid(solid: Solid) -> Result<Shape, String> {
        if solid.triangles.is_empty() {
            return Err("no triangles".into());
        }
        let shape = Shape::placed(solid.vertices, solid.triangles, MAX_COUNT, 0.0)?;
        Ok(Shape {
            surfaces: solid.surfaces,
            surface_of: solid.surface_of,
            ..shape
        })
    }

    /// A part whose coordinates are in steps, shifted where it lies far away.
    fn placed(
        vertices: Vec<[f64; 3]>,
        triangles: Vec<[u32; 3]>,
        most: usize,
        step: f64,
    ) -> Result<Shape, String> {
        let (near, shift) = match shift_of(&vertices) {
            Some(by) => {
                let near = vertices.iter().map(|&point| less(point, by)).collect();
                (near, Some(Shift { by, vertices }))
            }
            None => (vertices, None),
        };
        let mesh = LargeMesh::in_pieces(near, triangles, most).map_err(|why| why.to_string())?;
        Ok(Shape {
            mesh,
            step,
            shift,
            surfaces: Vec::new(),
            surface_of: Vec::new(),
        })
    }

    /// Whether it is known which surface each triangle belongs to.
    pub fn has_surfaces(&self) -> bool {
        !self.surfaces.is_empty()
    }

    /// The surface that a triangle belongs to, where the part is cast at; [`Surface::Other`] where that is not known.
    pub(crate) fn near_surface(&self, triangle: u32) -> Surface {
        let place = self.surface_of.get(triangle as usize);
        let surface = place.and_then(|&place| self.surfaces.get(place as usize));
        let by = self.shift().unwrap_or_default();
        surface.map_or(Surface::Other, |surface| {
            surface.moved(|point| less(point, by))
        })
    }

    /// The step that the coordinates are rounded to, in millimetres, as far as the numbers say; 0 where it is finer than
    /// single precision, or coarser than 0.03.
    pub fn step(&self) -> f64 {
        self.step
    }

    /// The vertices.
    pub fn vertices(&self) -> &[[f64; 3]] {
        match &self.shift {
            Some(shift) => &shift.vertices,
            None => self.mesh.vertices(),
        }
    }

    /// From where the part is cast at to where it lies, in whole millimetres, if it lies far from zero.
    pub fn shift(&self) -> Option<[f64; 3]> {
        self.shift.as_ref().map(|shift| shift.by)
    }

    /// The same part, cast at where it lies: what lies beyond the casts' reach is then refused.
    pub fn as_it_lies(mut self) -> Result<Shape, String> {
        if let Some(shift) = self.shift.take() {
            let triangles = self.mesh.triangles().to_vec();
            let mesh = LargeMesh::in_pieces(shift.vertices, triangles, MAX_COUNT);
            self.mesh = mesh.map_err(|why| why.to_string())?;
        }
        Ok(self)
    }

    /// The vertices where the part is cast at.
    pub(crate) fn near_vertices(&self) -> &[[f64; 3]] {
        self.mesh.vertices()
    }

    /// The cast of a ray that is given where the part is cast at.
    pub(crate) fn near_cast(&self, ray: &Ray, scratch: &mut Scratch) -> Cast<MeshHit> {
        self.mesh.cast_with(ray, scratch)
    }

    /// A ray where the part is cast at.
    fn near(&self, ray: &Ray) -> Ray {
        let by = self.shift().unwrap_or_default();
        Ray {
            origin: less(ray.origin, by),
            ..*ray
        }
    }

    /// The triangles, each of three vertex indices.
    pub fn triangles(&self) -> &[[u32; 3]] {
        self.mesh.triangles()
    }

    /// How many meshes it consists of.
    pub fn pieces(&self) -> usize {
        self.mesh.pieces()
    }

    /// How many nodes the trees have together.
    pub fn nodes(&self) -> usize {
        self.mesh.nodes()
    }

    /// The box around it.
    pub fn bounds(&self) -> Bounds {
        // a part has a triangle, and so a vertex
        let [low, high] = facts::bounds(self.vertices()).unwrap_or_default();
        Bounds { low, high }
    }

    /// The nearest triangle that a ray hits, by the exact cast: a miss is certain. Of equally near ones it is that of the
    /// lowest number, also where the part is in pieces.
    pub fn cast(&self, ray: &Ray, scratch: &mut Scratch) -> Cast<MeshHit> {
        self.mesh.cast_with(&self.near(ray), scratch)
    }

    /// The same by the rounded cast of document 01. Of equally near triangles of different pieces it is that of the first
    /// piece.
    pub fn cast_rounded(&self, ray: &Ray, scratch: &mut Scratch) -> Cast<MeshHit> {
        self.mesh.cast_rounded_with(&self.near(ray), scratch)
    }

    /// Whether a drill of a radius about a ray's segment touches the part: nothing where it is clear, which is certain, or the
    /// lowest number of a triangle that is touched.
    pub fn drill(
        &self,
        ray: &Ray,
        radius: f64,
        scratch: &mut Scratch,
    ) -> Result<Option<u32>, Refusal> {
        self.mesh.drill_with(&self.near(ray), radius, scratch)
    }

    /// Every triangle that a ray meets, by the exact cast, in order of depth, then of number.
    pub fn cast_all(&self, ray: &Ray, scratch: &mut Scratch) -> Result<Vec<MeshHit>, Refusal> {
        self.mesh.cast_exact_all_with(&self.near(ray), scratch)
    }

    /// The same by the rounded cast.
    pub fn cast_all_rounded(
        &self,
        ray: &Ray,
        scratch: &mut Scratch,
    ) -> Result<Vec<MeshHit>, Refusal> {
        self.mesh.cast_all_with(&self.near(ray), scratch)
    }

    /// The answer of each ray, in their order, over the machine's threads.
    pub fn cast_many(&self, rays: &[Ray], rounded: bool) -> Vec<Cast<MeshHit>> {
        Batch::new().run(rays, |ray, scratch| {
            if rounded {
                self.cast_rounded(ray, scratch)
            } else {
                self.cast(ray, scratch)
            }
        })
    }

    /// Every depth along each ray, in the same way.
    pub fn cast_all_many(&self, rays: &[Ray], rounded: bool) -> Vec<Result<Vec<MeshHit>, Refusal>> {
        Batch::new().run(rays, |ray, scratch| {
            if rounded {
                self.cast_all_rounded(ray, scratch)
            } else {
                self.cast_all(ray, scratch)
            }
        })
    }
}

/// The step of facets in a unit, in millimetres.
fn step_in(facets: &[Corners], unit: Unit) -> f64 {
    let numbers = facets.as_flattened().as_flattened();
    step_of(numbers.iter().copied(), LARGEST_STEP / unit.millimetres()) * unit.millimetres()
}

/// By which whole millimetres vertices that lie far from zero are shifted: their middle.
fn shift_of(vertices: &[[f64; 3]]) -> Option<[f64; 3]> {
    let [low, high] = facts::bounds(vertices)?;
    let is_far = |part: f64| part.abs() > FAR;
    let far = low.into_iter().chain(high).any(is_far);
    far.then(|| std::array::from_fn(|axis| (low[axis] / 2.0 + high[axis] / 2.0).round()))
}

fn less(point: [f64; 3], by: [f64; 3]) -> [f64; 3] {
    std::array::from_fn(|axis| point[axis] - by[axis])
}
