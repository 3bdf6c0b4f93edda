//! A mesh without a tree.
use crate::answer::{Cast, MeshHit, Refusal};
use crate::{lent, Mesh, Ray};

/// A mesh without a tree, for parts of few triangles: nothing is built, and a cast visits every triangle.
///
/// A cast returns what [`Mesh::cast`] returns: the two are proved to agree, refusals included, for every tree that passes the
/// check. docs/BENCHMARKS.md says for how many casts it is the faster way.
///
/// ```
/// use probe_rays::{Cast, PlainMesh, Ray, Refusal};
///
/// let square = [[0.0, 0.0, 0.0], [4.0, 0.0, 0.0], [4.0, 4.0, 0.0], [0.0, 4.0, 0.0]];
/// let part = PlainMesh::new(square, [[0, 1, 2], [0, 2, 3]]);
/// let down = Ray::new([1.0, 3.0, 5.0], [0.0, 0.0, -1.0], 10.0);
/// let Cast::Hit(hit) = part.cast(&down) else { panic!() };
/// assert_eq!((hit.distance, hit.triangle), (5.0, 1));
///
/// // the same mesh with a tree
/// assert_eq!(part.clone().build()?.cast(&down), part.cast(&down));
///
/// // there is no vertex 4: refused before anything is cast at, however far the triangle is
/// let wrong = PlainMesh::new(square, [[0, 1, 2], [0, 2, 4]]);
/// assert_eq!(wrong.cast(&down), Cast::Refused(Refusal::OutOfBounds));
/// # Ok::<(), Refusal>(())
/// ```
#[derive(Clone, Debug, Default, PartialEq)]
pub struct PlainMesh {
    vertices: Vec<[f64; 3]>,
    triangles: Vec<[u32; 3]>,
}

impl PlainMesh {
    /// A mesh of these vertices and triangles, each of three vertex indices. They are not tested here: a cast refuses what is
    /// not valid.
    pub fn new(
        vertices: impl Into<Vec<[f64; 3]>>,
        triangles: impl Into<Vec<[u32; 3]>>,
    ) -> PlainMesh {
        PlainMesh {
            vertices: vertices.into(),
            triangles: triangles.into(),
        }
    }

    /// The nearest triangle that a ray hits; of equally near ones, the one with the lowest index. A mesh without triangles is a
    /// miss.
    ///
    /// Refuses with 1, 2 (more than 65,536 vertices or triangles), 5 (an index past the vertices, or a triangle whose box is
    /// not finite), 6 or 7. It needs no work buffer, so threads may share the mesh.
    pub fn cast(&self, ray: &Ray) -> Cast<MeshHit> {
        lent::ray_mesh_plain(
            ray,
            self.vertices.as_flattened(),
            self.triangles.as_flattened(),
        )
    }

    /// The exact cast: the first point of a ray in a closed triangle of the mesh, decided in integers. A miss is certain. A ray
    /// along an edge or through a corner is a hit, and triangles coplanar with the ray count. [`Mesh::cast_exact`] returns the
    /// same through a tree.
    ///
    /// Corners, ray, near and the maximum are read on a grid first (2^-15 mm, and 2^-30 for the direction): the C header
    /// `include/probe_rays.h` says how, at `probe_ray_mesh_exact_plain`, and what a miss and a hit then are.
    ///
    /// Refuses with 1, 12 (the origin is not within 8,192, or near or the maximum is above 32,768), 2 and 5 as in
    /// [`PlainMesh::cast`], and 12 if a corner of a triangle is not a number from -8,192 to 8,192.
    ///
    /// ```
    /// use probe_rays::{Cast, PlainMesh, Ray, Refusal};
    ///
    /// // a square of 31 in two triangles, bored on the edge between them, where the rounded cast is a miss
    /// let square = [[0.0, 0.0, 0.0], [31.0, 0.0, 0.0], [0.0, 31.0, 0.0], [31.0, 31.0, 0.0]];
    /// let part = PlainMesh::new(square, [[0, 1, 2], [3, 2, 1]]);
    /// let down = Ray::new([1.0, 30.0, 1.0], [0.0, 0.0, -1.0], 2.0);
    /// assert_eq!(part.cast(&down), Cast::None);
    /// let Cast::Hit(hit) = part.cast_exact(&down) else { panic!() };
    /// assert_eq!((hit.distance, hit.triangle), (1.0, 0));
    ///
    /// // along the square's outline, aslant through its corner, and from too far away
    /// let along = Ray::new([-5.0, 0.0, 0.0], [1.0, 0.0, 0.0], 10.0);
    /// let Cast::Hit(hit) = part.cast_exact(&along) else { panic!() };
    /// assert_eq!(hit.distance, 5.0);
    /// let aslant = Ray::new([31.5, 31.5, 0.5], [-(1.0_f64 / 3.0).sqrt(); 3], 2.0);
    /// assert!(matches!(part.cast_exact(&aslant), Cast::Hit(_)));
    /// let far = Ray::new([1.0, 30.0, 8192.5], [0.0, 0.0, -1.0], 9000.0);
    /// assert_eq!(part.cast_exact(&far), Cast::Refused(Refusal::OutOfRange));
    /// ```
    pub fn cast_exact(&self, ray: &Ray) -> Cast<MeshHit> {
        lent::ray_mesh_exact_plain(
            ray,
            self.vertices.as_flattened(),
            self.triangles.as_flattened(),
        )
    }

    /// Whether a drill of a radius about a ray's segment touches the mesh: nothing if it is clear, or the lowest index of a
    /// triangle, with area or without, that has a point in it. [`Mesh::drill`] says what is certain, and returns the same
    /// through a tree.
    ///
    /// Refuses with 1 and 12 as [`Mesh::drill`] does, and with 2 and 5 as [`PlainMesh::cast`] does.
    pub fn drill(&self, ray: &Ray, radius: f64) -> Result<Option<u32>, Refusal> {
        lent::drill_plain(
            ray,
            radius,
            self.vertices.as_flattened(),
            self.triangles.as_flattened(),
        )
    }

    /// The same mesh with a tree, as [`Mesh::build`] builds it.
    pub fn build(self) -> Result<Mesh, Refusal> {
        Mesh::build(self.vertices, self.triangles)
    }

    /// The vertices.
    pub fn vertices(&self) -> &[[f64; 3]] {
        &self.vertices
    }

    /// The triangles, each of three vertex indices.
    pub fn triangles(&self) -> &[[u32; 3]] {
        &self.triangles
    }
}
