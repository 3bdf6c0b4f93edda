//! A mesh that owns its tree.
use crate::answer::{Cast, MeshHit, Refusal};
use crate::lent::{self, BoardRef, CastAreas, DrillAreas, TreeAreas, TreeRef};
use crate::{Drill, Ray, MAX_COUNT};
use std::error::Error;
use std::fmt;

/// A tree in its own vectors, as [`Mesh::with_tree`] takes it. [`lent`] gives their lengths and contents.
#[derive(Clone, Debug, Default, PartialEq)]
pub struct Tree {
    /// The node count. Node 0 is the root.
    pub nodes: usize,
    /// Six numbers a node: minimum x, y, z, then maximum x, y, z. At least 12 a triangle.
    pub node_boxes: Vec<f64>,
    /// Six numbers a triangle, in the same order.
    pub triangle_boxes: Vec<f64>,
    /// Three words a node: 0, start, count of a leaf, or 1, left, right of a branch. At least 6 a triangle.
    pub node_words: Vec<u32>,
    /// Triangle indices; a leaf names a range of its places.
    pub order: Vec<u32>,
}

impl Tree {
    /// The buffers of a tree of n triangles, all zeros.
    fn with_room(n: usize) -> Tree {
        Tree {
            nodes: 0,
            node_boxes: vec![0.0; lent::node_boxes_length(n)],
            triangle_boxes: vec![0.0; lent::triangle_boxes_length(n)],
            node_words: vec![0; lent::node_words_length(n)],
            order: vec![0; lent::order_length(n)],
        }
    }

    /// The tree, borrowed.
    pub fn as_lent(&self) -> TreeRef<'_> {
        TreeRef {
            nodes: self.nodes,
            node_boxes: &self.node_boxes,
            triangle_boxes: &self.triangle_boxes,
            node_words: &self.node_words,
            order: &self.order,
        }
    }

    /// The tree's buffers, to write.
    fn areas(&mut self) -> TreeAreas<'_> {
        TreeAreas {
            node_boxes: &mut self.node_boxes,
            triangle_boxes: &mut self.triangle_boxes,
            node_words: &mut self.node_words,
            order: &mut self.order,
        }
    }
}

/// The work buffers of a cast or query. They grow as a mesh needs, may serve any number of meshes, and hold nothing that a
/// call depends on. Each thread has its own.
#[derive(Clone, Debug, Default)]
pub struct Scratch {
    pub(crate) list: Vec<u32>,
    pub(crate) stack: Vec<u32>,
    /// The hits of a listing, and the results of many rays; only these need it.
    indices: Vec<u32>,
    numbers: Vec<f64>,
    /// The numbers and the codes of many rays, and the numbers of many drills.
    rays: Vec<[f64; 8]>,
    codes: Vec<u32>,
    drills: Vec<[f64; 9]>,
}

impl Scratch {
    /// Empty buffers.
    pub fn new() -> Scratch {
        Scratch::default()
    }

    /// Makes room for n triangles and a node count.
    pub(crate) fn fit(&mut self, n: usize, nodes: usize) {
        if self.list.len() < lent::list_length(n) {
            self.list.resize(lent::list_length(n), 0);
        }
        if self.stack.len() < lent::stack_length(nodes) {
            self.stack.resize(lent::stack_length(nodes), 0);
        }
    }

    /// The numbers of many rays, and room for their results.
    fn fit_many(&mut self, rays: &[Ray], n: usize, nodes: usize) {
        self.fit(n, nodes);
        self.fit_hits(rays.len());
        self.rays.clear();
        self.rays.extend(rays.iter().map(Ray::numbers));
        if self.codes.len() < rays.len() {
            self.codes.resize(rays.len(), 0);
        }
    }

    /// The numbers of many drills, and room for their results.
    fn fit_drills(&mut self, drills: &[Drill], n: usize, nodes: usize) {
        self.fit(n, nodes);
        self.fit_hits(drills.len());
        self.drills.clear();
        self.drills.extend(drills.iter().map(Drill::numbers));
        if self.codes.len() < drills.len() {
            self.codes.resize(drills.len(), 0);
        }
    }

    /// Makes room for n hits: the traversal lists no more triangles than there are.
    fn fit_hits(&mut self, n: usize) {
        if self.indices.len() < n {
            self.indices.resize(n, 0);
            self.numbers.resize(4 * n, 0.0);
        }
    }
}

/// A shape with its own work buffers.
pub(crate) trait OwnScratch {
    fn own_scratch(&mut self) -> &mut Scratch;

    /// Makes a call with the shape's own work buffers.
    fn with_own<A>(&mut self, call: impl FnOnce(&Self, &mut Scratch) -> A) -> A {
        let mut scratch = std::mem::take(self.own_scratch());
        let answer = call(self, &mut scratch);
        *self.own_scratch() = scratch;
        answer
    }
}

impl OwnScratch for Mesh {
    fn own_scratch(&mut self) -> &mut Scratch {
        &mut self.scratch
    }
}

/// A mesh and a tree that fits it: built here, or somebody else's that passed the check. So a cast at the mesh's own
/// vertices misses no triangle whose box touches the box of the ray's segment.
///
/// ```
/// use probe_rays::{Cast, Mesh, Ray, Refusal, Scratch};
///
/// let square = [[0.0, 0.0, 0.0], [4.0, 0.0, 0.0], [4.0, 4.0, 0.0], [0.0, 4.0, 0.0]];
/// let mut mesh = Mesh::build(square, [[0, 1, 2], [0, 2, 3]])?;
/// let down = Ray::new([1.0, 3.0, 5.0], [0.0, 0.0, -1.0], 10.0);
///
/// // with the mesh's own work buffers
/// let Cast::Hit(hit) = mesh.cast(&down) else { panic!() };
/// assert_eq!((hit.distance, hit.triangle), (5.0, 1));
/// assert_eq!(mesh.query([3.5, 0.0, 0.0], [4.0, 0.5, 0.0])?, [0, 1]);
///
/// // one mesh, many threads, each with its own work buffers
/// let mesh = &mesh;
/// std::thread::scope(|threads| {
///     for x in 1..4 {
///         threads.spawn(move || {
///             let mut scratch = Scratch::new();
///             let ray = Ray::new([f64::from(x), 0.5, 5.0], [0.0, 0.0, -1.0], 10.0);
///             assert!(matches!(mesh.cast_with(&ray, &mut scratch), Cast::Hit(_)));
///         });
///     }
/// });
/// # Ok::<(), Refusal>(())
/// ```
#[derive(Clone, Debug)]
pub struct Mesh {
    vertices: Vec<[f64; 3]>,
    triangles: Vec<[u32; 3]>,
    tree: Tree,
    /// Whether every corner of every triangle is three numbers.
    has_numbers: bool,
    scratch: Scratch,
}

impl Mesh {
    /// Builds the tree of these vertices and triangles, each of three vertex indices.
    ///
    /// Refuses with 2 (more than 65,536 vertices or triangles), 5 (no triangle, an index past the vertices, or a
    /// triangle whose box is not finite) or 6.
    ///
    /// ```
    /// use probe_rays::{Mesh, Refusal};
    ///
    /// // there is no vertex 3
    /// let corners = [[0.0, 0.0, 0.0], [1.0, 0.0, 0.0], [0.0, 1.0, 0.0]];
    /// assert_eq!(Mesh::build(corners, [[0, 1, 3]]).unwrap_err(), Refusal::OutOfBounds);
    /// ```
    pub fn build(
        vertices: impl Into<Vec<[f64; 3]>>,
        triangles: impl Into<Vec<[u32; 3]>>,
    ) -> Result<Mesh, Refusal> {
        let (vertices, triangles) = (vertices.into(), triangles.into());
        let n = room_for(&triangles);
        let mut tree = Tree::with_room(n);
        let mut work = vec![0; lent::work_length(n)];
        tree.nodes = lent::build(
            vertices.as_flattened(),
            triangles.as_flattened(),
            tree.areas(),
            &mut work,
        )?;
        Ok(Mesh::of(vertices, triangles, tree))
    }

    /// A mesh with a tree that fits it.
    fn of(vertices: Vec<[f64; 3]>, triangles: Vec<[u32; 3]>, tree: Tree) -> Mesh {
        let has_numbers = lent::mesh_has_numbers(vertices.as_flattened(), triangles.as_flattened());
        Mesh {
            vertices,
            triangles,
            tree,
            has_numbers,
            scratch: Scratch::new(),
        }
    }

    /// Takes a tree that somebody else built, if it passes the check. With a tree that does not, a cast could miss a
    /// surface, and nothing would distinguish this miss from a correct one.
    ///
    /// ```
    /// use probe_rays::{Mesh, Refusal, TreeError};
    ///
    /// let square = [[0.0, 0.0, 0.0], [4.0, 0.0, 0.0], [4.0, 4.0, 0.0], [0.0, 4.0, 0.0]];
    /// let triangles = [[0, 1, 2], [0, 2, 3]];
    /// let mut tree = Mesh::build(square, triangles)?.into_parts().2;
    /// assert!(Mesh::with_tree(square, triangles, tree.clone()).is_ok());
    ///
    /// // the root's box is made too small: its maximum x is 3
    /// tree.node_boxes[3] = 3.0;
    /// assert_eq!(Mesh::with_tree(square, triangles, tree).unwrap_err(), TreeError::DoesNotFit);
    /// # Ok::<(), Refusal>(())
    /// ```
    pub fn with_tree(
        vertices: impl Into<Vec<[f64; 3]>>,
        triangles: impl Into<Vec<[u32; 3]>>,
        tree: Tree,
    ) -> Result<Mesh, TreeError> {
        let (vertices, triangles) = (vertices.into(), triangles.into());
        let mut marks = vec![0; lent::marks_length(room_for(&triangles))];
        let fits = lent::tree_check(
            vertices.as_flattened(),
            triangles.as_flattened(),
            &tree.as_lent(),
            &mut marks,
        );
        match fits {
            Ok(true) => Ok(Mesh::of(vertices, triangles, tree)),
            Ok(false) => Err(TreeError::DoesNotFit),
            Err(refusal) => Err(TreeError::Refused(refusal)),
        }
    }

    /// Merges another mesh with this one: its vertices and triangles follow this one's, with a new root over both trees.
    /// [`cast`](Mesh::cast) at the result returns the nearer of the hits of `cast` at the two meshes, this mesh's if they are
    /// equally near; if one refuses, this mesh's refusal, else the other's. A triangle of the other mesh has this mesh's
    /// number of triangles added to its index.
    ///
    /// Refuses with 2 if both together have more than 65,536 vertices or triangles.
    ///
    /// ```
    /// use probe_rays::{Cast, Mesh, Ray, Refusal};
    ///
    /// // two boards 3 thick, one on the other, of which only the upper faces are drawn
    /// let face = |z: f64| [[0.0, 0.0, z], [4.0, 0.0, z], [4.0, 4.0, z], [0.0, 4.0, z]];
    /// let lower = Mesh::build(face(3.0), [[0, 1, 2], [0, 2, 3]])?;
    /// let upper = Mesh::build(face(6.0), [[0, 1, 2], [0, 2, 3]])?;
    /// let mut board = lower.glue(&upper)?;
    /// assert_eq!((board.vertices().len(), board.triangles().len()), (8, 4));
    ///
    /// let down = Ray::new([3.0, 1.0, 10.0], [0.0, 0.0, -1.0], 10.0);
    /// let Cast::Hit(hit) = board.cast(&down) else { panic!() };
    /// assert_eq!((hit.distance, hit.triangle), (4.0, 2));
    /// # Ok::<(), Refusal>(())
    /// ```
    pub fn glue(&self, other: &Mesh) -> Result<Mesh, Refusal> {
        let vertex_count = self.vertices.len() + other.vertices.len();
        let n = self.triangles.len() + other.triangles.len();
        // the library refuses too many whatever the buffers are, so none are made then
        let room = vertex_count <= MAX_COUNT && n <= MAX_COUNT;
        let (vertex_count, n) = if room { (vertex_count, n) } else { (0, 0) };
        let mut vertices = vec![[0.0; 3]; vertex_count];
        let mut triangles = vec![[0; 3]; n];
        let mut tree = Tree::with_room(n);
        let mut marks = vec![0; lent::marks_length(n)];
        tree.nodes = lent::merge(
            &self.as_board(),
            &other.as_board(),
            vertices.as_flattened_mut(),
            triangles.as_flattened_mut(),
            tree.areas(),
            &mut marks,
        )?;
        Ok(Mesh::of(vertices, triangles, tree))
    }

    /// The mesh and its tree, borrowed.
    fn as_board(&self) -> BoardRef<'_> {
        BoardRef {
            vertices: self.vertices.as_flattened(),
            triangles: self.triangles.as_flattened(),
            tree: self.tree.as_lent(),
        }
    }

    /// The nearest triangle that a ray hits, with the mesh's own work buffers; of equally near ones, the one with the
    /// lowest index. Refuses with 1, 6 or 7.
    pub fn cast(&mut self, ray: &Ray) -> Cast<MeshHit> {
        self.with_own(|mesh, scratch| mesh.cast_with(ray, scratch))
    }

    /// The same with the caller's work buffers, so that threads may share the mesh.
    pub fn cast_with(&self, ray: &Ray, scratch: &mut Scratch) -> Cast<MeshHit> {
        self.cast_at(ray, &self.vertices, scratch)
    }

    /// Casts at other vertices. They must be as many as the mesh's; otherwise the cast refuses with 4, or with 2 above 65,536.
    /// The tree's boxes stay those of the mesh's own vertices: only triangles whose box there touches the box of the ray's
    /// segment are tested.
    pub fn cast_at(&self, ray: &Ray, pose: &[[f64; 3]], scratch: &mut Scratch) -> Cast<MeshHit> {
        scratch.fit(self.triangles.len(), self.tree.nodes);
        lent::ray_mesh(
            ray,
            self.vertices.as_flattened(),
            self.triangles.as_flattened(),
            pose.as_flattened(),
            &self.tree.as_lent(),
            &mut scratch.list,
            &mut scratch.stack,
        )
    }

    /// The exact cast, with the mesh's own work buffers: the first point of a ray in a closed triangle of the mesh, decided in
    /// integers. A miss is certain. A ray along an edge or through a corner is a hit, and triangles coplanar with the ray count.
    ///
    /// It returns what [`PlainMesh::cast_exact`](crate::PlainMesh::cast_exact) returns: the two are proved to agree for a mesh
    /// without a NaN. The constructor looks for a NaN, and a mesh that has one is cast at without its tree.
    ///
    /// Corners, ray, near and the maximum are read on a grid first (2^-15 mm, and 2^-30 for the direction): the C header
    /// `include/probe_rays.h` says how, at `probe_ray_mesh_exact_plain`, and what a miss and a hit then are.
    ///
    /// Refuses with 1, and with 12 if the origin or a corner of a triangle of the mesh is not a number from -8,192 to 8,192,
    /// or near or the maximum is above 32,768.
    ///
    /// ```
    /// use probe_rays::{Cast, Mesh, Ray, Refusal};
    ///
    /// // a square of 31 in two triangles, bored on the edge between them, where the rounded cast is a miss
    /// let square = [[0.0, 0.0, 0.0], [31.0, 0.0, 0.0], [0.0, 31.0, 0.0], [31.0, 31.0, 0.0]];
    /// let mut part = Mesh::build(square, [[0, 1, 2], [3, 2, 1]])?;
    /// let down = Ray::new([1.0, 30.0, 1.0], [0.0, 0.0, -1.0], 2.0);
    /// assert_eq!(part.cast(&down), Cast::None);
    /// let Cast::Hit(hit) = part.cast_exact(&down) else { panic!() };
    /// assert_eq!((hit.distance, hit.triangle), (1.0, 0));
    ///
    /// // aslant through the square's corner, and from too far away
    /// let aslant = Ray::new([31.5, 31.5, 0.5], [-(1.0_f64 / 3.0).sqrt(); 3], 2.0);
    /// assert!(matches!(part.cast_exact(&aslant), Cast::Hit(_)));
    /// let far = Ray::new([1.0, 30.0, 8192.5], [0.0, 0.0, -1.0], 9000.0);
    /// assert_eq!(part.cast_exact(&far), Cast::Refused(Refusal::OutOfRange));
    /// # Ok::<(), Refusal>(())
    /// ```
    pub fn cast_exact(&mut self, ray: &Ray) -> Cast<MeshHit> {
        self.with_own(|mesh, scratch| mesh.cast_exact_with(ray, scratch))
    }

    /// The same with the caller's work buffers, so that threads may share the mesh.
    pub fn cast_exact_with(&self, ray: &Ray, scratch: &mut Scratch) -> Cast<MeshHit> {
        if !self.has_numbers {
            return lent::ray_mesh_exact_plain(
                ray,
                self.vertices.as_flattened(),
                self.triangles.as_flattened(),
            );
        }
        self.cast_exact_at(ray, &self.vertices, scratch)
    }

    /// The same at other vertices, as in [`cast_at`](Mesh::cast_at). A miss is not certain there.
    pub fn cast_exact_at(
        &self,
        ray: &Ray,
        pose: &[[f64; 3]],
        scratch: &mut Scratch,
    ) -> Cast<MeshHit> {
        scratch.fit(self.triangles.len(), self.tree.nodes);
        lent::ray_mesh_exact(
            ray,
            self.vertices.as_flattened(),
            self.triangles.as_flattened(),
            pose.as_flattened(),
            &self.tree.as_lent(),
            &mut scratch.stack,
        )
    }

    /// The [`cast`](Mesh::cast) of each ray, in the order of the rays, by one call of the library, on this thread.
    /// [`cast_many`](Mesh::cast_many) uses several threads.
    ///
    /// ```
    /// use probe_rays::{Cast, Mesh, Ray, Refusal, Scratch};
    ///
    /// let square = [[0.0, 0.0, 0.0], [4.0, 0.0, 0.0], [4.0, 4.0, 0.0], [0.0, 4.0, 0.0]];
    /// let mesh = Mesh::build(square, [[0, 1, 2], [0, 2, 3]])?;
    /// let down = |x, maximum| Ray::new([x, 3.0, 5.0], [0.0, 0.0, -1.0], maximum);
    /// // a hit, a miss, and a ray that is refused: the others are still cast
    /// let casts = mesh.cast_many_with(&[down(1.0, 10.0), down(-1.0, 10.0), down(1.0, -1.0)], &mut Scratch::new());
    /// assert!(matches!(casts[0], Cast::Hit(hit) if hit.distance == 5.0 && hit.triangle == 1));
    /// assert_eq!(casts[1..], [Cast::None, Cast::Refused(Refusal::InvalidInput)]);
    /// # Ok::<(), Refusal>(())
    /// ```
    pub fn cast_many_with(&self, rays: &[Ray], scratch: &mut Scratch) -> Vec<Cast<MeshHit>> {
        self.many(rays, scratch, |rays, mesh, list, stack, areas| {
            let (vertices, triangles) = (mesh.vertices, mesh.triangles);
            lent::ray_mesh_many(
                rays, vertices, triangles, vertices, &mesh.tree, list, stack, areas,
            )
        })
    }

    /// The [`cast_exact`](Mesh::cast_exact) of each ray, in the same way.
    pub fn cast_exact_many_with(&self, rays: &[Ray], scratch: &mut Scratch) -> Vec<Cast<MeshHit>> {
        if !self.has_numbers {
            let casts = rays.iter().map(|ray| self.cast_exact_with(ray, scratch));
            return casts.collect();
        }
        self.many(rays, scratch, |rays, mesh, _, stack, areas| {
            let (vertices, triangles) = (mesh.vertices, mesh.triangles);
            lent::ray_mesh_exact_many(
                rays, vertices, triangles, vertices, &mesh.tree, stack, areas,
            )
        })
    }

    /// Casts many rays by one call of the library. The call takes the numbers of the rays, the mesh, the list, the stack and
    /// the buffers of the results, all as long as it needs.
    fn many(
        &self,
        rays: &[Ray],
        scratch: &mut Scratch,
        call: impl FnOnce(
            &[f64],
            &BoardRef<'_>,
            &mut [u32],
            &mut [u32],
            &mut CastAreas<'_>,
        ) -> Result<(), Refusal>,
    ) -> Vec<Cast<MeshHit>> {
        scratch.fit_many(rays, self.triangles.len(), self.tree.nodes);
        let mut areas = CastAreas {
            codes: &mut scratch.codes,
            hits: &mut scratch.numbers,
            indices: &mut scratch.indices,
        };
        let answer = call(
            scratch.rays.as_flattened(),
            &self.as_board(),
            &mut scratch.list,
            &mut scratch.stack,
            &mut areas,
        );
        // the mesh is within the limits and the buffers are long enough, so the call does not refuse
        match answer {
            Ok(()) => (0..rays.len()).map(|ray| areas.cast(ray)).collect(),
            Err(refusal) => vec![Cast::Refused(refusal); rays.len()],
        }
    }

    /// Whether a drill of a radius about a ray's segment touches the mesh, with the mesh's own work buffers: nothing if it is
    /// clear, or the lowest index of a triangle, with area or without, that has a point in it.
    ///
    /// The drill is the closed, flat-ended cylinder of the points whose foot on the axis is from near to the maximum, and whose
    /// distance to the axis is at most the radius. It is decided in integers, on the grid of
    /// [`cast_exact`](Mesh::cast_exact), with the radius rounded up to the next multiple of 2^-15 mm: there the answer is
    /// certain. Of the part as drawn, with no float rounded, it says this, for d = 2^-13 mm: if the drill is clear, no point of
    /// the mesh has its foot from near + d to the maximum - d and a distance to the axis of at most the radius - d. The C header
    /// has what a touch says ('The drill').
    ///
    /// Refuses with 1 (also for a radius that is NaN, infinite or below 0) and 12 (as `cast_exact`, and for a radius above
    /// 128). A mesh that has a NaN is asked without its tree.
    ///
    /// ```
    /// use probe_rays::{Mesh, Ray, Refusal};
    ///
    /// // a board's upper face, 10 by 10, without the square from 4 to 6 in its middle: a bore of 2 by 2
    /// let outer = [[0.0, 0.0, 0.0], [10.0, 0.0, 0.0], [10.0, 10.0, 0.0], [0.0, 10.0, 0.0]];
    /// let inner = [[4.0, 4.0, 0.0], [6.0, 4.0, 0.0], [6.0, 6.0, 0.0], [4.0, 6.0, 0.0]];
    /// let ring = [[0, 1, 5], [0, 5, 4], [1, 2, 6], [1, 6, 5], [2, 3, 7], [2, 7, 6], [3, 0, 4], [3, 4, 7]];
    /// let mut face = Mesh::build([outer, inner].concat(), ring)?;
    ///
    /// // straight down in the middle of the bore: a radius of 0.999 is clear, one of 1 touches the side y = 4
    /// let down = Ray::new([5.0, 5.0, 1.0], [0.0, 0.0, -1.0], 2.0);
    /// assert_eq!(face.drill(&down, 0.999)?, None);
    /// assert_eq!(face.drill(&down, 1.0)?, Some(1));
    /// assert_eq!(face.drill(&down, f64::NAN), Err(Refusal::InvalidInput));
    /// # Ok::<(), Refusal>(())
    /// ```
    pub fn drill(&mut self, ray: &Ray, radius: f64) -> Result<Option<u32>, Refusal> {
        self.with_own(|mesh, scratch| mesh.drill_with(ray, radius, scratch))
    }

    /// The same with the caller's work buffers, so that threads may share the mesh.
    pub fn drill_with(
        &self,
        ray: &Ray,
        radius: f64,
        scratch: &mut Scratch,
    ) -> Result<Option<u32>, Refusal> {
        let (vertices, triangles) = (self.vertices.as_flattened(), self.triangles.as_flattened());
        if !self.has_numbers {
            return lent::drill_plain(ray, radius, vertices, triangles);
        }
        scratch.fit(self.triangles.len(), self.tree.nodes);
        lent::drill(
            ray,
            radius,
            vertices,
            triangles,
            &self.tree.as_lent(),
            &mut scratch.list,
            &mut scratch.stack,
        )
    }

    /// The [`drill`](Mesh::drill) of each, in the order of the drills, by one call of the library, on this thread.
    /// [`drill_many`](Mesh::drill_many) uses several threads. A drill that is refused does not stop the others.
    pub fn drill_many_with(
        &self,
        drills: &[Drill],
        scratch: &mut Scratch,
    ) -> Vec<Result<Option<u32>, Refusal>> {
        if !self.has_numbers {
            let each = |drill: &Drill| self.drill_with(&drill.ray, drill.radius, scratch);
            return drills.iter().map(each).collect();
        }
        scratch.fit_drills(drills, self.triangles.len(), self.tree.nodes);
        let mut areas = DrillAreas {
            codes: &mut scratch.codes,
            indices: &mut scratch.indices,
        };
        let answer = lent::drill_many(
            scratch.drills.as_flattened(),
            self.vertices.as_flattened(),
            self.triangles.as_flattened(),
            &self.tree.as_lent(),
            &mut scratch.list,
            &mut scratch.stack,
            &mut areas,
        );
        // the mesh is within the limits and the buffers are long enough, so the call does not refuse
        match answer {
            Ok(()) => (0..drills.len()).map(|drill| areas.drill(drill)).collect(),
            Err(refusal) => vec![Err(refusal); drills.len()],
        }
    }

    /// Every triangle that a ray hits by the rounded cast, of those whose box touches the box of the ray's segment, with the
    /// mesh's own work buffers: each once, in order of depth; of equally near ones the lower index first. The hit of
    /// [`cast`](Mesh::cast) is the first of them, and the list is empty exactly if `cast` is a miss. Refuses with 1, 6 or 7.
    ///
    /// ```
    /// use probe_rays::{Mesh, Ray, Refusal};
    ///
    /// // a board 18 thick: its two faces, four triangles
    /// let corner = |x, y, z| [f64::from(x), f64::from(y), f64::from(z)];
    /// let face = |z| [corner(0, 0, z), corner(60, 0, z), corner(60, 40, z), corner(0, 40, z)];
    /// let board = [face(18), face(0)].concat();
    /// let mut mesh = Mesh::build(board, [[0, 1, 2], [0, 2, 3], [4, 6, 5], [4, 7, 6]])?;
    ///
    /// let depths = |hits: Vec<probe_rays::MeshHit>| hits.iter().map(|hit| hit.distance).collect::<Vec<_>>();
    /// let down = Ray::new([30.0, 10.0, 20.0], [0.0, 0.0, -1.0], 100.0);
    /// assert_eq!(depths(mesh.cast_all(&down)?), [2.0, 20.0]);
    /// let beside = Ray::new([70.0, 10.0, 20.0], [0.0, 0.0, -1.0], 100.0);
    /// assert!(mesh.cast_all(&beside)?.is_empty());
    /// # Ok::<(), Refusal>(())
    /// ```
    pub fn cast_all(&mut self, ray: &Ray) -> Result<Vec<MeshHit>, Refusal> {
        self.with_own(|mesh, scratch| mesh.cast_all_with(ray, scratch))
    }

    /// The same with the caller's work buffers, so that threads may share the mesh.
    pub fn cast_all_with(&self, ray: &Ray, scratch: &mut Scratch) -> Result<Vec<MeshHit>, Refusal> {
        self.cast_all_at(ray, &self.vertices, scratch)
    }

    /// The same at other vertices, as in [`cast_at`](Mesh::cast_at): only triangles whose box at the mesh's own vertices
    /// touches the box of the ray's segment are tested.
    pub fn cast_all_at(
        &self,
        ray: &Ray,
        pose: &[[f64; 3]],
        scratch: &mut Scratch,
    ) -> Result<Vec<MeshHit>, Refusal> {
        self.list(pose, scratch, |mesh, pose, scratch| {
            lent::ray_mesh_all(
                ray,
                mesh.vertices,
                mesh.triangles,
                pose,
                &mesh.tree,
                &mut scratch.list,
                &mut scratch.stack,
                &mut scratch.indices,
                &mut scratch.numbers,
            )
        })
    }

    /// Every triangle that the exact cast meets, with the mesh's own work buffers: each triangle in which the ray's segment has
    /// a point, edges and corners included, as [`cast_exact`](Mesh::cast_exact) says, once, with its normal and the f64 nearest
    /// to its own least depth. They are in order of depth; of equally near ones the lower index is first. The hit of
    /// `cast_exact` is the first of them, and the list is empty exactly if `cast_exact` is a miss. Refuses as `cast_exact`
    /// does.
    ///
    /// A point on a shared edge lies in both triangles, so both are listed.
    ///
    /// ```
    /// use probe_rays::{Mesh, Ray, Refusal};
    ///
    /// // a square of two triangles, and a point of their common edge
    /// let square = [[0.0, 0.0, 0.0], [31.0, 0.0, 0.0], [0.0, 31.0, 0.0], [31.0, 31.0, 0.0]];
    /// let mut mesh = Mesh::build(square, [[0, 1, 2], [3, 2, 1]])?;
    /// let down = Ray::new([1.0, 30.0, 1.0], [0.0, 0.0, -1.0], 2.0);
    /// let hits = mesh.cast_exact_all(&down)?;
    /// let rows: Vec<(f64, u32)> = hits.iter().map(|hit| (hit.distance, hit.triangle)).collect();
    /// assert_eq!(rows, [(1.0, 0), (1.0, 1)]);
    /// // the rounded cast passes between the two
    /// assert!(mesh.cast_all(&down)?.is_empty());
    /// # Ok::<(), Refusal>(())
    /// ```
    pub fn cast_exact_all(&mut self, ray: &Ray) -> Result<Vec<MeshHit>, Refusal> {
        self.with_own(|mesh, scratch| mesh.cast_exact_all_with(ray, scratch))
    }

    /// The same with the caller's work buffers, so that threads may share the mesh.
    pub fn cast_exact_all_with(
        &self,
        ray: &Ray,
        scratch: &mut Scratch,
    ) -> Result<Vec<MeshHit>, Refusal> {
        if !self.has_numbers {
            // the exact cast refuses a mesh that has a NaN at a corner
            return match self.cast_exact_with(ray, scratch) {
                Cast::Refused(refusal) => Err(refusal),
                Cast::Hit(_) | Cast::None => unreachable!("a NaN at a corner is out of range"),
            };
        }
        self.cast_exact_all_at(ray, &self.vertices, scratch)
    }

    /// The same at other vertices, as in [`cast_at`](Mesh::cast_at). Each hit is a true one there, but the list need not be
    /// complete.
    pub fn cast_exact_all_at(
        &self,
        ray: &Ray,
        pose: &[[f64; 3]],
        scratch: &mut Scratch,
    ) -> Result<Vec<MeshHit>, Refusal> {
        self.list(pose, scratch, |mesh, pose, scratch| {
            lent::ray_mesh_exact_all(
                ray,
                mesh.vertices,
                mesh.triangles,
                pose,
                &mesh.tree,
                &mut scratch.list,
                &mut scratch.stack,
                &mut scratch.indices,
                &mut scratch.numbers,
            )
        })
    }

    /// The hits that a call of the library lists. The call takes the mesh, the vertices to cast at, and buffers that are as long
    /// as it needs.
    fn list(
        &self,
        pose: &[[f64; 3]],
        scratch: &mut Scratch,
        call: impl FnOnce(&BoardRef<'_>, &[f64], &mut Scratch) -> Result<usize, Refusal>,
    ) -> Result<Vec<MeshHit>, Refusal> {
        scratch.fit(self.triangles.len(), self.tree.nodes);
        scratch.fit_hits(self.triangles.len());
        let found = call(&self.as_board(), pose.as_flattened(), scratch)?;
        let places = scratch.numbers.chunks_exact(4).zip(&scratch.indices);
        let hit = |(numbers, &triangle): (&[f64], &u32)| MeshHit {
            normal: [numbers[1], numbers[2], numbers[3]],
            distance: numbers[0],
            triangle,
        };
        Ok(places.take(found).map(hit).collect())
    }

    /// The triangles whose boxes touch the box from `min` to `max`, in ascending order, in the mesh's own work buffers.
    /// Refuses with 1 if a corner is not finite, or a minimum is above its maximum.
    pub fn query(&mut self, min: [f64; 3], max: [f64; 3]) -> Result<&[u32], Refusal> {
        let count = self
            .with_own(|mesh, scratch| mesh.query_with(min, max, scratch).map(|list| list.len()))?;
        Ok(&self.scratch.list[..count])
    }

    /// The same with the caller's work buffers, which hold the list.
    pub fn query_with<'s>(
        &self,
        min: [f64; 3],
        max: [f64; 3],
        scratch: &'s mut Scratch,
    ) -> Result<&'s [u32], Refusal> {
        scratch.fit(self.triangles.len(), self.tree.nodes);
        let found = lent::query(
            min,
            max,
            self.triangles.len(),
            &self.tree.as_lent(),
            &mut scratch.list,
            &mut scratch.stack,
        )?;
        Ok(&scratch.list[..found])
    }

    /// The vertices.
    pub fn vertices(&self) -> &[[f64; 3]] {
        &self.vertices
    }

    /// The triangles, each of three vertex indices.
    pub fn triangles(&self) -> &[[u32; 3]] {
        &self.triangles
    }

    /// The tree.
    pub fn tree(&self) -> &Tree {
        &self.tree
    }

    /// The vertices, the triangles and the tree.
    pub fn into_parts(self) -> (Vec<[f64; 3]>, Vec<[u32; 3]>, Tree) {
        (self.vertices, self.triangles, self.tree)
    }
}

/// How many triangles to make room for. The library refuses too many whatever the buffers are, so no room is made then.
fn room_for(triangles: &[[u32; 3]]) -> usize {
    if triangles.len() > MAX_COUNT {
        0
    } else {
        triangles.len()
    }
}

/// Why [`Mesh::with_tree`] did not accept a tree.
#[derive(Clone, Copy, Debug, PartialEq, Eq, Hash)]
pub enum TreeError {
    /// The tree did not pass the check: it is not a tree of this mesh.
    DoesNotFit,
    /// The check refused: the mesh is outside the limits (2), or a buffer of the tree is too short (3).
    Refused(Refusal),
}

impl fmt::Display for TreeError {
    fn fmt(&self, out: &mut fmt::Formatter<'_>) -> fmt::Result {
        match self {
            TreeError::DoesNotFit => write!(out, "the tree does not fit the mesh"),
            TreeError::Refused(refusal) => refusal.fmt(out),
        }
    }
}

impl Error for TreeError {
    fn source(&self) -> Option<&(dyn Error + 'static)> {
        match self {
            TreeError::DoesNotFit => None,
            TreeError::Refused(refusal) => Some(refusal),
        }
    }
}
