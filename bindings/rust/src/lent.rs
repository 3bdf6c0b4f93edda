//! Build, query, tree check and mesh cast over the caller's buffers: nothing is allocated.
//!
//! For n triangles the buffers have at least these lengths; there is a function for each length:
//!
//! | buffer | element | length | contents |
//! |---|---|---|---|
//! | vertices | f64 | 3 a vertex | x, y, z |
//! | triangles | u32 | 3n | three vertex indices a triangle |
//! | node boxes | f64 | 12n | six numbers a node: minimum x, y, z, then maximum x, y, z |
//! | triangle boxes | f64 | 6n | six numbers a triangle, in the same order |
//! | node words | u32 | 6n | three words a node: 0, start, count (a leaf); 1, left, right (a branch) |
//! | order | u32 | n | triangle indices; a leaf names a range of its places |
//! | work | u32 | n | the build's work buffer; unspecified afterwards |
//! | list | u32 | n | the query's result; a work buffer of the mesh cast |
//! | stack | u32 | node count + 1 | a work buffer of the traversal; unspecified afterwards |
//! | marks | u32 | 3n | the check's work buffer; unspecified afterwards |
//!
//! A shorter buffer is refused with 3; a longer one is admitted. `as_flattened` turns slices of `[f64; 3]` and `[u32; 3]`
//! into such buffers.
//!
//! ```
//! use probe_rays::{lent, Cast, Ray, Refusal};
//!
//! // two triangles, a square
//! let vertices = [0.0, 0.0, 0.0, 4.0, 0.0, 0.0, 4.0, 4.0, 0.0, 0.0, 4.0, 0.0];
//! let triangles = [0, 1, 2, 0, 2, 3];
//! const N: usize = 2;
//! let mut node_boxes = [0.0; lent::node_boxes_length(N)];
//! let mut triangle_boxes = [0.0; lent::triangle_boxes_length(N)];
//! let mut node_words = [0; lent::node_words_length(N)];
//! let mut order = [0; lent::order_length(N)];
//! let mut work = [0; lent::work_length(N)];
//! let nodes = lent::build(
//!     &vertices,
//!     &triangles,
//!     lent::TreeAreas {
//!         node_boxes: &mut node_boxes,
//!         triangle_boxes: &mut triangle_boxes,
//!         node_words: &mut node_words,
//!         order: &mut order,
//!     },
//!     &mut work,
//! )?;
//! let tree = lent::TreeRef {
//!     nodes,
//!     node_boxes: &node_boxes,
//!     triangle_boxes: &triangle_boxes,
//!     node_words: &node_words,
//!     order: &order,
//! };
//!
//! let mut marks = [0; lent::marks_length(N)];
//! assert!(lent::tree_check(&vertices, &triangles, &tree, &mut marks)?);
//!
//! let mut list = [0; lent::list_length(N)];
//! // a tree of n triangles has at most 2n nodes
//! let mut stack = [0; lent::stack_length(2 * N)];
//! let found = lent::query([0.5, 2.5, 0.0], [1.0, 3.0, 0.0], N, &tree, &mut list, &mut stack)?;
//! assert_eq!(list[..found], [0, 1]);
//!
//! let down = Ray::new([1.0, 3.0, 5.0], [0.0, 0.0, -1.0], 10.0);
//! let cast = lent::ray_mesh(&down, &vertices, &triangles, &vertices, &tree, &mut list, &mut stack);
//! let Cast::Hit(hit) = cast else { panic!() };
//! assert_eq!((hit.distance, hit.triangle), (5.0, 1));
//! # Ok::<(), Refusal>(())
//! ```
use crate::answer::{Cast, MeshHit, Refusal};
use crate::shapes::{placed, Places};
use crate::{calls, sys, Ray};

/// The length of the node boxes of n triangles.
pub const fn node_boxes_length(n: usize) -> usize {
    12 * n
}

/// The length of the triangle boxes of n triangles.
pub const fn triangle_boxes_length(n: usize) -> usize {
    6 * n
}

/// The length of the node words of n triangles.
pub const fn node_words_length(n: usize) -> usize {
    6 * n
}

/// The length of the order of n triangles.
pub const fn order_length(n: usize) -> usize {
    n
}

/// The length of the build's work buffer for n triangles.
pub const fn work_length(n: usize) -> usize {
    n
}

/// The length of the list of n triangles.
pub const fn list_length(n: usize) -> usize {
    n
}

/// The length of the stack for a node count.
pub const fn stack_length(nodes: usize) -> usize {
    nodes + 1
}

/// The length of the check's marks for n triangles.
pub const fn marks_length(n: usize) -> usize {
    3 * n
}

/// A borrowed tree, from whatever builder.
#[derive(Clone, Copy, Debug, PartialEq)]
pub struct TreeRef<'a> {
    /// The node count. Node 0 is the root.
    pub nodes: usize,
    /// Six numbers a node: minimum x, y, z, then maximum x, y, z.
    pub node_boxes: &'a [f64],
    /// Six numbers a triangle, in the same order.
    pub triangle_boxes: &'a [f64],
    /// Three words a node: 0, start, count of a leaf, or 1, left, right of a branch.
    pub node_words: &'a [u32],
    /// Triangle indices; a leaf names a range of its places.
    pub order: &'a [u32],
}

/// A borrowed board: a mesh and its tree.
#[derive(Clone, Copy, Debug, PartialEq)]
pub struct BoardRef<'a> {
    /// Three numbers a vertex.
    pub vertices: &'a [f64],
    /// Three vertex indices a triangle.
    pub triangles: &'a [u32],
    /// The tree.
    pub tree: TreeRef<'a>,
}

/// Where the build writes a tree.
#[derive(Debug)]
pub struct TreeAreas<'a> {
    /// Six numbers a node.
    pub node_boxes: &'a mut [f64],
    /// Six numbers a triangle.
    pub triangle_boxes: &'a mut [f64],
    /// Three words a node.
    pub node_words: &'a mut [u32],
    /// The triangles in the order of the leaves.
    pub order: &'a mut [u32],
}

/// Builds the tree of a mesh and returns its node count. Places past the tree are unchanged. Every tree that is written
/// passes [`tree_check`].
///
/// Refuses with 2, 3, 5 (no triangle, an index past the vertices, or a triangle whose box is not finite) or 6. After 5 and 6
/// the buffers are zeros; after 2 and 3 they are unchanged.
pub fn build(
    vertices: &[f64],
    triangles: &[u32],
    areas: TreeAreas<'_>,
    work: &mut [u32],
) -> Result<usize, Refusal> {
    let mut nodes = [0_usize];
    let answer = calls::build(vertices, triangles, areas, work, &mut nodes);
    done(answer).map(|()| nodes[0])
}

/// Lists the triangles, of n, that the tree has for the box from `min` to `max`, in ascending order, and returns their
/// number. Through a tree that passes [`tree_check`] these are the triangles of the mesh whose boxes touch the box, each
/// once. Places of the list past them are unchanged.
///
/// Refuses with 1, 2, 3 or 5 (the tree is broken where the traversal meets it). After 5 the list is zeros.
pub fn query(
    min: [f64; 3],
    max: [f64; 3],
    n: usize,
    tree: &TreeRef<'_>,
    list: &mut [u32],
    stack: &mut [u32],
) -> Result<usize, Refusal> {
    let mut found = [0_usize];
    let answer = calls::query(min, max, n, tree, list, stack, &mut found);
    done(answer).map(|()| found[0])
}

/// Whether a tree, from whatever builder, fits a mesh: every node and every triangle occurs in it once, and every box
/// encloses what is below it.
///
/// Refuses with 2 or 3. A triangle index past the vertices, or a node count above 2n, gives `false`.
pub fn tree_check(
    vertices: &[f64],
    triangles: &[u32],
    tree: &TreeRef<'_>,
    marks: &mut [u32],
) -> Result<bool, Refusal> {
    let answer = calls::tree_check(vertices, triangles, tree, marks);
    match answer {
        sys::YES => Ok(true),
        sys::NO => Ok(false),
        number => Err(Refusal::from_number(number)),
    }
}

/// Casts a ray at a mesh through its tree. `pose` holds the vertices to cast at: the mesh's own, or the same number of moved
/// vertices. The tree's boxes are those of the mesh's own vertices.
///
/// The hit is the nearest; of equally near hits, the one with the lowest index. Refuses with 1 to 7. At the mesh's own
/// vertices, through a tree that passes [`tree_check`], no triangle whose box touches the box of the ray's segment is
/// missed. Through any other tree the call terminates too, but may miss a surface.
pub fn ray_mesh(
    ray: &Ray,
    vertices: &[f64],
    triangles: &[u32],
    pose: &[f64],
    tree: &TreeRef<'_>,
    list: &mut [u32],
    stack: &mut [u32],
) -> Cast<MeshHit> {
    mesh_cast(|hit, index| {
        calls::ray_mesh(
            ray, vertices, triangles, pose, tree, list, stack, hit, index,
        )
    })
}

/// Casts a ray at a mesh without a tree: for parts of few triangles. It takes no buffers but the mesh.
///
/// Returns what [`ray_mesh`] returns at the mesh's own vertices through any tree that passes [`tree_check`]: the two are
/// proved to agree. Refuses with 1, 2, 5 (a triangle has no valid box, or an index past the vertices), 6 or 7. A mesh
/// without triangles is a miss.
pub fn ray_mesh_plain(ray: &Ray, vertices: &[f64], triangles: &[u32]) -> Cast<MeshHit> {
    mesh_cast(|hit, index| calls::ray_mesh_plain(ray, vertices, triangles, hit, index))
}

/// Whether every corner of every triangle is three numbers; a corner whose index is past the vertices is not. Ask once for a
/// mesh: if it is so, [`ray_mesh_exact`] returns through a tree that passes [`tree_check`], at the mesh's own vertices, what
/// [`ray_mesh_exact_plain`] returns.
pub fn mesh_has_numbers(vertices: &[f64], triangles: &[u32]) -> bool {
    calls::mesh_has_numbers(vertices, triangles) == sys::YES
}

/// The exact cast at a mesh, without a tree. It decides in integers, on a grid: a miss is certain.
///
/// Corners, ray, near and the maximum are read on a grid first (2^-15 mm, and 2^-30 for the direction): the C header
/// `include/probe_rays.h` says how, at `probe_ray_mesh_exact_plain`, and what a miss and a hit then are.
///
/// Refuses with 1, 12 (the origin is not within 8,192, or near or the maximum is above 32,768), 2, 5, and 12 if a corner of a
/// triangle is not a number from -8,192 to 8,192.
pub fn ray_mesh_exact_plain(ray: &Ray, vertices: &[f64], triangles: &[u32]) -> Cast<MeshHit> {
    mesh_cast(|hit, index| calls::ray_mesh_exact_plain(ray, vertices, triangles, hit, index))
}

/// The same through a tree, at the vertices `pose`. The arguments are those of [`ray_mesh`], without the list.
///
/// At the mesh's own vertices, through a tree that passes [`tree_check`], and for a mesh for which [`mesh_has_numbers`] is
/// true, it returns what [`ray_mesh_exact_plain`] returns: the two are proved to agree. At other vertices a miss is not
/// certain. Refuses with 1, 12 (for the ray), 2, 3, 4, 5 (the tree is broken where the traversal meets it), and 12 (for a
/// corner). The stack is the only work buffer.
pub fn ray_mesh_exact(
    ray: &Ray,
    vertices: &[f64],
    triangles: &[u32],
    pose: &[f64],
    tree: &TreeRef<'_>,
    stack: &mut [u32],
) -> Cast<MeshHit> {
    mesh_cast(|hit, index| {
        calls::ray_mesh_exact(ray, vertices, triangles, pose, tree, stack, hit, index)
    })
}

/// Where a call of many rays writes its results: for each ray one place of `codes` and `indices`, and four of `hits`.
#[derive(Debug)]
pub struct CastAreas<'a> {
    /// What the single call returns for each ray: a code of [`sys`], or a refusal's number.
    pub codes: &'a mut [u32],
    /// A hit's normal and distance; unchanged if the ray has no hit.
    pub hits: &'a mut [f64],
    /// The index of the triangle hit; unchanged if the ray has no hit.
    pub indices: &'a mut [u32],
}

impl CastAreas<'_> {
    /// The result of the ray at an index.
    ///
    /// Panics if a buffer has no place for it.
    pub fn cast(&self, ray: usize) -> Cast<MeshHit> {
        let place: Places = std::array::from_fn(|k| self.hits[4 * ray + k]);
        Cast::of(self.codes[ray], || mesh_hit(&place, &[self.indices[ray]]))
    }
}

/// Casts many rays at a mesh through its tree, in one call. Each ray is answered as by [`ray_mesh`], at its own places of the
/// buffers. `rays` has eight numbers a ray ([`Ray::numbers`]).
///
/// Refuses with 2 (a limit of the mesh, or a length of `rays` that is no multiple of eight), then 3, then 4. These are tested
/// once, before the first ray, and nothing is written then. A ray that is refused has its number among the codes, and the
/// others are still cast.
#[allow(clippy::too_many_arguments)]
pub fn ray_mesh_many(
    rays: &[f64],
    vertices: &[f64],
    triangles: &[u32],
    pose: &[f64],
    tree: &TreeRef<'_>,
    list: &mut [u32],
    stack: &mut [u32],
    areas: &mut CastAreas<'_>,
) -> Result<(), Refusal> {
    let answer = calls::ray_mesh_many(
        rays,
        vertices,
        triangles,
        pose,
        tree,
        list,
        stack,
        areas.codes,
        areas.hits,
        areas.indices,
    );
    done(answer)
}

/// The exact cast of many rays, in the same way: each ray is answered as by [`ray_mesh_exact`]. The stack is the only work
/// buffer.
pub fn ray_mesh_exact_many(
    rays: &[f64],
    vertices: &[f64],
    triangles: &[u32],
    pose: &[f64],
    tree: &TreeRef<'_>,
    stack: &mut [u32],
    areas: &mut CastAreas<'_>,
) -> Result<(), Refusal> {
    let answer = calls::ray_mesh_exact_many(
        rays,
        vertices,
        triangles,
        pose,
        tree,
        stack,
        areas.codes,
        areas.hits,
        areas.indices,
    );
    done(answer)
}

/// Whether a drill of a radius about a ray's segment touches a mesh, without a tree: nothing if it is clear, or the lowest index
/// of a triangle, with area or without, that has a point in it. [`Mesh::drill`](crate::Mesh::drill) says what is certain.
///
/// Refuses with 1 (also for a radius that is NaN, infinite or below 0), 12 (for the ray, or for a radius above 128), 2, 5, and
/// 12 if a corner of a triangle is not a number from -8,192 to 8,192.
pub fn drill_plain(
    ray: &Ray,
    radius: f64,
    vertices: &[f64],
    triangles: &[u32],
) -> Result<Option<u32>, Refusal> {
    touched(|index| calls::drill_plain(ray, radius, vertices, triangles, index))
}

/// The same through a tree. The list and the stack are work buffers.
///
/// Through a tree that passes [`tree_check`], and for a mesh for which [`mesh_has_numbers`] is true, it returns what
/// [`drill_plain`] returns: the two are proved to agree. Refuses with 1, 12, 2 and 3 before it writes anything, then with 5
/// (also if the tree is broken where the traversal meets it) or 12 (for a corner).
pub fn drill(
    ray: &Ray,
    radius: f64,
    vertices: &[f64],
    triangles: &[u32],
    tree: &TreeRef<'_>,
    list: &mut [u32],
    stack: &mut [u32],
) -> Result<Option<u32>, Refusal> {
    touched(|index| calls::drill(ray, radius, vertices, triangles, tree, list, stack, index))
}

/// Where a call of many drills writes its results: for each drill one place of `codes` and of `indices`.
#[derive(Debug)]
pub struct DrillAreas<'a> {
    /// What the single call returns for each drill: a code of [`sys`], or a refusal's number.
    pub codes: &'a mut [u32],
    /// The index of the triangle touched; unchanged if there is none.
    pub indices: &'a mut [u32],
}

impl DrillAreas<'_> {
    /// The result of the drill at an index.
    ///
    /// Panics if a buffer has no place for it.
    pub fn drill(&self, drill: usize) -> Result<Option<u32>, Refusal> {
        Cast::of(self.codes[drill], || self.indices[drill]).into_result()
    }
}

/// Many drills at a mesh through its tree, in one call. Each drill is answered as by [`drill`], at its own places of the
/// buffers. `drills` has nine numbers a drill ([`Drill::numbers`](crate::Drill::numbers)).
///
/// Refuses with 2 (a limit of the mesh, or a length of `drills` that is no multiple of nine), then 3. These are tested once,
/// before the first drill, and nothing is written then. A drill that is refused has its number among the codes, and the others
/// are still asked.
pub fn drill_many(
    drills: &[f64],
    vertices: &[f64],
    triangles: &[u32],
    tree: &TreeRef<'_>,
    list: &mut [u32],
    stack: &mut [u32],
    areas: &mut DrillAreas<'_>,
) -> Result<(), Refusal> {
    let (codes, indices) = (&mut *areas.codes, &mut *areas.indices);
    let answer = calls::drill_many(
        drills, vertices, triangles, tree, list, stack, codes, indices,
    );
    done(answer)
}

/// The result of a call that writes the index of a triangle that is touched.
fn touched(call: impl FnOnce(&mut [u32; 1]) -> u32) -> Result<Option<u32>, Refusal> {
    let mut index = [0_u32];
    let answer = call(&mut index);
    Cast::of(answer, || index[0]).into_result()
}

/// Whether a call that writes buffers did so.
fn done(answer: u32) -> Result<(), Refusal> {
    match answer {
        sys::DONE => Ok(()),
        number => Err(Refusal::from_number(number)),
    }
}

/// Merges two boards into one and returns its node count. The result is the first's vertices, triangles, nodes, triangle boxes
/// and order, then the second's moved up, and a new root over both trees unless one has no triangles. Places past the result
/// are unchanged. The buffers are as long as for a mesh of both together, and `marks` is [`marks_length`] of its triangles.
///
/// Refuses with 2, 3 or 5 (a tree that does not pass [`tree_check`]); the result buffers are unchanged then. The result
/// passes the check. [`ray_mesh`] at the result's own vertices returns the nearer of the hits that it returns at the two
/// boards' own vertices, the first's if they are equally near; if one refuses, the first's refusal, else the second's.
pub fn merge(
    first: &BoardRef<'_>,
    second: &BoardRef<'_>,
    vertices: &mut [f64],
    triangles: &mut [u32],
    areas: TreeAreas<'_>,
    marks: &mut [u32],
) -> Result<usize, Refusal> {
    let mut nodes = [0_usize];
    let answer = calls::merge(first, second, vertices, triangles, areas, marks, &mut nodes);
    done(answer).map(|()| nodes[0])
}

/// The result of a call that writes the hit and the index of a mesh cast.
fn mesh_cast(call: impl FnOnce(&mut Places, &mut [u32; 1]) -> u32) -> Cast<MeshHit> {
    let mut places: Places = [0.0; 4];
    let mut index = [0_u32];
    let answer = call(&mut places, &mut index);
    Cast::of(answer, || mesh_hit(&places, &index))
}

/// A mesh's hit from the result buffers.
fn mesh_hit(places: &Places, index: &[u32; 1]) -> MeshHit {
    let hit = placed(places);
    MeshHit {
        normal: hit.normal,
        distance: hit.distance,
        triangle: index[0],
    }
}

/// Lists every triangle that a ray hits by the rounded cast, of those that the tree lists for the box of the ray's segment,
/// and returns their number. The hits are written to `indices`, one place each, and `numbers`, four places each: the distance and the normal.
/// There are as many places as both hold, and those past the hits are unchanged. The hits are sorted by depth: ascending
/// distance, then ascending index, with 0 and -0 as equal depths.
///
/// Refuses with 1 to 7. After 1, 2, 4, and after 3 for the tree, the list or the stack, `indices` and `numbers` are
/// unchanged. Past these the call refuses with 3 exactly if there are more hits than places; after that, and after 5, 6 and
/// 7, `indices` and `numbers` are zeros. If it does not refuse, the hit of [`ray_mesh`] is the first in the list.
#[allow(clippy::too_many_arguments)]
pub fn ray_mesh_all(
    ray: &Ray,
    vertices: &[f64],
    triangles: &[u32],
    pose: &[f64],
    tree: &TreeRef<'_>,
    list: &mut [u32],
    stack: &mut [u32],
    indices: &mut [u32],
    numbers: &mut [f64],
) -> Result<usize, Refusal> {
    let mut found = [0_usize];
    let answer = calls::ray_mesh_all(
        ray, vertices, triangles, pose, tree, list, stack, indices, numbers, &mut found,
    );
    done(answer).map(|()| found[0])
}

/// Lists every triangle that the exact cast meets ([`ray_mesh_exact_plain`]), each with its normal and the f64 nearest to its
/// own least depth, and returns their number. The buffers and the order of the hits are those of [`ray_mesh_all`].
///
/// At the mesh's own vertices, through a tree that passes [`tree_check`], for a mesh for which [`mesh_has_numbers`] is true, the
/// list has every triangle of the mesh that is met, once, and no other. The hit of [`ray_mesh_exact`] is the first, and the
/// list is empty exactly if that cast is a miss. At other vertices, or through any other tree, each hit is a true hit of its
/// triangle at `pose`, but a surface may be missed.
///
/// Refuses with 1, 12 for the ray, 2, 3 for the tree, the list or the stack, or 4, and leaves `indices` and `numbers`
/// unchanged; then with 5, with 12 for a corner, and last with 3 exactly if there are more hits than places. After these
/// `indices` and `numbers` are zeros.
#[allow(clippy::too_many_arguments)]
pub fn ray_mesh_exact_all(
    ray: &Ray,
    vertices: &[f64],
    triangles: &[u32],
    pose: &[f64],
    tree: &TreeRef<'_>,
    list: &mut [u32],
    stack: &mut [u32],
    indices: &mut [u32],
    numbers: &mut [f64],
) -> Result<usize, Refusal> {
    let mut found = [0_usize];
    let answer = calls::ray_mesh_exact_all(
        ray, vertices, triangles, pose, tree, list, stack, indices, numbers, &mut found,
    );
    done(answer).map(|()| found[0])
}
