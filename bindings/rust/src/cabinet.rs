//! A cabinet of many parts, cast at under one limit on the nodes.
use crate::answer::Cast;
use crate::calls::call;
use crate::mesh::OwnScratch;
use crate::sys::{Part, Span, Vec3};
use crate::{Mesh, Ray, Scratch};

/// A hit on a cabinet.
#[derive(Clone, Copy, Debug, PartialEq)]
pub struct PartHit {
    /// The triangle's unit normal, which faces the ray.
    pub normal: [f64; 3],
    /// The distance along the ray.
    pub distance: f64,
    /// The triangle's index in the part's mesh, from 0.
    pub triangle: u32,
    /// The part's number, from 0.
    pub part: usize,
}

/// The result of a cast at a cabinet, and the number of nodes spent on it: 0 if it was refused before the first part.
#[derive(Clone, Copy, Debug, PartialEq)]
#[must_use]
pub struct CabinetCast {
    /// A hit, a miss or a refusal.
    pub answer: Cast<PartHit>,
    /// The number of nodes spent, never more than the limit.
    pub spent: usize,
}

/// The buffers that the parts of a cabinet share; a [`Part`] names a range of each.
#[derive(Clone, Copy, Debug)]
pub struct AreasRef<'a> {
    /// Three numbers a vertex.
    pub vertices: &'a [f64],
    /// Three indices a triangle.
    pub triangles: &'a [u32],
    /// Six numbers a node.
    pub node_boxes: &'a [f64],
    /// Six numbers a triangle.
    pub triangle_boxes: &'a [f64],
    /// Three words a node.
    pub node_words: &'a [u32],
    /// Triangle indices.
    pub order: &'a [u32],
}

/// The call over slices, its result slices included. It returns the library's number. `hit` has four places, `index`, `part`
/// and `spent` one each.
#[allow(clippy::too_many_arguments)]
#[inline]
pub fn ray_cabinet(
    ray: &Ray,
    parts: &[Part],
    areas: AreasRef<'_>,
    limit: usize,
    list: &mut [u32],
    stack: &mut [u32],
    hit: &mut [f64],
    index: &mut [u32],
    part: &mut [usize],
    spent: &mut [usize],
) -> u32 {
    call! { probe_ray_cabinet:
        ray ray;
        read parts, areas.vertices, areas.triangles, areas.node_boxes, areas.triangle_boxes,
            areas.node_words, areas.order;
        value limit;
        write list, stack, hit, index, part, spent;
    }
}

/// A cabinet: meshes with their trees, each at its own origin. It owns copies of them and the work buffers.
///
/// ```
/// use probe_rays::{Cabinet, Cast, Mesh, Ray, Refusal};
///
/// // a panel of one square millimetre by two triangles, placed twice, 10 apart
/// let square = [[0.0, 0.0, 0.0], [1.0, 0.0, 0.0], [1.0, 1.0, 0.0], [0.0, 1.0, 0.0]];
/// let panel = Mesh::build(square, [[0, 1, 2], [0, 2, 3]])?;
/// let mut cabinet = Cabinet::new();
/// let lower = cabinet.push(&panel, [0.0, 0.0, 0.0]);
/// let upper = cabinet.place_again(lower, [0.0, 0.0, 10.0]);
///
/// let down = Ray::new([0.25, 0.5, 12.0], [0.0, 0.0, -1.0], 20.0);
/// let cast = cabinet.cast(&down, cabinet.nodes());
/// let Cast::Hit(hit) = cast.answer else { panic!() };
/// assert_eq!((hit.distance, hit.part, hit.triangle, cast.spent), (2.0, upper, 1, 2));
///
/// // one node does not suffice for two parts: the limit takes precedence over a hit
/// let short = cabinet.cast(&down, 1);
/// assert_eq!((short.answer, short.spent), (Cast::Refused(Refusal::LimitReached), 1));
/// # Ok::<(), Refusal>(())
/// ```
#[derive(Clone, Debug, Default)]
pub struct Cabinet {
    parts: Vec<Part>,
    vertices: Vec<f64>,
    triangles: Vec<u32>,
    node_boxes: Vec<f64>,
    triangle_boxes: Vec<f64>,
    node_words: Vec<u32>,
    order: Vec<u32>,
    /// The most triangles, and the most nodes, of a part.
    most: [usize; 2],
    scratch: Scratch,
}

/// Appends elements to a buffer, and returns their range.
fn appended<T: Copy>(area: &mut Vec<T>, more: &[T]) -> Span {
    let start = area.len();
    area.extend_from_slice(more);
    Span {
        start,
        length: more.len(),
    }
}

impl OwnScratch for Cabinet {
    fn own_scratch(&mut self) -> &mut Scratch {
        &mut self.scratch
    }
}

impl Cabinet {
    /// An empty cabinet: every valid ray is a miss.
    pub fn new() -> Cabinet {
        Cabinet::default()
    }

    /// Adds a mesh with its tree at an origin, and returns the part's number. A mesh's tree fits it, so no surface of the part
    /// is missed.
    pub fn push(&mut self, mesh: &Mesh, origin: [f64; 3]) -> usize {
        let tree = mesh.tree();
        let [x, y, z] = origin;
        let part = Part {
            origin: Vec3 { x, y, z },
            nodes: tree.nodes,
            vertices: appended(&mut self.vertices, mesh.vertices().as_flattened()),
            triangles: appended(&mut self.triangles, mesh.triangles().as_flattened()),
            node_boxes: appended(&mut self.node_boxes, &tree.node_boxes),
            triangle_boxes: appended(&mut self.triangle_boxes, &tree.triangle_boxes),
            node_words: appended(&mut self.node_words, &tree.node_words),
            order: appended(&mut self.order, &tree.order),
        };
        let [triangles, nodes] = self.most;
        self.most = [triangles.max(mesh.triangles().len()), nodes.max(tree.nodes)];
        self.parts.push(part);
        self.parts.len() - 1
    }

    /// Adds the mesh of a part once more, at another origin. Nothing but the part is added. Panics if there is no such part.
    pub fn place_again(&mut self, part: usize, origin: [f64; 3]) -> usize {
        let [x, y, z] = origin;
        let again = Part {
            origin: Vec3 { x, y, z },
            ..self.parts[part]
        };
        self.parts.push(again);
        self.parts.len() - 1
    }

    /// The number of parts.
    pub fn len(&self) -> usize {
        self.parts.len()
    }

    /// Whether there is no part.
    pub fn is_empty(&self) -> bool {
        self.parts.is_empty()
    }

    /// The sum of the parts' node counts: a limit that suffices for every ray.
    pub fn nodes(&self) -> usize {
        self.parts.iter().map(|part| part.nodes).sum()
    }

    /// The parts, each with its ranges.
    pub fn parts(&self) -> &[Part] {
        &self.parts
    }

    /// The buffers that the parts share.
    pub fn areas(&self) -> AreasRef<'_> {
        AreasRef {
            vertices: &self.vertices,
            triangles: &self.triangles,
            node_boxes: &self.node_boxes,
            triangle_boxes: &self.triangle_boxes,
            node_words: &self.node_words,
            order: &self.order,
        }
    }

    /// The nearest triangle of all parts that a ray hits, visiting at most `limit` nodes; of equally near ones, the one of the
    /// lowest part and then of the lowest index. Refuses with 1, 6, 7 or 10.
    pub fn cast(&mut self, ray: &Ray, limit: usize) -> CabinetCast {
        self.with_own(|cabinet, scratch| cabinet.cast_with(ray, limit, scratch))
    }

    /// The same with the caller's work buffers, so that threads may share the cabinet.
    pub fn cast_with(&self, ray: &Ray, limit: usize, scratch: &mut Scratch) -> CabinetCast {
        scratch.fit(self.most[0], self.most[1]);
        let mut hit = [0.0; 4];
        let (mut index, mut part, mut spent) = ([0_u32], [0_usize], [0_usize]);
        let answer = ray_cabinet(
            ray,
            &self.parts,
            self.areas(),
            limit,
            &mut scratch.list,
            &mut scratch.stack,
            &mut hit,
            &mut index,
            &mut part,
            &mut spent,
        );
        let [x, y, z, distance] = hit;
        CabinetCast {
            answer: Cast::of(answer, || PartHit {
                normal: [x, y, z],
                distance,
                triangle: index[0],
                part: part[0],
            }),
            spent: spent[0],
        }
    }
}
