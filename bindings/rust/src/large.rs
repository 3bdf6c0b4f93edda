//! A mesh of any number of triangles.
use crate::answer::{Cast, MeshHit, Refusal};
use crate::mesh::OwnScratch;
use crate::{Cabinet, Mesh, Ray, Scratch, MAX_COUNT};
use std::collections::HashMap;

/// A mesh of any number of triangles: one mesh, or, if that would be too large, a cabinet of meshes, halved along the longest
/// side until each piece is small enough. Triangles are counted from 0, in the order in which they were given.
///
/// ```
/// use probe_rays::{Cast, LargeMesh, Ray, Refusal};
///
/// // a floor of 250 by 280 triangles, each 4 wide and 5 apart: more than one mesh may have
/// let corners = |n: u32| {
///     let [x, y] = [n % 250 * 5, n / 250 * 5].map(f64::from);
///     [[x, y, 0.0], [x + 4.0, y, 0.0], [x, y + 4.0, 0.0]]
/// };
/// let vertices: Vec<[f64; 3]> = (0..70_000).flat_map(corners).collect();
/// let triangles: Vec<[u32; 3]> = (0..70_000).map(|n| [3 * n, 3 * n + 1, 3 * n + 2]).collect();
/// let mut floor = LargeMesh::build(vertices, triangles)?;
/// assert!(floor.pieces() > 1);
///
/// // the last triangle has its first corner at x = 249 * 5, y = 279 * 5
/// let down = Ray::new([1246.0, 1396.0, 6.0], [0.0, 0.0, -1.0], 10.0);
/// for cast in [floor.cast(&down), floor.cast_rounded(&down)] {
///     let Cast::Hit(hit) = cast else { panic!() };
///     assert_eq!((hit.distance, hit.triangle), (6.0, 69_999));
/// }
/// # Ok::<(), Refusal>(())
/// ```
#[derive(Clone, Debug)]
pub struct LargeMesh {
    vertices: Vec<[f64; 3]>,
    triangles: Vec<[u32; 3]>,
    meshes: Vec<Piece>,
    /// The pieces, if there is more than one.
    cabinet: Cabinet,
    scratch: Scratch,
}

/// A mesh of some of the triangles, with the number of each in the whole.
#[derive(Clone, Debug)]
struct Piece {
    mesh: Mesh,
    numbers: Vec<u32>,
}

impl Piece {
    /// A hit of the piece with the triangle's number in the whole.
    fn numbered(&self, hit: MeshHit) -> MeshHit {
        MeshHit {
            triangle: self.numbers[hit.triangle as usize],
            ..hit
        }
    }
}

impl OwnScratch for LargeMesh {
    fn own_scratch(&mut self) -> &mut Scratch {
        &mut self.scratch
    }
}

impl LargeMesh {
    /// Builds the trees of these vertices and triangles, each of three vertex indices.
    ///
    /// Refuses with 2 (more than 2^32 - 1 triangles), 5 (no triangle, an index past the vertices, or a triangle whose box is
    /// not finite) or 6.
    pub fn build(
        vertices: impl Into<Vec<[f64; 3]>>,
        triangles: impl Into<Vec<[u32; 3]>>,
    ) -> Result<LargeMesh, Refusal> {
        LargeMesh::in_pieces(vertices, triangles, MAX_COUNT)
    }

    /// The same with pieces of at most `most` triangles and as many vertices: at least 1 and 3, at most 65,536.
    ///
    /// ```
    /// use probe_rays::{LargeMesh, Refusal};
    ///
    /// let square = [[0.0, 0.0, 0.0], [4.0, 0.0, 0.0], [4.0, 4.0, 0.0], [0.0, 4.0, 0.0]];
    /// assert_eq!(LargeMesh::in_pieces(square, [[0, 1, 2], [0, 2, 3]], 1)?.pieces(), 2);
    /// assert_eq!(LargeMesh::in_pieces(square, [[0, 1, 4]], 1).unwrap_err(), Refusal::OutOfBounds);
    /// # Ok::<(), Refusal>(())
    /// ```
    pub fn in_pieces(
        vertices: impl Into<Vec<[f64; 3]>>,
        triangles: impl Into<Vec<[u32; 3]>>,
        most: usize,
    ) -> Result<LargeMesh, Refusal> {
        let (vertices, triangles) = (vertices.into(), triangles.into());
        let count = u32::try_from(triangles.len()).map_err(|_| Refusal::BadShape)?;
        let past = |&index: &u32| index as usize >= vertices.len();
        if triangles.is_empty() || triangles.as_flattened().iter().any(past) {
            return Err(Refusal::OutOfBounds);
        }
        let mut large = LargeMesh {
            vertices,
            triangles,
            meshes: Vec::new(),
            cabinet: Cabinet::new(),
            scratch: Scratch::new(),
        };
        large.add((0..count).collect(), most.clamp(1, MAX_COUNT))?;
        if large.meshes.len() > 1 {
            for piece in &large.meshes {
                large.cabinet.push(&piece.mesh, [0.0; 3]);
            }
        }
        Ok(large)
    }

    /// Adds the triangles of these numbers, in ascending order, as one piece, or halves them along the longest side.
    fn add(&mut self, numbers: Vec<u32>, most: usize) -> Result<(), Refusal> {
        if numbers.len() <= most {
            let (vertices, triangles) = self.part_of(&numbers);
            if vertices.len() <= most.max(3) {
                let mesh = Mesh::build(vertices, triangles)?;
                self.meshes.push(Piece { mesh, numbers });
                return Ok(());
            }
        }
        let (lower, upper) = self.halves(numbers);
        self.add(lower, most)?;
        self.add(upper, most)
    }

    /// The vertices and triangles of some of the triangles; the vertices are in the order of their first use.
    fn part_of(&self, numbers: &[u32]) -> (Vec<[f64; 3]>, Vec<[u32; 3]>) {
        let mut places = HashMap::new();
        let mut vertices = Vec::new();
        let mut place = |index: u32| {
            *places.entry(index).or_insert_with(|| {
                vertices.push(self.vertices[index as usize]);
                vertices.len() as u32 - 1
            })
        };
        let triangles = numbers
            .iter()
            .map(|&number| self.triangles[number as usize].map(&mut place))
            .collect();
        (vertices, triangles)
    }

    /// Splits two or more triangles into halves, along the longest side of the box of their centres. Each half is in ascending
    /// order, so that of equally near triangles of a piece the first is returned.
    fn halves(&self, mut numbers: Vec<u32>) -> (Vec<u32>, Vec<u32>) {
        let middle = |&number: &u32, axis: usize| -> f64 {
            let corners = self.triangles[number as usize];
            corners
                .iter()
                .map(|&index| self.vertices[index as usize][axis])
                .sum()
        };
        let width = |axis: usize| {
            let all = || numbers.iter().map(|number| middle(number, axis));
            all().fold(f64::MIN, f64::max) - all().fold(f64::MAX, f64::min)
        };
        // of equally long sides the first, as in the other languages
        let longest = (0..3)
            .rev()
            .max_by(|&a, &b| width(a).total_cmp(&width(b)))
            .unwrap_or(0);
        let half = numbers.len() / 2;
        numbers.select_nth_unstable_by(half, |a, b| {
            let by_place = middle(a, longest).total_cmp(&middle(b, longest));
            by_place.then(a.cmp(b))
        });
        let mut upper = numbers.split_off(half);
        numbers.sort_unstable();
        upper.sort_unstable();
        (numbers, upper)
    }

    /// The nearest triangle that a ray hits, by the exact cast ([`Mesh::cast_exact`]), with the mesh's own work buffers: a
    /// miss is certain. Of equally near triangles, also of different pieces, it is the one with the lowest number. Refuses with
    /// 1 or 12.
    pub fn cast(&mut self, ray: &Ray) -> Cast<MeshHit> {
        self.with_own(|mesh, scratch| mesh.cast_with(ray, scratch))
    }

    /// The same with the caller's work buffers, so that threads may share the mesh.
    pub fn cast_with(&self, ray: &Ray, scratch: &mut Scratch) -> Cast<MeshHit> {
        let mut nearest: Option<MeshHit> = None;
        for piece in &self.meshes {
            let hit = match piece.mesh.cast_exact_with(ray, scratch) {
                Cast::Refused(refusal) => return Cast::Refused(refusal),
                Cast::None => continue,
                Cast::Hit(hit) => piece.numbered(hit),
            };
            let key = |hit: &MeshHit| (hit.distance, hit.triangle);
            if nearest
                .as_ref()
                .map_or(true, |other| key(&hit) < key(other))
            {
                nearest = Some(hit);
            }
        }
        nearest.map_or(Cast::None, Cast::Hit)
    }

    /// Whether a drill of a radius about a ray's segment touches the mesh ([`Mesh::drill`]), with the mesh's own work buffers:
    /// nothing if it is clear, or the lowest number of a triangle that is touched, of all pieces. Refuses with 1 or 12.
    ///
    /// ```
    /// use probe_rays::{LargeMesh, Ray, Refusal};
    ///
    /// // a square of 4 in two triangles, each its own piece; the drill's rim touches the corner at x = 4, y = 0 alone
    /// let square = [[0.0, 0.0, 0.0], [4.0, 0.0, 0.0], [4.0, 4.0, 0.0], [0.0, 4.0, 0.0]];
    /// let mut large = LargeMesh::in_pieces(square, [[0, 2, 3], [0, 1, 2]], 1)?;
    /// let beside = Ray::new([7.0, -4.0, 1.0], [0.0, 0.0, -1.0], 2.0);
    /// assert_eq!(large.drill(&beside, 5.0)?, Some(1));
    /// assert_eq!(large.drill(&beside, 4.999)?, None);
    /// # Ok::<(), Refusal>(())
    /// ```
    pub fn drill(&mut self, ray: &Ray, radius: f64) -> Result<Option<u32>, Refusal> {
        self.with_own(|mesh, scratch| mesh.drill_with(ray, radius, scratch))
    }

    /// The same with the caller's work buffers, so that threads may share the mesh.
    pub fn drill_with(
        &self,
        ray: &Ray,
        radius: f64,
        scratch: &mut Scratch,
    ) -> Result<Option<u32>, Refusal> {
        let mut lowest: Option<u32> = None;
        for piece in &self.meshes {
            let touched = piece.mesh.drill_with(ray, radius, scratch)?;
            let number = touched.map(|triangle| piece.numbers[triangle as usize]);
            lowest = lowest.into_iter().chain(number).min();
        }
        Ok(lowest)
    }

    /// The nearest triangle that a ray hits, by the rounded cast ([`Mesh::cast`]), with the mesh's own work buffers. Of equally
    /// near triangles of different pieces it is the one of the first piece. Refuses with 1, 6 or 7.
    pub fn cast_rounded(&mut self, ray: &Ray) -> Cast<MeshHit> {
        self.with_own(|mesh, scratch| mesh.cast_rounded_with(ray, scratch))
    }

    /// The same with the caller's work buffers.
    pub fn cast_rounded_with(&self, ray: &Ray, scratch: &mut Scratch) -> Cast<MeshHit> {
        if let [piece] = self.meshes.as_slice() {
            return piece.mesh.cast_with(ray, scratch);
        }
        let limit = self.cabinet.nodes();
        match self.cabinet.cast_with(ray, limit, scratch).answer {
            Cast::Hit(hit) => Cast::Hit(MeshHit {
                normal: hit.normal,
                distance: hit.distance,
                triangle: self.meshes[hit.part].numbers[hit.triangle as usize],
            }),
            Cast::None => Cast::None,
            Cast::Refused(refusal) => Cast::Refused(refusal),
        }
    }

    /// Every triangle that a ray hits, by the rounded cast ([`Mesh::cast_all`]), in order of depth, then of number, with the
    /// mesh's own work buffers. Refuses as [`Mesh::cast_all`] does.
    ///
    /// ```
    /// use probe_rays::{LargeMesh, Ray, Refusal};
    ///
    /// // two squares, one 2 above the other, cut into four pieces
    /// let square = |z: f64| [[0.0, 0.0, z], [4.0, 0.0, z], [4.0, 4.0, z], [0.0, 4.0, z]];
    /// let vertices = [square(0.0), square(2.0)].concat();
    /// let triangles = [[0, 1, 2], [0, 2, 3], [4, 5, 6], [4, 6, 7]];
    /// let mut large = LargeMesh::in_pieces(vertices, triangles, 1)?;
    /// let hits = large.cast_all(&Ray::new([3.0, 1.0, 5.0], [0.0, 0.0, -1.0], 10.0))?;
    /// let depths: Vec<(f64, u32)> = hits.iter().map(|hit| (hit.distance, hit.triangle)).collect();
    /// assert_eq!(depths, [(3.0, 2), (5.0, 0)]);
    /// # Ok::<(), Refusal>(())
    /// ```
    pub fn cast_all(&mut self, ray: &Ray) -> Result<Vec<MeshHit>, Refusal> {
        self.with_own(|mesh, scratch| mesh.cast_all_with(ray, scratch))
    }

    /// The same with the caller's work buffers.
    pub fn cast_all_with(&self, ray: &Ray, scratch: &mut Scratch) -> Result<Vec<MeshHit>, Refusal> {
        self.list(|mesh| mesh.cast_all_with(ray, scratch))
    }

    /// Every triangle that a ray meets, by the exact cast ([`Mesh::cast_exact_all`]), in order of depth, then of number, with
    /// the mesh's own work buffers: each once, and the list is empty exactly if [`cast`](LargeMesh::cast) is a miss. Refuses as
    /// `cast` does.
    pub fn cast_exact_all(&mut self, ray: &Ray) -> Result<Vec<MeshHit>, Refusal> {
        self.with_own(|mesh, scratch| mesh.cast_exact_all_with(ray, scratch))
    }

    /// The same with the caller's work buffers.
    pub fn cast_exact_all_with(
        &self,
        ray: &Ray,
        scratch: &mut Scratch,
    ) -> Result<Vec<MeshHit>, Refusal> {
        self.list(|mesh| mesh.cast_exact_all_with(ray, scratch))
    }

    /// The hits that a listing gives of the pieces, in order of depth, then of number.
    fn list(
        &self,
        mut listing: impl FnMut(&Mesh) -> Result<Vec<MeshHit>, Refusal>,
    ) -> Result<Vec<MeshHit>, Refusal> {
        if let [piece] = self.meshes.as_slice() {
            return listing(&piece.mesh);
        }
        let mut all = Vec::new();
        for piece in &self.meshes {
            let hits = listing(&piece.mesh)?;
            all.extend(hits.into_iter().map(|hit| piece.numbered(hit)));
        }
        // a distance is a number, and 0 and -0 are equal depths
        let depth = |hit: &MeshHit| hit.distance + 0.0;
        all.sort_by(|a, b| {
            depth(a)
                .total_cmp(&depth(b))
                .then(a.triangle.cmp(&b.triangle))
        });
        Ok(all)
    }

    /// The vertices.
    pub fn vertices(&self) -> &[[f64; 3]] {
        &self.vertices
    }

    /// The triangles, each of three vertex indices.
    pub fn triangles(&self) -> &[[u32; 3]] {
        &self.triangles
    }

    /// The number of meshes that it consists of.
    pub fn pieces(&self) -> usize {
        self.meshes.len()
    }

    /// The number of nodes of all trees together.
    pub fn nodes(&self) -> usize {
        let nodes = |piece: &Piece| piece.mesh.tree().nodes;
        self.meshes.iter().map(nodes).sum()
    }
}
