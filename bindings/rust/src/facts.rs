//! Facts about a mesh before a ray is cast: its bounding box, whether it is closed, and how many shells it has.
//!
//! The functions compare vertex indices, so equal corners must be one vertex: [`stl::merged`](crate::stl::merged) merges
//! them. The edges and shells of a mesh take any number of triangles.
//!
//! ```
//! use probe_rays::facts::{bounds, open_edges, shells};
//!
//! let vertices = [[0.0, 0.0, 0.0], [2.0, 0.0, 0.0], [0.0, 3.0, 0.0], [0.0, 0.0, 4.0]];
//! let tetrahedron = [[0, 2, 1], [0, 1, 3], [1, 2, 3], [2, 0, 3]];
//! assert_eq!(bounds(&vertices), Some([[0.0, 0.0, 0.0], [2.0, 3.0, 4.0]]));
//! assert_eq!((open_edges(&tetrahedron), shells(&tetrahedron)), (0, 1));
//!
//! // without one of its triangles three edges are open
//! assert_eq!(open_edges(&tetrahedron[1..]), 3);
//! ```
use std::collections::HashMap;

/// The minimum and the maximum coordinates of the vertices, or nothing if there are no vertices. A NaN is ignored.
///
/// ```
/// use probe_rays::facts::bounds;
///
/// assert_eq!(bounds(&[[1.0, -2.0, 5.0], [0.5, 7.0, 5.0]]), Some([[0.5, -2.0, 5.0], [1.0, 7.0, 5.0]]));
/// assert_eq!(bounds(&[]), None);
/// ```
pub fn bounds(vertices: &[[f64; 3]]) -> Option<[[f64; 3]; 2]> {
    let &first = vertices.first()?;
    let grown = |[low, high]: [[f64; 3]; 2], vertex: &[f64; 3]| {
        [
            std::array::from_fn(|axis| low[axis].min(vertex[axis])),
            std::array::from_fn(|axis| high[axis].max(vertex[axis])),
        ]
    };
    Some(vertices.iter().fold([first, first], grown))
}

/// The three edges of a triangle, each in the triangle's direction.
fn edges_of(&[a, b, c]: &[u32; 3]) -> [[u32; 2]; 3] {
    [[a, b], [b, c], [c, a]]
}

/// An edge regardless of its direction: the lower vertex first.
fn ascending([from, to]: [u32; 2]) -> [u32; 2] {
    [from.min(to), from.max(to)]
}

/// The number of edges that are not shared by exactly two triangles in opposite directions. A closed surface whose triangles
/// all face outward has none.
///
/// ```
/// use probe_rays::facts::open_edges;
///
/// // a square of two triangles has four open edges; with one of the two reversed the diagonal is open too
/// assert_eq!(open_edges(&[[0, 1, 2], [0, 2, 3]]), 4);
/// assert_eq!(open_edges(&[[0, 1, 2], [0, 3, 2]]), 5);
/// assert_eq!(open_edges(&[]), 0);
/// ```
pub fn open_edges(triangles: &[[u32; 3]]) -> usize {
    // how often an edge is used from the lower vertex to the higher, and how often back
    let mut passed: HashMap<[u32; 2], [usize; 2]> = HashMap::new();
    for edge in triangles.iter().flat_map(edges_of) {
        let times = passed.entry(ascending(edge)).or_default();
        times[usize::from(edge[0] > edge[1])] += 1;
    }
    passed.values().filter(|&&times| times != [1, 1]).count()
}

/// The number of shells: sets of triangles that are connected through common edges.
///
/// ```
/// use probe_rays::facts::shells;
///
/// let tetrahedron = [[0, 2, 1], [0, 1, 3], [1, 2, 3], [2, 0, 3]];
/// let moved = |by: u32| tetrahedron.map(|triangle| triangle.map(|index| index + by));
/// assert_eq!(shells(&[tetrahedron, moved(4)].concat()), 2);
/// // two that share only a vertex are two shells
/// assert_eq!(shells(&[tetrahedron, moved(3)].concat()), 2);
/// assert_eq!(shells(&[]), 0);
/// ```
pub fn shells(triangles: &[[u32; 3]]) -> usize {
    let mut parents: Vec<usize> = (0..triangles.len()).collect();
    let mut first: HashMap<[u32; 2], usize> = HashMap::new();
    let mut count = triangles.len();
    for (triangle, edges) in triangles.iter().map(edges_of).enumerate() {
        for edge in edges {
            let other = *first.entry(ascending(edge)).or_insert(triangle);
            let roots = [
                root_of(&mut parents, triangle),
                root_of(&mut parents, other),
            ];
            if roots[0] != roots[1] {
                parents[roots[0]] = roots[1];
                count -= 1;
            }
        }
    }
    count
}

/// The representative of the triangles that are connected with this one. The path to it is halved on the way.
fn root_of(parents: &mut [usize], mut triangle: usize) -> usize {
    while parents[triangle] != triangle {
        parents[triangle] = parents[parents[triangle]];
        triangle = parents[triangle];
    }
    triangle
}
