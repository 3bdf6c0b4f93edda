//! The meshes that the cases cast at, each under a name.
use super::json::{Json, floats, whole, wholes};
use oracle::{
    model::{self, BuildAreas},
    tree::FlatTree,
};

/// Rows of numbers: a few, or the same few so many times.
#[derive(Clone, Debug)]
pub struct Rows<T> {
    of: Vec<T>,
    times: usize,
}

impl<T: Copy> Rows<T> {
    pub fn all(&self) -> Vec<T> {
        self.of.repeat(self.times)
    }

    fn json(&self, list: fn(&[T]) -> Json) -> Json {
        match self.times {
            1 => list(&self.of),
            times => Json::Object(vec![("of", list(&self.of)), ("times", whole(times))]),
        }
    }
}

fn once<T>(of: Vec<T>) -> Rows<T> {
    Rows { of, times: 1 }
}

/// Vertices and triangles, and a tree where it is not the one that the build makes.
#[derive(Clone, Debug)]
pub struct Mesh {
    pub vertices: Rows<f64>,
    pub triangles: Rows<u32>,
    pub tree: Option<FlatTree>,
}

impl Mesh {
    fn new(vertices: Vec<f64>, triangles: Vec<u32>) -> Mesh {
        Mesh {
            vertices: once(vertices),
            triangles: once(triangles),
            tree: None,
        }
    }

    /// How many triangles.
    pub fn count(&self) -> usize {
        self.triangles.of.len() * self.triangles.times / 3
    }

    /// The tree: the mesh's own, or the plain model's.
    pub fn tree(&self) -> Result<FlatTree, u32> {
        match &self.tree {
            Some(tree) => Ok(tree.clone()),
            None => built(&self.vertices.all(), &self.triangles.all()),
        }
    }

    pub fn json(&self) -> Json {
        let mut fields = vec![
            ("vertices", self.vertices.json(floats)),
            ("triangles", self.triangles.json(wholes)),
        ];
        fields.extend(self.tree.iter().map(|tree| ("tree", tree_json(tree))));
        Json::Object(fields)
    }
}

pub fn tree_json(tree: &FlatTree) -> Json {
    Json::Object(vec![
        ("nodes", whole(tree.node_count)),
        ("node_boxes", floats(&tree.node_boxes)),
        ("triangle_boxes", floats(&tree.triangle_boxes)),
        ("node_words", wholes(&tree.node_words)),
        ("order", wholes(&tree.order)),
    ])
}

/// The tree that the plain model builds, in areas of the stated lengths.
pub fn built(vertices: &[f64], triangles: &[u32]) -> Result<FlatTree, u32> {
    let n = triangles.len() / 3;
    let mut tree = FlatTree::default().padded(n);
    let mut areas = BuildAreas {
        node_boxes: &mut tree.node_boxes,
        triangle_boxes: &mut tree.triangle_boxes,
        node_words: &mut tree.node_words,
        order: &mut tree.order,
    };
    tree.node_count = model::build(vertices, triangles, &mut areas, n)?;
    Ok(tree)
}

/// The triangle (0, 0, 0), (1, 0, 0), (0, 1, 0), so many times.
fn layers(times: usize) -> Mesh {
    Mesh {
        triangles: Rows {
            of: vec![0, 1, 2],
            times,
        },
        ..Mesh::new(vec![0., 0., 0., 1., 0., 0., 0., 1., 0.], Vec::new())
    }
}

/// One triangle of the first three of so many equal vertices.
fn many_vertices(times: usize) -> Mesh {
    Mesh {
        vertices: Rows {
            of: vec![1., 2., 3.],
            times,
        },
        ..Mesh::new(Vec::new(), vec![0, 1, 2])
    }
}

/// A square in two triangles with corners 0 and `side`, at the height z.
fn square(side: f64, z: f64) -> Mesh {
    let vertices = vec![0., 0., z, side, 0., z, 0., side, z, side, side, z];
    Mesh::new(vertices, vec![0, 1, 2, 3, 2, 1])
}

/// A box from one corner to another, two triangles a side.
fn board(a: [f64; 3], b: [f64; 3]) -> Mesh {
    let corner =
        |k: usize| [0, 1, 2].map(|axis| if k >> axis & 1 == 1 { b[axis] } else { a[axis] });
    let sides = [
        [0, 2, 3, 1],
        [4, 5, 7, 6],
        [0, 1, 5, 4],
        [2, 6, 7, 3],
        [0, 4, 6, 2],
        [1, 3, 7, 5],
    ];
    let halves = sides
        .iter()
        .flat_map(|[p, q, r, s]| [*p, *q, *r, *p, *r, *s]);
    Mesh::new((0..8).flat_map(corner).collect(), halves.collect())
}

/// An uneven surface over 4 by 4 vertices, 10 apart along x and 12 along y: no two heights are equal.
fn uneven() -> Mesh {
    let height = |k: u32| f64::from(k * k * 7 % 17) + f64::from(k) / 16.0;
    let vertex = |k: u32| [f64::from(k % 4 * 10), f64::from(k / 4 * 12), height(k)];
    let cell = |k: u32| {
        let corner = k / 3 * 4 + k % 3;
        [
            corner,
            corner + 1,
            corner + 4,
            corner + 5,
            corner + 4,
            corner + 1,
        ]
    };
    Mesh::new(
        (0..16).flat_map(vertex).collect(),
        (0..9).flat_map(cell).collect(),
    )
}

/// The eight triangles between an outer and an inner ring of four vertices each.
const BETWEEN_RINGS: [u32; 24] = [
    0, 1, 5, 0, 5, 4, 1, 2, 6, 1, 6, 5, 2, 3, 7, 2, 7, 6, 3, 0, 4, 3, 4, 7,
];

/// A square's corners about a centre, at a height.
fn ring(centre: f64, half: f64, z: f64) -> Vec<f64> {
    let (low, high) = (centre - half, centre + half);
    vec![low, low, z, high, low, z, high, high, z, low, high, z]
}

/// A face of 10 by 10 with an opening of 2 by 2 in its middle.
fn opening() -> Mesh {
    let vertices = [ring(5.0, 5.0, 0.0), ring(5.0, 1.0, 0.0)].concat();
    Mesh::new(vertices, BETWEEN_RINGS.to_vec())
}

/// The walls of a square bore of 8 by 8, 12 deep, and its floor.
fn bore() -> Mesh {
    let vertices = [ring(0.0, 4.0, 0.0), ring(0.0, 4.0, -12.0)].concat();
    Mesh::new(
        vertices,
        [BETWEEN_RINGS.as_slice(), &[4, 5, 6, 4, 6, 7]].concat(),
    )
}

/// A mesh with one more triangle, whose corners are its last three vertices.
fn with_triangle(mesh: Mesh, corners: [f64; 9]) -> Mesh {
    let (mut vertices, mut triangles) = (mesh.vertices.all(), mesh.triangles.all());
    let first = vertices.len() as u32 / 3;
    vertices.extend(corners);
    triangles.extend([first, first + 1, first + 2]);
    Mesh::new(vertices, triangles)
}

/// A mesh with another builder's tree: one leaf of all triangles.
fn in_one_leaf(mesh: Mesh) -> Mesh {
    let own = mesh.tree().expect("a mesh that has a tree");
    let n = mesh.count();
    let mut tree = FlatTree {
        node_boxes: own.node_boxes[..6].to_vec(),
        triangle_boxes: own.triangle_boxes,
        node_words: vec![0, 0, n as u32],
        order: (0..n as u32).collect(),
        node_count: 1,
    }
    .padded(n);
    tree.order.reverse();
    Mesh {
        tree: Some(tree),
        ..mesh
    }
}

/// A triangle whose normal no float can hold: the cross product of its edges is infinite, its determinant for a ray along x not.
fn without_normal() -> Mesh {
    let (x, p) = (2f64.powi(610), 2f64.powi(-10));
    Mesh::new(vec![0., 0., 0., x, 0., p, 0., x, 0.], vec![0, 1, 2])
}

pub fn named() -> Vec<(&'static str, Mesh)> {
    let lower = || board([0.0; 3], [60.0, 40.0, 18.0]);
    let far = [900., 0., 0., 901., 0., 0., 900., 1., 0.];
    let nan = [900., 0., 0., 901., f64::NAN, 0., 900., 1., 0.];
    vec![
        ("triangle", layers(1)),
        ("two layers", layers(2)),
        ("five layers", layers(5)),
        ("65,535 layers", layers(65_535)),
        ("65,536 layers", layers(65_536)),
        ("65,537 layers", layers(65_537)),
        ("65,533 vertices", many_vertices(65_533)),
        ("65,534 vertices", many_vertices(65_534)),
        ("65,536 vertices", many_vertices(65_536)),
        ("65,537 vertices", many_vertices(65_537)),
        ("square of 31", square(31.0, 0.0)),
        (
            "halves, the first at the larger x",
            Mesh::new(
                vec![0., 0., 0., 8., 0., 0., 8., 4., 0., 0., 4., 0.],
                vec![0, 1, 2, 0, 2, 3],
            ),
        ),
        ("square at the origin's height", square(4.0, 0.0)),
        ("board", lower()),
        ("upper board", board([0., 0., 18.], [60., 40., 40.])),
        ("uneven", uneven()),
        ("board in one leaf", in_one_leaf(lower())),
        ("board and a far triangle", with_triangle(lower(), far)),
        (
            "board and a far triangle with a NaN",
            with_triangle(lower(), nan),
        ),
        (
            "board beyond 8,192",
            board([8_000.0, 0.0, 0.0], [8_192.5, 40.0, 18.0]),
        ),
        (
            "index past the vertices",
            Mesh::new(vec![0.0; 9], vec![0, 1, 3]),
        ),
        ("no triangle", Mesh::new(vec![0.0; 9], Vec::new())),
        (
            "infinite vertex",
            Mesh::new(
                vec![0., 0., 0., f64::INFINITY, 0., 0., 0., 1., 0.],
                vec![0, 1, 2],
            ),
        ),
        ("without a normal", without_normal()),
        (
            "square of 4",
            Mesh::new(
                vec![0., 0., 0., 4., 0., 0., 4., 4., 0., 0., 4., 0.],
                vec![0, 1, 2, 0, 2, 3],
            ),
        ),
        ("face with an opening of 2", opening()),
        ("square bore of 8, 12 deep", bore()),
        (
            "without area",
            Mesh::new(
                vec![0., 0., 0., 4., 0., 0., 2., 0., 0.],
                vec![0, 1, 2, 0, 0, 0],
            ),
        ),
        (
            "triangle off the axis",
            Mesh::new(vec![1., 0., 0., 2., 0., 0., 1., 1., 0.], vec![0, 1, 2]),
        ),
    ]
}
