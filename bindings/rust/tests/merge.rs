//! The merge of two boards (document 02, M-105): its refusals in their order, what is written, and casts on the result.
//! Expected areas are written out from document 02.
use probe_rays::lent::{BoardRef, TreeAreas, TreeRef};
use probe_rays::{calls, sys, Cast, Mesh, Ray, Refusal};

const MARK: u32 = 77;

/// Document 01's T with a tree of one leaf, in areas one place longer than stated.
struct Board {
    vertices: Vec<f64>,
    triangles: Vec<u32>,
    nodes: usize,
    node_boxes: Vec<f64>,
    triangle_boxes: Vec<f64>,
    node_words: Vec<u32>,
    order: Vec<u32>,
}

fn one(z: f64) -> Board {
    let around = [0.0, 0.0, z, 1.0, 1.0, z];
    Board {
        vertices: vec![0.0, 0.0, z, 1.0, 0.0, z, 0.0, 1.0, z],
        triangles: vec![0, 1, 2],
        nodes: 1,
        node_boxes: [&around[..], &[9.0; 7]].concat(),
        triangle_boxes: [&around[..], &[9.0]].concat(),
        node_words: vec![0, 0, 1, 9, 9, 9, 9],
        order: vec![0, 9],
    }
}

/// A vertex and no triangle.
fn bare() -> Board {
    Board {
        vertices: vec![5.0, 6.0, 7.0],
        triangles: vec![],
        nodes: 0,
        node_boxes: vec![],
        triangle_boxes: vec![],
        node_words: vec![],
        order: vec![],
    }
}

impl Board {
    fn lent(&self) -> BoardRef<'_> {
        BoardRef {
            vertices: &self.vertices,
            triangles: &self.triangles,
            tree: TreeRef {
                nodes: self.nodes,
                node_boxes: &self.node_boxes,
                triangle_boxes: &self.triangle_boxes,
                node_words: &self.node_words,
                order: &self.order,
            },
        }
    }
}

#[derive(Clone, Debug, PartialEq)]
struct Areas {
    vertices: Vec<f64>,
    triangles: Vec<u32>,
    node_boxes: Vec<f64>,
    triangle_boxes: Vec<f64>,
    node_words: Vec<u32>,
    order: Vec<u32>,
    marks: Vec<u32>,
    nodes: Vec<usize>,
}

/// Marked areas for some vertices and n triangles, one place too long each.
fn areas(vertices: usize, n: usize) -> Areas {
    let mark = f64::from(MARK);
    Areas {
        vertices: vec![mark; 3 * vertices + 1],
        triangles: vec![MARK; 3 * n + 1],
        node_boxes: vec![mark; 12 * n + 1],
        triangle_boxes: vec![mark; 6 * n + 1],
        node_words: vec![MARK; 6 * n + 1],
        order: vec![MARK; n + 1],
        marks: vec![MARK; 3 * n + 1],
        nodes: vec![MARK as usize; 2],
    }
}

fn merge(first: &Board, second: &Board, areas: &mut Areas) -> u32 {
    calls::merge(
        &first.lent(),
        &second.lent(),
        &mut areas.vertices,
        &mut areas.triangles,
        TreeAreas {
            node_boxes: &mut areas.node_boxes,
            triangle_boxes: &mut areas.triangle_boxes,
            node_words: &mut areas.node_words,
            order: &mut areas.order,
        },
        &mut areas.marks,
        &mut areas.nodes,
    )
}

/// The number; nothing is written, but the marks with 5.
fn refused(first: &Board, second: &Board, mut lent: Areas) -> u32 {
    let mut before = lent.clone();
    let number = merge(first, second, &mut lent);
    if number == 5 {
        before.marks.clone_from(&lent.marks);
    }
    assert_eq!(lent, before);
    number
}

#[test]
fn a_root_over_both_trees() {
    let mut lent = areas(6, 2);
    assert_eq!(merge(&one(0.0), &one(3.0), &mut lent), sys::DONE);
    let mark = f64::from(MARK);
    assert_eq!(lent.nodes, [3, MARK as usize]);
    let vertices = [one(0.0).vertices, one(3.0).vertices, vec![mark]].concat();
    assert_eq!(lent.vertices, vertices);
    assert_eq!(lent.triangles, [0, 1, 2, 3, 4, 5, MARK]);
    assert_eq!(
        lent.node_words,
        [1, 1, 2, 0, 0, 1, 0, 1, 1, MARK, MARK, MARK, MARK]
    );
    let (low, high) = (
        [0.0, 0.0, 0.0, 1.0, 1.0, 0.0],
        [0.0, 0.0, 3.0, 1.0, 1.0, 3.0],
    );
    let root = [0.0, 0.0, 0.0, 1.0, 1.0, 3.0];
    assert_eq!(lent.node_boxes[..18], [root, low, high].concat());
    assert_eq!(lent.node_boxes[18..], [mark; 7]);
    assert_eq!(lent.triangle_boxes[..12], [low, high].concat());
    assert_eq!(lent.triangle_boxes[12..], [mark]);
    assert_eq!(lent.order, [0, 1, MARK]);
}

/// The other's tree is the result, with its vertex indices moved where due.
#[test]
fn a_board_without_triangles() {
    let mut lent = areas(4, 1);
    assert_eq!(merge(&bare(), &one(0.0), &mut lent), sys::DONE);
    assert_eq!(lent.nodes[0], 1);
    assert_eq!(lent.triangles, [1, 2, 3, MARK]);
    assert_eq!(lent.node_words, [0, 0, 1, MARK, MARK, MARK, MARK]);
    let mut lent = areas(4, 1);
    assert_eq!(merge(&one(0.0), &bare(), &mut lent), sys::DONE);
    assert_eq!(lent.triangles, [0, 1, 2, MARK]);
    assert_eq!(lent.vertices[9..12], [5.0, 6.0, 7.0]);
    let mut lent = areas(2, 0);
    assert_eq!(merge(&bare(), &bare(), &mut lent), sys::DONE);
    assert_eq!((lent.nodes[0], lent.order[0]), (0, MARK));
}

#[test]
fn two_before_three_before_five() {
    let broken = Board {
        nodes: usize::MAX,
        ..one(3.0)
    };
    let ragged = Board {
        vertices: vec![0.0; 10],
        ..one(3.0)
    };
    let many = Board {
        vertices: vec![0.0; 3 * 65_536],
        ..one(3.0)
    };
    let none = areas(0, 0);
    assert_eq!(refused(&ragged, &broken, none.clone()), 2);
    assert_eq!(refused(&broken, &ragged, none.clone()), 2);
    assert_eq!(refused(&broken, &many, none.clone()), 2);
    assert_eq!(refused(&broken, &broken, none), 3);
    assert_eq!(refused(&one(0.0), &broken, areas(6, 2)), 5);
    assert_eq!(refused(&broken, &one(0.0), areas(6, 2)), 5);
    let short = Board {
        order: vec![],
        ..one(0.0)
    };
    assert_eq!(refused(&short, &broken, areas(6, 2)), 3);
    let cuts: [fn(&mut Areas); 8] = [
        |a| a.vertices.truncate(17),
        |a| a.triangles.truncate(5),
        |a| a.node_boxes.truncate(23),
        |a| a.triangle_boxes.truncate(11),
        |a| a.node_words.truncate(11),
        |a| a.order.truncate(1),
        |a| a.marks.truncate(5),
        |a| a.nodes.clear(),
    ];
    for cut in cuts {
        let mut lent = areas(6, 2);
        cut(&mut lent);
        assert_eq!(refused(&one(0.0), &broken, lent.clone()), 3);
        assert_eq!(refused(&ragged, &broken, lent), 2);
    }
}

/// The lesser distance, the first board on ties.
#[test]
fn casts_on_glued_boards() {
    let corners = |z: f64| [[0.0, 0.0, z], [1.0, 0.0, z], [0.0, 1.0, z]];
    let board = |z| Mesh::build(corners(z), [[0, 1, 2]]).unwrap();
    let down = Ray::new([0.25, 0.25, 5.0], [0.0, 0.0, -1.0], 10.0);
    let hit = |mesh: &mut Mesh| match mesh.cast(&down) {
        Cast::Hit(hit) => (hit.distance, hit.triangle),
        other => panic!("{other:?}"),
    };
    assert_eq!(hit(&mut board(0.0).glue(&board(3.0)).unwrap()), (2.0, 1));
    assert_eq!(hit(&mut board(3.0).glue(&board(0.0)).unwrap()), (2.0, 0));
    assert_eq!(hit(&mut board(3.0).glue(&board(3.0)).unwrap()), (2.0, 0));
    let three = board(1.0).glue(&board(2.0)).unwrap();
    assert_eq!(hit(&mut three.glue(&board(4.0)).unwrap()), (1.0, 2));
    let sheet = Mesh::build(vec![[0.0; 3]; 40_000], [[0, 1, 2]]).unwrap();
    assert_eq!(sheet.glue(&sheet).unwrap_err(), Refusal::BadShape);
}
