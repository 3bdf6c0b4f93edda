//! Document 01's marked inputs through the library: each compared, and its answer named here.

use differential::{
    calls,
    library::{Build, Cast, Check},
    log::Log,
    shapes,
};
use oracle::{
    generate,
    record::{Record, Shape},
    tree::FlatTree,
};
use probe_rays::sys::{HIT, NONE, YES};

/// The tree that the library builds.
fn built(log: &mut Log, vertices: &[f64], indices: &[u32]) -> Option<FlatTree> {
    let n = indices.len() / 3;
    let areas = FlatTree::default().padded(n);
    let build = Build {
        vertices,
        indices,
        areas: &areas,
        work: &vec![0; n],
        nodes: &[0],
    };
    calls::build(log, &build)
}

/// The number that the library answers for a record, a mesh's tree built first.
fn answer(record: &Record) -> u32 {
    let log = &mut Log::default();
    match &record.shape {
        Shape::Mesh { vertices, indices } => {
            if let Some(tree) = built(log, vertices, indices) {
                let n = indices.len() / 3;
                let check = Check {
                    vertices,
                    indices,
                    tree: &tree,
                    marks: &vec![0; 3 * n],
                };
                assert_eq!(calls::check(log, &check, Some(true)), Some(YES));
                let cast = Cast {
                    ray: record.ray,
                    vertices,
                    indices,
                    pose: vertices,
                    tree: &tree,
                    list: &vec![0; n],
                    stack: &vec![0; tree.node_count + 1],
                    hit: &[0.0; 4],
                    index: &[0],
                };
                calls::cast(log, &cast);
            }
        }
        _ => shapes::cast(log, record, &[0.0; 4], None),
    }
    assert!(log.differences.is_empty(), "{:?}", log.differences);
    log.last
}

#[test]
fn marked_inputs() {
    let answers: Vec<u32> = generate::marked().iter().map(answer).collect();
    // As document 01 says, and document 02 of K7 (M-104: "K7 becomes a hit") and K8 (M-102: 6).
    let k1_to_k8 = [HIT, NONE, NONE, HIT, HIT, NONE, HIT, 6];
    // K9, K10, K11 twice, K12, K13, the slips, and a NaN behind a hit in either order.
    let others = [HIT, 5, HIT, HIT, HIT, 8, 6, 7, HIT, 6, 6];
    assert_eq!(answers[..8], k1_to_k8);
    assert_eq!(answers[8..], others);
}

#[test]
fn four_triangles_are_one_node_and_five_are_three() {
    let vertices = [0.0, 0.0, 0.0, 1.0, 0.0, 0.0, 0.0, 1.0, 0.0];
    let nodes = |times| {
        let tree = built(&mut Log::default(), &vertices, &[0, 1, 2].repeat(times));
        tree.map(|tree| tree.node_count)
    };
    assert_eq!([nodes(4), nodes(5)], [Some(1), Some(3)]);
}
