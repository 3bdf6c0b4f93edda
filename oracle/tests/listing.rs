//! The model of document 02's listing: by hand on two triangles above each other, and beside the mesh cast's model.

use oracle::{
    answer::{Answer, Ray},
    cases,
    listing::{self, HitArea},
    model,
    tree::{self, FlatTree},
};

/// Document 01's T at height 0, and once more at height -1.
const VERTICES: [f64; 18] = [
    0.0, 0.0, 0.0, 1.0, 0.0, 0.0, 0.0, 1.0, 0.0, //
    0.0, 0.0, -1.0, 1.0, 0.0, -1.0, 0.0, 1.0, -1.0,
];
const INDICES: [u32; 6] = [0, 1, 2, 3, 4, 5];

fn upward(maximum: f64, near: f64) -> Ray {
    Ray {
        origin: [0.25, 0.25, -3.0],
        direction: [0.0, 0.0, 1.0],
        maximum,
        near,
    }
}

type Listed = (Result<usize, u32>, Vec<u32>, Vec<f64>);

/// A listing in areas of 9 and 9.0.
fn listed(ray: &Ray, tree: &FlatTree, places: usize, numbers: usize) -> Listed {
    let (mut indices, mut numbers) = (vec![9; places], vec![9.0; numbers]);
    let area = &mut HitArea {
        indices: &mut indices,
        numbers: &mut numbers,
    };
    let (list, stack) = (2, tree.node_count + 1);
    let found = listing::ray_mesh_all(
        ray,
        &VERTICES,
        &INDICES,
        &VERTICES,
        tree.into(),
        list,
        stack,
        area,
    );
    (found, indices, numbers)
}

fn built() -> FlatTree {
    tree::build(&VERTICES, &INDICES)
        .expect("two triangles")
        .padded(2)
}

#[test]
fn by_hand() {
    let (tree, ray) = (built(), upward(5.0, 0.0));
    let upper = [3.0, 0.0, 0.0, -1.0];
    let lower = [2.0, 0.0, 0.0, -1.0];
    let rest = [9.0];
    // both, then one number that belongs to no place
    let numbers = [&lower[..], &upper, &rest].concat();
    assert_eq!(listed(&ray, &tree, 3, 9), (Ok(2), vec![1, 0, 9], numbers));
    // near at the lower one's distance, and just above it
    assert_eq!(listed(&upward(5.0, 2.0), &tree, 2, 8).0, Ok(2));
    let numbers = [upper, [9.0; 4]].concat();
    assert_eq!(
        listed(&upward(5.0, 2.0_f64.next_up()), &tree, 2, 8),
        (Ok(1), vec![0, 9], numbers)
    );
    // fewer places than hits: the lesser of both slices counts, and all of them is zero
    assert_eq!(
        listed(&ray, &tree, 2, 7),
        (Err(3), vec![0; 2], vec![0.0; 7])
    );
    assert_eq!(listed(&ray, &tree, 1, 9), (Err(3), vec![0], vec![0.0; 9]));
    // near above the maximum, and a maximum below both
    assert_eq!(
        listed(&upward(5.0, 5.5), &tree, 1, 5),
        (Err(1), vec![9], vec![9.0; 5])
    );
    assert_eq!(
        listed(&upward(1.0, 0.0), &tree, 1, 5),
        (Ok(0), vec![9], vec![9.0; 5])
    );
}

#[test]
fn beside_the_mesh_cast() {
    let (mut hit, mut none, mut refused) = (0, 0, 0);
    for number in 0..2_000 {
        let case = cases::case(107, number);
        let n = case.indices.len() / 3;
        let (mut indices, mut numbers) = (vec![9; n], vec![9.0; 4 * n]);
        let area = &mut HitArea {
            indices: &mut indices,
            numbers: &mut numbers,
        };
        let (list, stack) = (case.list.len(), case.stack.len());
        let (vertices, pose) = (&case.vertices, &case.cast_vertices);
        let tree = &case.tree;
        let cast = model::ray_mesh(
            &case.ray,
            vertices,
            &case.indices,
            pose,
            tree.into(),
            list,
            stack,
        );
        let found = listing::ray_mesh_all(
            &case.ray,
            vertices,
            &case.indices,
            pose,
            tree.into(),
            list,
            stack,
            area,
        );
        match cast {
            Answer::Refused(number) => {
                refused += 1;
                assert_eq!(found, Err(number));
            }
            Answer::None => {
                none += 1;
                assert_eq!(found, Ok(0));
            }
            Answer::Hit {
                distance, index, ..
            } => {
                hit += 1;
                let found = found.expect("a place for each triangle");
                assert!(
                    found > 0 && Some(indices[0]) == index,
                    "the mesh cast's hit is the first"
                );
                assert_eq!(numbers[0], distance);
                let depths = numbers[..4 * found].iter().step_by(4);
                assert!(depths.is_sorted());
            }
        }
    }
    assert!(
        hit > 100 && none > 100 && refused > 100,
        "{hit}, {none}, {refused}"
    );
}
