//! The examples that include/probe_rays.h gives of what a caller may not expect. The answers follow from the definitions there.
use probe_rays::lent::{self, TreeRef};
use probe_rays::{
    ray_height_field, ray_height_ranges, ray_triangle, Cast, Clearance, HeightField, HeightRanges,
    Mesh, PlainMesh, Ray, Refusal,
};

fn down(origin: [f64; 3], max_distance: f64) -> Ray {
    Ray::new(origin, [0.0, 0.0, -1.0], max_distance)
}

/// 1.0000305, 1.00002 and 1.00004 are all read as 1 + 2^-15.
#[test]
fn near_and_the_maximum_are_read_on_the_grid() {
    let part = PlainMesh::new(
        [[0.0, 0.0, 0.0], [10.0, 0.0, 0.0], [0.0, 10.0, 0.0]],
        [[0, 1, 2]],
    );
    let from = [1.0, 1.0, 1.0000305];
    for ray in [down(from, 1.00002), down(from, 2.0).with_near(1.00004)] {
        assert_eq!(part.cast(&ray), Cast::None);
        assert!(
            matches!(part.cast_exact(&ray), Cast::Hit(hit) if hit.distance == 1.0 + 1.0 / 32_768.0)
        );
    }
}

/// 1.4e-5 mm is less than half a unit of 2^-15 mm.
#[test]
fn the_grid_flattens_a_sliver() {
    let sliver = PlainMesh::new(
        [[0.0, 0.0, 0.0], [10.0, 0.0, 0.0], [0.0, 1.4e-5, 0.0]],
        [[0, 1, 2]],
    );
    let ray = down([1.0, 5e-6, 1.0], 2.0);
    assert!(matches!(sliver.cast(&ray), Cast::Hit(_)));
    assert_eq!(sliver.cast_exact(&ray), Cast::None);
}

/// The segment meets z = 0 at x = -0.5, beside the grid; its box touches the grid.
#[test]
fn possible_is_no_hit() {
    let half = 0.5_f64.sqrt();
    let ray = Ray::new([-1.5, 0.5, 1.0], [half, 0.0, -half], 3.5);
    let zeros = [0.0; 4];
    let (rows, columns, spacing) = (2, 2, [1.0; 2]);
    let ranges = HeightRanges {
        rows,
        columns,
        spacing,
        lows: &zeros,
        highs: &zeros,
    };
    assert_eq!(ray_height_ranges(&ray, &ranges), Clearance::Possible(0));
    let field = HeightField {
        rows,
        columns,
        spacing,
        heights: &zeros,
    };
    assert_eq!(ray_height_field(&ray, &field), Cast::None);
}

/// The segment ends at z = 0, and the triangle's box is at z = -1e-17; the triangle cast rounds the distance to 1.
#[test]
fn a_triangle_whose_box_does_not_touch_is_not_listed() -> Result<(), Refusal> {
    let corners = [[0.0, 0.0, -1e-17], [1.0, 0.0, -1e-17], [0.0, 1.0, -1e-17]];
    let ray = down([0.25, 0.25, 1.0], 1.0);
    assert!(matches!(ray_triangle(&ray, &corners), Cast::Hit(hit) if hit.distance == 1.0));
    let mut mesh = Mesh::build(corners, [[0, 1, 2]])?;
    assert_eq!(mesh.cast(&ray), Cast::None);
    assert!(mesh.cast_all(&ray)?.is_empty());
    Ok(())
}

/// Triangle 0 is out of range, and triangle 1 has an index past the vertices. Without a tree 5 comes first; through a tree that
/// does not pass the check, the lowest index does.
#[test]
fn twelve_before_five_through_an_unchecked_tree() {
    let vertices = [0.0, 0.0, 9_000.0, 1.0, 0.0, 9_000.0, 0.0, 1.0, 9_000.0];
    let triangles = [0, 1, 2, 0, 1, 7];
    let ray = down([0.0, 0.0, 1.0], 1.0);
    let without = lent::ray_mesh_exact_plain(&ray, &vertices, &triangles);
    assert_eq!(without, Cast::Refused(Refusal::OutOfBounds));
    let mut node_boxes = [0.0; 24];
    node_boxes[..6].copy_from_slice(&[-1e9, -1e9, -1e9, 1e9, 1e9, 1e9]);
    let mut node_words = [0; 12];
    node_words[2] = 2;
    let tree = TreeRef {
        nodes: 1,
        node_boxes: &node_boxes,
        triangle_boxes: &[0.0; 12],
        node_words: &node_words,
        order: &[0, 1],
    };
    let through = lent::ray_mesh_exact(&ray, &vertices, &triangles, &vertices, &tree, &mut [0; 2]);
    assert_eq!(through, Cast::Refused(Refusal::OutOfRange));
}
