//! The refusals in document 01's order, and what the lent areas hold after each: its table.
use probe_rays::lent::{self, TreeAreas, TreeRef};
use probe_rays::{
    ray_height_field, ray_level_set, ray_plane, sys, Cast, HeightField, LevelSet, Mesh, Plane, Ray,
    Refusal, Scratch, Tree, TreeError,
};

const DOWN: [f64; 3] = [0.0, 0.0, -1.0];
/// A square of two triangles in the plane z = 0.
const SQUARE: [f64; 12] = [0.0, 0.0, 0.0, 4.0, 0.0, 0.0, 4.0, 4.0, 0.0, 0.0, 4.0, 0.0];
const HALVES: [u32; 6] = [0, 1, 2, 0, 2, 3];
/// What areas hold before a call, so that a change shows.
const MARK: u32 = 77;

/// Areas for n triangles with some places too many, marked.
#[derive(Clone, PartialEq, Debug)]
struct Areas {
    node_boxes: Vec<f64>,
    triangle_boxes: Vec<f64>,
    node_words: Vec<u32>,
    order: Vec<u32>,
    work: Vec<u32>,
}

fn marked(n: usize) -> Areas {
    Areas {
        node_boxes: vec![f64::from(MARK); lent::node_boxes_length(n) + 2],
        triangle_boxes: vec![f64::from(MARK); lent::triangle_boxes_length(n) + 2],
        node_words: vec![MARK; lent::node_words_length(n) + 2],
        order: vec![MARK; lent::order_length(n) + 2],
        work: vec![MARK; lent::work_length(n) + 2],
    }
}

impl Areas {
    fn build(&mut self, vertices: &[f64], triangles: &[u32]) -> Result<usize, Refusal> {
        let areas = TreeAreas {
            node_boxes: &mut self.node_boxes,
            triangle_boxes: &mut self.triangle_boxes,
            node_words: &mut self.node_words,
            order: &mut self.order,
        };
        lent::build(vertices, triangles, areas, &mut self.work)
    }

    fn tree(&self, nodes: usize) -> TreeRef<'_> {
        TreeRef {
            nodes,
            node_boxes: &self.node_boxes,
            triangle_boxes: &self.triangle_boxes,
            node_words: &self.node_words,
            order: &self.order,
        }
    }

    fn all_zero(&self) -> bool {
        self.node_boxes
            .iter()
            .chain(&self.triangle_boxes)
            .all(|number| *number == 0.0)
            && self
                .node_words
                .iter()
                .chain(&self.order)
                .all(|word| *word == 0)
    }
}

fn down(x: f64, y: f64) -> Ray {
    Ray::new([x, y, 5.0], DOWN, 10.0)
}

/// The square's tree, its areas and its node count: two triangles make one leaf.
fn square() -> (Areas, usize) {
    let mut areas = marked(2);
    let nodes = areas.build(&SQUARE, &HALVES).unwrap();
    assert_eq!(nodes, 1);
    (areas, nodes)
}

#[test]
fn numbers_and_names() {
    for number in 0..300 {
        assert_eq!(Refusal::from_number(number).number(), number);
    }
    assert_eq!(Refusal::from_number(1), Refusal::InvalidInput);
    assert_eq!(Refusal::from_number(8), Refusal::NotConvergent);
    assert_eq!(Refusal::from_number(11), Refusal::NotRepresentable);
    assert_eq!(Refusal::from_number(12), Refusal::OutOfRange);
    assert_eq!(Refusal::from_number(13), Refusal::Other(13));
    assert!(Refusal::NoRoom
        .to_string()
        .starts_with("refused 3, no room"));
}

#[test]
fn a_build_writes_its_tree_and_nothing_past_it() {
    let (areas, nodes) = square();
    // one leaf from place 0 with two triangles, in the box of the square
    assert_eq!(areas.node_words[..3], [0, 0, 2]);
    assert_eq!(areas.node_boxes[..6], [0.0, 0.0, 0.0, 4.0, 4.0, 0.0]);
    assert_eq!(areas.order[..2], [0, 1]);
    let past = marked(2);
    assert_eq!(areas.node_words[3 * nodes..], past.node_words[3 * nodes..]);
    assert_eq!(areas.node_boxes[6 * nodes..], past.node_boxes[6 * nodes..]);
    assert_eq!(areas.triangle_boxes[12..], past.triangle_boxes[12..]);
    assert_eq!(areas.order[2..], past.order[2..]);
}

#[test]
fn a_build_refuses_2_before_3_and_changes_nothing() {
    let mut areas = marked(2);
    // three does not divide the length, and there is no room
    areas.order.clear();
    let before = areas.clone();
    assert_eq!(areas.build(&SQUARE[..11], &HALVES), Err(Refusal::BadShape));
    assert_eq!(areas, before);
    assert_eq!(areas.build(&SQUARE, &HALVES), Err(Refusal::NoRoom));
    assert_eq!(areas, before);
}

#[test]
fn each_area_one_place_short_is_3() {
    let shorten: [fn(&mut Areas); 5] = [
        |areas| areas.node_boxes.truncate(23),
        |areas| areas.triangle_boxes.truncate(11),
        |areas| areas.node_words.truncate(11),
        |areas| areas.order.truncate(1),
        |areas| areas.work.truncate(1),
    ];
    for short in shorten {
        let mut areas = marked(2);
        short(&mut areas);
        let before = areas.clone();
        assert_eq!(areas.build(&SQUARE, &HALVES), Err(Refusal::NoRoom));
        assert_eq!(areas, before);
    }
}

#[test]
fn a_build_that_refuses_5_leaves_zeros() {
    let mut areas = marked(2);
    // there is no vertex 4
    assert_eq!(
        areas.build(&SQUARE, &[0, 1, 2, 0, 2, 4]),
        Err(Refusal::OutOfBounds)
    );
    assert!(areas.all_zero());
}

#[test]
fn a_query_lists_and_refuses() {
    let (areas, nodes) = square();
    let (mut list, mut stack) = (vec![MARK; 5], vec![MARK; 2]);
    // both boxes are the whole square
    let found = lent::query(
        [1.0, 1.0, 0.0],
        [1.0, 1.0, 0.0],
        2,
        &areas.tree(nodes),
        &mut list,
        &mut stack,
    );
    assert_eq!(found, Ok(2));
    assert_eq!(list, [0, 1, MARK, MARK, MARK]);
    // above the square
    let found = lent::query(
        [1.0, 1.0, 1.0],
        [1.0, 1.0, 2.0],
        2,
        &areas.tree(nodes),
        &mut list,
        &mut stack,
    );
    assert_eq!(found, Ok(0));
    // 1: a box that is not valid; before 2: too many nodes; before 3: no room
    list.truncate(1);
    let found = lent::query(
        [2.0, 1.0, 0.0],
        [1.0, 1.0, 0.0],
        2,
        &areas.tree(5),
        &mut list,
        &mut stack,
    );
    assert_eq!(found, Err(Refusal::InvalidInput));
    let found = lent::query([1.0; 3], [1.0; 3], 2, &areas.tree(5), &mut list, &mut stack);
    assert_eq!(found, Err(Refusal::BadShape));
    let found = lent::query(
        [1.0; 3],
        [1.0; 3],
        2,
        &areas.tree(nodes),
        &mut list,
        &mut stack,
    );
    assert_eq!(found, Err(Refusal::NoRoom));
    assert_eq!(list, [0]);
}

#[test]
fn a_broken_tree_ends_in_5_with_zeros() {
    let (mut areas, nodes) = square();
    // a branch whose children are itself
    areas.node_words[..3].copy_from_slice(&[1, 0, 0]);
    let (mut list, mut stack) = (vec![MARK; 4], vec![MARK; 2]);
    let found = lent::query(
        [1.0, 1.0, 0.0],
        [1.0, 1.0, 0.0],
        2,
        &areas.tree(nodes),
        &mut list,
        &mut stack,
    );
    assert_eq!(found, Err(Refusal::OutOfBounds));
    assert_eq!(list, [0; 4]);
    let cast = lent::ray_mesh(
        &down(1.0, 2.0),
        &SQUARE,
        &HALVES,
        &SQUARE,
        &areas.tree(nodes),
        &mut list,
        &mut stack,
    );
    assert_eq!(cast, Cast::Refused(Refusal::OutOfBounds));
    let mut marks = vec![MARK; 6];
    assert_eq!(
        lent::tree_check(&SQUARE, &HALVES, &areas.tree(nodes), &mut marks),
        Ok(false)
    );
}

#[test]
fn a_mesh_cast_refuses_1_2_3_4_in_order() {
    let (areas, nodes) = square();
    let long = Ray::new([1.0, 2.0, 5.0], [0.0, 0.0, -2.0], 10.0);
    let (mut list, mut stack) = (vec![MARK; 1], vec![MARK; 2]);
    let five = [[1.0; 3]; 5];
    let pose = five.as_flattened();
    let ray = down(1.0, 2.0);
    let cast = lent::ray_mesh(
        &long,
        &SQUARE,
        &HALVES,
        pose,
        &areas.tree(9),
        &mut list,
        &mut stack,
    );
    assert_eq!(cast, Cast::Refused(Refusal::InvalidInput));
    let cast = lent::ray_mesh(
        &ray,
        &SQUARE,
        &HALVES,
        pose,
        &areas.tree(9),
        &mut list,
        &mut stack,
    );
    assert_eq!(cast, Cast::Refused(Refusal::BadShape));
    let cast = lent::ray_mesh(
        &ray,
        &SQUARE,
        &HALVES,
        pose,
        &areas.tree(nodes),
        &mut list,
        &mut stack,
    );
    assert_eq!(cast, Cast::Refused(Refusal::NoRoom));
    assert_eq!((&list, &stack), (&vec![MARK], &vec![MARK; 2]));
    let mut list = vec![MARK; 2];
    let cast = lent::ray_mesh(
        &ray,
        &SQUARE,
        &HALVES,
        pose,
        &areas.tree(nodes),
        &mut list,
        &mut stack,
    );
    assert_eq!(cast, Cast::Refused(Refusal::WrongPose));
    assert_eq!((list, stack), (vec![MARK; 2], vec![MARK; 2]));
}

#[test]
fn a_tree_check_refuses_2_and_3() {
    let (areas, nodes) = square();
    let mut marks = vec![MARK; 5];
    let refused = lent::tree_check(&SQUARE[..11], &HALVES, &areas.tree(nodes), &mut marks);
    assert_eq!(refused, Err(Refusal::BadShape));
    let refused = lent::tree_check(&SQUARE, &HALVES, &areas.tree(nodes), &mut marks);
    assert_eq!(refused, Err(Refusal::NoRoom));
    assert_eq!(marks, [MARK; 5]);
    let mut marks = vec![MARK; 6];
    assert_eq!(
        lent::tree_check(&SQUARE, &HALVES, &areas.tree(nodes), &mut marks),
        Ok(true)
    );
}

#[test]
fn refusals_1_and_2_go_before_a_result_slice_that_is_too_short() {
    // a ray that is not admitted, and three places for a hit
    let mut hit = [f64::from(MARK); 3];
    // SAFETY: the slice is as long as said.
    let answer = unsafe {
        sys::probe_ray_plane(
            0.0,
            0.0,
            2.0,
            0.0,
            0.0,
            -2.0,
            5.0,
            0.0,
            0.0,
            1.0,
            0.0,
            hit.as_mut_ptr(),
            hit.len(),
        )
    };
    assert_eq!(answer, sys::REFUSED_INVALID_INPUT);
    assert_eq!(hit, [f64::from(MARK); 3]);
    // and an empty place for the node count, with lengths that are not admitted
    let mut areas = marked(2);
    let mut nodes: [usize; 0] = [];
    // SAFETY: every slice is as long as said.
    let answer = unsafe {
        sys::probe_build(
            SQUARE.as_ptr(),
            11,
            HALVES.as_ptr(),
            HALVES.len(),
            areas.node_boxes.as_mut_ptr(),
            areas.node_boxes.len(),
            areas.triangle_boxes.as_mut_ptr(),
            areas.triangle_boxes.len(),
            areas.node_words.as_mut_ptr(),
            areas.node_words.len(),
            areas.order.as_mut_ptr(),
            areas.order.len(),
            areas.work.as_mut_ptr(),
            areas.work.len(),
            nodes.as_mut_ptr(),
            nodes.len(),
        )
    };
    assert_eq!(answer, sys::REFUSED_BAD_SHAPE);
    assert_eq!(areas, marked(2));
}

#[test]
fn places_past_a_hit_are_unchanged() {
    let mut hit = [f64::from(MARK); 6];
    // SAFETY: the slice is as long as said.
    let answer = unsafe {
        sys::probe_ray_plane(
            0.0,
            0.0,
            2.0,
            0.0,
            0.0,
            -1.0,
            5.0,
            0.0,
            0.0,
            1.0,
            0.0,
            hit.as_mut_ptr(),
            hit.len(),
        )
    };
    assert_eq!(answer, sys::HIT);
    assert_eq!(hit, [0.0, 0.0, 1.0, 2.0, f64::from(MARK), f64::from(MARK)]);
}

#[test]
fn shapes_outside_the_limits_are_2() {
    let ray = down(0.5, 0.5);
    let tilted = Plane {
        normal: [0.0, 0.0, 1.1],
        distance: 0.0,
    };
    assert_eq!(ray_plane(&ray, &tilted), Cast::Refused(Refusal::BadShape));
    let heights = vec![0.0; 2 * 1025];
    let mut field = HeightField {
        rows: 2,
        columns: 1025,
        spacing: [1.0, 1.0],
        heights: &heights,
    };
    assert_eq!(
        ray_height_field(&ray, &field),
        Cast::Refused(Refusal::BadShape)
    );
    field.columns = 1024;
    // one row too many heights, then just enough
    assert_eq!(
        ray_height_field(&ray, &field),
        Cast::Refused(Refusal::BadShape)
    );
    field.heights = &heights[..2048];
    assert!(matches!(ray_height_field(&ray, &field), Cast::Hit(_)));
    let grid = LevelSet {
        sides: [2, 2, 1],
        origin: [0.0; 3],
        spacing: [1.0; 3],
        values: &[0.0; 4],
    };
    assert_eq!(ray_level_set(&ray, &grid), Cast::Refused(Refusal::BadShape));
}

#[test]
fn a_mesh_at_the_limit_and_past_it() {
    // 65,536 vertices, and 65,536 triangles: a strip of 65,534 and its first one twice more
    let vertices: Vec<[f64; 3]> = (0..65_536)
        .map(|i| [f64::from(i / 2), f64::from(i % 2), 0.0])
        .collect();
    let mut triangles: Vec<[u32; 3]> = (0..65_534).map(|i| [i, i + 1, i + 2]).collect();
    triangles.push([0, 1, 2]);
    triangles.push([0, 1, 2]);
    let mut mesh = Mesh::build(vertices.clone(), triangles.clone()).unwrap();
    let Cast::Hit(hit) = mesh.cast(&down(12_345.25, 0.125)) else {
        panic!("the strip is missed");
    };
    // triangle 24,690 has the corners (12345, 0), (12345, 1), (12346, 0)
    assert_eq!((hit.distance, hit.triangle), (5.0, 24_690));

    triangles.push([0, 1, 2]);
    assert_eq!(
        Mesh::build(vertices.clone(), triangles.clone()).unwrap_err(),
        Refusal::BadShape
    );
    let refused = Mesh::with_tree(vertices, triangles, Tree::default()).unwrap_err();
    assert_eq!(refused, TreeError::Refused(Refusal::BadShape));
    let many = vec![[0.0; 3]; 65_537];
    assert_eq!(
        Mesh::build(many, [[0, 1, 2]]).unwrap_err(),
        Refusal::BadShape
    );
}

#[test]
fn a_mesh_cast_at_other_vertices() {
    let square = [
        [0.0, 0.0, 0.0],
        [4.0, 0.0, 0.0],
        [4.0, 4.0, 0.0],
        [0.0, 4.0, 0.0],
    ];
    let mesh = Mesh::build(square, [[0, 1, 2], [0, 2, 3]]).unwrap();
    let mut scratch = Scratch::new();
    // raised by 1: nearer by 1
    let raised = square.map(|[x, y, z]| [x, y, z + 1.0]);
    let Cast::Hit(hit) = mesh.cast_at(&down(1.0, 3.0), &raised, &mut scratch) else {
        panic!("the raised square is missed");
    };
    assert_eq!((hit.distance, hit.triangle), (4.0, 1));
    let three = mesh.cast_at(&down(1.0, 3.0), &raised[..3], &mut scratch);
    assert_eq!(three, Cast::Refused(Refusal::WrongPose));
}

#[test]
fn a_tree_of_another_builder() {
    // one triangle a leaf: a root, and a leaf for each half of the square
    let square = [
        [0.0, 0.0, 0.0],
        [4.0, 0.0, 0.0],
        [4.0, 4.0, 0.0],
        [0.0, 4.0, 0.0],
    ];
    let halves = [[0, 1, 2], [0, 2, 3]];
    let whole = [0.0, 0.0, 0.0, 4.0, 4.0, 0.0];
    let mut tree = Tree {
        nodes: 3,
        node_boxes: [whole; 4].concat(),
        triangle_boxes: [whole; 2].concat(),
        node_words: vec![1, 1, 2, 0, 0, 1, 0, 1, 1, 0, 0, 0],
        order: vec![1, 0],
    };
    let mut mesh = Mesh::with_tree(square, halves, tree.clone()).unwrap();
    let Cast::Hit(hit) = mesh.cast(&down(1.0, 3.0)) else {
        panic!("the square is missed");
    };
    assert_eq!((hit.distance, hit.triangle), (5.0, 1));
    assert_eq!(mesh.query([0.0; 3], [1.0; 3]), Ok(&[0, 1][..]));
    assert_eq!(mesh.query([1.0; 3], [0.0; 3]), Err(Refusal::InvalidInput));

    // a leaf whose box does not reach its triangle: the check says no, and a cast through it misses
    tree.node_boxes[6..12].copy_from_slice(&[9.0, 9.0, 0.0, 9.0, 9.0, 0.0]);
    let refused = Mesh::with_tree(square, halves, tree.clone()).unwrap_err();
    assert_eq!(refused, TreeError::DoesNotFit);
    let (mut list, mut stack) = ([0; 2], [0; 4]);
    let missed = lent::ray_mesh(
        &down(1.0, 3.0),
        square.as_flattened(),
        halves.as_flattened(),
        square.as_flattened(),
        &tree.as_lent(),
        &mut list,
        &mut stack,
    );
    assert_eq!(missed, Cast::None);

    // an area too short
    tree.order.pop();
    let refused = Mesh::with_tree(square, halves, tree).unwrap_err();
    assert_eq!(refused, TreeError::Refused(Refusal::NoRoom));
}

#[test]
fn no_triangles_and_no_nodes() {
    let mut mesh = Mesh::with_tree([], [], Tree::default()).unwrap();
    assert_eq!(mesh.cast(&down(0.0, 0.0)), Cast::None);
    assert_eq!(mesh.query([0.0; 3], [1.0; 3]), Ok(&[][..]));
}

#[test]
fn a_mesh_may_be_shared() {
    fn shared<T: Send + Sync>() {}
    shared::<Mesh>();
    shared::<Scratch>();
}

#[test]
fn a_direction_is_normalised() {
    for direction in [
        [0.0, 0.0, -3e200],
        [0.0, 0.0, -5e-324],
        [1e-200, 1e200, 3.0],
    ] {
        let ray = Ray::toward([0.0, 0.0, 2.0], direction, 5.0);
        let length = ray
            .direction
            .iter()
            .map(|part| part * part)
            .sum::<f64>()
            .sqrt();
        assert!((length - 1.0).abs() < 1e-12);
    }
    let floor = Plane {
        normal: [0.0, 0.0, 1.0],
        distance: 0.0,
    };
    for direction in [[0.0; 3], [f64::NAN, 0.0, 1.0], [f64::INFINITY, 0.0, 0.0]] {
        let ray = Ray::toward([0.0; 3], direction, 5.0);
        assert_eq!(
            ray_plane(&ray, &floor),
            Cast::Refused(Refusal::InvalidInput)
        );
    }
}
