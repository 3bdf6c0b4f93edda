//! The build of a tree, the check of another builder's, and two boards glued into one.
use super::book::{Book, counted, equal, lent, refused};
use super::casts::Board;
use super::json::{Json, floats, text, wholes};
use super::meshes::{built, tree_json};
use oracle::{
    merge,
    model::{self, Check},
    tree::FlatTree,
};
use probe_rays::{calls, lent as areas, sys};

/// Above so many vertices or triangles a mesh is counted and not written.
const WRITTEN: usize = 100;

/// The bits of a tree, so that zeros of both signs differ.
fn bits(tree: &FlatTree) -> (usize, Vec<u64>, Vec<u64>, Vec<u32>, Vec<u32>) {
    let bits = |boxes: &[f64]| boxes.iter().map(|side| side.to_bits()).collect();
    let (nodes, triangles) = (bits(&tree.node_boxes), bits(&tree.triangle_boxes));
    (
        tree.node_count,
        nodes,
        triangles,
        tree.node_words.clone(),
        tree.order.clone(),
    )
}

/// The areas of a tree, for the library to write.
fn written(tree: &mut FlatTree) -> areas::TreeAreas<'_> {
    areas::TreeAreas {
        node_boxes: &mut tree.node_boxes,
        triangle_boxes: &mut tree.triangle_boxes,
        node_words: &mut tree.node_words,
        order: &mut tree.order,
    }
}

/// How many vertices, triangles and nodes there are, and the tree of a small mesh.
fn mesh_fields(vertices: usize, triangles: usize, tree: &FlatTree) -> Vec<(&'static str, Json)> {
    let mut fields = vec![(
        "counts",
        wholes(&[vertices / 3, triangles / 3, tree.node_count]),
    )];
    if triangles / 3 <= WRITTEN {
        fields.push(("tree", tree_json(tree)));
    }
    fields
}

fn build(book: &mut Book, mesh: &str) {
    let found = book.mesh(mesh);
    let (vertices, triangles) = (found.vertices.all(), found.triangles.all());
    let n = triangles.len() / 3;
    let mut tree = FlatTree::default().padded(n);
    let (mut work, mut nodes) = (vec![0; n], [0]);
    let number = calls::build(
        &vertices,
        &triangles,
        written(&mut tree),
        &mut work,
        &mut nodes,
    );
    tree.node_count = nodes[0];
    let plain = built(&vertices, &triangles);
    let library = counted(number, nodes[0]).map(|_| bits(&tree));
    let model = plain.as_ref().map(bits).map_err(|&number| number);
    assert_eq!(
        library, model,
        "{mesh}: the library's tree, then the plain model's"
    );
    let answer = match plain {
        Ok(tree) => Json::Object(mesh_fields(vertices.len(), triangles.len(), &tree)),
        Err(number) => refused(number),
    };
    book.write("Mesh", mesh, vec![("mesh", text(mesh))], answer);
}

fn check(book: &mut Book, mesh: &str, why: &str, tree: &FlatTree) {
    let found = book.mesh(mesh);
    let (vertices, triangles) = (found.vertices.all(), found.triangles.all());
    let mut marks = vec![0; triangles.len()];
    let (library, plain) = lent(tree);
    let answer_of = match calls::tree_check(&vertices, &triangles, &library, &mut marks) {
        sys::YES => Check::Yes,
        sys::NO => Check::No,
        number => Check::Refused(number),
    };
    let answer = match equal(
        why,
        answer_of,
        model::tree_check(&vertices, &triangles, plain, marks.len()),
    ) {
        Check::Yes => text("fits"),
        Check::No => text("does not fit"),
        Check::Refused(number) => refused(number),
    };
    let arguments = vec![("mesh", text(mesh)), ("tree", tree_json(tree))];
    book.write("Mesh.with_tree", why, arguments, answer);
}

/// A copy of a tree with one thing changed.
fn with(tree: &FlatTree, change: impl FnOnce(&mut FlatTree)) -> FlatTree {
    let mut changed = tree.clone();
    change(&mut changed);
    changed
}

fn checks(book: &mut Book) {
    let own = book.mesh("board").tree().expect("a board has a tree");
    let leaf = book
        .mesh("board in one leaf")
        .tree()
        .expect("a board has a tree");
    check(book, "board", "the tree that is built", &own);
    check(book, "board", "one leaf of all triangles", &leaf);
    check(
        book,
        "board",
        "places past the tree",
        &with(&own, |tree| tree.order.push(99)),
    );
    check(
        book,
        "board",
        "the root's maximum x too small",
        &with(&own, |tree| tree.node_boxes[3] = 59.0),
    );
    check(
        book,
        "board",
        "a triangle's box too small",
        &with(&own, |tree| tree.triangle_boxes[4] = 39.0),
    );
    check(
        book,
        "board",
        "a child that is the other",
        &with(&own, |tree| tree.node_words[2] = tree.node_words[1]),
    );
    check(
        book,
        "board",
        "a triangle named twice",
        &with(&own, |tree| tree.order[0] = tree.order[1]),
    );
    check(
        book,
        "board",
        "a node count of 1",
        &with(&own, |tree| tree.node_count = 1),
    );
    check(
        book,
        "board",
        "a node count above twice the triangles",
        &with(&own, |tree| tree.node_count = 25),
    );
    check(
        book,
        "board",
        "node boxes too short",
        &with(&own, |tree| tree.node_boxes.truncate(12 * 12 - 1)),
    );
    check(
        book,
        "board",
        "triangle boxes too short",
        &with(&own, |tree| tree.triangle_boxes.truncate(6 * 12 - 1)),
    );
    check(
        book,
        "board",
        "node words too short",
        &with(&own, |tree| tree.node_words.truncate(6 * 12 - 1)),
    );
    check(
        book,
        "board",
        "order too short",
        &with(&own, |tree| tree.order.truncate(11)),
    );
    check(book, "upper board", "another board's tree", &own);
}

/// A board as the library takes it, and as the plain model does.
fn lent_board(board: &Board) -> (areas::BoardRef<'_>, merge::Board<'_>) {
    let (tree, plain) = lent(&board.tree);
    let library = areas::BoardRef {
        vertices: &board.vertices,
        triangles: &board.triangles,
        tree,
    };
    let plain = merge::Board {
        vertices: &board.vertices,
        indices: &board.triangles,
        tree: plain,
    };
    (library, plain)
}

fn glue(book: &mut Book, first: &'static str, second: &'static str, why: &str) {
    let (one, two) = (Board::of(book, first), Board::of(book, second));
    let (first_library, first_plain) = lent_board(&one);
    let (second_library, second_plain) = lent_board(&two);
    let (v, t) = (
        one.vertices.len() + two.vertices.len(),
        one.triangles.len() + two.triangles.len(),
    );
    let mut tree = FlatTree::default().padded(t / 3);
    let (mut vertices, mut triangles, mut marks, mut nodes) =
        (vec![0.0; v], vec![0; t], vec![0; t], [0]);
    let number = calls::merge(
        &first_library,
        &second_library,
        &mut vertices,
        &mut triangles,
        written(&mut tree),
        &mut marks,
        &mut nodes,
    );
    tree.node_count = nodes[0];
    let zeros = FlatTree::default().padded(t / 3);
    let mut glued = merge::Areas {
        vertices: vec![0.0; v],
        indices: vec![0; t],
        node_boxes: zeros.node_boxes,
        triangle_boxes: zeros.triangle_boxes,
        node_words: zeros.node_words,
        order: zeros.order,
    };
    let model = merge::merge(&first_plain, &second_plain, &mut glued, t);
    let answer = match equal(why, counted(number, nodes[0]), model) {
        Err(number) => refused(number),
        Ok(node_count) => {
            let plain = FlatTree {
                node_boxes: glued.node_boxes,
                triangle_boxes: glued.triangle_boxes,
                node_words: glued.node_words,
                order: glued.order,
                node_count,
            };
            equal(why, bits(&tree), bits(&plain));
            equal(why, &vertices, &glued.vertices);
            equal(why, &triangles, &glued.indices);
            let mut fields = mesh_fields(v, t, &plain);
            if v.max(t) / 3 <= WRITTEN {
                fields.push(("vertices", floats(&vertices)));
                fields.push(("triangles", wholes(&triangles)));
            }
            Json::Object(fields)
        }
    };
    book.write(
        "Mesh.glue",
        why,
        vec![("first", text(first)), ("second", text(second))],
        answer,
    );
}

pub fn write(book: &mut Book) {
    for mesh in [
        "triangle",
        "five layers",
        "65,536 layers",
        "65,537 layers",
        "65,536 vertices",
        "65,537 vertices",
        "board",
        "uneven",
        "square at the origin's height",
        "board and a far triangle with a NaN",
        "index past the vertices",
        "no triangle",
        "infinite vertex",
    ] {
        build(book, mesh);
    }
    checks(book);
    glue(book, "board", "upper board", "two boards");
    glue(
        book,
        "upper board",
        "board",
        "the same boards in the other order",
    );
    glue(
        book,
        "uneven",
        "triangle",
        "an uneven surface and a triangle",
    );
    glue(
        book,
        "65,535 layers",
        "triangle",
        "as many triangles as a mesh may have",
    );
    glue(
        book,
        "65,536 layers",
        "triangle",
        "a triangle more than a mesh may have",
    );
    glue(
        book,
        "65,533 vertices",
        "triangle",
        "as many vertices as a mesh may have",
    );
    glue(
        book,
        "65,534 vertices",
        "triangle",
        "a vertex more than a mesh may have",
    );
}
