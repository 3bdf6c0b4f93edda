//! Cabinets of many parts, and meshes cut into pieces.
use super::book::{Book, Field, agreed, answer_json, answer_of, equal, ray_json, refused};
use super::casts::{Board, hits_json};
use super::json::{Json, floats, text, whole};
use super::rays::{aslant, down, from, lent};
use oracle::{
    answer::{Answer, Ray},
    cabinet::{self, Areas, Part, Span},
    mesh_exact, mesh_plain,
};
use probe_rays::cabinet::{AreasRef, ray_cabinet};
use probe_rays::sys;

type Placed<'a> = (&'a str, [f64; 3]);

/// Appends a part's numbers to an area, and returns their range.
fn appended<T: Copy>(area: &mut Vec<T>, more: &[T]) -> Span {
    let start = area.len();
    area.extend(more);
    Span {
        start,
        length: more.len(),
    }
}

/// The parts, each with its own copy of its mesh in the shared areas; the most triangles and the most nodes of a part.
fn laid_out(book: &Book, placed: &[Placed]) -> (Vec<Part>, Areas, [usize; 2]) {
    let (mut areas, mut most) = (Areas::default(), [0, 0]);
    let mut part = |&(mesh, origin): &Placed| {
        let board = Board::of(book, mesh);
        most = [
            most[0].max(board.triangles.len() / 3),
            most[1].max(board.tree.node_count),
        ];
        Part {
            origin,
            nodes: board.tree.node_count,
            vertices: appended(&mut areas.vertices, &board.vertices),
            triangles: appended(&mut areas.triangles, &board.triangles),
            node_boxes: appended(&mut areas.node_boxes, &board.tree.node_boxes),
            triangle_boxes: appended(&mut areas.triangle_boxes, &board.tree.triangle_boxes),
            node_words: appended(&mut areas.node_words, &board.tree.node_words),
            order: appended(&mut areas.order, &board.tree.order),
        }
    };
    let parts = placed.iter().map(&mut part).collect();
    (parts, areas, most)
}

fn library_part(part: &Part) -> sys::Part {
    let span = |span: Span| sys::Span {
        start: span.start,
        length: span.length,
    };
    let [x, y, z] = part.origin;
    sys::Part {
        origin: sys::Vec3 { x, y, z },
        nodes: part.nodes,
        vertices: span(part.vertices),
        triangles: span(part.triangles),
        node_boxes: span(part.node_boxes),
        triangle_boxes: span(part.triangle_boxes),
        node_words: span(part.node_words),
        order: span(part.order),
    }
}

/// A cast at parts; without a limit if there is none.
fn cast(book: &mut Book, why: &str, placed: &[Placed], ray: Ray, limit: Option<usize>) {
    let (parts, areas, [most, most_nodes]) = laid_out(book, placed);
    let (mut list, mut stack) = (vec![0; most], vec![0; most_nodes + 1]);
    let (mut hit, mut index, mut part, mut spent) = ([0.0; 4], [0], [0], [0]);
    let shared = AreasRef {
        vertices: &areas.vertices,
        triangles: &areas.triangles,
        node_boxes: &areas.node_boxes,
        triangle_boxes: &areas.triangle_boxes,
        node_words: &areas.node_words,
        order: &areas.order,
    };
    let given: Vec<sys::Part> = parts.iter().map(library_part).collect();
    let most_taken = limit.unwrap_or(usize::MAX);
    let number = ray_cabinet(
        &lent(&ray),
        &given,
        shared,
        most_taken,
        &mut list,
        &mut stack,
        &mut hit,
        &mut index,
        &mut part,
        &mut spent,
    );
    let model = cabinet::ray_cabinet(&ray, &parts, &areas, most_taken, most, most_nodes + 1, true);
    let answer = agreed(why, answer_of(number, &hit, Some(index[0])), model.answer);
    let spent = equal(why, spent[0], model.spent.unwrap_or(0));
    let mut fields = vec![
        ("cast", answer_json(&answer)),
        ("spent", whole(spent)),
        (
            "nodes",
            whole(parts.iter().map(|part| part.nodes).sum::<usize>()),
        ),
    ];
    if matches!(answer, Answer::Hit { .. }) {
        fields.push(("part", whole(equal(why, part[0], model.part))));
    }
    let part_json = |(mesh, origin): &Placed| {
        Json::Object(vec![("mesh", text(*mesh)), ("origin", floats(origin))])
    };
    let mut arguments = vec![
        ("parts", Json::List(placed.iter().map(part_json).collect())),
        ("ray", ray_json(&ray)),
    ];
    arguments.extend(limit.map(|limit| ("limit", whole(limit))));
    book.write("Cabinet.cast", why, arguments, Json::Object(fields));
}

fn casts(book: &mut Book) {
    let origin = [1.0, 2.0, 3.0];
    let rising: &[Placed] = &[
        ("triangle", [0.0; 3]),
        ("uneven", origin),
        ("board", [0.0, 0.0, -30.0]),
    ];
    let falling: &[Placed] = &[
        ("uneven", origin),
        ("board", [0.0, 0.0, -30.0]),
        ("triangle", [0.0; 3]),
    ];
    let leaves: &[Placed] = &[
        ("five layers", [0.0; 3]),
        ("board in one leaf", [0.5, 0.25, -20.0]),
    ];
    let ray = aslant(4.0, 6.0, 33.0, 90.0);
    cast(book, "the largest part is in the middle", rising, ray, None);
    cast(book, "the largest part is the first", falling, ray, None);
    cast(
        book,
        "the largest part has one node, and the first has three",
        leaves,
        down(0.25, 0.25, 1.0, 10.0),
        None,
    );
    cast(
        book,
        "the part of three nodes is the last",
        &[leaves[1], leaves[0]],
        down(0.25, 0.25, 1.0, 10.0),
        None,
    );
    cast(
        book,
        "near past the first part",
        rising,
        from(ray, 34.0),
        None,
    );
    let squares: &[Placed] = &[
        ("square of 31", [0.0; 3]),
        ("square of 31", [3.0, 2.0, 10.0]),
        ("triangle", [100.0, 0.0, 0.0]),
        ("square of 31", [1.0, 5.0, 10.0]),
    ];
    let through = down(12.25, 8.5, 20.0, 50.0);
    cast(
        book,
        "a mesh placed three times; of equally near parts the lowest",
        squares,
        through,
        None,
    );
    cast(
        book,
        "a limit that just suffices",
        squares,
        through,
        Some(4),
    );
    cast(
        book,
        "a limit that does not suffice takes precedence over a hit",
        squares,
        through,
        Some(3),
    );
    cast(book, "a limit of 0", squares, through, Some(0));
    cast(
        book,
        "beside every part",
        squares,
        down(-5.0, 8.5, 20.0, 50.0),
        None,
    );
    cast(
        book,
        "a ray that is refused",
        squares,
        down(12.25, 8.5, 20.0, -1.0),
        Some(4),
    );
    cast(book, "no part", &[], through, Some(0));
    let most = f64::MAX;
    cast(
        book,
        "a moved origin past every float",
        &[("triangle", [most, 0.0, 0.0])],
        down(-most, 0.0, 0.0, 1.0),
        None,
    );
    cast(
        book,
        "a refusal of a later part",
        &[squares[0], ("triangle", [most, 0.0, 0.0])],
        down(-most, 0.0, 0.0, 1.0),
        None,
    );
}

/// How many pieces a mesh is cut into, as far as the definition says: one, or one for each triangle, or two.
fn large(book: &mut Book, mesh: &str, most: Option<usize>, answer: Json) {
    let mut arguments = vec![("mesh", text(mesh))];
    arguments.extend(most.map(|most| ("most", whole(most))));
    book.write("LargeMesh", mesh, arguments, answer);
}

fn pieces(count: usize) -> Json {
    Json::Object(vec![("pieces", whole(count))])
}

fn in_pieces(mesh: &str, most: usize, ray: &Ray) -> Vec<Field> {
    vec![
        ("mesh", text(mesh)),
        ("most", whole(most)),
        ("ray", ray_json(ray)),
    ]
}

/// A ray at a mesh in pieces of at most so many triangles: what the exact cast of the whole mesh gives.
fn large_exact(book: &mut Book, mesh: &str, most: usize, why: &str, ray: Ray) {
    let board = Board::of(book, mesh);
    let exact = mesh_exact::ray_mesh_exact_plain(&ray, &board.vertices, &board.triangles);
    book.write(
        "LargeMesh.cast",
        why,
        in_pieces(mesh, most, &ray),
        answer_json(&exact),
    );
    let all = board.cast_exact_all(why, &ray);
    book.write(
        "LargeMesh.cast_exact_all",
        why,
        in_pieces(mesh, most, &ray),
        hits_json(all),
    );
}

/// The same, and what the rounded cast of the whole mesh gives: of equally near triangles of different pieces it may be another.
fn large_casts(book: &mut Book, mesh: &str, most: usize, why: &str, ray: Ray) {
    large_exact(book, mesh, most, why, ray);
    let board = Board::of(book, mesh);
    let rounded = mesh_plain::ray_mesh_plain(&ray, &board.vertices, &board.triangles);
    book.write(
        "LargeMesh.cast_rounded",
        why,
        in_pieces(mesh, most, &ray),
        answer_json(&rounded),
    );
    let all = board.cast_all(why, &ray);
    book.write(
        "LargeMesh.cast_all",
        why,
        in_pieces(mesh, most, &ray),
        hits_json(all),
    );
}

fn larges(book: &mut Book) {
    large(book, "uneven", None, pieces(1));
    large(book, "uneven", Some(18), pieces(1));
    large(book, "uneven", Some(1), pieces(18));
    large(book, "uneven", Some(0), pieces(18));
    large(book, "65,536 layers", None, pieces(1));
    large(book, "65,537 layers", None, pieces(2));
    large(book, "65,537 layers", Some(100_000), pieces(2));
    large(book, "no triangle", None, refused(5));
    large(book, "index past the vertices", None, refused(5));
    large(book, "infinite vertex", None, refused(5));
    large_casts(
        book,
        "square of 31",
        1,
        "on the diagonal, where the rounded cast passes",
        down(1.0, 30.0, 1.0, 2.0),
    );
    large_casts(
        book,
        "square of 31",
        1,
        "near past the square",
        from(down(1.0, 30.0, 1.0, 2.0), 1.5),
    );
    large_casts(book, "uneven", 4, "aslant", aslant(3.0, 4.0, 30.0, 80.0));
    large_casts(
        book,
        "uneven",
        18,
        "aslant, in one piece",
        aslant(3.0, 4.0, 30.0, 80.0),
    );
    large_casts(
        book,
        "uneven",
        4,
        "aslant, from near on",
        from(aslant(3.0, 4.0, 30.0, 80.0), 31.5),
    );
    large_casts(
        book,
        "board",
        3,
        "through the board",
        down(30.25, 20.125, 100.0, 200.0),
    );
    large_casts(
        book,
        "board",
        3,
        "beside it",
        down(61.0, 20.125, 100.0, 200.0),
    );
    large_casts(
        book,
        "board",
        3,
        "a ray that is refused",
        down(30.25, 20.125, 100.0, -1.0),
    );
    large_casts(
        book,
        "two layers",
        1,
        "of equally near triangles the first",
        down(0.25, 0.25, 1.0, 1.0),
    );
    let halves = "halves, the first at the larger x";
    large_exact(
        book,
        halves,
        1,
        "the pieces have two equally near triangles in the other order",
        down(4.0, 2.0, 3.0, 5.0),
    );
    large_casts(
        book,
        "board and a far triangle with a NaN",
        3,
        "a NaN far off",
        down(30.25, 20.125, 100.0, 200.0),
    );
    large_casts(
        book,
        "square of 31",
        1,
        "beyond 8,192 above",
        down(1.0, 2.0, 8_192.5, 9_000.0),
    );
}

pub fn write(book: &mut Book) {
    casts(book);
    larges(book);
}
