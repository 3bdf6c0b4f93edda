//! Drills: closed, flat-ended cylinders about a ray's segment, at meshes with a tree and without, and at meshes in pieces.
use super::book::{Book, Field, equal, lent as lent_tree, refused};
use super::casts::Board;
use super::json::{Json, floats, text, whole};
use super::rays::{aslant, down, from, lent};
use oracle::{
    answer::Ray,
    drill::{self, Answer, Drill},
    mesh_exact,
};
use probe_rays::{calls, sys};

const UNIT: f64 = 1.0 / 32_768.0;

fn of(ray: Ray, radius: f64) -> Drill {
    Drill { ray, radius }
}

/// The ray's eight numbers and the radius.
fn numbers(drill: &Drill) -> [f64; 9] {
    let ([x, y, z], [dx, dy, dz]) = (drill.ray.origin, drill.ray.direction);
    [
        x,
        y,
        z,
        dx,
        dy,
        dz,
        drill.ray.maximum,
        drill.ray.near,
        drill.radius,
    ]
}

fn answer_of(number: u32, index: u32) -> Answer {
    match number {
        sys::HIT => Answer::Touched(index),
        sys::NONE => Answer::Clear,
        number => Answer::Refused(number),
    }
}

fn json(answer: &Answer) -> Json {
    match answer {
        Answer::Clear => text("none"),
        Answer::Touched(index) => Json::Object(vec![("touched", whole(*index))]),
        Answer::Refused(number) => refused(*number),
    }
}

fn at(mesh: &str, drill: &Drill) -> Vec<Field> {
    vec![("mesh", text(mesh)), ("drill", floats(&numbers(drill)))]
}

/// The answer without a tree.
fn plainly(why: &str, drill: &Drill, vertices: &[f64], triangles: &[u32]) -> Answer {
    let mut index = [0];
    let number = calls::drill_plain(
        &lent(&drill.ray),
        drill.radius,
        vertices,
        triangles,
        &mut index,
    );
    equal(
        why,
        answer_of(number, index[0]),
        drill::drill_plain(drill, vertices, triangles),
    )
}

/// The answer of a mesh: through its tree, or without it for a mesh with a NaN. The model is that without a tree.
fn through_tree(why: &str, drill: &Drill, board: &Board) -> Answer {
    let (vertices, triangles) = (&board.vertices, &board.triangles);
    if !mesh_exact::mesh_has_numbers(vertices, triangles) {
        return plainly(why, drill, vertices, triangles);
    }
    let (tree, _) = lent_tree(&board.tree);
    let (mut list, mut stack, mut index) =
        (vec![0; triangles.len() / 3], vec![0; tree.nodes + 1], [0]);
    let number = calls::drill(
        &lent(&drill.ray),
        drill.radius,
        vertices,
        triangles,
        &tree,
        &mut list,
        &mut stack,
        &mut index,
    );
    equal(
        why,
        answer_of(number, index[0]),
        drill::drill_plain(drill, vertices, triangles),
    )
}

/// One drill at a mesh: without a tree, through one, and with the mesh in pieces of one triangle.
fn one(book: &mut Book, mesh: &str, why: &str, drill: Drill) {
    let board = Board::of(book, mesh);
    let answer = plainly(why, &drill, &board.vertices, &board.triangles);
    book.write("PlainMesh.drill", why, at(mesh, &drill), json(&answer));
    let answer = through_tree(why, &drill, &board);
    book.write("Mesh.drill", why, at(mesh, &drill), json(&answer));
    let mut arguments = at(mesh, &drill);
    arguments.push(("most", whole(1u32)));
    book.write("LargeMesh.drill", why, arguments, json(&answer));
}

fn many(book: &mut Book, mesh: &str, why: &str, drills: &[Drill]) {
    let board = Board::of(book, mesh);
    let arguments = || {
        let rows = drills.iter().map(|drill| floats(&numbers(drill))).collect();
        vec![("mesh", text(mesh)), ("drills", Json::List(rows))]
    };
    let answers = || {
        Json::List(
            drills
                .iter()
                .map(|drill| json(&through_tree(why, drill, &board)))
                .collect(),
        )
    };
    book.write("Mesh.drill_many", why, arguments(), answers());
    let mut in_pieces = arguments();
    in_pieces.push(("most", whole(1u32)));
    book.write("LargeMesh.drill_many", why, in_pieces, answers());
}

/// Beside a square of 4: 3 and 4 off its corner (4, 0, 0).
fn beside() -> Ray {
    down(7.0, -4.0, 1.0, 2.0)
}

fn at_square(book: &mut Book) {
    let square = "square of 4";
    let mut at = |why: &str, ray: Ray, radius: f64| one(book, square, why, of(ray, radius));
    at("the rim touches a corner exactly", beside(), 5.0);
    at("a unit less", beside(), 5.0 - UNIT);
    at("the radius is read upward", beside(), 4.99998);
    at("upward, and still a unit short", beside(), 4.9999);
    at("the flat end in the face", down(1.0, 3.0, 5.0, 5.0), 0.25);
    at(
        "the flat end a unit above it",
        down(1.0, 3.0, 5.0, 5.0 - UNIT),
        0.25,
    );
    at(
        "the near end in the face",
        from(down(1.0, 3.0, 5.0, 10.0), 5.0),
        0.25,
    );
    at(
        "the near end a unit below it",
        from(down(1.0, 3.0, 5.0, 10.0), 5.0 + UNIT),
        0.25,
    );
    at("both triangles: the lowest", down(2.0, 2.0, 5.0, 10.0), 0.5);
    at("the second triangle alone", down(1.0, 3.0, 5.0, 10.0), 0.5);
    at("a radius of 0 on an edge", down(4.0, 2.0, 5.0, 10.0), 0.0);
    at("a radius of -0 beside it", down(5.0, 2.0, 5.0, 10.0), -0.0);
    at(
        "the least radius above 0 beside it",
        down(5.0, 2.0, 5.0, 10.0),
        5e-324,
    );
    at("the widest", down(2.0, 2.0, 5.0, 10.0), 128.0);
    at(
        "wider than the widest",
        down(2.0, 2.0, 5.0, 10.0),
        128.000_000_01,
    );
    at(
        "a radius that is not a number",
        down(2.0, 2.0, 5.0, 10.0),
        f64::NAN,
    );
    at(
        "an infinite radius",
        down(2.0, 2.0, 5.0, 10.0),
        f64::INFINITY,
    );
    at("a radius below 0", down(2.0, 2.0, 5.0, 10.0), -1.0);
    at(
        "1 of the radius before 12 of the ray",
        down(2.0, 2.0, 8_192.5, 10.0),
        -1.0,
    );
    at("the ray out of range", down(2.0, 2.0, 8_192.5, 10.0), 1.0);
    at(
        "near above the maximum",
        from(down(2.0, 2.0, 5.0, 10.0), 11.0),
        1.0,
    );
    at(
        "aslant beside the square",
        aslant(5.0, -3.0, 6.0, 20.0),
        3.5,
    );
    at("aslant, clear", aslant(5.0, -3.0, 6.0, 20.0), 1.5);
}

fn at_parts(book: &mut Book) {
    let opening = |radius| of(down(5.0, 5.0, 1.0, 2.0), radius);
    one(
        book,
        "face with an opening of 2",
        "through the opening",
        opening(0.999),
    );
    one(
        book,
        "face with an opening of 2",
        "the opening's side, exactly",
        opening(1.0),
    );
    one(
        book,
        "face with an opening of 2",
        "the first triangle too",
        opening(1.39),
    );
    let bore = |maximum, radius| of(down(0.0, 0.0, 1.0, maximum), radius);
    one(
        book,
        "square bore of 8, 12 deep",
        "a drill of 7.9",
        bore(12.0, 3.95),
    );
    one(
        book,
        "square bore of 8, 12 deep",
        "a drill of 8.1",
        bore(12.0, 4.05),
    );
    one(
        book,
        "square bore of 8, 12 deep",
        "the flat end in the floor",
        bore(13.0, 3.95),
    );
    one(
        book,
        "without area",
        "a triangle on a line, exactly",
        of(down(2.0, 1.0, 5.0, 10.0), 1.0),
    );
    one(
        book,
        "without area",
        "beside the line",
        of(down(2.0, 1.0, 5.0, 10.0), 0.999),
    );
    let inside = of(down(0.0, 0.0, 5.0, 10.0), 5.0);
    one(book, "triangle off the axis", "inside the drill", inside);
    one(
        book,
        "uneven",
        "aslant over an uneven surface",
        of(aslant(3.0, 4.0, 30.0, 80.0), 3.0),
    );
    one(
        book,
        "board and a far triangle",
        "no NaN",
        of(down(30.25, 20.125, 100.0, 200.0), 2.0),
    );
    one(
        book,
        "board and a far triangle with a NaN",
        "a NaN far off",
        of(down(30.25, 20.125, 100.0, 200.0), 2.0),
    );
    one(
        book,
        "board beyond 8,192",
        "a corner out of range",
        of(down(8_030.25, 20.125, 100.0, 200.0), 2.0),
    );
}

/// Without a tree: meshes that have none.
fn plain_alone(book: &mut Book) {
    for mesh in ["no triangle", "index past the vertices", "65,537 layers"] {
        let found = book.mesh(mesh);
        let drill = of(beside(), 1.0);
        let answer = plainly(mesh, &drill, &found.vertices.all(), &found.triangles.all());
        book.write("PlainMesh.drill", mesh, at(mesh, &drill), json(&answer));
    }
}

fn of_many(book: &mut Book) {
    let square = [
        of(beside(), 5.0),
        of(beside(), 4.9999),
        of(down(2.0, 2.0, 5.0, 10.0), -1.0),
        of(down(2.0, 2.0, 5.0, 10.0), 129.0),
        of(down(1.0, 3.0, 5.0, 5.0), 0.25),
        of(from(down(1.0, 3.0, 5.0, 10.0), 5.5), 0.25),
    ];
    many(book, "square of 4", "touched, clear and refused", &square);
    many(book, "square of 4", "no drill", &[]);
    let over = |k: usize| {
        of(
            down(1.25 + k as f64 * 2.5, 30.0 - k as f64 * 2.0, 30.0, 40.0),
            0.25 + k as f64 / 8.0,
        )
    };
    many(
        book,
        "uneven",
        "twelve drills",
        &(0..12).map(over).collect::<Vec<Drill>>(),
    );
    many(
        book,
        "board and a far triangle with a NaN",
        "a NaN far off",
        &square[..2],
    );
}

/// The test of refusal 1 that a drill fails, in words; none if it fails none.
fn fault(book: &mut Book, words: &str, drill: Drill) {
    let why = if words.is_empty() { "no fault" } else { words };
    book.write(
        "Drill.fault",
        why,
        vec![("drill", floats(&numbers(&drill)))],
        text(words),
    );
}

fn faults(book: &mut Book) {
    fault(book, "", of(beside(), 0.0));
    fault(book, "", of(beside(), 129.0));
    fault(book, "the radius is NaN", of(beside(), f64::NAN));
    fault(
        book,
        "the radius is below 0",
        of(beside(), f64::NEG_INFINITY),
    );
    fault(book, "the radius is infinite", of(beside(), f64::INFINITY));
    fault(
        book,
        "the near distance is above the maximum",
        of(from(beside(), 3.0), -1.0),
    );
}

pub fn write(book: &mut Book) {
    at_square(book);
    at_parts(book);
    plain_alone(book);
    of_many(book);
    faults(book);
}
