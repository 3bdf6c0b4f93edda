//! What the bindings have beside the calls: rays, the words of a refusal, STL files, and facts about a mesh. No call of the library
//! is behind them: the answers are plain definitions, written here again.
use super::book::{Book, ray_json};
use super::json::{Json, bytes, float, floats, text, whole, wholes};
use super::rays::{aslant, down, from};
use oracle::answer::Ray;

/// The direction divided by its largest component, then by its length.
fn toward(book: &mut Book, why: &str, direction: [f64; 3]) {
    let largest = direction.iter().fold(0.0, |most: f64, x| most.max(x.abs()));
    let scaled = direction.map(|x| x / largest);
    let [x, y, z] = scaled;
    let unit = scaled.map(|part| part / (x * x + y * y + z * z).sqrt());
    let normalised = unit.iter().all(|x| x.is_finite());
    let ray = Ray {
        direction: if normalised { unit } else { direction },
        ..down(1.0, 2.0, 3.0, 4.0)
    };
    let arguments = vec![
        ("origin", floats(&ray.origin)),
        ("direction", floats(&direction)),
        ("maximum", float(ray.maximum)),
    ];
    book.write("Ray.toward", why, arguments, ray_json(&ray));
}

fn point_at(book: &mut Book, why: &str, ray: Ray, distance: f64) {
    let point = [0, 1, 2].map(|axis| ray.origin[axis] + ray.direction[axis] * distance);
    let arguments = vec![("ray", ray_json(&ray)), ("distance", float(distance))];
    book.write("Ray.at", why, arguments, floats(&point));
}

/// The test of refusal 1 that a ray fails, in words; none if it fails none.
fn fault(book: &mut Book, words: &str, ray: Ray) {
    let why = if words.is_empty() { "no fault" } else { words };
    book.write("Ray.fault", why, vec![("ray", ray_json(&ray))], text(words));
}

fn rays(book: &mut Book) {
    toward(book, "aslant", [2.0, -3.0, 6.0]);
    toward(book, "huge", [3e300, 4e300, 1e300]);
    toward(book, "tiny", [3e-320, -4e-320, 0.0]);
    toward(book, "zero", [0.0, -0.0, 0.0]);
    toward(book, "not finite", [1.0, f64::INFINITY, 0.0]);
    point_at(book, "aslant", aslant(1.0, 2.0, 3.0, 9.0), 7.0);
    point_at(book, "at 0", down(-0.0, 2.0, 3.0, 9.0), 0.0);
    let ray = down(1.0, 2.0, 3.0, 4.0);
    let pointing = |direction| Ray { direction, ..ray };
    let most = |maximum| Ray { maximum, ..ray };
    fault(book, "", from(ray, 4.0));
    fault(
        book,
        "the origin has a NaN",
        down(1.0, f64::NAN, f64::INFINITY, 4.0),
    );
    fault(
        book,
        "the origin is infinite",
        down(1.0, 2.0, f64::INFINITY, 4.0),
    );
    fault(
        book,
        "the direction has a NaN",
        pointing([0.0, f64::NAN, 0.0]),
    );
    fault(
        book,
        "the direction is infinite",
        pointing([0.0, 0.0, f64::NEG_INFINITY]),
    );
    fault(book, "the direction is zero", pointing([0.0, -0.0, 0.0]));
    fault(
        book,
        "the direction's length is not 1",
        pointing([0.0, 0.0, 1.000_000_000_01]),
    );
    fault(book, "", pointing([0.0, 0.0, 1.000_000_000_000_5]));
    fault(book, "the maximum is NaN", most(f64::NAN));
    fault(book, "the maximum is infinite", most(f64::INFINITY));
    fault(book, "the maximum is below 0", most(f64::NEG_INFINITY));
    fault(book, "the near distance is NaN", from(ray, f64::NAN));
    fault(book, "the near distance is below 0", from(ray, -1.0));
    fault(
        book,
        "the near distance is above the maximum",
        from(ray, 4.5),
    );
}

/// The header's table of refusals.
const REFUSALS: [&str; 12] = [
    "invalid input",
    "bad shape",
    "no room",
    "wrong pose",
    "out of bounds",
    "overflow",
    "no normal",
    "not convergent",
    "bad range",
    "limit reached",
    "not representable",
    "out of range",
];

fn refusals(book: &mut Book) {
    for (number, name) in (1u32..).zip(REFUSALS) {
        book.write("Refusal", name, vec![("number", whole(number))], text(name));
    }
}

/// Facets of an STL file: three corners each.
type Facets = Vec<[[f64; 3]; 3]>;

/// Two facets, whose common corners differ in the sign of a zero once.
fn facets() -> Facets {
    vec![
        [[0.0, 0.0, 0.5], [4.0, 0.0, 0.5], [4.0, 3.0, 0.5]],
        [[-0.0, 0.0, 0.5], [4.0, 3.0, 0.5], [0.0, 3.0, 0.25]],
    ]
}

/// The distinct corners in the order of their first use, and the triangles over them.
fn merged(facets: &Facets) -> Json {
    let (mut vertices, mut triangles): (Vec<[f64; 3]>, Vec<usize>) = (Vec::new(), Vec::new());
    for corner in facets.iter().flatten() {
        let found = vertices.iter().position(|vertex| vertex == corner);
        triangles.push(found.unwrap_or(vertices.len()));
        if found.is_none() {
            vertices.push(*corner);
        }
    }
    Json::Object(vec![
        ("vertices", floats(vertices.as_flattened())),
        ("triangles", wholes(&triangles)),
    ])
}

fn ascii(facets: &Facets) -> String {
    let vertex = |[x, y, z]: &[f64; 3]| format!("      vertex {x:?} {y:?} {z:?}\r\n");
    let facet = |corners: &[[f64; 3]; 3]| {
        let vertices: String = corners.iter().map(vertex).collect();
        format!("  facet normal 0 0 1\n    outer loop\n{vertices}    endloop\n  endfacet\n")
    };
    let all: String = facets.iter().map(facet).collect();
    format!("solid a board\n{all}endsolid a board\n")
}

/// A binary file: 80 bytes, the count, and for each facet a normal, nine f32 and two bytes.
fn binary(header: &[u8], facets: &Facets) -> Vec<u8> {
    let mut file = header.to_vec();
    file.resize(80, b' ');
    file.extend((facets.len() as u32).to_le_bytes());
    for facet in facets {
        file.extend([0; 12]);
        file.extend(
            facet
                .as_flattened()
                .iter()
                .flat_map(|&x| (x as f32).to_le_bytes()),
        );
        file.extend([0; 2]);
    }
    file
}

fn stl(book: &mut Book, why: &str, file: &[u8], answer: Json) {
    book.write("stl", why, vec![("file", bytes(file))], answer);
}

fn stl_files(book: &mut Book) {
    let (facets, wrong) = (facets(), || text("error"));
    let text = ascii(&facets);
    stl(book, "text", text.as_bytes(), merged(&facets));
    stl(
        book,
        "text after a byte order mark, in capitals",
        format!("\u{feff}{}", text.to_uppercase()).as_bytes(),
        merged(&facets),
    );
    stl(book, "binary", &binary(b"made", &facets), merged(&facets));
    stl(
        book,
        "binary whose header begins with solid",
        &binary(b"solid", &facets),
        merged(&facets),
    );
    stl(
        book,
        "binary, cut short",
        &binary(b"made", &facets)[..183],
        wrong(),
    );
    stl(
        book,
        "text without its end",
        text.replace("endsolid", "").as_bytes(),
        wrong(),
    );
    stl(
        book,
        "a vertex of two numbers",
        text.replace("4.0 3.0 0.5", "4.0 3.0").as_bytes(),
        wrong(),
    );
    stl(
        book,
        "a facet of two vertices",
        text.replacen("      vertex 4.0 0.0 0.5\r\n", "", 1)
            .as_bytes(),
        wrong(),
    );
    stl(
        book,
        "a coordinate that is not finite",
        text.replacen("4.0", "inf", 1).as_bytes(),
        wrong(),
    );
    stl(book, "no facet", b"solid a\nendsolid a\n", wrong());
    stl(book, "no byte", b"", wrong());
}

/// The edges of triangles, in the triangles' direction.
fn edges(triangles: &[u32]) -> Vec<(usize, [u32; 2])> {
    let of =
        |(k, t): (usize, &[u32])| [[t[0], t[1]], [t[1], t[2]], [t[2], t[0]]].map(|edge| (k, edge));
    triangles.chunks_exact(3).enumerate().flat_map(of).collect()
}

/// The edges, each once whatever its direction, that do not go once each way.
fn open_edges(triangles: &[u32]) -> usize {
    let all = edges(triangles);
    let times = |edge: [u32; 2]| all.iter().filter(|(_, other)| *other == edge).count();
    let mut ascending: Vec<[u32; 2]> = all
        .iter()
        .map(|&(_, [a, b])| [a.min(b), a.max(b)])
        .collect();
    ascending.sort();
    ascending.dedup();
    ascending
        .iter()
        .filter(|[a, b]| (times([*a, *b]), times([*b, *a])) != (1, 1))
        .count()
}

/// Sets of triangles connected through common edges: every triangle takes the least label of its neighbours until none changes.
fn shells(triangles: &[u32]) -> usize {
    let all = edges(triangles);
    let mut labels: Vec<usize> = (0..triangles.len() / 3).collect();
    let common = |[a, b]: [u32; 2], other: [u32; 2]| other == [a, b] || other == [b, a];
    for _ in 0..labels.len() {
        for &(k, edge) in &all {
            for &(j, _) in all.iter().filter(|(_, other)| common(edge, *other)) {
                labels[k] = labels[k].min(labels[j]);
            }
        }
    }
    labels.sort();
    labels.dedup();
    labels.len()
}

fn bounds(book: &mut Book, why: &str, vertices: &[f64]) {
    let along = |axis: usize, pick: fn(f64, f64) -> f64| {
        vertices
            .chunks_exact(3)
            .map(|vertex| vertex[axis])
            .reduce(pick)
    };
    let ends = [f64::min, f64::max].map(|pick| [0, 1, 2].map(|axis| along(axis, pick)));
    let numbers: Option<Vec<f64>> = ends.iter().flatten().copied().collect();
    let answer = numbers.map_or_else(|| text("none"), |numbers| floats(&numbers));
    book.write("bounds", why, vec![("vertices", floats(vertices))], answer);
}

fn facts(book: &mut Book) {
    for mesh in [
        "triangle",
        "square of 31",
        "board",
        "uneven",
        "two layers",
        "board and a far triangle",
        "no triangle",
    ] {
        let triangles = book.mesh(mesh).triangles.all();
        let arguments = || vec![("triangles", wholes(&triangles))];
        book.write(
            "open_edges",
            mesh,
            arguments(),
            whole(open_edges(&triangles)),
        );
        book.write("shells", mesh, arguments(), whole(shells(&triangles)));
    }
    let sharing = [
        0, 2, 1, 0, 1, 3, 1, 2, 3, 2, 0, 3, 3, 5, 4, 3, 4, 6, 4, 5, 6, 5, 3, 6,
    ];
    book.write(
        "shells",
        "two that share a vertex",
        vec![("triangles", wholes(&sharing))],
        whole(shells(&sharing)),
    );
    let reversed = [0, 1, 2, 0, 3, 2];
    book.write(
        "open_edges",
        "one of two reversed",
        vec![("triangles", wholes(&reversed))],
        whole(open_edges(&reversed)),
    );
    bounds(
        book,
        "three axes that differ",
        &[1.0, -2.0, 5.0, 0.5, 7.0, 6.0],
    );
    bounds(
        book,
        "a NaN among the numbers",
        &[1.0, f64::NAN, 5.0, 0.5, 7.0, 6.0],
    );
    bounds(book, "no vertex", &[]);
}

pub fn write(book: &mut Book) {
    book.write(
        "version",
        "the version of the calls",
        Vec::new(),
        whole(3u32),
    );
    rays(book);
    refusals(book);
    stl_files(book);
    facts(book);
}
