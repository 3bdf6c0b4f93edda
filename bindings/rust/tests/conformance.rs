//! Goes through tests/conformance.json: each case by each function that gives its answer, every float by its bits. Every public
//! function of the crate but those of `sys`, which are declarations, must have been in a case.
mod json;

use json::Json;
use probe_rays::cabinet::ray_cabinet;
use probe_rays::lent::{self, BoardRef, CastAreas, TreeAreas, TreeRef};
use probe_rays::*;
use std::cell::RefCell;
use std::collections::{BTreeMap, BTreeSet};
use std::path::{Path, PathBuf};

thread_local! {
    static ASKED: RefCell<BTreeSet<String>> = const { RefCell::new(BTreeSet::new()) };
}

/// The value of an expression, which calls the functions of these names.
macro_rules! ask {
    ($($name:literal),+; $value:expr) => {{
        ASKED.with(|asked| asked.borrow_mut().extend([$($name.to_string()),+]));
        $value
    }};
}

// ---- numbers

fn number_of(bits: &Json) -> f64 {
    f64::from_bits(u64::from_str_radix(bits.words(), 16).expect("sixteen digits"))
}

fn bits(value: f64) -> Json {
    Json::Text(format!("{:016x}", value.to_bits()))
}

fn all_bits(values: &[f64]) -> Json {
    Json::List(values.iter().copied().map(bits).collect())
}

fn wholes(values: &[u32]) -> Json {
    Json::List(
        values
            .iter()
            .map(|&value| Json::Whole(value as usize))
            .collect(),
    )
}

/// A list, or the same few values so many times.
fn values<T: Copy>(rows: &Json, one: impl Fn(&Json) -> T) -> Vec<T> {
    let (of, times) = match rows {
        Json::List(_) => (rows, 1),
        _ => (rows.at("of"), rows.at("times").whole()),
    };
    of.list().iter().map(one).collect::<Vec<T>>().repeat(times)
}

fn floats(rows: &Json) -> Vec<f64> {
    values(rows, number_of)
}

fn words(rows: &Json) -> Vec<u32> {
    values(rows, |value| value.whole() as u32)
}

fn array<const N: usize>(rows: &Json) -> [f64; N] {
    floats(rows).try_into().expect("so many numbers")
}

fn in_rows<T: Copy>(flat: &[T]) -> Vec<[T; 3]> {
    flat.chunks_exact(3)
        .map(|row| [row[0], row[1], row[2]])
        .collect()
}

fn bytes(hex: &Json) -> Vec<u8> {
    let byte = |two: &[u8]| u8::from_str_radix(std::str::from_utf8(two).unwrap(), 16).unwrap();
    hex.words().as_bytes().chunks_exact(2).map(byte).collect()
}

fn hex(bytes: &[u8]) -> Json {
    Json::Text(bytes.iter().map(|byte| format!("{byte:02x}")).collect())
}

// ---- answers

fn refused(refusal: Refusal) -> Json {
    let number = ask!("Refusal::number"; refusal.number());
    let again = ask!("Refusal::from_number"; Refusal::from_number(number));
    assert_eq!(again, refusal);
    Json::object([("refused", Json::Whole(number as usize))])
}

fn hit_json(normal: [f64; 3], distance: f64) -> Json {
    let [x, y, z] = normal;
    all_bits(&[x, y, z, distance])
}

fn plain_json(hit: &Hit) -> Json {
    Json::object([("hit", hit_json(hit.normal, hit.distance))])
}

fn mesh_hit_json(hit: &MeshHit) -> Json {
    Json::object([
        ("hit", hit_json(hit.normal, hit.distance)),
        ("triangle", Json::Whole(hit.triangle as usize)),
    ])
}

/// A cast by its cases, and by `into_result`: the same.
fn cast_json<H: Copy>(cast: Cast<H>, hit: impl Fn(&H) -> Json) -> Json {
    let found = match &cast {
        Cast::Hit(met) => hit(met),
        Cast::None => Json::text("none"),
        Cast::Refused(refusal) => refused(*refusal),
    };
    let again = match ask!("Cast::into_result"; cast.into_result()) {
        Ok(Some(met)) => hit(&met),
        Ok(None) => Json::text("none"),
        Err(refusal) => refused(refusal),
    };
    assert_eq!(found, again);
    found
}

fn mesh_cast_json(cast: Cast<MeshHit>) -> Json {
    cast_json(cast, mesh_hit_json)
}

/// What a call that writes a hit says by its number.
fn number_json(number: u32, hit: &[f64], index: Option<u32>) -> Json {
    match (number, index) {
        (sys::NONE, _) => Json::text("none"),
        (sys::HIT, None) => Json::object([("hit", all_bits(hit))]),
        (sys::HIT, Some(index)) => Json::object([
            ("hit", all_bits(hit)),
            ("triangle", Json::Whole(index as usize)),
        ]),
        (number, _) => refused(Refusal::from_number(number)),
    }
}

fn done_json<T>(result: Result<T, Refusal>, value: impl FnOnce(T) -> Json) -> Json {
    result.map_or_else(refused, value)
}

fn list_json(hits: &[MeshHit]) -> Json {
    Json::List(hits.iter().map(mesh_hit_json).collect())
}

/// The hits that a listing wrote: a triangle each, and four numbers, the distance first.
fn rows_json(indices: &[u32], numbers: &[f64], count: usize) -> Json {
    let row = |k: usize| MeshHit {
        normal: [numbers[4 * k + 1], numbers[4 * k + 2], numbers[4 * k + 3]],
        distance: numbers[4 * k],
        triangle: indices[k],
    };
    list_json(&(0..count).map(row).collect::<Vec<MeshHit>>())
}

fn hits_json(hits: Result<Vec<MeshHit>, Refusal>) -> Json {
    done_json(hits, |hits| list_json(&hits))
}

fn casts_json(casts: Vec<Cast<MeshHit>>) -> Json {
    Json::List(casts.into_iter().map(mesh_cast_json).collect())
}

// ---- rays

fn ray_of(numbers: &Json) -> Ray {
    let given: [f64; 8] = array(numbers);
    let [x, y, z, dx, dy, dz, most, near] = given;
    let ray =
        ask!("Ray::new", "Ray::with_near"; Ray::new([x, y, z], [dx, dy, dz], most).with_near(near));
    let numbers = ask!("Ray::numbers"; ray.numbers());
    assert_eq!(all_bits(&numbers), all_bits(&given));
    ray
}

// ---- drills

fn drill_of(numbers: &Json) -> Drill {
    let given: [f64; 9] = array(numbers);
    let [x, y, z, dx, dy, dz, most, near, radius] = given;
    let ray = Ray::new([x, y, z], [dx, dy, dz], most).with_near(near);
    let drill = Drill { ray, radius };
    let numbers = ask!("Drill::numbers"; drill.numbers());
    assert_eq!(all_bits(&numbers), all_bits(&given));
    drill
}

fn touched_json(number: u32, index: u32) -> Json {
    match number {
        sys::HIT => Json::object([("touched", Json::Whole(index as usize))]),
        sys::NONE => Json::text("none"),
        number => refused(Refusal::from_number(number)),
    }
}

fn drill_json(touched: Result<Option<u32>, Refusal>) -> Json {
    match touched {
        Ok(Some(index)) => touched_json(sys::HIT, index),
        Ok(None) => Json::text("none"),
        Err(refusal) => refused(refusal),
    }
}

fn drills_json(all: Vec<Result<Option<u32>, Refusal>>) -> Json {
    Json::List(all.into_iter().map(drill_json).collect())
}

fn drill_fault(case: &Json) -> Json {
    let drill = drill_of(case.at("drill"));
    Json::text(ask!("Drill::fault"; drill.fault()).unwrap_or(""))
}

// ---- the meshes of the file

struct Runner {
    meshes: BTreeMap<String, Json>,
    built: RefCell<BTreeMap<String, Mesh>>,
    folder: PathBuf,
}

/// A mesh's numbers, its tree, and the vertices to cast at.
struct Board {
    vertices: Vec<f64>,
    triangles: Vec<u32>,
    tree: Tree,
    pose: Vec<f64>,
}

impl Board {
    fn count(&self) -> usize {
        self.triangles.len() / 3
    }

    fn list(&self) -> Vec<u32> {
        vec![7; ask!("lent::list_length"; lent::list_length(self.count()))]
    }

    fn stack(&self) -> Vec<u32> {
        vec![7; ask!("lent::stack_length"; lent::stack_length(self.tree.nodes))]
    }

    fn tree(&self) -> TreeRef<'_> {
        ask!("Tree::as_lent"; self.tree.as_lent())
    }

    fn as_lent(&self) -> BoardRef<'_> {
        BoardRef {
            vertices: &self.vertices,
            triangles: &self.triangles,
            tree: self.tree(),
        }
    }
}

/// The buffers of a tree of n triangles, all zeros.
fn room(n: usize) -> Tree {
    ask!("lent::node_boxes_length", "lent::triangle_boxes_length", "lent::node_words_length", "lent::order_length"; Tree {
        nodes: 0,
        node_boxes: vec![0.0; lent::node_boxes_length(n)],
        triangle_boxes: vec![0.0; lent::triangle_boxes_length(n)],
        node_words: vec![0; lent::node_words_length(n)],
        order: vec![0; lent::order_length(n)],
    })
}

fn areas(tree: &mut Tree) -> TreeAreas<'_> {
    TreeAreas {
        node_boxes: &mut tree.node_boxes,
        triangle_boxes: &mut tree.triangle_boxes,
        node_words: &mut tree.node_words,
        order: &mut tree.order,
    }
}

fn tree_of(given: &Json) -> Tree {
    Tree {
        nodes: given.at("nodes").whole(),
        node_boxes: floats(given.at("node_boxes")),
        triangle_boxes: floats(given.at("triangle_boxes")),
        node_words: words(given.at("node_words")),
        order: words(given.at("order")),
    }
}

fn tree_json(tree: &Tree) -> Json {
    Json::object([
        ("nodes", Json::Whole(tree.nodes)),
        ("node_boxes", all_bits(&tree.node_boxes)),
        ("triangle_boxes", all_bits(&tree.triangle_boxes)),
        ("node_words", wholes(&tree.node_words)),
        ("order", wholes(&tree.order)),
    ])
}

/// What the file says of a mesh: its counts, and of a small one everything.
fn parts_json(vertices: &[[f64; 3]], triangles: &[[u32; 3]], tree: &Tree, expected: &Json) -> Json {
    let counts = [vertices.len(), triangles.len(), tree.nodes];
    let all = [
        ("counts", Json::List(counts.map(Json::Whole).to_vec())),
        ("tree", tree_json(tree)),
        ("vertices", all_bits(vertices.as_flattened())),
        ("triangles", wholes(triangles.as_flattened())),
    ];
    let said = all
        .into_iter()
        .filter(|(name, _)| expected.get(name).is_some());
    Json::Object(
        said.map(|(name, value)| (name.to_string(), value))
            .collect(),
    )
}

fn mesh_json(mesh: Mesh, expected: &Json) -> Json {
    let found = ask!("Mesh::vertices", "Mesh::triangles", "Mesh::tree"; {
        parts_json(mesh.vertices(), mesh.triangles(), mesh.tree(), expected)
    });
    let (vertices, triangles, tree) = ask!("Mesh::into_parts"; mesh.into_parts());
    assert_eq!(parts_json(&vertices, &triangles, &tree, expected), found);
    found
}

impl Runner {
    fn numbers(&self, mesh: &str) -> (Vec<f64>, Vec<u32>) {
        let given = &self.meshes[mesh];
        (floats(given.at("vertices")), words(given.at("triangles")))
    }

    fn rows(&self, mesh: &str) -> (Vec<[f64; 3]>, Vec<[u32; 3]>) {
        let (vertices, triangles) = self.numbers(mesh);
        (in_rows(&vertices), in_rows(&triangles))
    }

    /// The mesh of a name, built or with its own tree.
    fn mesh(&self, name: &str) -> Mesh {
        if let Some(mesh) = self.built.borrow().get(name) {
            return mesh.clone();
        }
        let (vertices, triangles) = self.rows(name);
        let mesh = match self.meshes[name].get("tree") {
            None => ask!("Mesh::build"; Mesh::build(vertices, triangles)).unwrap(),
            Some(tree) => {
                ask!("Mesh::with_tree"; Mesh::with_tree(vertices, triangles, tree_of(tree)))
                    .unwrap()
            }
        };
        let mut built = self.built.borrow_mut();
        built.insert(name.to_string(), mesh.clone());
        mesh
    }

    fn board(&self, case: &Json) -> Board {
        let mesh = self.mesh(case.at("mesh").words());
        let (vertices, triangles, tree) = mesh.into_parts();
        let own = vertices.as_flattened().to_vec();
        let pose = case.get("pose").map_or_else(|| own.clone(), floats);
        Board {
            vertices: own,
            triangles: triangles.as_flattened().to_vec(),
            tree,
            pose,
        }
    }

    fn of(&self, case: &Json) -> (Mesh, Ray) {
        (self.mesh(case.at("mesh").words()), ray_of(case.at("ray")))
    }

    /// Builds by the owned mesh, by the plain one, over lent buffers and by the call itself.
    fn build(&self, case: &Json) -> Json {
        let (name, answer) = (case.at("mesh").words(), case.at("answer"));
        let (vertices, triangles) = self.rows(name);
        let plain = ask!("PlainMesh::new"; PlainMesh::new(vertices.clone(), triangles.clone()));
        let kept = ask!("PlainMesh::vertices", "PlainMesh::triangles"; (plain.vertices(), plain.triangles()));
        assert_eq!(kept.1, triangles);
        assert_eq!(
            all_bits(kept.0.as_flattened()),
            all_bits(vertices.as_flattened())
        );
        let built = ask!("PlainMesh::build"; plain.build());
        assert_eq!(done_json(built, |mesh| mesh_json(mesh, answer)), *answer);
        let (flat, corners) = (vertices.as_flattened(), triangles.as_flattened());
        let n = triangles.len();
        let (mut tree, mut again) = (room(n), room(n));
        let mut work = vec![7; ask!("lent::work_length"; lent::work_length(n))];
        let nodes = ask!("lent::build"; lent::build(flat, corners, areas(&mut tree), &mut work));
        let found = done_json(nodes, |nodes| {
            tree.nodes = nodes;
            parts_json(&vertices, &triangles, &tree, answer)
        });
        assert_eq!(found, *answer);
        let mut nodes = [0];
        let number = ask!("calls::build"; calls::build(flat, corners, areas(&mut again), &mut work, &mut nodes));
        again.nodes = nodes[0];
        if number == sys::DONE {
            assert_eq!(again, tree);
        } else {
            assert_eq!(number_json(number, &[], None), *answer);
        }
        done_json(Mesh::build(vertices, triangles), |mesh| {
            mesh_json(mesh, answer)
        })
    }

    fn with_tree(&self, case: &Json) -> Json {
        let (vertices, triangles) = self.rows(case.at("mesh").words());
        let (tree, answer) = (tree_of(case.at("tree")), case.at("answer"));
        let (flat, corners) = (vertices.as_flattened(), triangles.as_flattened());
        let mut marks = vec![7; ask!("lent::marks_length"; lent::marks_length(triangles.len()))];
        let words = |fits: bool| Json::text(if fits { "fits" } else { "does not fit" });
        let fits =
            ask!("lent::tree_check"; lent::tree_check(flat, corners, &tree.as_lent(), &mut marks));
        assert_eq!(done_json(fits, words), *answer);
        let number = ask!("calls::tree_check"; calls::tree_check(flat, corners, &tree.as_lent(), &mut marks));
        let said = match number {
            sys::YES => words(true),
            sys::NO => words(false),
            number => number_json(number, &[], None),
        };
        assert_eq!(said, *answer);
        match Mesh::with_tree(vertices, triangles, tree) {
            Ok(mesh) => {
                assert_eq!(tree_json(mesh.tree()), *case.at("tree"));
                words(true)
            }
            Err(TreeError::DoesNotFit) => words(false),
            Err(TreeError::Refused(refusal)) => refused(refusal),
        }
    }

    fn glue(&self, case: &Json) -> Json {
        let answer = case.at("answer");
        let of = |name: &str| Json::object([("mesh", case.at(name).clone())]);
        let (one, two) = (self.board(&of("first")), self.board(&of("second")));
        let (v, n) = (
            one.vertices.len() + two.vertices.len(),
            one.count() + two.count(),
        );
        let (mut vertices, mut triangles) = (vec![0.0; v], vec![0; 3 * n]);
        let (mut tree, mut marks, mut nodes) = (room(n), vec![7; 3 * n], [0]);
        let merged = ask!("lent::merge"; lent::merge(
            &one.as_lent(), &two.as_lent(), &mut vertices, &mut triangles, areas(&mut tree), &mut marks,
        ));
        let found = done_json(merged, |nodes| {
            tree.nodes = nodes;
            parts_json(&in_rows(&vertices), &in_rows(&triangles), &tree, answer)
        });
        assert_eq!(found, *answer);
        let number = ask!("calls::merge"; calls::merge(
            &one.as_lent(), &two.as_lent(), &mut vertices, &mut triangles, areas(&mut tree), &mut marks, &mut nodes,
        ));
        assert!(number == sys::DONE || number_json(number, &[], None) == *answer);
        let first = self.mesh(case.at("first").words());
        let second = self.mesh(case.at("second").words());
        let glued = ask!("Mesh::glue"; first.glue(&second));
        done_json(glued, |mesh| mesh_json(mesh, answer))
    }

    // ---- casts at a mesh

    /// The cast over lent buffers and by its number.
    fn lent_cast(&self, case: &Json) {
        let (board, ray) = (self.board(case), ray_of(case.at("ray")));
        let (v, t, pose, tree) = (&board.vertices, &board.triangles, &board.pose, board.tree());
        let (mut list, mut stack) = (board.list(), board.stack());
        let cast =
            ask!("lent::ray_mesh"; lent::ray_mesh(&ray, v, t, pose, &tree, &mut list, &mut stack));
        assert_eq!(mesh_cast_json(cast), *case.at("answer"));
        let (mut hit, mut index) = ([0.0; 4], [0]);
        let number = ask!("calls::ray_mesh"; {
            calls::ray_mesh(&ray, v, t, pose, &tree, &mut list, &mut stack, &mut hit, &mut index)
        });
        assert_eq!(
            number_json(number, &hit, Some(index[0])),
            *case.at("answer")
        );
    }

    fn cast(&self, case: &Json) -> Json {
        let (mut mesh, ray) = self.of(case);
        self.lent_cast(case);
        let own = ask!("Mesh::cast"; mesh.cast(&ray));
        assert_eq!(mesh_cast_json(own), *case.at("answer"));
        let mut scratch = ask!("Scratch::new"; Scratch::new());
        mesh_cast_json(ask!("Mesh::cast_with"; mesh.cast_with(&ray, &mut scratch)))
    }

    fn cast_at(&self, case: &Json) -> Json {
        let (mesh, ray) = self.of(case);
        self.lent_cast(case);
        let pose = in_rows(&floats(case.at("pose")));
        mesh_cast_json(ask!("Mesh::cast_at"; mesh.cast_at(&ray, &pose, &mut Scratch::new())))
    }

    /// The exact cast through the tree, over lent buffers and by its number.
    fn lent_exact(&self, case: &Json) {
        let (board, ray) = (self.board(case), ray_of(case.at("ray")));
        let (v, t, pose, tree) = (&board.vertices, &board.triangles, &board.pose, board.tree());
        if !ask!("lent::mesh_has_numbers"; lent::mesh_has_numbers(v, t)) {
            return;
        }
        let mut stack = board.stack();
        let cast =
            ask!("lent::ray_mesh_exact"; lent::ray_mesh_exact(&ray, v, t, pose, &tree, &mut stack));
        assert_eq!(mesh_cast_json(cast), *case.at("answer"));
        let (mut hit, mut index) = ([0.0; 4], [0]);
        let number = ask!("calls::ray_mesh_exact"; {
            calls::ray_mesh_exact(&ray, v, t, pose, &tree, &mut stack, &mut hit, &mut index)
        });
        assert_eq!(
            number_json(number, &hit, Some(index[0])),
            *case.at("answer")
        );
    }

    fn cast_exact(&self, case: &Json) -> Json {
        let (mut mesh, ray) = self.of(case);
        self.lent_exact(case);
        let own = ask!("Mesh::cast_exact"; mesh.cast_exact(&ray));
        assert_eq!(mesh_cast_json(own), *case.at("answer"));
        mesh_cast_json(
            ask!("Mesh::cast_exact_with"; mesh.cast_exact_with(&ray, &mut Scratch::new())),
        )
    }

    fn cast_exact_at(&self, case: &Json) -> Json {
        let (mesh, ray) = self.of(case);
        self.lent_exact(case);
        let pose = in_rows(&floats(case.at("pose")));
        mesh_cast_json(
            ask!("Mesh::cast_exact_at"; mesh.cast_exact_at(&ray, &pose, &mut Scratch::new())),
        )
    }

    /// The listing over lent buffers and by its number.
    fn lent_all(&self, case: &Json) {
        let (board, ray) = (self.board(case), ray_of(case.at("ray")));
        let (v, t, pose, tree) = (&board.vertices, &board.triangles, &board.pose, board.tree());
        let (mut list, mut stack, n) = (board.list(), board.stack(), board.count());
        let (mut indices, mut numbers) = (vec![7; n], vec![7.0; 4 * n]);
        let found = ask!("lent::ray_mesh_all"; {
            lent::ray_mesh_all(&ray, v, t, pose, &tree, &mut list, &mut stack, &mut indices, &mut numbers)
        });
        let rows = |count| rows_json(&indices, &numbers, count);
        assert_eq!(done_json(found, rows), *case.at("answer"));
        let mut count = [0];
        let number = ask!("calls::ray_mesh_all"; calls::ray_mesh_all(
            &ray, v, t, pose, &tree, &mut list, &mut stack, &mut indices, &mut numbers, &mut count,
        ));
        match number {
            sys::DONE => assert_eq!(Ok(count[0]), found),
            number => assert_eq!(Err(Refusal::from_number(number)), found),
        }
    }

    /// The exact listing over lent buffers and by its number.
    fn lent_exact_all(&self, case: &Json) {
        let (board, ray) = (self.board(case), ray_of(case.at("ray")));
        let (v, t, pose, tree) = (&board.vertices, &board.triangles, &board.pose, board.tree());
        if !lent::mesh_has_numbers(v, t) {
            return;
        }
        let (mut list, mut stack, n) = (board.list(), board.stack(), board.count());
        let (mut indices, mut numbers) = (vec![7; n], vec![7.0; 4 * n]);
        let found = ask!("lent::ray_mesh_exact_all"; {
            lent::ray_mesh_exact_all(&ray, v, t, pose, &tree, &mut list, &mut stack, &mut indices, &mut numbers)
        });
        let rows = |count| rows_json(&indices, &numbers, count);
        assert_eq!(done_json(found, rows), *case.at("answer"));
        let mut count = [0];
        let number = ask!("calls::ray_mesh_exact_all"; calls::ray_mesh_exact_all(
            &ray, v, t, pose, &tree, &mut list, &mut stack, &mut indices, &mut numbers, &mut count,
        ));
        match number {
            sys::DONE => assert_eq!(Ok(count[0]), found),
            number => assert_eq!(Err(Refusal::from_number(number)), found),
        }
    }

    fn cast_exact_all(&self, case: &Json) -> Json {
        let (mut mesh, ray) = self.of(case);
        self.lent_exact_all(case);
        let own = ask!("Mesh::cast_exact_all"; mesh.cast_exact_all(&ray));
        assert_eq!(hits_json(own), *case.at("answer"));
        hits_json(
            ask!("Mesh::cast_exact_all_with"; mesh.cast_exact_all_with(&ray, &mut Scratch::new())),
        )
    }

    fn cast_exact_all_at(&self, case: &Json) -> Json {
        let (mesh, ray) = self.of(case);
        self.lent_exact_all(case);
        let pose = in_rows(&floats(case.at("pose")));
        hits_json(
            ask!("Mesh::cast_exact_all_at"; mesh.cast_exact_all_at(&ray, &pose, &mut Scratch::new())),
        )
    }

    fn cast_all(&self, case: &Json) -> Json {
        let (mut mesh, ray) = self.of(case);
        self.lent_all(case);
        let own = ask!("Mesh::cast_all"; mesh.cast_all(&ray));
        assert_eq!(hits_json(own), *case.at("answer"));
        hits_json(ask!("Mesh::cast_all_with"; mesh.cast_all_with(&ray, &mut Scratch::new())))
    }

    fn cast_all_at(&self, case: &Json) -> Json {
        let (mesh, ray) = self.of(case);
        self.lent_all(case);
        let pose = in_rows(&floats(case.at("pose")));
        hits_json(ask!("Mesh::cast_all_at"; mesh.cast_all_at(&ray, &pose, &mut Scratch::new())))
    }

    // ---- many rays

    fn rays(&self, case: &Json) -> Vec<Ray> {
        values(case.at("rays"), ray_of)
    }

    /// Many rays over lent buffers, and by the call's number: at the vertices of the mesh.
    fn lent_many(&self, case: &Json, exact: bool) {
        let (board, rays) = (self.board(case), self.rays(case));
        let flat: Vec<f64> = rays.iter().flat_map(Ray::numbers).collect();
        let (v, t, tree) = (&board.vertices, &board.triangles, board.tree());
        if exact && !lent::mesh_has_numbers(v, t) {
            return;
        }
        let (mut list, mut stack, count) = (board.list(), board.stack(), rays.len());
        let (mut codes, mut hits, mut indices) =
            (vec![7; count], vec![7.0; 4 * count], vec![7; count]);
        let number = if exact {
            ask!("calls::ray_mesh_exact_many"; calls::ray_mesh_exact_many(
                &flat, v, t, v, &tree, &mut stack, &mut codes, &mut hits, &mut indices,
            ))
        } else {
            ask!("calls::ray_mesh_many"; calls::ray_mesh_many(
                &flat, v, t, v, &tree, &mut list, &mut stack, &mut codes, &mut hits, &mut indices,
            ))
        };
        assert_eq!(number, sys::DONE);
        let by_number: Vec<Json> = (0..count)
            .map(|k| number_json(codes[k], &hits[4 * k..4 * k + 4], Some(indices[k])))
            .collect();
        assert_eq!(Json::List(by_number), *case.at("answer"));
        let mut areas = CastAreas {
            codes: &mut codes,
            hits: &mut hits,
            indices: &mut indices,
        };
        let made = if exact {
            ask!("lent::ray_mesh_exact_many"; lent::ray_mesh_exact_many(&flat, v, t, v, &tree, &mut stack, &mut areas))
        } else {
            ask!("lent::ray_mesh_many"; lent::ray_mesh_many(&flat, v, t, v, &tree, &mut list, &mut stack, &mut areas))
        };
        assert_eq!(made, Ok(()));
        let casts = (0..count).map(|k| ask!("CastAreas::cast"; areas.cast(k)));
        assert_eq!(casts_json(casts.collect()), *case.at("answer"));
    }

    fn cast_many(&self, case: &Json) -> Json {
        let (mesh, rays) = (self.mesh(case.at("mesh").words()), self.rays(case));
        self.lent_many(case, false);
        let mut scratch = Scratch::new();
        for _ in 0..2 {
            let casts = ask!("Mesh::cast_many_with"; mesh.cast_many_with(&rays, &mut scratch));
            assert_eq!(casts_json(casts), *case.at("answer"));
        }
        for threads in 0..4 {
            let batch = ask!("Batch::new", "Batch::threads", "Batch::progress"; {
                Batch::new().threads(threads).progress("casting")
            });
            let casts =
                ask!("Batch::run"; batch.run(&rays, |ray, scratch| mesh.cast_with(ray, scratch)));
            assert_eq!(casts_json(casts), *case.at("answer"));
        }
        casts_json(ask!("Mesh::cast_many"; mesh.cast_many(&rays)))
    }

    fn cast_exact_many(&self, case: &Json) -> Json {
        let (mesh, rays) = (self.mesh(case.at("mesh").words()), self.rays(case));
        self.lent_many(case, true);
        let mut scratch = Scratch::new();
        let casts =
            ask!("Mesh::cast_exact_many_with"; mesh.cast_exact_many_with(&rays, &mut scratch));
        assert_eq!(casts_json(casts), *case.at("answer"));
        casts_json(ask!("Mesh::cast_exact_many"; mesh.cast_exact_many(&rays)))
    }

    fn cast_all_many(&self, case: &Json) -> Json {
        let (mesh, rays) = (self.mesh(case.at("mesh").words()), self.rays(case));
        let all = ask!("Mesh::cast_all_many"; mesh.cast_all_many(&rays));
        Json::List(all.into_iter().map(hits_json).collect())
    }

    fn cast_exact_all_many(&self, case: &Json) -> Json {
        let (mesh, rays) = (self.mesh(case.at("mesh").words()), self.rays(case));
        let all = ask!("Mesh::cast_exact_all_many"; mesh.cast_exact_all_many(&rays));
        Json::List(all.into_iter().map(hits_json).collect())
    }

    fn query(&self, case: &Json) -> Json {
        let board = self.board(case);
        let [a, b, c, d, e, f] = array(case.at("box"));
        let (low, high, answer) = ([a, b, c], [d, e, f], case.at("answer"));
        let (mut list, mut stack, mut found) = (board.list(), board.stack(), [0]);
        let (n, tree) = (board.count(), board.tree());
        let count = ask!("lent::query"; lent::query(low, high, n, &tree, &mut list, &mut stack));
        assert_eq!(done_json(count, |count| wholes(&list[..count])), *answer);
        let number = ask!("calls::query"; calls::query(low, high, n, &tree, &mut list, &mut stack, &mut found));
        assert!(number == sys::DONE || number_json(number, &[], None) == *answer);
        let (mut mesh, mut scratch) = (self.mesh(case.at("mesh").words()), Scratch::new());
        assert_eq!(
            done_json(ask!("Mesh::query"; mesh.query(low, high)), wholes),
            *answer
        );
        done_json(
            ask!("Mesh::query_with"; mesh.query_with(low, high, &mut scratch)),
            wholes,
        )
    }

    fn has_numbers(&self, case: &Json) -> Json {
        let (vertices, triangles) = self.numbers(case.at("mesh").words());
        let number =
            ask!("calls::mesh_has_numbers"; calls::mesh_has_numbers(&vertices, &triangles));
        let is = lent::mesh_has_numbers(&vertices, &triangles);
        assert_eq!(is, number == sys::YES);
        Json::Whole(usize::from(is))
    }

    fn plain_cast(&self, case: &Json) -> Json {
        let name = case.at("mesh").words();
        let ((vertices, triangles), ray) = (self.numbers(name), ray_of(case.at("ray")));
        let (mut hit, mut index) = ([0.0; 4], [0]);
        let cast = ask!("lent::ray_mesh_plain"; lent::ray_mesh_plain(&ray, &vertices, &triangles));
        assert_eq!(mesh_cast_json(cast), *case.at("answer"));
        let number = ask!("calls::ray_mesh_plain"; calls::ray_mesh_plain(&ray, &vertices, &triangles, &mut hit, &mut index));
        assert_eq!(
            number_json(number, &hit, Some(index[0])),
            *case.at("answer")
        );
        let (vertices, triangles) = self.rows(name);
        mesh_cast_json(ask!("PlainMesh::cast"; PlainMesh::new(vertices, triangles).cast(&ray)))
    }

    fn plain_cast_exact(&self, case: &Json) -> Json {
        let name = case.at("mesh").words();
        let ((vertices, triangles), ray) = (self.numbers(name), ray_of(case.at("ray")));
        let (mut hit, mut index) = ([0.0; 4], [0]);
        let cast = ask!("lent::ray_mesh_exact_plain"; lent::ray_mesh_exact_plain(&ray, &vertices, &triangles));
        assert_eq!(mesh_cast_json(cast), *case.at("answer"));
        let number = ask!("calls::ray_mesh_exact_plain"; {
            calls::ray_mesh_exact_plain(&ray, &vertices, &triangles, &mut hit, &mut index)
        });
        assert_eq!(
            number_json(number, &hit, Some(index[0])),
            *case.at("answer")
        );
        let (vertices, triangles) = self.rows(name);
        mesh_cast_json(
            ask!("PlainMesh::cast_exact"; PlainMesh::new(vertices, triangles).cast_exact(&ray)),
        )
    }

    // ---- cabinets and pieces

    /// The parts, each mesh pushed; or one that was placed before placed again.
    fn cabinet(&self, case: &Json, again: bool) -> Cabinet {
        let mut cabinet = ask!("Cabinet::new"; Cabinet::new());
        let mut first = BTreeMap::new();
        for part in case.at("parts").list() {
            let (name, origin) = (part.at("mesh").words(), array(part.at("origin")));
            let size = ask!("Cabinet::len"; cabinet.len());
            assert_eq!(ask!("Cabinet::is_empty"; cabinet.is_empty()), size == 0);
            let number = match first.get(name) {
                Some(&part) if again => {
                    ask!("Cabinet::place_again"; cabinet.place_again(part, origin))
                }
                _ => ask!("Cabinet::push"; cabinet.push(&self.mesh(name), origin)),
            };
            assert_eq!(number, size);
            first.entry(name).or_insert(number);
        }
        cabinet
    }

    fn cabinet_cast(&self, case: &Json) -> Json {
        let ray = ray_of(case.at("ray"));
        let limit = case.get("limit").map_or(usize::MAX, Json::whole);
        let (mut own, cabinet) = (self.cabinet(case, false), self.cabinet(case, true));
        let nodes = ask!("Cabinet::nodes"; cabinet.nodes());
        let json = |cast: CabinetCast| {
            let hit = |hit: &PartHit| {
                mesh_hit_json(&MeshHit {
                    normal: hit.normal,
                    distance: hit.distance,
                    triangle: hit.triangle,
                })
            };
            let mut fields = vec![
                ("cast", cast_json(cast.answer, hit)),
                ("spent", Json::Whole(cast.spent)),
                ("nodes", Json::Whole(nodes)),
            ];
            if let Cast::Hit(hit) = cast.answer {
                fields.push(("part", Json::Whole(hit.part)));
            }
            let named = fields
                .into_iter()
                .map(|(name, value)| (name.to_string(), value));
            Json::Object(named.collect())
        };
        assert_eq!(
            json(ask!("Cabinet::cast"; own.cast(&ray, limit))),
            *case.at("answer")
        );
        self.cabinet_call(case, &own, &ray, limit);
        json(ask!("Cabinet::cast_with"; cabinet.cast_with(&ray, limit, &mut Scratch::new())))
    }

    /// The call over a cabinet's parts and areas, with work buffers as long as its largest part needs.
    fn cabinet_call(&self, case: &Json, cabinet: &Cabinet, ray: &Ray, limit: usize) {
        let parts = ask!("Cabinet::parts"; cabinet.parts());
        let triangles = parts.iter().map(|part| part.triangles.length / 3).max();
        let nodes = parts.iter().map(|part| part.nodes).max();
        let (mut list, mut stack) = (
            vec![7; triangles.unwrap_or(0)],
            vec![7; nodes.unwrap_or(0) + 1],
        );
        let (mut hit, mut index, mut part, mut spent) = ([0.0; 4], [0], [0], [0]);
        let areas = ask!("Cabinet::areas"; cabinet.areas());
        let number = ask!("cabinet::ray_cabinet"; ray_cabinet(
            ray, parts, areas, limit, &mut list, &mut stack, &mut hit, &mut index, &mut part, &mut spent,
        ));
        let answer = case.at("answer");
        assert_eq!(
            number_json(number, &hit, Some(index[0])),
            *answer.at("cast")
        );
        assert_eq!(spent[0], answer.at("spent").whole());
        assert_eq!(part[0], answer.get("part").map_or(0, Json::whole));
    }

    fn large(&self, case: &Json) -> Result<LargeMesh, Refusal> {
        let (vertices, triangles) = self.rows(case.at("mesh").words());
        match case.get("most") {
            None => ask!("LargeMesh::build"; LargeMesh::build(vertices, triangles)),
            Some(most) => {
                ask!("LargeMesh::in_pieces"; LargeMesh::in_pieces(vertices, triangles, most.whole()))
            }
        }
    }

    fn large_built(&self, case: &Json) -> Json {
        done_json(self.large(case), |large| {
            let (vertices, triangles) = self.rows(case.at("mesh").words());
            let kept = ask!("LargeMesh::vertices", "LargeMesh::triangles"; (large.vertices(), large.triangles()));
            assert_eq!(kept, (vertices.as_slice(), triangles.as_slice()));
            let pieces = ask!("LargeMesh::pieces"; large.pieces());
            let nodes = ask!("LargeMesh::nodes"; large.nodes());
            // a piece of one triangle has one node, and so has a mesh that is its own only piece
            if pieces == triangles.len() {
                assert_eq!(nodes, pieces);
            } else if pieces == 1 {
                assert_eq!(nodes, self.mesh(case.at("mesh").words()).tree().nodes);
            }
            Json::object([("pieces", Json::Whole(pieces))])
        })
    }

    fn large_cast(&self, case: &Json) -> Json {
        let (mut large, ray) = (self.large(case).unwrap(), ray_of(case.at("ray")));
        let own = ask!("LargeMesh::cast"; large.cast(&ray));
        assert_eq!(mesh_cast_json(own), *case.at("answer"));
        mesh_cast_json(ask!("LargeMesh::cast_with"; large.cast_with(&ray, &mut Scratch::new())))
    }

    fn large_cast_rounded(&self, case: &Json) -> Json {
        let (mut large, ray) = (self.large(case).unwrap(), ray_of(case.at("ray")));
        let own = ask!("LargeMesh::cast_rounded"; large.cast_rounded(&ray));
        assert_eq!(mesh_cast_json(own), *case.at("answer"));
        mesh_cast_json(
            ask!("LargeMesh::cast_rounded_with"; large.cast_rounded_with(&ray, &mut Scratch::new())),
        )
    }

    fn large_cast_all(&self, case: &Json) -> Json {
        let (mut large, ray) = (self.large(case).unwrap(), ray_of(case.at("ray")));
        let own = ask!("LargeMesh::cast_all"; large.cast_all(&ray));
        assert_eq!(hits_json(own), *case.at("answer"));
        hits_json(ask!("LargeMesh::cast_all_with"; large.cast_all_with(&ray, &mut Scratch::new())))
    }

    fn large_cast_exact_all(&self, case: &Json) -> Json {
        let (mut large, ray) = (self.large(case).unwrap(), ray_of(case.at("ray")));
        let own = ask!("LargeMesh::cast_exact_all"; large.cast_exact_all(&ray));
        assert_eq!(hits_json(own), *case.at("answer"));
        hits_json(
            ask!("LargeMesh::cast_exact_all_with"; large.cast_exact_all_with(&ray, &mut Scratch::new())),
        )
    }

    // ---- drills

    fn drills(&self, case: &Json) -> Vec<Drill> {
        values(case.at("drills"), drill_of)
    }

    fn plain_drill(&self, case: &Json) -> Json {
        let Drill { ray, radius } = drill_of(case.at("drill"));
        let name = case.at("mesh").words();
        let ((vertices, triangles), mut index) = (self.numbers(name), [0]);
        let touched =
            ask!("lent::drill_plain"; lent::drill_plain(&ray, radius, &vertices, &triangles));
        assert_eq!(drill_json(touched), *case.at("answer"));
        let number = ask!("calls::drill_plain"; calls::drill_plain(&ray, radius, &vertices, &triangles, &mut index));
        assert_eq!(touched_json(number, index[0]), *case.at("answer"));
        let (vertices, triangles) = self.rows(name);
        drill_json(
            ask!("PlainMesh::drill"; PlainMesh::new(vertices, triangles).drill(&ray, radius)),
        )
    }

    /// Through the tree, over lent buffers and by the call's number.
    fn lent_drill(&self, case: &Json) {
        let (board, Drill { ray, radius }) = (self.board(case), drill_of(case.at("drill")));
        let (v, t, tree) = (&board.vertices, &board.triangles, board.tree());
        if !lent::mesh_has_numbers(v, t) {
            return;
        }
        let (mut list, mut stack, mut index) = (board.list(), board.stack(), [0]);
        let touched =
            ask!("lent::drill"; lent::drill(&ray, radius, v, t, &tree, &mut list, &mut stack));
        assert_eq!(drill_json(touched), *case.at("answer"));
        let number = ask!("calls::drill"; {
            calls::drill(&ray, radius, v, t, &tree, &mut list, &mut stack, &mut index)
        });
        assert_eq!(touched_json(number, index[0]), *case.at("answer"));
    }

    fn mesh_drill(&self, case: &Json) -> Json {
        let Drill { ray, radius } = drill_of(case.at("drill"));
        let mut mesh = self.mesh(case.at("mesh").words());
        self.lent_drill(case);
        let own = ask!("Mesh::drill"; mesh.drill(&ray, radius));
        assert_eq!(drill_json(own), *case.at("answer"));
        drill_json(ask!("Mesh::drill_with"; mesh.drill_with(&ray, radius, &mut Scratch::new())))
    }

    /// Many drills over lent buffers, and by the call's number.
    fn lent_drill_many(&self, case: &Json) {
        let (board, drills) = (self.board(case), self.drills(case));
        let flat: Vec<f64> = drills.iter().flat_map(Drill::numbers).collect();
        let (v, t, tree, count) = (
            &board.vertices,
            &board.triangles,
            board.tree(),
            drills.len(),
        );
        if !lent::mesh_has_numbers(v, t) {
            return;
        }
        let (mut list, mut stack) = (board.list(), board.stack());
        let (mut codes, mut indices) = (vec![7; count], vec![7; count]);
        let number = ask!("calls::drill_many"; {
            calls::drill_many(&flat, v, t, &tree, &mut list, &mut stack, &mut codes, &mut indices)
        });
        assert_eq!(number, sys::DONE);
        let by_number = (0..count).map(|k| touched_json(codes[k], indices[k]));
        assert_eq!(Json::List(by_number.collect()), *case.at("answer"));
        let mut areas = lent::DrillAreas {
            codes: &mut codes,
            indices: &mut indices,
        };
        let made = ask!("lent::drill_many"; {
            lent::drill_many(&flat, v, t, &tree, &mut list, &mut stack, &mut areas)
        });
        assert_eq!(made, Ok(()));
        let each = (0..count).map(|k| drill_json(ask!("DrillAreas::drill"; areas.drill(k))));
        assert_eq!(Json::List(each.collect()), *case.at("answer"));
    }

    fn mesh_drill_many(&self, case: &Json) -> Json {
        let (mesh, drills) = (self.mesh(case.at("mesh").words()), self.drills(case));
        self.lent_drill_many(case);
        let own = ask!("Mesh::drill_many_with"; mesh.drill_many_with(&drills, &mut Scratch::new()));
        assert_eq!(drills_json(own), *case.at("answer"));
        drills_json(ask!("Mesh::drill_many"; mesh.drill_many(&drills)))
    }

    fn large_drill(&self, case: &Json) -> Json {
        let Drill { ray, radius } = drill_of(case.at("drill"));
        let mut large = self.large(case).unwrap();
        let own = ask!("LargeMesh::drill"; large.drill(&ray, radius));
        assert_eq!(drill_json(own), *case.at("answer"));
        drill_json(
            ask!("LargeMesh::drill_with"; large.drill_with(&ray, radius, &mut Scratch::new())),
        )
    }

    fn large_drill_many(&self, case: &Json) -> Json {
        let (large, drills) = (self.large(case).unwrap(), self.drills(case));
        drills_json(ask!("LargeMesh::drill_many"; large.drill_many(&drills)))
    }

    /// A mesh's file goes through the folder of the run, as a user's does.
    fn stl(&self, case: &Json) -> Json {
        let path = self.folder.join("case.stl");
        std::fs::write(&path, bytes(case.at("file"))).unwrap();
        let file = std::fs::read(&path).unwrap();
        let Ok(facets) = ask!("stl::facets"; stl::facets(&file)) else {
            return Json::text("error");
        };
        let (vertices, triangles) = ask!("stl::merged"; stl::merged(&facets));
        if facets.is_empty() {
            // the build refuses it
            assert_eq!(
                Mesh::build(vertices, triangles).unwrap_err(),
                Refusal::OutOfBounds
            );
            return Json::text("error");
        }
        Json::object([
            ("vertices", all_bits(vertices.as_flattened())),
            ("triangles", wholes(triangles.as_flattened())),
        ])
    }

    fn run(&self, case: &Json) -> Json {
        match case.at("call").words() {
            "Mesh" => self.build(case),
            "Mesh.with_tree" => self.with_tree(case),
            "Mesh.glue" => self.glue(case),
            "Mesh.cast" => self.cast(case),
            "Mesh.cast_at" => self.cast_at(case),
            "Mesh.cast_exact" => self.cast_exact(case),
            "Mesh.cast_exact_at" => self.cast_exact_at(case),
            "Mesh.cast_all" => self.cast_all(case),
            "Mesh.cast_all_at" => self.cast_all_at(case),
            "Mesh.cast_exact_all" => self.cast_exact_all(case),
            "Mesh.cast_exact_all_at" => self.cast_exact_all_at(case),
            "Mesh.cast_exact_all_many" => self.cast_exact_all_many(case),
            "LargeMesh.cast_exact_all" => self.large_cast_exact_all(case),
            "Mesh.cast_many" => self.cast_many(case),
            "Mesh.cast_exact_many" => self.cast_exact_many(case),
            "Mesh.cast_all_many" => self.cast_all_many(case),
            "Mesh.query" => self.query(case),
            "mesh_has_numbers" => self.has_numbers(case),
            "PlainMesh.cast" => self.plain_cast(case),
            "PlainMesh.cast_exact" => self.plain_cast_exact(case),
            "Cabinet.cast" => self.cabinet_cast(case),
            "LargeMesh" => self.large_built(case),
            "LargeMesh.cast" => self.large_cast(case),
            "LargeMesh.cast_rounded" => self.large_cast_rounded(case),
            "LargeMesh.cast_all" => self.large_cast_all(case),
            "PlainMesh.drill" => self.plain_drill(case),
            "Mesh.drill" => self.mesh_drill(case),
            "Mesh.drill_many" => self.mesh_drill_many(case),
            "LargeMesh.drill" => self.large_drill(case),
            "LargeMesh.drill_many" => self.large_drill_many(case),
            "stl" => self.stl(case),
            _ => without_mesh(case),
        }
    }
}

// ---- what needs no mesh of the file

fn plane(case: &Json) -> Json {
    let (ray, numbers): (Ray, [f64; 4]) = (ray_of(case.at("ray")), array(case.at("plane")));
    let [x, y, z, distance] = numbers;
    let plane = Plane {
        normal: [x, y, z],
        distance,
    };
    let (mut hit, mut again) = ([0.0; 4], [0.0; 4]);
    let number = ask!("calls::ray_plane"; calls::ray_plane(&ray, &plane, &mut hit));
    assert_eq!(number_json(number, &hit, None), *case.at("answer"));
    let number = ask!("calls::ray_plane_slices"; calls::ray_plane_slices(&ray.numbers(), &numbers, &mut again));
    assert_eq!(number_json(number, &again, None), *case.at("answer"));
    cast_json(ask!("ray_plane"; ray_plane(&ray, &plane)), plain_json)
}

fn triangle(case: &Json) -> Json {
    let (ray, numbers): (Ray, [f64; 9]) = (ray_of(case.at("ray")), array(case.at("corners")));
    let corners: [[f64; 3]; 3] = in_rows(&numbers).try_into().unwrap();
    let (mut hit, mut again) = ([0.0; 4], [0.0; 4]);
    let number = ask!("calls::ray_triangle"; calls::ray_triangle(&ray, &corners, &mut hit));
    assert_eq!(number_json(number, &hit, None), *case.at("answer"));
    let number = ask!("calls::ray_triangle_slices"; calls::ray_triangle_slices(&ray.numbers(), &numbers, &mut again));
    assert_eq!(number_json(number, &again, None), *case.at("answer"));
    cast_json(
        ask!("ray_triangle"; ray_triangle(&ray, &corners)),
        plain_json,
    )
}

fn height_field(case: &Json) -> Json {
    let (ray, heights) = (ray_of(case.at("ray")), floats(case.at("heights")));
    let field = HeightField {
        rows: case.at("rows").whole(),
        columns: case.at("columns").whole(),
        spacing: array(case.at("spacing")),
        heights: &heights,
    };
    let mut hit = [0.0; 4];
    let number = ask!("calls::ray_height_field"; calls::ray_height_field(&ray, &field, &mut hit));
    assert_eq!(number_json(number, &hit, None), *case.at("answer"));
    cast_json(
        ask!("ray_height_field"; ray_height_field(&ray, &field)),
        plain_json,
    )
}

fn height_ranges(case: &Json) -> Json {
    let (lows, highs) = (floats(case.at("lows")), floats(case.at("highs")));
    let ranges = HeightRanges {
        rows: case.at("rows").whole(),
        columns: case.at("columns").whole(),
        spacing: array(case.at("spacing")),
        lows: &lows,
        highs: &highs,
    };
    let (ray, mut cell) = (ray_of(case.at("ray")), [0]);
    let possible = |cell: u32| Json::object([("possible", Json::Whole(cell as usize))]);
    let number =
        ask!("calls::ray_height_ranges"; calls::ray_height_ranges(&ray, &ranges, &mut cell));
    let said = match number {
        sys::CLEAR => Json::text("clear"),
        sys::POSSIBLE => possible(cell[0]),
        number => number_json(number, &[], None),
    };
    assert_eq!(said, *case.at("answer"));
    match ask!("ray_height_ranges"; ray_height_ranges(&ray, &ranges)) {
        Clearance::Clear => Json::text("clear"),
        Clearance::Possible(cell) => possible(cell),
        Clearance::Refused(refusal) => refused(refusal),
    }
}

fn level_set(case: &Json) -> Json {
    let (ray, values) = (ray_of(case.at("ray")), floats(case.at("values")));
    let grid = LevelSet {
        sides: words(case.at("sides")).try_into().unwrap(),
        origin: array(case.at("origin")),
        spacing: array(case.at("spacing")),
        values: &values,
    };
    let mut hit = [0.0; 4];
    let number = ask!("calls::ray_level_set"; calls::ray_level_set(&ray, &grid, &mut hit));
    assert_eq!(number_json(number, &hit, None), *case.at("answer"));
    cast_json(
        ask!("ray_level_set"; ray_level_set(&ray, &grid)),
        plain_json,
    )
}

/// A record converted, and by the call's number.
fn converted(
    case: &Json,
    call: fn(&[u8], &mut [u8], &mut [usize]) -> u32,
    convert: fn(&[u8]) -> Result<Vec<u8>, Refusal>,
) -> Json {
    let record = bytes(case.at("record"));
    let (mut out, mut written) = (vec![7; MAX_RECORD], [0]);
    let said = match call(&record, &mut out, &mut written) {
        sys::DONE => hex(&out[..written[0]]),
        number => number_json(number, &[], None),
    };
    assert_eq!(said, *case.at("answer"));
    done_json(convert(&record), |record| hex(&record))
}

fn toward(case: &Json) -> Json {
    let (origin, direction) = (array(case.at("origin")), array(case.at("direction")));
    let ray = ask!("Ray::toward"; Ray::toward(origin, direction, number_of(case.at("maximum"))));
    all_bits(&ray.numbers())
}

/// The words, and what a refusal of the ray says.
fn fault(case: &Json) -> Json {
    let ray = ray_of(case.at("ray"));
    let words = ask!("Ray::fault"; ray.fault()).unwrap_or("");
    let said = ask!("Refusal::explained"; Refusal::InvalidInput.explained(&ray));
    let expected = match words {
        "" => Refusal::InvalidInput.to_string(),
        words => format!("refused 1, invalid input: {words}"),
    };
    assert_eq!(said, expected);
    let other = Refusal::Overflow;
    assert_eq!(other.explained(&ray), other.to_string());
    let plane = Plane {
        normal: [0.0, 0.0, 1.0],
        distance: 0.0,
    };
    let is_refused = matches!(
        ray_plane(&ray, &plane),
        Cast::Refused(Refusal::InvalidInput)
    );
    assert_eq!(is_refused, !words.is_empty());
    Json::text(words)
}

fn refusal(case: &Json) -> Json {
    let number = case.at("number").whole() as u32;
    let said = Refusal::from_number(number).to_string();
    let name = said.strip_prefix(&format!("refused {number}, ")).unwrap();
    Json::text(name.split_once(": ").unwrap().0)
}

fn bounds(case: &Json) -> Json {
    let vertices = in_rows(&floats(case.at("vertices")));
    match ask!("facts::bounds"; facts::bounds(&vertices)) {
        Some(ends) => all_bits(ends.as_flattened()),
        None => Json::text("none"),
    }
}

fn without_mesh(case: &Json) -> Json {
    let triangles = || in_rows(&words(case.at("triangles")));
    match case.at("call").words() {
        "ray_plane" => plane(case),
        "ray_triangle" => triangle(case),
        "ray_height_field" => height_field(case),
        "ray_height_ranges" => height_ranges(case),
        "ray_level_set" => level_set(case),
        "record_to_short" => ask!("record_to_short", "calls::record_to_short"; {
            converted(case, calls::record_to_short, record_to_short)
        }),
        "record_to_long" => ask!("record_to_long", "calls::record_to_long"; {
            converted(case, calls::record_to_long, record_to_long)
        }),
        "version" => {
            assert_eq!(case.at("answer").whole() as u32, sys::VERSION);
            Json::Whole(ask!("version"; version()) as usize)
        }
        "Ray.toward" => toward(case),
        "Ray.at" => {
            let ray = ray_of(case.at("ray"));
            all_bits(&ask!("Ray::at"; ray.at(number_of(case.at("distance")))))
        }
        "Ray.fault" => fault(case),
        "Drill.fault" => drill_fault(case),
        "Refusal" => refusal(case),
        "bounds" => bounds(case),
        "open_edges" => Json::Whole(ask!("facts::open_edges"; facts::open_edges(&triangles()))),
        "shells" => Json::Whole(ask!("facts::shells"; facts::shells(&triangles()))),
        other => panic!("the runner has no call {other}"),
    }
}

// ---- every public function has a case

/// What shows a line on a terminal, which is no answer: tests/progress.py looks at it.
const ON_A_TERMINAL: [&str; 2] = ["Progress::new", "Progress::show"];

/// The modules whose functions are called by the module's name.
const MODULES: [&str; 5] = ["cabinet", "calls", "facts", "lent", "stl"];

/// The type that an `impl` is of; nothing for a trait's, whose functions are not the crate's own.
fn type_of(line: &str) -> Option<String> {
    let rest = line.strip_prefix("impl")?;
    let rest = match rest.strip_prefix('<') {
        Some(generic) => generic.split_once('>')?.1,
        None => rest,
    };
    let name: String = rest
        .trim()
        .chars()
        .take_while(|letter| letter.is_alphanumeric())
        .collect();
    (!line.contains(" for ")).then_some(name)
}

/// The public functions of a file: of a type, of its module, or of the crate.
fn functions(module: &str, text: &str) -> Vec<String> {
    let (mut owner, mut found) = (None, Vec::new());
    for line in text.lines() {
        if line.starts_with("impl") {
            owner = type_of(line);
        }
        let start = line.trim_start();
        let function = start
            .strip_prefix("pub fn ")
            .or_else(|| start.strip_prefix("pub const fn "));
        let Some(function) = function else { continue };
        let name = function.split(['(', '<']).next().unwrap_or_default();
        let is_free = start.len() == line.len();
        match &owner {
            _ if is_free && MODULES.contains(&module) => found.push(format!("{module}::{name}")),
            _ if is_free => found.push(name.to_string()),
            Some(owner) => found.push(format!("{owner}::{name}")),
            None => {}
        }
    }
    found
}

fn public_functions(source: &Path) -> BTreeSet<String> {
    let mut all = BTreeSet::new();
    for entry in std::fs::read_dir(source).unwrap() {
        let path = entry.unwrap().path();
        let module = path.file_stem().unwrap().to_string_lossy().to_string();
        if module != "sys" {
            all.extend(functions(&module, &std::fs::read_to_string(&path).unwrap()));
        }
    }
    all
}

fn name_of(case: &Json) -> String {
    let mesh = case.get("mesh").map_or("", Json::words);
    format!(
        "{}, {}, {mesh}",
        case.at("call").words(),
        case.at("why").words()
    )
}

#[test]
fn every_case_has_its_answer_and_every_function_a_case() {
    let home = Path::new(env!("CARGO_MANIFEST_DIR"));
    let path = std::env::var("CONFORMANCE")
        .map_or_else(|_| home.join("../../tests/conformance.json"), PathBuf::from);
    let file = Json::read(&std::fs::read_to_string(path).unwrap());
    let Json::Object(meshes) = file.at("meshes").clone() else {
        panic!("the meshes have names");
    };
    let folder = std::env::temp_dir().join(format!("conformance-{}", std::process::id()));
    std::fs::create_dir_all(&folder).unwrap();
    let runner = Runner {
        meshes,
        built: RefCell::default(),
        folder: folder.clone(),
    };
    let cases = file.at("cases").list();
    for case in cases {
        // a comparison within the case that fails says which case it was
        let name = name_of(case);
        let answer = std::panic::catch_unwind(std::panic::AssertUnwindSafe(|| runner.run(case)));
        let answer = answer.unwrap_or_else(|_| panic!("{name}"));
        assert_eq!(answer, *case.at("answer"), "{name}");
    }
    std::fs::remove_dir_all(folder).unwrap();
    assert!(!cases.is_empty());
    let asked = ASKED.with(|asked| asked.borrow().clone());
    let public = public_functions(&home.join("src"));
    let without: Vec<&String> = public
        .difference(&asked)
        .filter(|name| !ON_A_TERMINAL.contains(&name.as_str()))
        .collect();
    assert!(
        without.is_empty(),
        "no case calls {without:?}: add one (differential/src/conformance)"
    );
    let unknown: Vec<&String> = asked.difference(&public).collect();
    assert!(unknown.is_empty(), "the crate has no {unknown:?}");
    println!("{} cases, {} functions", cases.len(), public.len());
}
