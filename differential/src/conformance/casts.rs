//! The casts at a mesh: rounded and exact, with a tree and without, at other vertices, of many rays, and the listing of all hits.
use super::book::{
    Book, Field, agreed, answer_json, answer_of, counted, equal, lent as lent_tree, ray_json,
    refused,
};
use super::json::{Json, floats, text, whole, wholes};
use super::rays::{aslant, down, from, lent, up};
use oracle::{
    answer::{Answer, Ray},
    listing::{self, HitArea, Row},
    mesh_exact, mesh_plain, model,
    tree::FlatTree,
};
use probe_rays::calls;

/// A mesh's numbers, its tree, and the vertices to cast at.
pub struct Board {
    pub vertices: Vec<f64>,
    pub triangles: Vec<u32>,
    pub tree: FlatTree,
    pub pose: Vec<f64>,
}

impl Board {
    pub fn of(book: &Book, mesh: &str) -> Board {
        let found = book.mesh(mesh);
        Board {
            vertices: found.vertices.all(),
            triangles: found.triangles.all(),
            tree: found.tree().expect("a mesh with a tree"),
            pose: found.vertices.all(),
        }
    }

    fn count(&self) -> usize {
        self.triangles.len() / 3
    }

    /// The rounded cast.
    pub fn cast(&self, why: &str, ray: &Ray) -> Answer {
        let (tree, plain) = lent_tree(&self.tree);
        let (mut list, mut stack) = (vec![0; self.count()], vec![0; tree.nodes + 1]);
        let (mut hit, mut index) = ([0.0; 4], [0]);
        let number = calls::ray_mesh(
            &lent(ray),
            &self.vertices,
            &self.triangles,
            &self.pose,
            &tree,
            &mut list,
            &mut stack,
            &mut hit,
            &mut index,
        );
        let (rooms, stacks) = (list.len(), stack.len());
        let model = model::ray_mesh(
            ray,
            &self.vertices,
            &self.triangles,
            &self.pose,
            plain,
            rooms,
            stacks,
        );
        agreed(why, answer_of(number, &hit, Some(index[0])), model)
    }

    /// The exact cast through the tree. At other vertices the model is that without a tree: a case there is one whose hits are
    /// of triangles that the tree lists.
    pub fn cast_exact(&self, why: &str, ray: &Ray) -> Answer {
        let (tree, plain) = lent_tree(&self.tree);
        let mut stack = vec![0; tree.nodes + 1];
        let (mut hit, mut index) = ([0.0; 4], [0]);
        let numbers = equal(
            why,
            calls::mesh_has_numbers(&self.vertices, &self.triangles) == probe_rays::sys::YES,
            mesh_exact::mesh_has_numbers(&self.vertices, &self.triangles),
        );
        let number = if numbers {
            calls::ray_mesh_exact(
                &lent(ray),
                &self.vertices,
                &self.triangles,
                &self.pose,
                &tree,
                &mut stack,
                &mut hit,
                &mut index,
            )
        } else {
            calls::ray_mesh_exact_plain(
                &lent(ray),
                &self.vertices,
                &self.triangles,
                &mut hit,
                &mut index,
            )
        };
        let early = mesh_exact::refused_before_walk(
            ray,
            &self.vertices,
            &self.triangles,
            &self.pose,
            plain,
            stack.len(),
        );
        let model = early.map_or_else(
            || mesh_exact::ray_mesh_exact_plain(ray, &self.pose, &self.triangles),
            Answer::Refused,
        );
        agreed(why, answer_of(number, &hit, Some(index[0])), model)
    }

    /// Every hit, in order of depth.
    pub fn cast_all(&self, why: &str, ray: &Ray) -> Result<Vec<Row>, u32> {
        let (tree, plain) = lent_tree(&self.tree);
        let (n, stacks) = (self.count(), tree.nodes + 1);
        let library = |indices: &mut [u32], numbers: &mut [f64], found: &mut [usize]| {
            let (mut list, mut stack) = (vec![0; n], vec![0; stacks]);
            calls::ray_mesh_all(
                &lent(ray),
                &self.vertices,
                &self.triangles,
                &self.pose,
                &tree,
                &mut list,
                &mut stack,
                indices,
                numbers,
                found,
            )
        };
        listed(why, n, &library, |area| {
            listing::ray_mesh_all(
                ray,
                &self.vertices,
                &self.triangles,
                &self.pose,
                plain,
                n,
                stacks,
                area,
            )
        })
    }

    /// Every hit of the exact cast, in order of depth; at other vertices as `cast_exact` says.
    pub fn cast_exact_all(&self, why: &str, ray: &Ray) -> Result<Vec<Row>, u32> {
        let (tree, plain) = lent_tree(&self.tree);
        let (n, stacks) = (self.count(), tree.nodes + 1);
        if !mesh_exact::mesh_has_numbers(&self.vertices, &self.triangles) {
            // without its tree
            let mut area = HitArea {
                indices: &mut [],
                numbers: &mut [],
            };
            return mesh_exact::ray_mesh_exact_all(ray, &self.pose, &self.triangles, &mut area)
                .map(|_| Vec::new());
        }
        let library = |indices: &mut [u32], numbers: &mut [f64], found: &mut [usize]| {
            let (mut list, mut stack) = (vec![0; n], vec![0; stacks]);
            calls::ray_mesh_exact_all(
                &lent(ray),
                &self.vertices,
                &self.triangles,
                &self.pose,
                &tree,
                &mut list,
                &mut stack,
                indices,
                numbers,
                found,
            )
        };
        let early = mesh_exact::refused_before_walk(
            ray,
            &self.vertices,
            &self.triangles,
            &self.pose,
            plain,
            stacks,
        );
        listed(why, n, &library, |area| match early {
            Some(number) => Err(number),
            None => mesh_exact::ray_mesh_exact_all(ray, &self.pose, &self.triangles, area),
        })
    }
}

/// A listing over lent buffers: the number that the call returns, the hits that it wrote, and their count.
type Listing<'a> = dyn Fn(&mut [u32], &mut [f64], &mut [usize]) -> u32 + 'a;

/// Every hit of the library's listing, and of the model's.
fn listed(
    why: &str,
    places: usize,
    library: &Listing,
    model: impl FnOnce(&mut HitArea) -> Result<usize, u32>,
) -> Result<Vec<Row>, u32> {
    let (mut indices, mut numbers, mut found) = (vec![0; places], vec![0.0; 4 * places], [0]);
    let number = library(&mut indices, &mut numbers, &mut found);
    let (mut own, mut depths) = (vec![0; places], vec![0.0; 4 * places]);
    let counted_by_model = model(&mut HitArea {
        indices: &mut own,
        numbers: &mut depths,
    });
    let count = equal(why, counted(number, found[0]), counted_by_model)?;
    let rows = |indices: &[u32], numbers: &[f64]| -> Vec<(u32, [u64; 4])> {
        let row = |k: usize| {
            (
                indices[k],
                [0, 1, 2, 3].map(|j| numbers[4 * k + j].to_bits()),
            )
        };
        (0..count).map(row).collect()
    };
    let rows = equal(why, rows(&indices, &numbers), rows(&own, &depths));
    let float = |(index, bits): (u32, [u64; 4])| (index, bits.map(f64::from_bits));
    Ok(rows.into_iter().map(float).collect())
}

/// The hits of a listing, each as a cast has it.
pub fn hits_json(hits: Result<Vec<Row>, u32>) -> Json {
    let hit = |&(index, [distance, x, y, z]): &Row| {
        answer_json(&Answer::Hit {
            normal: [x, y, z],
            distance,
            index: Some(index),
        })
    };
    match hits {
        Ok(rows) => Json::List(rows.iter().map(hit).collect()),
        Err(number) => refused(number),
    }
}

fn at(mesh: &str, ray: &Ray) -> Vec<Field> {
    vec![("mesh", text(mesh)), ("ray", ray_json(ray))]
}

/// One ray at a mesh, by every cast: with a tree and without, rounded, exact, and all hits of a small mesh.
fn at_mesh(book: &mut Book, mesh: &str, why: &str, ray: Ray) {
    let board = Board::of(book, mesh);
    let answer = board.cast(why, &ray);
    book.write("Mesh.cast", why, at(mesh, &ray), answer_json(&answer));
    let answer = board.cast_exact(why, &ray);
    book.write("Mesh.cast_exact", why, at(mesh, &ray), answer_json(&answer));
    if board.count() <= 100 {
        let hits = board.cast_all(why, &ray);
        book.write("Mesh.cast_all", why, at(mesh, &ray), hits_json(hits));
        let hits = board.cast_exact_all(why, &ray);
        book.write("Mesh.cast_exact_all", why, at(mesh, &ray), hits_json(hits));
    }
    at_plain_mesh(book, mesh, why, ray);
}

fn at_plain_mesh(book: &mut Book, mesh: &str, why: &str, ray: Ray) {
    let found = book.mesh(mesh);
    let (vertices, triangles) = (found.vertices.all(), found.triangles.all());
    let (mut hit, mut index) = ([0.0; 4], [0]);
    let number = calls::ray_mesh_plain(&lent(&ray), &vertices, &triangles, &mut hit, &mut index);
    let library = answer_of(number, &hit, Some(index[0]));
    let answer = agreed(
        why,
        library,
        mesh_plain::ray_mesh_plain(&ray, &vertices, &triangles),
    );
    book.write("PlainMesh.cast", why, at(mesh, &ray), answer_json(&answer));
    let number =
        calls::ray_mesh_exact_plain(&lent(&ray), &vertices, &triangles, &mut hit, &mut index);
    let library = answer_of(number, &hit, Some(index[0]));
    let answer = agreed(
        why,
        library,
        mesh_exact::ray_mesh_exact_plain(&ray, &vertices, &triangles),
    );
    book.write(
        "PlainMesh.cast_exact",
        why,
        at(mesh, &ray),
        answer_json(&answer),
    );
}

/// A ray at a mesh whose vertices stand elsewhere: rounded, exact and all hits.
fn at_pose(book: &mut Book, mesh: &str, why: &str, ray: Ray, pose: Vec<f64>) {
    let board = Board {
        pose,
        ..Board::of(book, mesh)
    };
    let arguments = || {
        let mut fields = at(mesh, &ray);
        fields.push(("pose", floats(&board.pose)));
        fields
    };
    let answer = board.cast(why, &ray);
    book.write("Mesh.cast_at", why, arguments(), answer_json(&answer));
    let answer = board.cast_exact(why, &ray);
    book.write("Mesh.cast_exact_at", why, arguments(), answer_json(&answer));
    let hits = board.cast_all(why, &ray);
    book.write("Mesh.cast_all_at", why, arguments(), hits_json(hits));
    let hits = board.cast_exact_all(why, &ray);
    book.write("Mesh.cast_exact_all_at", why, arguments(), hits_json(hits));
}

/// Many rays at a mesh, by every cast: each ray is answered as by the single call.
fn many(book: &mut Book, mesh: &str, why: &str, rays: &[Ray]) {
    let board = Board::of(book, mesh);
    let arguments = || {
        let rays = Json::List(rays.iter().map(ray_json).collect());
        vec![("mesh", text(mesh)), ("rays", rays)]
    };
    let answers = |cast: &dyn Fn(&Ray) -> Json| Json::List(rays.iter().map(cast).collect());
    let rounded = answers(&|ray| answer_json(&board.cast(why, ray)));
    let exact = answers(&|ray| answer_json(&board.cast_exact(why, ray)));
    let all = answers(&|ray| hits_json(board.cast_all(why, ray)));
    let exact_all = answers(&|ray| hits_json(board.cast_exact_all(why, ray)));
    book.write("Mesh.cast_many", why, arguments(), rounded);
    book.write("Mesh.cast_exact_many", why, arguments(), exact);
    book.write("Mesh.cast_all_many", why, arguments(), all);
    book.write("Mesh.cast_exact_all_many", why, arguments(), exact_all);
}

fn query(book: &mut Book, mesh: &str, why: &str, bounds: [f64; 6]) {
    let board = Board::of(book, mesh);
    let (tree, plain) = lent_tree(&board.tree);
    let n = board.count();
    let (mut list, mut stack, mut found) = (vec![0; n], vec![0; tree.nodes + 1], [0]);
    let [a, b, c, d, e, f] = bounds;
    let number = calls::query(
        [a, b, c],
        [d, e, f],
        n,
        &tree,
        &mut list,
        &mut stack,
        &mut found,
    );
    let mut listed = vec![0; n];
    let model = model::query(plain, n, bounds, &mut listed, tree.nodes + 1);
    let answer = match equal(why, counted(number, found[0]), model) {
        Ok(count) => wholes(&equal(
            why,
            list[..count].to_vec(),
            listed[..count].to_vec(),
        )),
        Err(number) => refused(number),
    };
    let arguments = vec![("mesh", text(mesh)), ("box", floats(&bounds))];
    book.write("Mesh.query", why, arguments, answer);
}

fn has_numbers(book: &mut Book, mesh: &str) {
    let found = book.mesh(mesh);
    let (vertices, triangles) = (found.vertices.all(), found.triangles.all());
    let library = calls::mesh_has_numbers(&vertices, &triangles) == probe_rays::sys::YES;
    let answer = equal(
        mesh,
        library,
        mesh_exact::mesh_has_numbers(&vertices, &triangles),
    );
    let arguments = vec![("mesh", text(mesh))];
    book.write(
        "mesh_has_numbers",
        mesh,
        arguments,
        whole(usize::from(answer)),
    );
}

/// One ray at each mesh that a near distance, the maximum, a limit or a zero distinguishes.
fn single(book: &mut Book) {
    let through = down(30.25, 20.125, 100.0, 200.0);
    at_mesh(book, "board", "down at the top", through);
    at_mesh(
        book,
        "board",
        "near past the top: the bottom is hit",
        from(through, 90.0),
    );
    at_mesh(book, "board", "near past the bottom", from(through, 110.0));
    at_mesh(
        book,
        "board",
        "the maximum above the top",
        down(30.25, 20.125, 100.0, 50.0),
    );
    at_mesh(book, "board", "beside it", down(61.0, 20.125, 100.0, 200.0));
    at_mesh(book, "board", "aslant", aslant(10.0, 11.0, 60.0, 100.0));
    at_mesh(
        book,
        "board",
        "aslant from within",
        from(aslant(10.0, 11.0, 12.0, 100.0), 10.0),
    );
    at_mesh(
        book,
        "board",
        "a direction that is not of length 1",
        Ray {
            direction: [0.0, 0.0, -2.0],
            ..through
        },
    );
    at_mesh(
        book,
        "board",
        "a NaN as the origin",
        down(f64::NAN, 0.0, 0.0, 1.0),
    );
    at_mesh(
        book,
        "board",
        "near above the maximum",
        from(through, 201.0),
    );
    at_mesh(
        book,
        "board in one leaf",
        "another builder's tree",
        aslant(10.0, 11.0, 60.0, 100.0),
    );
    at_mesh(
        book,
        "uneven",
        "aslant over an uneven surface",
        aslant(3.0, 4.0, 30.0, 80.0),
    );
    at_mesh(
        book,
        "uneven",
        "the same from near on",
        from(aslant(3.0, 4.0, 30.0, 80.0), 31.5),
    );
    at_mesh(
        book,
        "square of 31",
        "on the diagonal, where the rounded cast passes",
        down(1.0, 30.0, 1.0, 2.0),
    );
    at_mesh(
        book,
        "square of 31",
        "the same with near past the square",
        from(down(1.0, 30.0, 1.0, 2.0), 1.5),
    );
    at_mesh(
        book,
        "square of 31",
        "along the outline",
        Ray {
            direction: [1.0, 0.0, 0.0],
            ..down(-5.0, 0.0, 0.0, 10.0)
        },
    );
    at_mesh(
        book,
        "square of 31",
        "8,192 above",
        down(1.0, 2.0, 8_192.0, 9_000.0),
    );
    at_mesh(
        book,
        "square of 31",
        "beyond 8,192 above",
        down(1.0, 2.0, 8_192.5, 9_000.0),
    );
    at_mesh(
        book,
        "square of 31",
        "a maximum of 32,768",
        down(1.0, 2.0, 9.0, 32_768.0),
    );
    at_mesh(
        book,
        "square of 31",
        "a maximum above 32,768",
        down(1.0, 2.0, 9.0, 32_768.5),
    );
    at_mesh(
        book,
        "square at the origin's height",
        "from the surface itself, down",
        down(1.0, 2.0, 0.0, 5.0),
    );
    at_mesh(
        book,
        "square at the origin's height",
        "from the surface itself, up",
        up(1.0, 2.0, 0.0, 5.0),
    );
    at_mesh(
        book,
        "two layers",
        "of two equally near triangles the first",
        down(0.25, 0.25, 1.0, 1.0),
    );
    at_mesh(book, "board and a far triangle", "no NaN", through);
    at_mesh(
        book,
        "board and a far triangle with a NaN",
        "a NaN far off, in a valid box",
        through,
    );
    at_mesh(
        book,
        "board beyond 8,192",
        "a corner beyond 8,192",
        down(8_030.25, 20.125, 100.0, 200.0),
    );
    at_mesh(
        book,
        "65,536 layers",
        "as many triangles as a mesh may have",
        down(0.25, 0.25, 1.0, 1.0),
    );
    at_mesh(
        book,
        "65,536 vertices",
        "as many vertices as a mesh may have",
        down(0.25, 0.25, 1.0, 1.0),
    );
    let most = f64::MAX;
    at_mesh(
        book,
        "triangle",
        "a segment that ends past every float",
        up(0.0, 0.0, most, most),
    );
    let (x, y, p) = (2f64.powi(610), 2f64.powi(210), 2f64.powi(-10));
    let along = Ray {
        direction: [1.0, 0.0, 0.0],
        ..down(x / 4.0, y, p / 4.0, 1.0)
    };
    at_mesh(book, "without a normal", "no normal", along);
}

fn plain_alone(book: &mut Book) {
    let ray = down(0.25, 0.25, 1.0, 10.0);
    for mesh in [
        "65,537 layers",
        "65,537 vertices",
        "index past the vertices",
        "no triangle",
        "infinite vertex",
    ] {
        at_plain_mesh(book, mesh, mesh, ray);
    }
}

/// The uneven surface with every vertex moved a little, none like another and none out of its triangles' boxes' reach.
fn moved(vertices: &[f64]) -> Vec<f64> {
    let by = |k: usize| (k * 5 % 7) as f64 / 8.0;
    vertices
        .iter()
        .enumerate()
        .map(|(k, x)| x + by(k))
        .collect()
}

fn posed(book: &mut Book) {
    let own = Board::of(book, "uneven").vertices;
    let ray = aslant(3.0, 4.0, 30.0, 80.0);
    at_pose(book, "uneven", "every vertex moved", ray, moved(&own));
    at_pose(
        book,
        "uneven",
        "every vertex moved, from near on",
        from(ray, 31.5),
        moved(&own),
    );
    at_pose(
        book,
        "uneven",
        "a pose of a vertex too few",
        ray,
        own[3..].to_vec(),
    );
    at_pose(
        book,
        "uneven",
        "a pose of a vertex too many",
        ray,
        [own.as_slice(), &[1.0, 2.0, 3.0]].concat(),
    );
    at_pose(
        book,
        "uneven",
        "the pose is not read before 1",
        Ray {
            maximum: -1.0,
            ..ray
        },
        own[3..].to_vec(),
    );
}

/// Rays over a board, a few units apart, none with another's answer; every seventh is refused and every fifth starts past the top.
fn rays_over(count: usize) -> Vec<Ray> {
    let ray = |k: usize| {
        let k = k as f64;
        let ray = down(
            1.25 + k % 7.0 * 4.0,
            1.125 + k / 7.0 * 5.0,
            40.0 + k / 4.0,
            100.0,
        );
        let near = if k % 5.0 == 4.0 { 45.0 } else { 0.0 };
        let maximum = if k % 7.0 == 6.0 { -1.0 } else { ray.maximum };
        Ray {
            near,
            maximum,
            ..ray
        }
    };
    (0..count).map(ray).collect()
}

fn of_many(book: &mut Book) {
    many(book, "uneven", "40 rays", &rays_over(40));
    many(book, "uneven", "no ray", &[]);
    let on_diagonal = [
        down(1.0, 30.0, 1.0, 2.0),
        from(down(1.0, 30.0, 1.0, 2.0), 1.5),
        down(2.0, 3.0, 4.0, 5.0),
    ];
    many(
        book,
        "square of 31",
        "where the rounded cast passes",
        &on_diagonal,
    );
    many(
        book,
        "board and a far triangle with a NaN",
        "a NaN far off",
        &rays_over(6),
    );
    many(
        book,
        "board",
        "a direction of length 2 among others",
        &[
            down(30.25, 20.125, 100.0, 200.0),
            Ray {
                direction: [0.0, 0.0, -2.0],
                ..down(30.25, 20.125, 100.0, 200.0)
            },
            down(30.25, 20.125, 8_193.0, 9_000.0),
            aslant(10.0, 11.0, 60.0, 100.0),
        ],
    );
}

fn queries(book: &mut Book) {
    query(
        book,
        "uneven",
        "a box over some of the surface",
        [2.0, 13.0, 1.0, 11.0, 20.0, 9.0],
    );
    query(
        book,
        "uneven",
        "a box over all of it",
        [0.0, 0.0, 0.0, 30.0, 36.0, 20.0],
    );
    query(
        book,
        "uneven",
        "a box above it",
        [0.0, 0.0, 21.0, 30.0, 36.0, 30.0],
    );
    query(
        book,
        "board",
        "a box about the bottom",
        [-1.0, -1.0, -1.0, 61.0, 41.0, 0.5],
    );
    query(
        book,
        "board",
        "a minimum above its maximum",
        [1.0, 0.0, 0.0, 0.0, 1.0, 1.0],
    );
    query(
        book,
        "board",
        "a corner that is not finite",
        [0.0, 0.0, 0.0, 1.0, f64::INFINITY, 1.0],
    );
}

pub fn write(book: &mut Book) {
    single(book);
    plain_alone(book);
    posed(book);
    of_many(book);
    queries(book);
    for mesh in [
        "board and a far triangle",
        "board and a far triangle with a NaN",
        "index past the vertices",
        "infinite vertex",
    ] {
        has_numbers(book, mesh);
    }
}
