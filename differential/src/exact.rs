//! The exact cast: beside the model everywhere, and on boards beside the judge in fractions too; and whether a mesh's corners
//! are numbers. The Rust has no such call.

use crate::{
    boards::{self, Board, met},
    calls::{Held, MODEL, SHORT_RESULT, answer_is, exact, run},
    exact_listing, exact_tree,
    lent::Lent,
    library::{self, Fault, Hit, only_read, written},
    log::Log,
    plain::{PlainCast, plain_cast},
    run::{Mesh, changed, result},
};
use oracle::{
    answer::{Answer, Ray},
    mesh_exact,
    random::Random,
};
use probe_rays::{calls, sys};

pub const EXACT: &str = "exact cast without a tree";

pub const NUMBERS: &str = "numbers of a mesh";

const JUDGE: &str = "the judge in fractions";
const CLOSED: &str = "a closed board, which every way in and out hits";

/// What the rounded cast misses of them.
pub const MISSED: &str = "ways that the rounded cast misses";

/// The farthest coordinate and the longest segment in millimetres.
const FARTHEST: f64 = 8_192.0;
const LONGEST: f64 = 32_768.0;

/// Rays that are cast at one mesh.
const RAYS: usize = 3;

pub(crate) fn exact_cast(call: &PlainCast) -> Result<Hit, Fault> {
    let vertices = Lent::new(call.vertices);
    let indices = Lent::new(call.indices);
    let mut hit = Lent::new(call.hit);
    let mut index = Lent::new(call.index);
    let number = calls::ray_mesh_exact_plain(
        &library::ray(&call.ray),
        vertices.contents(),
        indices.contents(),
        hit.slice(),
        index.slice(),
    );
    only_read("the vertices", &vertices, call.vertices)?;
    only_read("the triangles", &indices, call.indices)?;
    Ok(Hit {
        number,
        list: Vec::new(),
        stack: Vec::new(),
        hit: written("the hit", &hit)?,
        index: written("the index", &index)?,
    })
}

/// The mesh as it is; with coordinates that are whole, of a grid or half a unit off it; with one thing out of range; and a
/// board.
pub fn compare(log: &mut Log, seed: u64, number: u64, mesh: &Mesh) {
    let random = &mut Random::of_record(seed.rotate_left(32) ^ 0x6578_6163_7400, number);
    log.context = "as drawn";
    casts(log, random, mesh);
    let rounded = on_grid(random, mesh);
    log.context = "on a grid";
    casts(log, random, &rounded);
    let board = boards::board(random);
    let mut board = Mesh {
        ray: board.ray,
        indices: board.indices(),
        vertices: board.vertices,
    };
    log.context = "a board";
    casts(log, random, &board);
    log.context = "a board with one thing changed";
    damage(random, &mut board);
    casts(log, random, &board);
    if rounded.indices.len() >= 3 && rounded.vertices.len() >= 3 {
        log.context = "on a grid, one coordinate or index changed";
        let mut other = changed(random, &rounded);
        if random.once_in(2) {
            damage(random, &mut other);
        }
        casts(log, random, &other);
    }
}

/// Every coordinate of an ordinary part at a whole number near it, times whole millimetres, units or half units.
pub(crate) fn on_grid(random: &mut Random, mesh: &Mesh) -> Mesh {
    let unit = 1.0 / 32_768.0;
    let times = random.pick(&[1.0, 2.0, 30.0, 1_000.0]);
    let scale = random.pick(&[1.0, 1.0, unit, unit / 2.0]);
    let mut whole = mesh.clone();
    whole
        .vertices
        .iter_mut()
        .for_each(|x| *x = (*x * times).round() * scale);
    whole.ray = ray_at(random, &whole);
    whole
}

/// A ray at a corner's place or half way along a side: along an axis, or from one such place toward another.
pub(crate) fn ray_at(random: &mut Random, mesh: &Mesh) -> Ray {
    let place = |random: &mut Random| -> [f64; 3] {
        let vertex = 3 * random.below((mesh.vertices.len() / 3).max(1));
        let corner = mesh.vertices.get(vertex..vertex + 3).unwrap_or(&[0.0; 3]);
        [0, 1, 2].map(|k| corner[k])
    };
    let (p, q, r) = (place(random), place(random), place(random));
    let mut origin = match random.below(3) {
        0 => p,
        1 => [0, 1, 2].map(|k| (p[k] + q[k]) / 2.0),
        _ => [p[0], q[1], q[2]],
    };
    let axis = random.below(3);
    origin[axis] += random.within(-8, 8) as f64;
    let zero = random.pick(&[0.0, 0.0, 0.0, -0.0]);
    let mut direction = [zero; 3];
    direction[axis] = random.sign();
    let way = [0, 1, 2].map(|k| r[k] - origin[k]);
    let length = way.iter().map(|x| x * x).sum::<f64>().sqrt();
    if random.once_in(2) && length > 0.0 && length.is_finite() {
        direction = way.map(|x| x / length);
    }
    let maximum = match random.below(8) {
        0 => LONGEST,
        1 => random.within(0, 4) as f64,
        2 => random.between(0.0, 40.0),
        _ => random.within(0, 40) as f64,
    };
    let near = match random.below(6) {
        0 => maximum,
        1 => -0.0,
        2 => (maximum * random.unit()).floor(),
        _ => 0.0,
    };
    Ray {
        origin,
        direction,
        maximum,
        near,
    }
}

/// One number of the ray or of the mesh off the grid, or at or beyond the end of its range.
pub(crate) fn damage(random: &mut Random, mesh: &mut Mesh) {
    let coordinate = |random: &mut Random, x: f64| match random.below(10) {
        0 => x + 1.0 / 65_536.0,
        1 => random.nudged(x),
        2 => -0.0,
        3 => random.special(),
        4 => FARTHEST,
        5 => -FARTHEST,
        6 | 7 => random.pick(&[FARTHEST + 1.0, 8_192.000_000_000_002, FARTHEST + 1e-5]),
        8 => -FARTHEST - 1.0,
        _ => x * 1e300,
    };
    let ray = &mut mesh.ray;
    match random.below(10) {
        0 => {
            let axis = random.below(3);
            ray.origin[axis] = coordinate(random, ray.origin[axis]);
        }
        1 => ray.maximum = random.pick(&[LONGEST, LONGEST + 1.0, ray.maximum + 1.0, 1e300]),
        2 => {
            // the longest segment starts at its end
            ray.maximum = random.pick(&[LONGEST, LONGEST + 1.0]);
            ray.near = random.pick(&[ray.maximum, ray.maximum + 1.0, ray.near + 0.5, -0.0]);
        }
        3 => ray.direction = random.pick(&[[0.6, 0.8, 0.0], [1.0, 1e-13, 0.0], [-0.0, 0.0, 1.0]]),
        4 => {
            let axis = random.below(3);
            ray.direction[axis] = random.nudged(ray.direction[axis]);
        }
        5 if !mesh.indices.is_empty() => {
            let place = random.below(mesh.indices.len());
            mesh.indices[place] = (mesh.vertices.len() / 3) as u32;
        }
        6 if random.once_in(4) => drop(mesh.vertices.pop()),
        _ if !mesh.vertices.is_empty() => {
            let place = random.below(mesh.vertices.len());
            mesh.vertices[place] = coordinate(random, mesh.vertices[place]);
        }
        _ => {}
    }
}

/// Whether every corner of every triangle is a number, as the model has it.
fn numbers(log: &mut Log, mesh: &Mesh) {
    let held = &mut Held {
        log,
        name: NUMBERS,
        call: &(&mesh.vertices, &mesh.indices),
    };
    let (vertices, indices) = (Lent::new(&mesh.vertices), Lent::new(&mesh.indices));
    let number = calls::mesh_has_numbers(vertices.contents(), indices.contents());
    let unread = only_read("the vertices", &vertices, &mesh.vertices).and(only_read(
        "the triangles",
        &indices,
        &mesh.indices,
    ));
    let Some(number) = run(held, unread.map(|()| number), |&number| number) else {
        return;
    };
    let has = mesh_exact::mesh_has_numbers(&mesh.vertices, &mesh.indices);
    held.number(number, if has { sys::YES } else { sys::NO }, MODEL);
}

/// The mesh's own ray, and others at its corners and sides, without a tree and through trees.
fn casts(log: &mut Log, random: &mut Random, mesh: &Mesh) {
    numbers(log, mesh);
    let mut rays = vec![mesh.ray];
    if mesh.vertices.len() >= 3 {
        rays.extend([(); RAYS - 1].map(|()| ray_at(random, mesh)));
    }
    for &ray in &rays {
        let call = PlainCast {
            ray,
            vertices: &mesh.vertices,
            indices: &mesh.indices,
            hit: &result(random, 4, Random::special),
            index: &result(random, 1, |random| random.bits() as u32),
        };
        cast(log, &call);
    }
    let first = random.below(rays.len());
    rays.rotate_left(first);
    exact_tree::compare(log, random, mesh, &rays);
}

/// The answer as the model has it, and that nothing else was written.
fn cast(log: &mut Log, call: &PlainCast) {
    let held = &mut Held {
        log,
        name: EXACT,
        call,
    };
    let Some(done) = run(held, exact_cast(call), |done| done.number) else {
        return;
    };
    let short = call.hit.len() < 4 || call.index.is_empty();
    let answer = mesh_exact::ray_mesh_exact_plain(&call.ray, call.vertices, call.indices);
    let expected = match before_results(&call.ray, &answer) {
        Some(number) => Answer::Refused(number),
        None if short => Answer::Refused(3),
        None => answer,
    };
    answer_is(held, &done, &expected, exact, MODEL);
    let written = done.number == sys::HIT && !short;
    let (values, indices) = if written { (4, 1) } else { (0, 0) };
    held.slice("the hit", &done.hit[values..], &call.hit[values..]);
    held.slice("the index", &done.index[indices..], &call.index[indices..]);
    if short {
        held.left_out(SHORT_RESULT);
    }
}

/// 1, 12 of the ray and 2 go before the result slices' 3; 12 of a corner does not.
pub(crate) fn before_results(ray: &Ray, answer: &Answer) -> Option<u32> {
    match answer {
        Answer::Refused(number @ 1..=2) => Some(*number),
        Answer::Refused(12) if !mesh_exact::ray_in_range(ray) => Some(12),
        _ => None,
    }
}

fn call_of<'a>(board: &'a Board, indices: &'a [u32]) -> PlainCast<'a> {
    PlainCast {
        ray: board.ray,
        vertices: &board.vertices,
        indices,
        hit: &[f64::NAN; 4],
        index: &[u32::MAX],
    }
}

/// A board beside the judge and beside the model; what it met is counted.
pub fn board(log: &mut Log, board: &Board) {
    let indices = board.indices();
    let call = &call_of(board, &indices);
    let held = &mut Held {
        log,
        name: EXACT,
        call,
    };
    let Some(done) = run(held, exact_cast(call), |done| done.number) else {
        return;
    };
    let judged = board.judged();
    met(board, judged.as_ref(), |what| held.log.count(what));
    let model = mesh_exact::ray_mesh_exact_plain(&call.ray, call.vertices, call.indices);
    answer_is(held, &done, &model, exact, MODEL);
    held.compared(JUDGE);
    let same = match &judged {
        None => done.number == sys::NONE,
        Some(found) => {
            let told = (done.number, done.hit[3], done.index[0]);
            told == (sys::HIT, found.distance, found.index)
        }
    };
    if !same {
        let told = (done.number, &done.hit, &done.index);
        held.differs(format!("answers {told:?}, {JUDGE} {judged:?}"));
    }
    exact_tree::board(log, call, &done);
    exact_listing::board(log, board);
}

/// A segment into a closed board or out of it: a hit, from near to the maximum, through a tree and without one. What the
/// rounded cast misses of them is counted.
pub fn way(log: &mut Log, ray: &Ray, vertices: &[f64], indices: &[u32]) {
    let call = &PlainCast {
        ray: *ray,
        vertices,
        indices,
        hit: &[f64::NAN; 4],
        index: &[u32::MAX],
    };
    let held = &mut Held {
        log,
        name: EXACT,
        call,
    };
    let Some(done) = run(held, exact_cast(call), |done| done.number) else {
        return;
    };
    held.compared(CLOSED);
    let unit = 1.0 / 32_768.0;
    let reached = call.ray.near - unit <= done.hit[3] && done.hit[3] <= call.ray.maximum + unit;
    if done.number != sys::HIT || !reached {
        let told = (done.number, &done.hit);
        held.differs(format!("answers {told:?} through a closed board"));
    }
    if plain_cast(call).is_ok_and(|rounded| rounded.number == sys::NONE) {
        held.log.count(MISSED);
    }
    exact_tree::board(log, call, &done);
}
