//! The listing of exact hits through trees of every sort: its refusals beside the model; through a tree that passes the check, for
//! a mesh without a NaN, whole lists beside the model, and on boards beside the judge in fractions; through any other tree, or at
//! other vertices, that the call ends, and that each row is the model's hit of its triangle. At a closed mesh, where no depth occurs
//! twice, the ways in and out alternate.

use crate::{
    boards::{Board, judge},
    calls::{Held, MODEL, SHORT_RESULT, run},
    lent::same_bits,
    library::Cast,
    listing::{Listed, Listing, library},
    log::Log,
    plain::built_tree,
};
use oracle::{
    answer::{Answer, Ray},
    cases::{filled, filled_floats},
    listing::HitArea,
    mesh_exact, model,
    random::Random,
    tree::FlatTree,
};
use probe_rays::{calls, sys};
use std::collections::HashMap;

pub const EXACT_LISTING: &str = "listing of exact hits";

const JUDGE: &str = "the judge in fractions, whole lists";
const ALTERNATE: &str = "ways in and out of a closed mesh, which alternate";

/// Lists of two rows or more at one depth, of three or more at different ones, and of none.
pub const TIED: &str = "listings with two rows at one depth";
pub const DEEP: &str = "listings of three depths or more";
pub const EMPTY: &str = "listings without a row";
pub const ALTERNATING: &str = "listings of a closed mesh whose depths differ";

/// What the model says past the walk's tests, at the mesh's own vertices.
fn model(call: &Listing, indices: &mut [u32], numbers: &mut [f64]) -> Result<usize, u32> {
    let cast = call.cast;
    let area = &mut HitArea { indices, numbers };
    mesh_exact::ray_mesh_exact_all(&call.ray, cast.vertices, cast.indices, area)
}

fn refused_before_walk(cast: &Cast) -> Option<u32> {
    mesh_exact::listing_refused_before_walk(
        &cast.ray,
        cast.vertices,
        cast.indices,
        cast.pose,
        cast.tree.into(),
        cast.list.len(),
        cast.stack.len(),
    )
}

/// One input: the hit area is one place too short, exact, or longer; at times the count has no place.
pub fn compare(log: &mut Log, random: &mut Random, cast: &Cast) {
    let n = cast.indices.len() / 3;
    let all = Listing {
        cast,
        ray: cast.ray,
        indices: &[],
        numbers: &[],
        found: &[],
    };
    let hits = match refused_before_walk(cast) {
        None => model(&all, &mut vec![0; n], &mut vec![0.0; 4 * n]).unwrap_or(0),
        Some(_) => random.below(3),
    };
    let [places, rows] = [(); 2].map(|()| match random.below(6) {
        0 => hits.saturating_sub(1),
        1 => hits + random.within(1, 3) as usize,
        _ => hits,
    });
    let rest = random.below(4);
    let counts = usize::from(!random.once_in(16));
    let found: Vec<usize> = (0..counts).map(|_| random.bits() as usize).collect();
    let call = Listing {
        indices: &filled(random, places),
        numbers: &filled_floats(random, 4 * rows + rest),
        found: &found,
        ..all
    };
    listing(log, &call);
}

fn listing(log: &mut Log, call: &Listing) {
    let cast = call.cast;
    let held = &mut Held {
        log,
        name: EXACT_LISTING,
        call,
    };
    let done = library(calls::ray_mesh_exact_all, call);
    let Some(done) = run(held, done, |done| done.number) else {
        return;
    };
    let refused = refused_before_walk(cast);
    let refused = match refused {
        None | Some(4) if call.found.is_empty() => Some(3),
        refused => refused,
    };
    if let Some(number) = refused {
        held.number(done.number, number, MODEL);
        held.slice("the list", &done.list, cast.list);
        held.slice("the stack", &done.stack, cast.stack);
        held.slice("the indices", &done.indices, call.indices);
        held.slice("the count", &done.found, call.found);
        held.that(
            same_bits(&done.numbers, call.numbers),
            "numbers are written",
        );
        return;
    }
    if call.found.is_empty() {
        return held.left_out(SHORT_RESULT);
    }
    rows_are_hits(held, call, &done);
    beside_the_model(held, call, &done);
}

/// Through any tree and at any vertices: each row is its triangle's own hit, the rows ascend, and nothing else is written.
fn rows_are_hits(held: &mut Held, call: &Listing, done: &Listed) {
    held.compared(MODEL);
    if done.number != sys::DONE {
        let late = matches!(done.number, 3 | 5 | 12);
        held.that(late, "another number after the walk");
        let zeros =
            done.indices.iter().all(|&x| x == 0) && done.numbers.iter().all(|x| x.to_bits() == 0);
        held.that(zeros, "the hit area is not zeros");
        held.slice("the count", &done.found, call.found);
        return;
    }
    let count = done.found[0];
    let fits = count <= done.indices.len() && 4 * count <= done.numbers.len();
    held.that(fits, "more rows than places");
    if !fits {
        return;
    }
    let row = |k: usize| (done.numbers[4 * k], done.indices[k]);
    held.that(
        (1..count).all(|k| row(k - 1) <= row(k)),
        "the rows do not ascend",
    );
    for k in 0..count {
        let (distance, index) = row(k);
        let at = mesh_exact::triangle_at(&call.ray, call.cast.pose, call.cast.indices, index);
        let same = match at {
            Answer::Hit {
                normal: [x, y, z],
                distance,
                ..
            } => same_bits(&done.numbers[4 * k..4 * k + 4], &[distance, x, y, z]),
            _ => false,
        };
        if !same {
            held.differs(format!(
                "row {k}, {index} at {distance}, where it answers {at:?}"
            ));
        }
    }
    held.slice(
        "the other indices",
        &done.indices[count..],
        &call.indices[count..],
    );
    let rest = 4 * count;
    let unwritten = same_bits(&done.numbers[rest..], &call.numbers[rest..]);
    held.that(unwritten, "numbers past the rows are written");
}

/// The whole outcome is the model's, where the tree passes the check, at the mesh's own vertices, and no corner is NaN.
fn beside_the_model(held: &mut Held, call: &Listing, done: &Listed) {
    let cast = call.cast;
    if !same_bits(cast.pose, cast.vertices) {
        return held.left_out("cast at other vertices");
    }
    let marks = cast.indices.len();
    let passes = model::tree_check(cast.vertices, cast.indices, cast.tree.into(), marks);
    if passes != model::Check::Yes {
        return held.left_out("the tree does not pass the check");
    }
    if !mesh_exact::mesh_has_numbers(cast.vertices, cast.indices) {
        return held.left_out("a corner is NaN");
    }
    let (mut indices, mut numbers) = (call.indices.to_vec(), call.numbers.to_vec());
    let expected = model(call, &mut indices, &mut numbers);
    held.compared(MODEL);
    match expected {
        Ok(count) => {
            held.number(done.number, sys::DONE, MODEL);
            held.slice("the count", &done.found, &[count]);
        }
        Err(number) => held.number(done.number, number, MODEL),
    }
    held.slice("the indices", &done.indices, &indices);
    held.that(
        same_bits(&done.numbers, &numbers),
        "other numbers than the model's",
    );
}

/// The listing through a tree, with a place for each triangle.
fn list(
    held: &mut Held,
    ray: &Ray,
    vertices: &[f64],
    triangles: &[u32],
    tree: &FlatTree,
) -> Option<Vec<Row>> {
    let n = triangles.len() / 3;
    let cast = &Cast {
        ray: *ray,
        vertices,
        indices: triangles,
        pose: vertices,
        tree,
        list: &vec![0; n],
        stack: &vec![0; tree.node_count + 1],
        hit: &[],
        index: &[],
    };
    let call = Listing {
        cast,
        ray: *ray,
        indices: &vec![0; n],
        numbers: &vec![0.0; 4 * n],
        found: &[0],
    };
    let done = run(held, library(calls::ray_mesh_exact_all, &call), |done| {
        done.number
    })?;
    held.number(done.number, sys::DONE, MODEL);
    let row = |k: usize| {
        let numbers = &done.numbers[4 * k..4 * k + 4];
        (
            numbers[0],
            done.indices[k],
            [numbers[1], numbers[2], numbers[3]],
        )
    };
    (done.number == sys::DONE).then(|| (0..done.found[0]).map(row).collect())
}

/// A distance, a triangle and its normal, which faces the ray.
type Row = (f64, u32, [f64; 3]);

/// A board's whole list beside the judge's.
pub fn board(log: &mut Log, board: &Board) {
    let indices = board.indices();
    let held = &mut Held {
        log,
        name: EXACT_LISTING,
        call: board,
    };
    let Some(tree) = built_tree(&board.vertices, &indices) else {
        return held.differs("no tree is built".to_owned());
    };
    let Some(rows) = list(held, &board.ray, &board.vertices, &indices, &tree) else {
        return;
    };
    held.compared(JUDGE);
    let judged = board.judged_all();
    let found: Vec<(f64, u32)> = rows.iter().map(|row| (row.0, row.1)).collect();
    if found != judged {
        held.differs(format!("lists {found:?}, {JUDGE} {judged:?}"));
    }
    let differing = judged.windows(2).filter(|two| two[0].0 < two[1].0).count();
    if differing + 1 < judged.len() {
        held.log.count(TIED);
    }
    if differing >= 2 {
        held.log.count(DEEP);
    }
    if judged.is_empty() {
        held.log.count(EMPTY);
    }
}

/// The triangles of a closed mesh, each with the corners of its sides in an order that its neighbours' do not have: 1 as they
/// stand, -1 the other way round. None where a side has not two triangles.
fn windings(triangles: &[[judge::Point; 3]]) -> Option<Vec<i32>> {
    let mut sides: HashMap<[judge::Point; 2], Vec<(usize, i32)>> = HashMap::new();
    for (index, t) in triangles.iter().enumerate() {
        for k in 0..3 {
            let (p, q) = (t[k], t[(k + 1) % 3]);
            let (side, way) = if p < q { ([p, q], 1) } else { ([q, p], -1) };
            sides.entry(side).or_default().push((index, way));
        }
    }
    if sides.values().any(|two| two.len() != 2) {
        return None;
    }
    let mut windings = vec![0; triangles.len()];
    windings[0] = 1;
    let mut waiting = vec![0];
    while let Some(index) = waiting.pop() {
        let t = triangles[index];
        for k in 0..3 {
            let (p, q) = (t[k], t[(k + 1) % 3]);
            let two = &sides[&if p < q { [p, q] } else { [q, p] }];
            let way = |index| {
                two.iter()
                    .find(|found| found.0 == index)
                    .map(|found| found.1)
            };
            let other = two
                .iter()
                .map(|found| found.0)
                .find(|&other| other != index)?;
            let winding = -windings[index] * way(index)? * way(other)?;
            match windings[other] {
                0 => {
                    windings[other] = winding;
                    waiting.push(other);
                }
                already if already != winding => return None,
                _ => {}
            }
        }
    }
    (!windings.contains(&0)).then_some(windings)
}

/// A way through a closed mesh along the longest segment, which ends outside: where no depth occurs twice the rows' normals show in
/// turn to the mesh's outside and its inside, and there is an even number of rows exactly where the way starts outside.
pub fn alternates(log: &mut Log, board: &Board, outside: bool) {
    let indices = board.indices();
    let held = &mut Held {
        log,
        name: EXACT_LISTING,
        call: board,
    };
    let (Some(tree), Some(windings)) = (
        built_tree(&board.vertices, &indices),
        windings(&board.triangles),
    ) else {
        return held.differs("no tree, or no closed mesh".to_owned());
    };
    let ray = Ray {
        maximum: 32_768.0,
        near: 0.0,
        ..board.ray
    };
    let Some(rows) = list(held, &ray, &board.vertices, &indices, &tree) else {
        return;
    };
    if rows.is_empty() || rows.windows(2).any(|two| two[0].0 == two[1].0) || rows[0].0 == 0.0 {
        return;
    }
    held.compared(ALTERNATE);
    held.log.count(ALTERNATING);
    // which of its two sides a triangle shows to the ray
    let side = |row: &Row| {
        let normal = judge::normal(board.triangles[row.1 as usize]);
        let facing: f64 = (0..3).map(|k| normal[k] as f64 * row.2[k]).sum();
        windings[row.1 as usize] * if facing > 0.0 { 1 } else { -1 }
    };
    let turns = rows.windows(2).all(|two| side(&two[0]) == -side(&two[1]));
    held.that(turns, "the ways in and out do not alternate");
    let odd = rows.len() % 2 == 1;
    held.that(
        odd != outside,
        "as many ways in as out, where it starts inside, or not, where it starts outside",
    );
}
