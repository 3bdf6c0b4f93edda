//! The listing of all hits, held against the model of document 02 and, triangle by triangle, against the Rust.

use crate::{
    calls::{
        Held, MODEL, NO_END, NO_LIMIT, REFUSED_2, REFUSED_3, RUST, SHORT_RESULT, run, rust_walk,
    },
    lent::Lent,
    library::{Cast, Fault, LentTree, only_read, ray, written},
    log::Log,
};
use oracle::{
    answer::{self, Answer, Ray, agree},
    cases::{filled, filled_floats},
    listing::{self, HitArea, Row},
    plain,
    random::Random,
    tree,
};
use probe_rays::{calls, lent::TreeRef, sys};

pub const LISTING: &str = "listing";

/// A mesh cast's input with a near distance and a hit area in place of the result slices.
#[derive(Debug)]
pub struct Listing<'a> {
    pub cast: &'a Cast<'a>,
    /// The cast's ray, with a near distance of its own.
    pub ray: Ray,
    pub indices: &'a [u32],
    pub numbers: &'a [f64],
    pub found: &'a [usize],
}

pub(crate) struct Listed {
    pub(crate) number: u32,
    pub(crate) list: Vec<u32>,
    pub(crate) stack: Vec<u32>,
    pub(crate) indices: Vec<u32>,
    pub(crate) numbers: Vec<f64>,
    pub(crate) found: Vec<usize>,
}

/// A listing of the library.
type Lists = fn(
    &probe_rays::Ray,
    &[f64],
    &[u32],
    &[f64],
    &TreeRef<'_>,
    &mut [u32],
    &mut [u32],
    &mut [u32],
    &mut [f64],
    &mut [usize],
) -> u32;

/// One listing, in areas of which only those lent for it are written.
pub(crate) fn library(lists: Lists, call: &Listing) -> Result<Listed, Fault> {
    let cast = call.cast;
    let vertices = Lent::new(cast.vertices);
    let triangles = Lent::new(cast.indices);
    let pose = Lent::new(cast.pose);
    let tree = LentTree::new(cast.tree);
    let mut list = Lent::new(cast.list);
    let mut stack = Lent::new(cast.stack);
    let mut indices = Lent::new(call.indices);
    let mut numbers = Lent::new(call.numbers);
    let mut found = Lent::new(call.found);
    let number = lists(
        &ray(&call.ray),
        vertices.contents(),
        triangles.contents(),
        pose.contents(),
        &tree.lent(cast.tree.node_count),
        list.slice(),
        stack.slice(),
        indices.slice(),
        numbers.slice(),
        found.slice(),
    );
    only_read("the vertices", &vertices, cast.vertices)?;
    only_read("the triangles", &triangles, cast.indices)?;
    only_read("the pose", &pose, cast.pose)?;
    tree.only_read(cast.tree)?;
    Ok(Listed {
        number,
        list: written("the list", &list)?,
        stack: written("the stack", &stack)?,
        indices: written("the indices", &indices)?,
        numbers: written("the numbers", &numbers)?,
        found: written("the count", &found)?,
    })
}

/// What the model answers, and leaves in a hit area.
fn model(call: &Listing, indices: &mut [u32], numbers: &mut [f64]) -> Result<usize, u32> {
    let cast = call.cast;
    listing::ray_mesh_all(
        &call.ray,
        cast.vertices,
        cast.indices,
        cast.pose,
        cast.tree.into(),
        cast.list.len(),
        cast.stack.len(),
        &mut HitArea { indices, numbers },
    )
}

/// The number that is answered where the place of the count is missing: 1 and 2 go before that 3.
fn without_place(expected: Result<usize, u32>) -> u32 {
    match expected {
        Err(number @ 1..=2) => number,
        _ => 3,
    }
}

fn compare(log: &mut Log, call: &Listing) {
    let held = &mut Held {
        log,
        name: LISTING,
        call,
    };
    let Some(done) = run(held, library(calls::ray_mesh_all, call), |done| done.number) else {
        return;
    };
    let (mut indices, mut numbers) = (call.indices.to_vec(), call.numbers.to_vec());
    let mut found = call.found.to_vec();
    let (expected, reason) = plain::beside_the_rust(|| model(call, &mut indices, &mut numbers));
    let number = if found.is_empty() {
        (indices, numbers) = (call.indices.to_vec(), call.numbers.to_vec());
        without_place(expected)
    } else {
        match expected {
            Ok(count) => {
                found[0] = count;
                sys::DONE
            }
            Err(number) => number,
        }
    };
    held.compared(MODEL);
    held.number(done.number, number, MODEL);
    held.slice("the count", &done.found, &found);
    held.slice("the indices", &done.indices, &indices);
    let alike = |(a, b): (&f64, &f64)| a.to_bits() == b.to_bits() || (a.is_nan() && b.is_nan());
    let same = done.numbers.iter().zip(&numbers).all(alike);
    held.that(same, "other numbers than the model's");
    // an early 3 leaves the area as it was, a late one makes it zeros; both may be the same
    if call.found.is_empty() || early(call) {
        held.slice("the list", &done.list, call.cast.list);
        held.slice("the stack", &done.stack, call.cast.stack);
    }
    match reason {
        Some(reason) => held.left_out(reason),
        None => beside_the_rust(held, call, &done),
    }
}

/// Whether refusals 1 to 4 end the call: then it does not depend on the hit area.
fn early(call: &Listing) -> bool {
    let (mut indices, mut numbers) = (vec![7], vec![7.0; 4]);
    let refused = model(call, &mut indices, &mut numbers);
    matches!(refused, Err(1..=4)) && indices == [7] && numbers == [7.0; 4]
}

/// The Rust's own list for the segment's box, each of its triangles cast by the Rust.
fn beside_the_rust(held: &mut Held, call: &Listing, done: &Listed) {
    let cast = call.cast;
    match done.number {
        _ if call.found.is_empty() => return held.left_out(SHORT_RESULT),
        1 | 4 => return held.left_out("refused before a triangle is cast"),
        2 => return held.left_out(REFUSED_2),
        3 => return held.left_out(REFUSED_3),
        _ => {}
    }
    let Some(bounds) = tree::segment_box(&call.ray) else {
        return held.left_out("refused before a triangle is cast");
    };
    let n = cast.indices.len() / 3;
    let walk = rust_walk(cast.tree, n, &bounds);
    if !walk.ends {
        return held.left_out(NO_END);
    }
    if !walk.within_limits && done.number == 5 {
        return held.left_out(NO_LIMIT);
    }
    let rust = rust_rows(call, &bounds);
    held.compared(RUST);
    match rust {
        Err(number) => held.number(done.number, number, RUST),
        Ok(rows) => {
            held.number(done.number, sys::DONE, RUST);
            let listed = done.found[0].min(done.indices.len());
            let same = listed == rows.len() && (0..listed).all(|k| row_agrees(done, k, &rows[k]));
            held.that(same, "other hits than the Rust's, triangle by triangle");
        }
    }
}

/// The number of a triangle's refusal, the first in the Rust's list, or the hits.
fn rust_rows(call: &Listing, bounds: &[f64; 6]) -> Result<Vec<Row>, u32> {
    let cast = call.cast;
    let listed = tree::query(cast.tree, cast.indices.len() / 3, *bounds)?;
    let mut rows = Vec::new();
    for index in listed {
        let mut corners = [[0.0; 3]; 3];
        for (k, corner) in corners.iter_mut().enumerate() {
            let vertex = 3 * cast.indices[3 * index as usize + k] as usize;
            let at = cast.pose.get(vertex..vertex + 3).ok_or(5u32)?;
            *corner = at.try_into().expect("three numbers");
        }
        match answer::triangle(&call.ray, corners) {
            Answer::None => {}
            Answer::Refused(number) => return Err(number),
            Answer::Hit {
                normal: [x, y, z],
                distance,
                ..
            } => rows.push((index, [distance, x, y, z])),
        }
    }
    Ok(listing::in_order_of_depth(rows))
}

fn row_agrees(done: &Listed, place: usize, row: &Row) -> bool {
    let numbers = &done.numbers[4 * place..4 * place + 4];
    done.indices[place] == row.0 && (0..4).all(|k| agree(numbers[k], row.1[k]))
}

/// A near distance: mostly 0, else within the range, at a hit, or not admitted.
fn near(random: &mut Random, call: &Cast) -> f64 {
    let maximum = call.ray.maximum;
    match random.below(12) {
        0 => random.special(),
        1 => maximum,
        2 => maximum.next_up(),
        3..6 => maximum * random.between(0.0, 1.0),
        _ => 0.0,
    }
}

/// One input: near is at times just a hit's distance, and the hit area one place too short, exact, or longer.
pub fn listing(log: &mut Log, random: &mut Random, cast: &Cast) {
    let n = cast.indices.len() / 3;
    let near = near(random, cast);
    let with_near = |near| Ray { near, ..cast.ray };
    let all = |near| Listing {
        cast,
        ray: with_near(near),
        indices: &[],
        numbers: &[],
        found: &[],
    };
    let (mut indices, mut numbers) = (vec![0; n], vec![0.0; 4 * n]);
    let counted = model(&all(near), &mut indices, &mut numbers);
    let near = match counted {
        Ok(count) if count > 0 && random.once_in(4) => numbers[4 * random.below(count)],
        _ => near,
    };
    let hits = model(&all(near), &mut indices, &mut numbers).unwrap_or(0);
    let [places, rows] = [(); 2].map(|()| match random.below(6) {
        0 => hits.saturating_sub(1),
        1 => random.below(hits + 1),
        2 => hits + random.within(1, 3) as usize,
        _ => hits,
    });
    let rest = random.below(4);
    let counts = usize::from(!random.once_in(16));
    let found: Vec<usize> = (0..counts).map(|_| random.bits() as usize).collect();
    compare(
        log,
        &Listing {
            cast,
            ray: with_near(near),
            indices: &filled(random, places),
            numbers: &filled_floats(random, 4 * rows + rest),
            found: &found,
        },
    );
}
