//! The cast at a cabinet: seeded parts, areas and limits, held against the model and, without a limit, against the
//! library's own mesh cast at each part alone.

use crate::{
    calls::{exact, says},
    lent::{Lent, same_bits},
    library,
    log::{Log, in_words},
};
use oracle::{
    answer::{Answer, Ray},
    cabinet::{self, Areas, CabinetAnswer, Part, Span},
    cases, generate,
    random::Random,
    tree::FlatTree,
};
use probe_rays::{cabinet::AreasRef, sys};

pub const CABINET: &str = "cabinet";

const MODEL: &str = "the model";
const ALONE: &str = "the mesh cast at each part alone";

/// The inputs of one call.
#[derive(Clone, Debug)]
pub struct Call {
    pub ray: Ray,
    pub parts: Vec<Part>,
    pub areas: Areas,
    pub limit: usize,
    pub list: Vec<u32>,
    pub stack: Vec<u32>,
    pub hit: Vec<f64>,
    pub index: Vec<u32>,
    pub part: Vec<usize>,
    pub spent: Vec<usize>,
}

/// The number answered, and what the slices hold afterwards.
struct Done {
    number: u32,
    list: Vec<u32>,
    stack: Vec<u32>,
    hit: Vec<f64>,
    index: Vec<u32>,
    part: Vec<usize>,
    spent: Vec<usize>,
}

fn raw(part: &Part) -> sys::Part {
    let span = |span: Span| sys::Span {
        start: span.start,
        length: span.length,
    };
    let [x, y, z] = part.origin;
    sys::Part {
        origin: sys::Vec3 { x, y, z },
        nodes: part.nodes,
        vertices: span(part.vertices),
        triangles: span(part.triangles),
        node_boxes: span(part.node_boxes),
        triangle_boxes: span(part.triangle_boxes),
        node_words: span(part.node_words),
        order: span(part.order),
    }
}

/// Calls the library on copies; a fault is a write outside of a slice or into one lent for reading.
fn call_library(call: &Call) -> Result<Done, String> {
    // a part on both sides that no call may reach
    let guard = Part {
        nodes: 7,
        ..Part::default()
    };
    let all: Vec<sys::Part> = std::iter::once(&guard)
        .chain(&call.parts)
        .chain([&guard])
        .map(raw)
        .collect();
    let before: Vec<u64> = all.iter().flat_map(words).collect();
    let areas = &call.areas;
    let (vertices, triangles) = (Lent::new(&areas.vertices), Lent::new(&areas.triangles));
    let (node_boxes, triangle_boxes) = (
        Lent::new(&areas.node_boxes),
        Lent::new(&areas.triangle_boxes),
    );
    let (node_words, order) = (Lent::new(&areas.node_words), Lent::new(&areas.order));
    let (mut list, mut stack) = (Lent::new(&call.list), Lent::new(&call.stack));
    let (mut hit, mut index) = (Lent::new(&call.hit), Lent::new(&call.index));
    let (mut part, mut spent) = (Lent::new(&call.part), Lent::new(&call.spent));
    let number = probe_rays::cabinet::ray_cabinet(
        &library::ray(&call.ray),
        &all[1..=call.parts.len()],
        AreasRef {
            vertices: vertices.contents(),
            triangles: triangles.contents(),
            node_boxes: node_boxes.contents(),
            triangle_boxes: triangle_boxes.contents(),
            node_words: node_words.contents(),
            order: order.contents(),
        },
        call.limit,
        list.slice(),
        stack.slice(),
        hit.slice(),
        index.slice(),
        part.slice(),
        spent.slice(),
    );
    if all.iter().flat_map(words).collect::<Vec<u64>>() != before {
        return Err("wrote into the parts".to_owned());
    }
    library::only_read("the vertices", &vertices, &areas.vertices)?;
    library::only_read("the triangles", &triangles, &areas.triangles)?;
    library::only_read("the node boxes", &node_boxes, &areas.node_boxes)?;
    library::only_read("the triangle boxes", &triangle_boxes, &areas.triangle_boxes)?;
    library::only_read("the node words", &node_words, &areas.node_words)?;
    library::only_read("the order", &order, &areas.order)?;
    Ok(Done {
        number,
        list: library::written("the list", &list)?,
        stack: library::written("the stack", &stack)?,
        hit: library::written("the hit", &hit)?,
        index: library::written("the index", &index)?,
        part: library::written("the part", &part)?,
        spent: library::written("the nodes spent", &spent)?,
    })
}

/// A part's sixteen words, floats as their bits.
fn words(part: &sys::Part) -> [u64; 16] {
    let spans = [
        part.vertices,
        part.triangles,
        part.node_boxes,
        part.triangle_boxes,
        part.node_words,
        part.order,
    ];
    let mut words = [0; 16];
    words[0] = part.origin.x.to_bits();
    words[1] = part.origin.y.to_bits();
    words[2] = part.origin.z.to_bits();
    words[3] = part.nodes as u64;
    for (k, span) in spans.iter().enumerate() {
        words[4 + 2 * k] = span.start as u64;
        words[5 + 2 * k] = span.length as u64;
    }
    words
}

/// What the slices should hold after an answer of the model's.
fn written(call: &Call, expected: &CabinetAnswer) -> (Vec<u32>, Vec<usize>, Vec<usize>) {
    let (mut index, mut part) = (call.index.clone(), call.part.clone());
    let mut spent = call.spent.clone();
    if let Some(count) = expected.spent {
        spent[0] = count;
    }
    if let Answer::Hit {
        index: Some(triangle),
        ..
    } = expected.answer
    {
        index[0] = triangle;
        part[0] = expected.part;
    }
    (index, part, spent)
}

fn differs(log: &mut Log, text: String, call: &Call) {
    log.differs(CABINET, text, format!("{call:?}"));
}

/// Runs the library, and holds number, result slices and work areas against the model.
fn beside_the_model(log: &mut Log, call: &Call) -> Option<Done> {
    let done = match call_library(call) {
        Ok(done) => done,
        Err(fault) => {
            differs(log, fault, call);
            return None;
        }
    };
    log.answered(CABINET, done.number);
    log.compared(CABINET, MODEL);
    let fits = call.hit.len() >= 4
        && !call.index.is_empty()
        && !call.part.is_empty()
        && !call.spent.is_empty();
    let (list, stack) = (call.list.len(), call.stack.len());
    let expected = cabinet::ray_cabinet(
        &call.ray,
        &call.parts,
        &call.areas,
        call.limit,
        list,
        stack,
        fits,
    );
    let number = in_words(done.number);
    if !says(done.number, &done.hit, &expected.answer, exact) {
        let hit = &done.hit;
        differs(
            log,
            format!("answers {number} with {hit:?}, {MODEL} {expected:?}"),
            call,
        );
    }
    let (index, part, spent) = written(call, &expected);
    if done.index != index || done.part != part || done.spent != spent {
        let slices = (&done.index, &done.part, &done.spent);
        differs(
            log,
            format!("answers {number} with {slices:?}, {MODEL} {expected:?}"),
            call,
        );
    }
    let values = if done.number == sys::HIT { 4 } else { 0 };
    if !same_bits(&done.hit[values..], &call.hit[values..]) {
        differs(
            log,
            format!("answers {number} and writes past the hit's places"),
            call,
        );
    }
    if expected.spent.is_none() && (done.list != call.list || done.stack != call.stack) {
        differs(
            log,
            format!("answers {number} and changes a work area"),
            call,
        );
    }
    if expected.spent.is_some_and(|spent| spent > call.limit) {
        differs(log, format!("{MODEL} spends more than the limit"), call);
    }
    Some(done)
}

/// Without a limit, the fold of the library's own mesh casts with the ray moved.
fn beside_each_part(log: &mut Log, call: &Call, done: &Done) {
    if matches!(done.number, 1..=3) {
        return log.left_out(CABINET, "each part alone: refused with 1 to 3");
    }
    let mut best: Option<(f64, usize, library::Hit)> = None;
    let mut refused = None;
    for (number, part) in call.parts.iter().enumerate() {
        let Some(ray) = cabinet::moved(&call.ray, part) else {
            refused = Some(6);
            break;
        };
        let own = call.areas.own(part).expect("refusal 2 let it pass");
        let tree = FlatTree {
            node_boxes: own.tree.node_boxes.to_vec(),
            triangle_boxes: own.tree.triangle_boxes.to_vec(),
            node_words: own.tree.node_words.to_vec(),
            order: own.tree.order.to_vec(),
            node_count: part.nodes,
        };
        let cast = library::Cast {
            ray,
            vertices: own.vertices,
            indices: own.indices,
            pose: own.vertices,
            tree: &tree,
            list: &call.list,
            stack: &call.stack,
            hit: &[0.0; 4],
            index: &[0],
        };
        let alone = match library::cast(&cast) {
            Ok(alone) => alone,
            Err(fault) => return differs(log, fault, call),
        };
        match alone.number {
            sys::HIT if best.as_ref().is_none_or(|best| alone.hit[3] < best.0) => {
                best = Some((alone.hit[3], number, alone));
            }
            sys::HIT | sys::NONE => {}
            number => {
                refused = Some(number);
                break;
            }
        }
    }
    log.compared(CABINET, ALONE);
    let agrees = match (refused, &best) {
        (Some(number), _) => done.number == number,
        (None, None) => done.number == sys::NONE,
        (None, Some((_, part, alone))) => {
            done.number == sys::HIT
                && (0..4).all(|k| exact(done.hit[k], alone.hit[k]))
                && done.index[0] == alone.index[0]
                && done.part[0] == *part
        }
    };
    if !agrees {
        let (number, part) = (in_words(done.number), &done.part);
        let best = best.map(|(distance, part, _)| (distance, part));
        differs(
            log,
            format!("answers {number} of part {part:?}, {ALONE} {refused:?}, {best:?}"),
            call,
        );
    }
}

/// A result slice of so many places: now and then too short, or longer.
fn result<T>(random: &mut Random, places: usize, value: fn(&mut Random) -> T) -> Vec<T> {
    let length = match random.below(60) {
        0 => random.below(places),
        1..8 => places + random.within(1, 3) as usize,
        _ => places,
    };
    (0..length).map(|_| value(random)).collect()
}

/// Adds elements to an area, at times after a gap, and tells where they stand.
fn appended<T: Copy>(random: &mut Random, area: &mut Vec<T>, more: &[T], gap: T) -> Span {
    if random.once_in(4) {
        area.resize(area.len() + random.below(4), gap);
    }
    let start = area.len();
    area.extend_from_slice(more);
    Span {
        start,
        length: more.len(),
    }
}

/// A range that is now and then moved, cut, or such that start and length pass the largest number.
fn disturbed(random: &mut Random, span: Span, area: usize) -> Span {
    if !random.once_in(120) {
        return span;
    }
    let (start, length) = (span.start, span.length);
    let (start, length) = match random.below(8) {
        0 => (start + 1, length),
        1 => (start, length + 1 + random.below(4)),
        2 => (start, length.saturating_sub(1 + random.below(3))),
        3 => (area, 0),
        4 => (area + 1, 0),
        // start and length pass the largest number
        5 => (start.max(1), usize::MAX - random.below(start.max(1))),
        6 => (usize::MAX, length),
        _ => (random.below(area + 2), random.below(area + 2)),
    };
    Span { start, length }
}

/// A part of a mesh of its own, appended to the areas; its triangle count is told too.
fn drawn_part(
    random: &mut Random,
    seed: u64,
    number: u64,
    areas: &mut Areas,
) -> (Part, Ray, usize) {
    let (ray, vertices, mut indices) = cases::mesh(random, seed, number);
    indices.truncate(3 * 200);
    let vertices = if vertices.len() > 3 * 2_000 {
        vertices[..9].to_vec()
    } else {
        vertices
    };
    let case = cases::of_mesh(random, ray, vertices, indices);
    let special = random.special();
    let part = Part {
        origin: match random.below(24) {
            0 => [0, 1, 2].map(|_| random.special()),
            1..10 => [0.0; 3],
            _ => [0, 1, 2].map(|_| random.within(-2, 2) as f64),
        },
        nodes: case.tree.node_count,
        vertices: appended(random, &mut areas.vertices, &case.vertices, special),
        triangles: appended(random, &mut areas.triangles, &case.indices, 7),
        node_boxes: appended(
            random,
            &mut areas.node_boxes,
            &case.tree.node_boxes,
            special,
        ),
        triangle_boxes: appended(
            random,
            &mut areas.triangle_boxes,
            &case.tree.triangle_boxes,
            special,
        ),
        node_words: appended(random, &mut areas.node_words, &case.tree.node_words, 7),
        order: appended(random, &mut areas.order, &case.tree.order, 7),
    };
    (part, case.ray, case.indices.len() / 3)
}

/// The call of case `number` of the run `seed`, without a limit.
pub fn case(seed: u64, number: u64) -> Call {
    let random = &mut Random::of_record(seed.rotate_left(17) ^ 0x6361_6269, number);
    let mut areas = Areas::default();
    let count = random.pick(&[0, 1, 1, 2, 2, 3, 3, 4, 6]);
    let (mut parts, mut ray, mut triangles) = (Vec::new(), None, 0);
    for k in 0..count.max(1) {
        let (part, its_ray, n) = drawn_part(random, seed, 8 * number + k, &mut areas);
        if ray.is_none() || random.once_in(3) {
            ray = Some(its_ray);
        }
        if k < count {
            triangles = triangles.max(n);
            parts.push(part);
        }
    }
    // a mesh may stand in a cabinet more than once
    if count > 0 && random.once_in(3) {
        let again = random.pick(&parts);
        let origin = [0, 1, 2].map(|_| random.coordinate());
        parts.push(Part { origin, ..again });
    }
    for part in &mut parts {
        part.vertices = disturbed(random, part.vertices, areas.vertices.len());
        part.triangles = disturbed(random, part.triangles, areas.triangles.len());
        part.node_boxes = disturbed(random, part.node_boxes, areas.node_boxes.len());
        part.triangle_boxes = disturbed(random, part.triangle_boxes, areas.triangle_boxes.len());
        part.node_words = disturbed(random, part.node_words, areas.node_words.len());
        part.order = disturbed(random, part.order, areas.order.len());
    }
    let mut ray = ray.expect("a part was drawn");
    if random.once_in(3) {
        ray.near = generate::near(random, ray.maximum, None);
    }
    let nodes = parts.iter().map(|part| part.nodes.min(500)).max();
    let list = cases::about(random, triangles);
    let stack = cases::about(random, nodes.map_or(0, |nodes| nodes + 1));
    Call {
        ray,
        parts,
        areas,
        limit: usize::MAX,
        list: cases::filled(random, list),
        stack: cases::filled(random, stack),
        hit: result(random, 4, Random::special),
        index: result(random, 1, |random| random.bits() as u32),
        part: result(random, 1, |random| random.bits() as usize),
        spent: result(random, 1, |random| random.bits() as usize),
    }
}

/// A ray from a part's own origin, on a corner of its triangle. The distance is a zero, and its sign tells which of the two origins was
/// taken off the other.
fn from_own_origin() -> Call {
    let around = vec![-2.0, 0.0, 0.0, 2.0, 2.0, 0.0];
    let areas = Areas {
        vertices: vec![2.0, 2.0, 0.0, -2.0, 0.0, 0.0, 0.0, 0.0, 0.0],
        triangles: vec![0, 1, 2],
        node_boxes: around.repeat(2),
        triangle_boxes: around,
        node_words: vec![0, 0, 1, 0, 0, 0],
        order: vec![0],
    };
    let span = |length| Span { start: 0, length };
    let origin = [1.0, 2.0, -3.0];
    Call {
        ray: Ray {
            origin,
            direction: [0.0, 0.0, 1.0],
            maximum: 4.0,
            near: 0.0,
        },
        parts: vec![Part {
            origin,
            nodes: 1,
            vertices: span(9),
            triangles: span(3),
            node_boxes: span(12),
            triangle_boxes: span(6),
            node_words: span(6),
            order: span(1),
        }],
        areas,
        limit: usize::MAX,
        list: vec![7],
        stack: vec![7; 2],
        hit: vec![7.0; 4],
        index: vec![7],
        part: vec![7],
        spent: vec![7],
    }
}

/// The case that no seeded one stands for.
pub fn compare_made(log: &mut Log) {
    with_limits(log, from_own_origin(), &mut Random::new(1));
}

/// A seeded case.
pub fn compare(log: &mut Log, seed: u64, number: u64) {
    let random = &mut Random::of_record(seed ^ 0x6c69_6d69, number);
    with_limits(log, case(seed, number), random);
}

/// One case without a limit, and with limits about its need.
fn with_limits(log: &mut Log, mut call: Call, random: &mut Random) {
    log.context = "no limit";
    let Some(done) = beside_the_model(log, &call) else {
        return;
    };
    beside_each_part(log, &call, &done);
    let need = match done.number {
        1..=3 => 0,
        _ => done.spent.first().copied().unwrap_or(0),
    };
    log.context = "a limit about the need";
    for limit in [
        0,
        need.saturating_sub(1),
        need,
        need + 1,
        random.below(need + 2),
    ] {
        call.limit = limit;
        let Some(limited) = beside_the_model(log, &call) else {
            return;
        };
        // a limit of at least the need changes nothing, and less is 10 with the limit spent
        let same = limited.number == done.number && limited.spent == done.spent;
        let used_up = limited.number == sys::REFUSED_LIMIT_REACHED && limited.spent[0] == limit;
        if !(if limit >= need { same } else { used_up }) {
            let (now, before) = (in_words(limited.number), in_words(done.number));
            differs(
                log,
                format!("answers {now} at {limit}, {before} without a limit"),
                &call,
            );
        }
    }
}
