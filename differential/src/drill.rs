//! The drill without a tree: beside the model everywhere, and on boards beside the judge, whose numbers were never floats. On boards
//! too: through the library's own tree; that a line inside a clear drill meets nothing by the exact cast; and that a drill of
//! radius 0 answers as the exact cast but for triangles without area. The Rust has no such call.

use crate::{
    boards::judge::normal,
    calls::{Held, MODEL, SHORT_RESULT, run},
    drill_boards::{self, Board, met},
    drill_tree,
    exact::{damage, exact_cast, on_grid, ray_at},
    lent::Lent,
    library::{self, Fault, Hit, only_read, written},
    log::Log,
    plain::PlainCast,
    run::{Mesh, changed, result},
};
use oracle::{
    answer::Ray,
    drill::{self, Answer, Cylinder, Drill},
    random::Random,
};
use probe_rays::{calls, sys};

pub const DRILL: &str = "drill without a tree";

const JUDGE: &str = "the judge in whole numbers";
const CAST: &str = "the exact cast";

/// Lines inside of a drill.
pub const LINES: &str = "lines inside a clear drill, none by the exact cast";
pub const LINES_HIT: &str = "lines inside a touched drill, hit by the exact cast";

/// Drills at one mesh.
const DRILLS: usize = 3;

/// The model is not asked about every triangle of a mesh above this.
const MOST: usize = 300;

#[derive(Clone, Copy, Debug)]
pub struct PlainDrill<'a> {
    pub drill: Drill,
    pub vertices: &'a [f64],
    pub indices: &'a [u32],
    pub index: &'a [u32],
}

pub(crate) fn plain_drill(call: &PlainDrill) -> Result<Hit, Fault> {
    let vertices = Lent::new(call.vertices);
    let indices = Lent::new(call.indices);
    let mut index = Lent::new(call.index);
    let number = calls::drill_plain(
        &library::ray(&call.drill.ray),
        call.drill.radius,
        vertices.contents(),
        indices.contents(),
        index.slice(),
    );
    only_read("the vertices", &vertices, call.vertices)?;
    only_read("the triangles", &indices, call.indices)?;
    Ok(Hit {
        number,
        list: Vec::new(),
        stack: Vec::new(),
        hit: Vec::new(),
        index: written("the index", &index)?,
    })
}

/// The mesh as it is; with coordinates on a grid or half a unit off it; a board; and with one thing out of range.
pub fn compare(log: &mut Log, seed: u64, number: u64, mesh: &Mesh) {
    let random = &mut Random::of_record(seed.rotate_left(32) ^ 0x6472_696c_6c00, number);
    log.context = "as drawn";
    drills(log, random, mesh);
    let rounded = on_grid(random, mesh);
    log.context = "on a grid";
    drills(log, random, &rounded);
    let board = drill_boards::board(random);
    log.context = "a board";
    self::board(log, random, &board);
    let mut damaged = Mesh {
        ray: board.drill.ray,
        indices: board.indices(),
        vertices: board.vertices.clone(),
    };
    log.context = "a board with one thing changed";
    damage(random, &mut damaged);
    let mut drill = Drill {
        ray: damaged.ray,
        ..board.drill
    };
    if random.once_in(3) {
        drill.radius = a_radius(random);
    }
    at_mesh(log, random, &damaged, &[drill]);
    if rounded.indices.len() >= 3 && rounded.vertices.len() >= 3 {
        log.context = "on a grid, one coordinate or index changed";
        let mut other = changed(random, &rounded);
        if random.once_in(2) {
            damage(random, &mut other);
        }
        drills(log, random, &other);
    }
}

/// None, that of an ordinary drill, one at the end of what is admitted, or any float.
pub(crate) fn a_radius(random: &mut Random) -> f64 {
    let unit = 1.0 / 32_768.0;
    match random.below(12) {
        0 => 0.0,
        1 => random.special(),
        2 => random.pick(&[128.0, 128.000_000_000_000_03, 128.5, 127.999_99, 129.0]),
        3 => random.pick(&[-0.0, -0.5, -1e-300, 5e-324, unit / 3.0]),
        4 => random.within(0, 8) as f64 * unit,
        5..8 => random.within(0, 6) as f64,
        _ => random.between(0.0, 5.0),
    }
}

/// The mesh's own ray, and others at its corners and sides, each with a radius.
fn drills(log: &mut Log, random: &mut Random, mesh: &Mesh) {
    let mut rays = vec![mesh.ray];
    if mesh.vertices.len() >= 3 {
        rays.extend([(); DRILLS - 1].map(|()| ray_at(random, mesh)));
    }
    let drills: Vec<Drill> = rays
        .iter()
        .map(|&ray| Drill {
            ray,
            radius: a_radius(random),
        })
        .collect();
    at_mesh(log, random, mesh, &drills);
}

/// Without a tree and through trees.
fn at_mesh(log: &mut Log, random: &mut Random, mesh: &Mesh, drills: &[Drill]) {
    for &drill in drills {
        let call = PlainDrill {
            drill,
            vertices: &mesh.vertices,
            indices: &mesh.indices,
            index: &result(random, 1, |random| random.bits() as u32),
        };
        plainly(log, &call);
    }
    drill_tree::compare(log, random, mesh, drills);
}

/// The answer as the model has it, and that nothing else was written.
fn plainly(log: &mut Log, call: &PlainDrill) {
    let held = &mut Held {
        log,
        name: DRILL,
        call,
    };
    let Some(done) = run(held, plain_drill(call), |done| done.number) else {
        return;
    };
    if call.indices.len() > 3 * MOST && done.number != 2 {
        return held.left_out("too many triangles for the model");
    }
    let short = call.index.is_empty();
    let model = drill::drill_plain(&call.drill, call.vertices, call.indices);
    let expected = match before_results(&call.drill, model) {
        Some(number) => Answer::Refused(number),
        None if short => Answer::Refused(3),
        None => model,
    };
    answer_is(held, &done, expected, MODEL);
    let written = usize::from(done.number == sys::HIT && !short);
    held.slice("the index", &done.index[written..], &call.index[written..]);
    if short {
        held.left_out(SHORT_RESULT);
    }
}

/// 1 and 12 of ray and radius and 2 go before the result slice's 3; 5 and 12 of a corner do not.
fn before_results(drill: &Drill, answer: Answer) -> Option<u32> {
    match answer {
        Answer::Refused(number @ 1..=2) => Some(number),
        _ => drill::refused_before_mesh(drill),
    }
}

/// The number, and the index where it is a hit.
pub(crate) fn answer_is(held: &mut Held, done: &Hit, expected: Answer, by: &'static str) {
    held.compared(by);
    match expected {
        Answer::Clear => held.number(done.number, sys::NONE, by),
        Answer::Refused(number) => held.number(done.number, number, by),
        Answer::Touched(index) => {
            held.number(done.number, sys::HIT, by);
            if done.number == sys::HIT && done.index[0] != index {
                let named = done.index[0];
                held.differs(format!("names triangle {named}, {by} {index}"));
            }
        }
    }
}

/// A board beside the judge and beside the model; what it met is counted.
pub fn board(log: &mut Log, random: &mut Random, board: &Board) {
    let indices = board.indices();
    let call = &PlainDrill {
        drill: board.drill,
        vertices: &board.vertices,
        indices: &indices,
        index: &[u32::MAX],
    };
    let held = &mut Held {
        log,
        name: DRILL,
        call,
    };
    let Some(done) = run(held, plain_drill(call), |done| done.number) else {
        return;
    };
    let judged = board.judged();
    met(board, &judged, |what| held.log.count(what));
    let named = judged
        .first()
        .map_or(Answer::Clear, |&i| Answer::Touched(i));
    answer_is(held, &done, named, JUDGE);
    let model = drill::drill_plain(&call.drill, call.vertices, call.indices);
    answer_is(held, &done, model, MODEL);
    line_inside(held, random, board, call, &done);
    as_the_exact_cast(held, board, call);
    drill_tree::board(log, call, &done);
}

fn cast_at(call: &PlainDrill, ray: Ray) -> Result<Hit, Fault> {
    exact_cast(&PlainCast {
        ray,
        vertices: call.vertices,
        indices: call.indices,
        hit: &[f64::NAN; 4],
        index: &[u32::MAX],
    })
}

/// A segment between two places of a drill, as floats.
fn segment(random: &mut Random, drill: &Drill) -> Ray {
    let ray = &drill.ray;
    let d = ray.direction;
    let steepest = (0..3).max_by(|&i, &j| d[i].abs().total_cmp(&d[j].abs()));
    let axis = steepest.expect("three");
    let mut aside = [0.0; 3];
    aside[(axis + 1) % 3] = d[axis];
    aside[axis] = -d[(axis + 1) % 3];
    let length = aside.iter().map(|x| x * x).sum::<f64>().sqrt();
    let aside = aside.map(|x| x / length);
    let across = [0, 1, 2].map(|k| {
        let (i, j) = ((k + 1) % 3, (k + 2) % 3);
        d[i] * aside[j] - d[j] * aside[i]
    });
    let place = |random: &mut Random| {
        let along = ray.near + (ray.maximum - ray.near) * random.pick(&[0.0, 0.1, 0.5, 0.9, 1.0]);
        let turn = random.between(0.0, 6.3);
        let turn = random.pick(&[0.0, turn, turn]);
        let out = drill.radius * random.pick(&[0.0, 0.4, 0.9, 0.999, 1.0]);
        let (x, y) = (out * turn.cos(), out * turn.sin());
        [0, 1, 2].map(|k| ray.origin[k] + along * d[k] + x * aside[k] + y * across[k])
    };
    let (from, to) = (place(random), place(random));
    let way = [0, 1, 2].map(|k| to[k] - from[k]);
    let length = way.iter().map(|x| x * x).sum::<f64>().sqrt();
    let parallel = length == 0.0 || random.once_in(2);
    Ray {
        origin: from,
        direction: if parallel { d } else { way.map(|x| x / length) },
        maximum: length * random.pick(&[0.5, 0.99, 1.0]),
        near: 0.0,
    }
}

/// If a drill is clear, the exact cast along a line inside of it meets nothing.
fn line_inside(held: &mut Held, random: &mut Random, board: &Board, call: &PlainDrill, done: &Hit) {
    let ray = segment(random, &board.drill);
    if !oracle::plain::ray_admitted(&ray) {
        return;
    }
    let Some(line) = Cylinder::of(&Drill { ray, radius: 0.0 }) else {
        return;
    };
    let end = |units: i128| {
        let from = |k: usize| (line.origin[k] - board.cylinder.origin[k]) << 30;
        [0, 1, 2].map(|k| from(k) + units * line.direction[k])
    };
    if ![line.near, line.far]
        .iter()
        .all(|&units| board.cylinder.holds(end(units)))
    {
        return;
    }
    match cast_at(call, ray) {
        Ok(cast) => {
            held.compared(CAST);
            match (done.number, cast.number) {
                (sys::NONE, sys::NONE) => held.log.count(LINES),
                (sys::HIT, sys::HIT) => held.log.count(LINES_HIT),
                (sys::HIT, sys::NONE) => {}
                (_, number) => held.differs(format!(
                    "is clear, and the exact cast along {ray:?} answers {number}"
                )),
            }
        }
        Err(fault) => held.differs(fault),
    }
}

/// A drill of radius 0 is clear where the exact cast is none, but for triangles without area.
fn as_the_exact_cast(held: &mut Held, board: &Board, call: &PlainDrill) {
    let thin = PlainDrill {
        drill: Drill {
            radius: 0.0,
            ..call.drill
        },
        ..*call
    };
    let (drilled, cast) = match (plain_drill(&thin), cast_at(call, call.drill.ray)) {
        (Ok(drilled), Ok(cast)) => (drilled, cast),
        (Err(fault), _) | (_, Err(fault)) => return held.differs(fault),
    };
    held.compared(CAST);
    let same = match (drilled.number, cast.number) {
        (sys::HIT, sys::NONE) => normal(board.triangles[drilled.index[0] as usize]) == [0; 3],
        (drilled, cast) => drilled == cast,
    };
    if !same {
        let numbers = (drilled.number, cast.number);
        held.differs(format!(
            "with radius 0 it and the exact cast answer {numbers:?}"
        ));
    }
}
