//! Drills at a panel with bores, through its tree and without one. The Rust has no such call; what each drill answers follows from the
//! panel's measures, and both calls name the same triangle.

use crate::{
    areas::{self, Drill, Lent},
    clock, inputs,
    rows::{Both, Planned, plan},
    timing::Row,
};
use probe_rays::sys::{HIT, NONE};
use std::{hint::black_box, rc::Rc};

/// A kind of drill, so many of them, and what each answers.
pub type Kind = (&'static str, fn(usize) -> Vec<Drill>, u32);

pub const DRILLS: [Kind; 5] = [
    (
        "5 by 12 in a bore of 5.1, clear",
        |count| inputs::in_bores(count, 5.0),
        NONE,
    ),
    (
        "5.1 by 12 in a bore of 5.1, touched",
        |count| inputs::in_bores(count, 5.1),
        HIT,
    ),
    ("5 by 12 beside a bore, touched", inputs::beside_bores, HIT),
    ("5 by 12 far off, clear", inputs::far_drills, NONE),
    (
        "5 by 60 aslant into the panel, touched",
        inputs::aslant_drills,
        HIT,
    ),
];

/// Origin, direction, maximum, near, radius.
pub fn numbers(drill: &Drill) -> [f64; 9] {
    let [a, b, c, d, e, f, g, h] = drill.ray.numbers();
    [a, b, c, d, e, f, g, h, drill.radius]
}

fn plainly(drill: &Drill, both: &Both, lent: &mut Lent) -> u32 {
    areas::drill_plain(drill, &both.mesh, &mut lent.index)
}

fn through(drill: &Drill, both: &Both, lent: &mut Lent) -> u32 {
    areas::drill(drill, &both.mesh, &both.tree, lent)
}

type Call = fn(&Drill, &Both, &mut Lent) -> u32;

fn row(name: &str, both: &Rc<Both>, drills: Vec<Drill>, wanted: u32, call: Call) -> Row {
    let (both, mut lent) = (both.clone(), both.lent());
    for drill in &drills {
        let answers = [plainly, through].map(|call: Call| {
            let number = call(drill, &both, &mut lent);
            (number, if number == HIT { lent.index[0] } else { 0 })
        });
        assert_eq!(answers[0], answers[1], "{name}: {drill:?}");
        assert_eq!(answers[0].0, wanted, "{name}: {drill:?}");
    }
    Row {
        name: name.to_owned(),
        units: drills.len() as f64,
        clock: clock::thread,
        ours: Box::new(move || {
            for drill in black_box(&drills[..]) {
                black_box(call(drill, &both, &mut lent));
            }
        }),
        rust: None,
    }
}

pub fn rows() -> Vec<Planned> {
    let calls: [(&str, usize, Call); 2] = [("its tree", 256, through), ("no tree", 8, plainly)];
    let planned = calls.iter().flat_map(|&(how, count, call)| {
        DRILLS.iter().map(move |&(kind, drills, wanted)| {
            plan(&format!("drill, {how}, {kind}"), move |name: &str| {
                row(
                    name,
                    &Both::of(inputs::bored()),
                    drills(count),
                    wanted,
                    call,
                )
            })
        })
    });
    planned.collect()
}
