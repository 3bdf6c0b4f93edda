//! FCL's collision of a cylinder beside our drill, where tools/bench has built its side (bench/fcl.cpp) and BENCH_FCL names it.

use crate::{
    areas::{self, Drill, Mesh},
    drill::{DRILLS, numbers},
    inputs,
    other::Other,
    rows::{Both, Planned, plan, turns},
    timing::Row,
};
use probe_rays::sys::{HIT, NONE};
use std::{ffi::c_void, mem::transmute, rc::Rc};

type Build = unsafe extern "C" fn(*const f64, usize, *const u32, usize) -> *mut c_void;
type Free = unsafe extern "C" fn(*mut c_void);
type Drilled = unsafe extern "C" fn(*mut c_void, *const f64) -> u32;

#[derive(Clone, Copy)]
struct Side {
    build: Build,
    free: Free,
    drill: Drilled,
}

/// A mesh as FCL's side has it.
struct Part {
    side: Side,
    part: *mut c_void,
}

impl Side {
    fn loaded(file: &str) -> Self {
        let side = Other::loaded(file);
        // SAFETY: the types are those of the three functions in bench/fcl.cpp.
        unsafe {
            Self {
                build: transmute::<*mut c_void, Build>(side.named("fcl_build")),
                free: transmute::<*mut c_void, Free>(side.named("fcl_free")),
                drill: transmute::<*mut c_void, Drilled>(side.named("fcl_drill")),
            }
        }
    }

    fn built(self, mesh: &Mesh) -> Part {
        let (vertices, triangles) = (&mesh.vertices, &mesh.triangles);
        let (points, count) = (vertices.len() / 3, mesh.count());
        // SAFETY: every index of the benchmark's meshes is one of a vertex.
        let part = unsafe { (self.build)(vertices.as_ptr(), points, triangles.as_ptr(), count) };
        Part { side: self, part }
    }
}

impl Part {
    fn is_touched(&self, drill: &[f64; 9]) -> bool {
        // SAFETY: the part is one that was built, and the drill has nine numbers.
        unsafe { (self.side.drill)(self.part, drill.as_ptr()) == 1 }
    }
}

impl Drop for Part {
    fn drop(&mut self) {
        // SAFETY: it was built, and is freed once.
        unsafe { (self.side.free)(self.part) }
    }
}

/// Both answers are compared first: touched on both sides, or clear.
fn row(name: &str, side: Side, both: &Rc<Both>, drills: Vec<Drill>) -> Row {
    let (both, part) = (both.clone(), side.built(&both.mesh));
    let mut lent = both.lent();
    for drill in &drills {
        let number = areas::drill(drill, &both.mesh, &both.tree, &mut lent);
        let touched = part.is_touched(&numbers(drill));
        assert_eq!(
            number,
            if touched { HIT } else { NONE },
            "{name}: {drill:?}"
        );
    }
    let theirs = drills.iter().map(numbers).collect();
    turns(
        name,
        drills,
        theirs,
        move |drill, _| areas::drill(drill, &both.mesh, &both.tree, &mut lent),
        move |drill| part.is_touched(drill),
    )
}

/// No row where BENCH_FCL names no side. The other side's times are FCL's.
pub fn rows() -> Vec<Planned> {
    let Some(file) = std::env::var_os("BENCH_FCL") else {
        return Vec::new();
    };
    let side = Side::loaded(&file.to_string_lossy());
    let planned = DRILLS.iter().map(|&(kind, drills, _)| {
        plan(&format!("drill, {kind}, beside FCL"), move |name: &str| {
            row(name, side, &Both::of(inputs::bored()), drills(256))
        })
    });
    planned.collect()
}
