//! Bosses: round pins that stand out of an outer face.
use crate::drilled::NEAR;
use crate::geometry::{along, dot, polygon_area, scale, Vector};
use crate::islands::middle_of;
use crate::model::{Kind, Outline};
use crate::planes::Regions;
use crate::rounds::Rounds;
use crate::topology::{Shell, NONE};
use crate::work::{Draft, DraftEnd, Probe, Work};

/// A pin: a convex cylinder between a cap and a flat region around its foot.
#[derive(Clone, Debug)]
pub struct Boss {
    round: u32,
    cap: u32,
    base: u32,
}

/// The pins whose caps have no other surface in their plane: what they stand on is the face.
pub fn find(shell: &Shell, regions: &Regions, rounds: &Rounds) -> Vec<Boss> {
    let mut found: Vec<Boss> = Vec::new();
    for (number, round) in rounds.all.iter().enumerate() {
        if round.is_concave || !round.is_cylinder() {
            continue;
        }
        let mut beside: Vec<u32> = round
            .regions
            .iter()
            .flat_map(|&n| &regions.all[n as usize].loops)
            .flat_map(|around| regions.across(around))
            .filter(|&n| n != NONE && rounds.of[n as usize] != number as u32)
            .collect();
        beside.sort_unstable();
        beside.dedup();
        let &[one, other] = beside.as_slice() else {
            continue;
        };
        let area = |n: u32| regions.all[n as usize].area;
        let (cap, base) = if area(one) < area(other) {
            (one, other)
        } else {
            (other, one)
        };
        let faces_up = dot(
            regions.all[cap as usize].normal,
            regions.all[base as usize].normal,
        ) > 1.0 - 1e-6;
        if faces_up && regions.all[cap as usize].loops.len() == 1 {
            found.push(Boss {
                round: number as u32,
                cap,
                base,
            });
        }
    }
    let caps: Vec<u32> = found.iter().map(|boss| boss.cap).collect();
    let off = crate::planes::off_plane(shell);
    found.retain(|boss| {
        let cap = &regions.all[boss.cap as usize];
        let in_plane = |n: &u32| {
            let region = &regions.all[*n as usize];
            dot(region.normal, cap.normal) > 1.0 - 1e-6
                && (region.offset - cap.offset).abs() <= 2.0 * off
        };
        (0..regions.all.len() as u32)
            .filter(in_plane)
            .all(|n| caps.contains(&n))
    });
    found
}

/// Which regions belong to pins.
pub fn regions_of(bosses: &[Boss], rounds: &Rounds, count: usize) -> Vec<bool> {
    let mut flags = vec![false; count];
    for boss in bosses {
        flags[boss.cap as usize] = true;
        let sides = &rounds.all[boss.round as usize].regions;
        sides.iter().for_each(|&n| flags[n as usize] = true);
    }
    flags
}

/// Adds the pins that stand on outer faces.
pub fn add_bosses(work: &mut Work<'_>, bosses: &[Boss]) {
    for boss in bosses {
        let Some(face) = work.face(boss.base) else {
            continue;
        };
        let round = &work.rounds.all[boss.round as usize];
        let up = work.normal(boss.base);
        let (cap, base) = (
            &work.regions.all[boss.cap as usize],
            &work.regions.all[boss.base as usize],
        );
        let Some(foot) = round.axis.meets(up, base.offset) else {
            continue;
        };
        let height = cap.offset - base.offset;
        let corners: Vec<Vector> = work.corners(boss.cap, 0);
        let area = polygon_area(&corners, up).abs();
        let centre = round.axis.at(foot);
        let outline = Outline::Circle {
            diameter: 2.0 * round.radius,
            sides: round.sides,
        };
        let mut regions = round.regions.clone();
        regions.push(boss.cap);
        let middle = middle_of(work, boss.cap);
        let draft = Draft {
            kind: Kind::Boss,
            face: Some(face),
            outline,
            centre,
            axis: scale(up, -1.0),
            entry_depth: 0.0,
            depth: height,
            end: DraftEnd::Floor,
            cone: None,
            within: None,
            open: Vec::new(),
            loops: vec![corners
                .iter()
                .map(|&corner| along(corner, up, -height))
                .collect()],
            volume: [-area * height; 2],
            probes: vec![Probe {
                what: "down to its top",
                from: along(middle, up, 1.0),
                way: scale(up, -1.0),
                expected: [1.0 - NEAR, 1.0 + NEAR],
            }],
        };
        work.add(draft, regions);
    }
}
