//! Pockets and grooves that bores cross: the bores cut their floor, and they are one row all the same.
use crate::drilled::NEAR;
use crate::geometry::{
    add, along, cross, dot, perimeter, scale, sides, straightened, subtract, Sheet, Vector,
};
use crate::model::{Kind, Outline};
use crate::outline::{named, Named};
use crate::planes::off_plane;
use crate::pockets::{area_of, BEFORE};
use crate::rounds::off_round;
use crate::topology::NONE;
use crate::work::{Draft, DraftEnd, Probe, Work};

/// A row with a floor that bores cut: the row, and the bores.
struct Cut {
    row: usize,
    bores: Vec<u32>,
}

/// Makes rows of one floor that the same bores cut one row, and gives rows that bores cut the outline that they have without
/// the bores, where that is one that has measures.
pub fn join_crossed(work: &mut Work<'_>) {
    let cuts = cuts(work);
    let mut rest: Vec<usize> = (0..cuts.len()).collect();
    let mut gone = vec![NONE; work.drafts.len()];
    while let Some(first) = rest.pop() {
        let mut group = vec![first];
        let mut next = 0;
        while let Some(&one) = group.get(next) {
            next += 1;
            let is_part = |other: &usize| is_one_floor(work, &cuts[one], &cuts[*other]);
            group.extend(rest.iter().copied().filter(is_part));
            rest.retain(|other| !group.contains(other));
        }
        group.sort_unstable();
        let rows: Vec<usize> = group.iter().map(|&place| cuts[place].row).collect();
        let mut bores: Vec<u32> = group.iter().flat_map(|&n| cuts[n].bores.clone()).collect();
        bores.sort_unstable();
        bores.dedup();
        if let Some(draft) = joined(work, &rows, &bores) {
            work.drafts[rows[0]] = draft;
            rows[1..].iter().for_each(|&row| gone[row] = rows[0] as u32);
        }
    }
    without(work, &gone);
}

/// The rows with a flat floor, entered from an outer face, that bores cut.
fn cuts(work: &Work<'_>) -> Vec<Cut> {
    let mut bores: Vec<Vec<u32>> = vec![Vec::new(); work.drafts.len()];
    for region in 0..work.owner.len() as u32 {
        let owner = work.owner[region as usize];
        if owner == NONE || !is_candidate(&work.drafts[owner as usize]) {
            continue;
        }
        if !work.is_level(region, scale(work.drafts[owner as usize].axis, -1.0)) {
            continue;
        }
        for edge in work.edges(region, 0) {
            let other = match edge.across {
                NONE => NONE,
                across => work.owner[across as usize],
            };
            let is_bore = other != NONE && work.drafts[other as usize].kind == Kind::Bore;
            if is_bore && other != owner && edge.is_convex {
                bores[owner as usize].push(other);
            }
        }
    }
    let cut = |(row, bores): (usize, Vec<u32>)| Cut { row, bores };
    let all = bores.into_iter().enumerate().map(cut);
    all.filter(|cut| !cut.bores.is_empty()).collect()
}

fn is_candidate(draft: &Draft) -> bool {
    let is_kind = matches!(draft.kind, Kind::Pocket | Kind::Groove | Kind::Rabbet);
    is_kind && draft.end == DraftEnd::Floor && draft.within.is_none()
}

/// Whether two rows have one floor that one bore cuts.
fn is_one_floor(work: &Work<'_>, one: &Cut, other: &Cut) -> bool {
    let (a, b) = (&work.drafts[one.row], &work.drafts[other.row]);
    let off = 2.0 * off_plane(work.shell);
    one.row != other.row
        && a.face == b.face
        && dot(a.axis, b.axis) > 1.0 - 1e-6
        && (a.depth - b.depth).abs() <= off
        && (a.entry_depth - b.entry_depth).abs() <= off
        && one.bores.iter().any(|bore| other.bores.contains(bore))
}

/// The row of several, or of one whose outline bores cut: with the outline around all of them.
fn joined(work: &Work<'_>, rows: &[usize], bores: &[u32]) -> Option<Draft> {
    let first = &work.drafts[rows[0]];
    if rows.len() == 1 && !matches!(first.outline, Outline::Other { .. }) {
        return None;
    }
    let up = scale(first.axis, -1.0);
    let sheet = Sheet::of(up);
    let height = dot(first.centre, up);
    let corners = rows.iter().flat_map(|&row| &work.drafts[row].loops[0]);
    let around = hull(corners.map(|&corner| sheet.flat(corner)).collect());
    let polygon: Vec<Vector> = around
        .iter()
        .map(|&flat| sheet.solid(flat, height))
        .collect();
    let polygon = straightened(&polygon);
    let flat: Vec<[f64; 2]> = polygon.iter().map(|&corner| sheet.flat(corner)).collect();
    let Named { outline, centre } = named(&flat, off_round(work.shell));
    if matches!(outline, Outline::Other { .. } | Outline::Circle { .. }) {
        return None;
    }
    let all = || rows.iter().map(|&row| &work.drafts[row]);
    let mut draft = first.clone();
    draft.open = all().flat_map(|row| row.open.clone()).collect();
    draft.open.sort_unstable();
    draft.open.dedup();
    draft.kind = match all().any(|row| row.kind == Kind::Rabbet) {
        true => Kind::Rabbet,
        false if draft.open.is_empty() => Kind::Pocket,
        false => Kind::Groove,
    };
    draft.outline = outline;
    draft.centre = sheet.solid(centre, height);
    // all that the floors lack of it is what the bores cut out
    let floors: f64 = all().map(|row| area_of(&row.loops[0], up)).sum();
    let lacks = area_of(&polygon, up) - floors;
    let (mut cut, mut slack) = (0.0, 0.05 + off_round(work.shell) * perimeter(&flat));
    for &bore in bores {
        let bore = &work.drafts[bore as usize];
        let place = cut_by(bore, sheet, height - draft.depth)?;
        cut += area(&clipped(&place, &flat));
        slack += deflection(bore, &place);
    }
    if (lacks - cut).abs() > slack {
        return None;
    }
    // a bore from the side does not take away all that is above it
    let is_aside = |bore: &&u32| dot(work.drafts[**bore as usize].axis, up).abs() < 0.5;
    let gap = match bores.iter().find(is_aside) {
        Some(_) => lacks.max(0.0) * draft.depth,
        None => 0.0,
    };
    draft.volume = [0, 1].map(|side| all().map(|row| row.volume[side]).sum());
    draft.volume[1] += gap;
    draft.probes = all().flat_map(|row| row.probes.clone()).collect();
    for &bore in bores {
        draft
            .probes
            .extend(gap_probes(work, &draft, bore, &polygon));
    }
    draft.loops = vec![polygon];
    draft
        .loops
        .extend(all().flat_map(|row| row.loops[1..].to_vec()));
    Some(draft)
}

/// Probes where a bore cuts a row: nothing is to be met above the floor, at the places of the bore within the outline.
fn gap_probes(work: &Work<'_>, draft: &Draft, bore: u32, polygon: &[Vector]) -> Vec<Probe> {
    let bore = &work.drafts[bore as usize];
    let up = scale(draft.axis, -1.0);
    let sheet = Sheet::of(up);
    let corners: Vec<[f64; 2]> = polygon.iter().map(|&corner| sheet.flat(corner)).collect();
    let Outline::Circle { diameter, .. } = bore.outline else {
        return Vec::new();
    };
    let middle = dot(draft.centre, up);
    let mut probes = Vec::new();
    for step in 0..25 {
        let share =
            [step % 5, step / 5].map(|part| (f64::from(part) - 2.0) / 2.0 * 0.35 * diameter);
        // across the bore and along it, about where it passes the row
        let near = match dot(bore.axis, up).abs() < 0.5 {
            true => {
                let from = draft.centre;
                let on_axis = dot(add(from, scale(bore.centre, -1.0)), bore.axis);
                along(bore.centre, bore.axis, on_axis)
            }
            false => bore.centre,
        };
        let [u, v] = sheet.flat(near);
        let place = [u + share[0], v + share[1]];
        if crate::outlines::encloses(&corners, place) {
            probes.push(Probe {
                what: "down to where a bore cuts it",
                from: along(sheet.solid(place, middle), up, BEFORE),
                way: draft.axis,
                expected: [draft.depth + BEFORE - NEAR, f64::INFINITY],
            });
        }
    }
    probes
}

/// What a bore cuts out of a floor at a height: its outline where it runs across the floor, a strip where it runs along it.
fn cut_by(bore: &Draft, sheet: Sheet, height: f64) -> Option<Vec<[f64; 2]>> {
    let Outline::Circle { diameter, .. } = bore.outline else {
        return None;
    };
    let lean = dot(bore.axis, sheet.normal).abs();
    if lean > 1.0 - 1e-6 {
        let corners = bore.loops[0].iter();
        return Some(corners.map(|&corner| sheet.flat(corner)).collect());
    }
    let above = height - dot(bore.centre, sheet.normal);
    let square = diameter * diameter / 4.0 - above * above;
    if lean > 1e-6 || square <= 0.0 {
        return None;
    }
    let side = scale(cross(bore.axis, sheet.normal), square.sqrt());
    let end = along(bore.centre, bore.axis, bore.depth);
    let corners = [
        add(bore.centre, side),
        subtract(bore.centre, side),
        subtract(end, side),
        add(end, side),
    ];
    Some(corners.map(|corner| sheet.flat(corner)).to_vec())
}

/// How much area a bore's curve may have beside that of the mesh, and a strip of it in proportion.
fn deflection(bore: &Draft, place: &[[f64; 2]]) -> f64 {
    let Outline::Circle { diameter, .. } = bore.outline else {
        return 0.0;
    };
    let circle = std::f64::consts::PI * diameter * diameter / 4.0;
    let missing = (circle - area_of(&bore.loops[0], bore.axis)).max(0.0);
    missing * (area(place) / circle).max(1.0)
}

fn area(corners: &[[f64; 2]]) -> f64 {
    let twice: f64 = sides(corners).map(|(a, b)| a[0] * b[1] - a[1] * b[0]).sum();
    twice.abs() / 2.0
}

/// What of a polygon lies within a convex one, which runs to the left around.
fn clipped(polygon: &[[f64; 2]], within: &[[f64; 2]]) -> Vec<[f64; 2]> {
    let mut kept = polygon.to_vec();
    for (from, to) in sides(within) {
        let off = |point: [f64; 2]| {
            (to[0] - from[0]) * (point[1] - from[1]) - (to[1] - from[1]) * (point[0] - from[0])
        };
        let mut next = Vec::new();
        for (a, b) in sides(&kept) {
            let (here, there) = (off(a), off(b));
            if here >= 0.0 {
                next.push(a);
            }
            if (here < 0.0) != (there < 0.0) {
                let share = here / (here - there);
                next.push([0, 1].map(|axis| a[axis] + share * (b[axis] - a[axis])));
            }
        }
        kept = next;
    }
    kept
}

/// The corners of the least convex polygon around points, to the left around.
fn hull(mut points: Vec<[f64; 2]>) -> Vec<[f64; 2]> {
    points.sort_by(|a, b| a[0].total_cmp(&b[0]).then(a[1].total_cmp(&b[1])));
    points.dedup();
    let turn = |a: [f64; 2], b: [f64; 2], c: [f64; 2]| {
        (b[0] - a[0]) * (c[1] - a[1]) - (b[1] - a[1]) * (c[0] - a[0])
    };
    let half = |points: &mut dyn Iterator<Item = [f64; 2]>| {
        let mut side: Vec<[f64; 2]> = Vec::new();
        for point in points {
            while let [.., a, b] = side.as_slice() {
                if turn(*a, *b, point) > 0.0 {
                    break;
                }
                side.pop();
            }
            side.push(point);
        }
        side.pop();
        side
    };
    let mut around = half(&mut points.iter().copied());
    around.extend(half(&mut points.iter().rev().copied()));
    around
}

/// Leaves out rows that are part of others, and gives their regions to those.
fn without(work: &mut Work<'_>, gone: &[u32]) {
    let mut places = Vec::with_capacity(gone.len());
    let mut next = 0;
    for &into in gone {
        places.push(next);
        next += u32::from(into == NONE);
    }
    let place = |row: u32| match gone[row as usize] {
        NONE => places[row as usize],
        into => places[into as usize],
    };
    for owner in work.owner.iter_mut().filter(|owner| **owner != NONE) {
        *owner = place(*owner);
    }
    let mut row = 0;
    work.drafts.retain(|_| {
        row += 1;
        gone[row - 1] == NONE
    });
}
