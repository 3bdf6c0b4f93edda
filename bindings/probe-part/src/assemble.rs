//! From drafts to the rows of a part, in their order, and what is left over.
use crate::features::Features;
use crate::geometry::{box_of, Vector};
use crate::model::{Check, End, LeftOver, Row};
use crate::topology::NONE;
use crate::work::{DraftEnd, Work};
use std::collections::HashMap;

/// The rows, in their order: by face and place, and what lies within another after it.
pub fn rows(work: &Work<'_>, features: &Features, checks: Vec<Check>) -> Vec<Row> {
    let count = work.drafts.len();
    let owner = |region: Option<u32>| {
        let owner = region.map_or(NONE, |region| work.owner[region as usize]);
        (owner != NONE).then_some(owner as usize)
    };
    let parents: Vec<Option<usize>> = (0..count)
        .map(|n| owner(work.drafts[n].within).filter(|&parent| parent != n))
        .collect();
    let order = ordered(work, &parents);
    let mut numbers = vec![0; count];
    for (place, &n) in order.iter().enumerate() {
        numbers[n] = place;
    }
    let joined = joined(&features.of_drafts(work), &order);
    let sizes = sizes(work);
    let row = |(place, &n): (usize, &usize)| {
        let draft = &work.drafts[n];
        Row {
            kind: draft.kind,
            feature: joined[place],
            face: draft.face.map(|face| face as usize),
            outline: draft.outline.clone(),
            centre: draft.centre,
            axis: draft.axis,
            entry_depth: draft.entry_depth,
            depth: draft.depth,
            end: match draft.end {
                DraftEnd::Floor => End::Floor,
                DraftEnd::Tip(angle, depth) => End::Tip { angle, depth },
                DraftEnd::Through => End::Through,
                DraftEnd::Into(region) => {
                    owner(Some(region)).map_or(End::Unknown, |other| End::OpensInto(numbers[other]))
                }
                DraftEnd::Unknown => End::Unknown,
            },
            cone: draft.cone,
            web: None,
            within: parents[n].map(|parent| numbers[parent]),
            open: draft.open.iter().map(|&face| face as usize).collect(),
            loops: draft.loops.clone(),
            triangles: sizes[n].0,
            area: sizes[n].1,
            check: checks[n].clone(),
        }
    };
    order.iter().enumerate().map(row).collect()
}

/// The drafts in the order of the list, of which each may have a parent that it stands behind.
fn ordered(work: &Work<'_>, parents: &[Option<usize>]) -> Vec<usize> {
    let count = parents.len();
    let key = |&n: &usize| {
        let draft = &work.drafts[n];
        let [a, b] = place_on_face(draft.axis, draft.centre);
        (
            draft.face.unwrap_or(NONE),
            (10.0 * a).round() as i64,
            (10.0 * b).round() as i64,
            n,
        )
    };
    let mut children: Vec<Vec<usize>> = vec![Vec::new(); count];
    let mut tops: Vec<usize> = Vec::new();
    for (n, parent) in parents.iter().enumerate() {
        match parent {
            Some(parent) => children[*parent].push(n),
            None => tops.push(n),
        }
    }
    tops.sort_by_key(key);
    let mut open: Vec<usize> = tops.into_iter().rev().collect();
    let mut order: Vec<usize> = Vec::new();
    let mut placed = vec![false; count];
    while let Some(next) = open.pop() {
        if std::mem::replace(&mut placed[next], true) {
            continue;
        }
        order.push(next);
        children[next].sort_by_key(key);
        open.extend(children[next].iter().rev());
    }
    // rows that lie within each other in a circle stand at the end
    order.extend((0..count).filter(|&n| !placed[n]));
    order
}

/// The number of each row's feature, in the order of the rows: that of the first row is 0, and so on.
fn joined(of_drafts: &[u32], order: &[usize]) -> Vec<usize> {
    let mut known: HashMap<u32, usize> = HashMap::new();
    let mut number = |&n: &usize| {
        let next = known.len();
        *known.entry(of_drafts[n]).or_insert(next)
    };
    order.iter().map(&mut number).collect()
}

/// How many triangles each draft has, and their area.
fn sizes(work: &Work<'_>) -> Vec<(usize, f64)> {
    let mut sizes = vec![(0, 0.0); work.drafts.len()];
    for (region, &owner) in work.owner.iter().enumerate() {
        if owner != NONE {
            sizes[owner as usize].0 += work.regions.all[region].triangles.len();
            sizes[owner as usize].1 += work.regions.all[region].area;
        }
    }
    sizes
}

/// The two coordinates of a place along the face that a row is entered from.
fn place_on_face(axis: Vector, centre: Vector) -> [f64; 2] {
    let across = (0..3).max_by(|&a, &b| axis[a].abs().total_cmp(&axis[b].abs()));
    match across {
        Some(0) => [centre[1], centre[2]],
        Some(1) => [centre[0], centre[2]],
        _ => [centre[0], centre[1]],
    }
}

/// The regions that belong to nothing, feature by feature.
pub fn left_over(work: &Work<'_>, features: &Features) -> Vec<LeftOver> {
    let mut members: Vec<Vec<u32>> = vec![Vec::new(); features.count];
    for region in 0..work.owner.len() as u32 {
        if work.is_free(region) {
            members[features.of[region as usize] as usize].push(region);
        }
    }
    let told = |members: Vec<u32>| {
        let triangles = || {
            members
                .iter()
                .flat_map(|&n| &work.regions.all[n as usize].triangles)
        };
        let [low, high] = box_of(triangles().flat_map(|&t| work.shell.corners(t)));
        LeftOver {
            triangles: triangles().count(),
            area: members
                .iter()
                .map(|&n| work.regions.all[n as usize].area)
                .sum(),
            low,
            high,
        }
    };
    members
        .into_iter()
        .filter(|some| !some.is_empty())
        .map(told)
        .collect()
}
