//! The outer faces of a part: the flat regions whose plane has nothing of the part before it.
use crate::cylinder;
use crate::geometry::{dot, length, Axis, Vector};
use crate::model::Face;
use crate::planes::{off_plane, Regions};
use crate::polytope::Polytope;
use crate::topology::{Shell, NONE};
use std::collections::HashSet;

/// The names of the faces across an axis, with their normals, in the order of the list.
pub const NAMED: [(&str, Vector); 6] = [
    ("top", [0.0, 0.0, 1.0]),
    ("bottom", [0.0, 0.0, -1.0]),
    ("front", [0.0, -1.0, 0.0]),
    ("back", [0.0, 1.0, 0.0]),
    ("left", [-1.0, 0.0, 0.0]),
    ("right", [1.0, 0.0, 0.0]),
];

/// A face leans less than this from the axis that it is named after: 0.06 degrees.
const UPRIGHT: f64 = 5e-7;

/// Neighbours of a round outer edge lean from each other by at most 30 degrees.
const ROUND: f64 = 0.86;

/// A cylinder: its axis and radius.
pub type Cylinder = (Axis, f64);

/// The outer faces of a shell, and the face of each region.
#[derive(Clone, Debug)]
pub struct Outer {
    /// The faces.
    pub faces: Vec<Face>,
    /// How far along its normal each face lies.
    pub offsets: Vec<f64>,
    /// The cylinder that each face lies on, of round ones that lie on one.
    pub cylinders: Vec<Option<Cylinder>>,
    /// The face of each region; [`NONE`] where it has none.
    pub of: Vec<u32>,
    /// The body that the outer faces enclose.
    pub body: Polytope,
}

/// Finds the outer faces, as if the vertices of some regions were not there: those of what stands out.
pub fn outer(shell: &Shell, regions: &Regions, standing_out: &[bool]) -> Outer {
    let mut used = vec![false; shell.vertices.len()];
    for (number, region) in regions.all.iter().enumerate() {
        if !standing_out[number] {
            let indices = region
                .triangles
                .iter()
                .flat_map(|&t| shell.triangles[t as usize]);
            indices.for_each(|index| used[index as usize] = true);
        }
    }
    let points: Vec<Vector> = (0..used.len())
        .filter(|&place| used[place])
        .map(|place| shell.vertices[place])
        .collect();
    let bounds = crate::geometry::box_of(points.iter().copied());
    let wide = length(crate::geometry::subtract(bounds[1], bounds[0]));
    let extremes = extremes(&points);
    let is_outer = |number: usize| {
        let region = &regions.all[number];
        if standing_out[number] || region.is_sliver(shell) {
            return false;
        }
        let off = off_plane(shell) + (region.lean(shell) * wide).min(0.05);
        let below = |point: &Vector| dot(*point, region.normal) <= region.offset + off;
        extremes.iter().all(below) && points.iter().all(below)
    };
    let flags: Vec<bool> = (0..regions.all.len()).map(is_outer).collect();
    let mut body = Polytope::of_box(to_planes(shell, regions, &flags, bounds));
    let mut planes: Vec<usize> = Vec::new();
    let mut outer: Vec<usize> = (0..flags.len()).filter(|&n| flags[n]).collect();
    outer.sort_by(|&a, &b| regions.all[b].area.total_cmp(&regions.all[a].area));
    for number in outer {
        // of one plane the largest region knows it best
        if !planes
            .iter()
            .any(|&known| is_one_plane(shell, regions, known, number))
        {
            let region = &regions.all[number];
            body.cut(region.normal, region.offset, off_plane(shell));
            planes.push(number);
        }
    }
    Outer {
        body,
        ..named(shell, regions, &flags)
    }
}

/// A box whose sides are moved into the planes of the outer regions that they lie in: its corners are rounded.
fn to_planes(
    shell: &Shell,
    regions: &Regions,
    flags: &[bool],
    mut bounds: [Vector; 2],
) -> [Vector; 2] {
    for (_, way) in NAMED {
        let is_it = |n: &usize| flags[*n] && looks_along(regions, *n, way);
        let largest = (0..flags.len())
            .filter(is_it)
            .max_by(|&a, &b| regions.all[a].area.total_cmp(&regions.all[b].area));
        let Some(largest) = largest else { continue };
        let axis = (0..3).find(|&axis| way[axis] != 0.0).unwrap_or(0);
        let side = &mut bounds[usize::from(way[axis] > 0.0)][axis];
        let offset = regions.all[largest].offset * way[axis];
        if (*side - offset).abs() <= 2.0 * off_plane(shell) {
            *side = offset;
        }
    }
    bounds
}

/// Whether a region lies in the plane of a larger one.
fn is_one_plane(shell: &Shell, regions: &Regions, large: usize, small: usize) -> bool {
    let (large, small) = (&regions.all[large], &regions.all[small]);
    let lean = 1e-4 + small.lean(shell);
    let off = dot(large.normal, small.centre) - large.offset;
    dot(large.normal, small.normal) > 1.0 - lean * lean / 2.0 && off.abs() <= 2.0 * off_plane(shell)
}

/// The points that lie furthest in some directions: what is not outer is mostly told by them.
fn extremes(points: &[Vector]) -> Vec<Vector> {
    let mut found = Vec::new();
    for step in 0..125 {
        let way = [step % 5, step / 5 % 5, step / 25].map(|part| f64::from(part) - 2.0);
        let most = points
            .iter()
            .max_by(|a, b| dot(**a, way).total_cmp(&dot(**b, way)));
        found.extend(most);
    }
    found.dedup();
    found
}

/// Groups outer regions to faces: those of one plane are one face, and round edges are one.
fn named(shell: &Shell, regions: &Regions, flags: &[bool]) -> Outer {
    let mut found = Outer {
        faces: Vec::new(),
        offsets: Vec::new(),
        cylinders: Vec::new(),
        of: vec![NONE; regions.all.len()],
        body: Polytope::of_box([[0.0; 3]; 2]),
    };
    let mut outer: Vec<usize> = (0..flags.len()).filter(|&n| flags[n]).collect();
    outer.sort_by(|&a, &b| regions.all[b].area.total_cmp(&regions.all[a].area));
    let rounds = round_faces(shell, regions, &outer);
    let is_round: HashSet<usize> = rounds.iter().flat_map(|round| &round.0).copied().collect();
    for (name, way) in NAMED {
        let is_it = |n: &usize| !is_round.contains(n) && looks_along(regions, *n, way);
        let members: Vec<usize> = outer.iter().copied().filter(is_it).collect();
        if !members.is_empty() {
            found.add(regions, name.into(), &members, None);
        }
    }
    let mut slanted = 0;
    for &one in &outer {
        if found.of[one] != NONE || is_round.contains(&one) {
            continue;
        }
        slanted += 1;
        let is_it = |n: &usize| {
            let is_free = found.of[*n] == NONE && !is_round.contains(n);
            is_free && (*n == one || is_one_plane(shell, regions, one, *n))
        };
        let plane: Vec<usize> = outer.iter().copied().filter(is_it).collect();
        found.add(regions, format!("slanted {slanted}"), &plane, None);
    }
    for (number, (members, cylinder)) in rounds.iter().enumerate() {
        found.add(
            regions,
            format!("round {}", number + 1),
            members,
            Some(*cylinder),
        );
    }
    found
}

impl Outer {
    /// Adds a face of some regions; of a round one, with its cylinder, where it lies on one.
    fn add(
        &mut self,
        regions: &Regions,
        name: String,
        members: &[usize],
        round: Option<Option<Cylinder>>,
    ) {
        let first = &regions.all[members[0]];
        for &member in members {
            self.of[member] = self.faces.len() as u32;
        }
        let count = |&n: &usize| regions.all[n].triangles.len();
        let cylinder = round.flatten();
        self.faces.push(Face {
            name,
            normal: first.normal,
            point: first.centre,
            is_round: round.is_some(),
            radius: cylinder.map(|(_, radius)| radius),
            area: members.iter().map(|&n| regions.all[n].area).sum(),
            triangles: members.iter().map(count).sum(),
            outline: Vec::new(),
        });
        self.offsets.push(first.offset);
        self.cylinders.push(cylinder);
    }
}

/// Whether a region looks along the axis that a face is named after.
fn looks_along(regions: &Regions, region: usize, way: Vector) -> bool {
    dot(regions.all[region].normal, way) > 1.0 - UPRIGHT
}

/// The round outer faces: three slanted regions or more that are connected by edges that are hardly bent. Where they lie on
/// a cylinder, its other strips belong to them too, those across an axis as well.
fn round_faces(
    shell: &Shell,
    regions: &Regions,
    outer: &[usize],
) -> Vec<(Vec<usize>, Option<Cylinder>)> {
    let mut free: HashSet<usize> = outer.iter().copied().collect();
    let is_slanted = |n: usize| !NAMED.iter().any(|(_, way)| looks_along(regions, n, *way));
    let mut found = Vec::new();
    for &start in outer {
        if !free.contains(&start) || !is_slanted(start) {
            continue;
        }
        let slanted = |n: usize| free.contains(&n) && is_slanted(n);
        let mut members = smooth(regions, vec![start], slanted);
        if members.len() < 3 {
            continue;
        }
        let cylinder = cylinder_of(shell, regions, &members);
        if let Some(cylinder) = cylinder {
            let goes_on = |n: usize| free.contains(&n) && lies_on(shell, regions, n, cylinder);
            members = smooth(regions, members, goes_on);
        }
        members.iter().for_each(|member| {
            free.remove(member);
        });
        found.push((members, cylinder));
    }
    found
}

/// Some regions and those that are connected with them by edges that are hardly bent.
fn smooth(regions: &Regions, mut members: Vec<usize>, free: impl Fn(usize) -> bool) -> Vec<usize> {
    let mut seen: HashSet<usize> = members.iter().copied().collect();
    let mut next = 0;
    while let Some(&region) = members.get(next) {
        next += 1;
        for around in &regions.all[region].loops {
            for other in regions.across(around).filter(|&other| other != NONE) {
                let other = other as usize;
                let bent = dot(regions.all[region].normal, regions.all[other].normal);
                if bent > ROUND && free(other) && seen.insert(other) {
                    members.push(other);
                }
            }
        }
    }
    members
}

/// The corners around a region; those of its openings lie where they lie.
fn corners<'a>(
    shell: &'a Shell,
    regions: &'a Regions,
    region: usize,
) -> impl Iterator<Item = Vector> + 'a {
    let outline = regions.all[region].loops.first().into_iter();
    outline
        .flat_map(|around| &around.corners)
        .map(|&vertex| shell.vertices[vertex as usize])
}

/// Whether the corners of a region lie on a cylinder.
fn lies_on(shell: &Shell, regions: &Regions, region: usize, (axis, radius): Cylinder) -> bool {
    let off = crate::rounds::off_round(shell);
    corners(shell, regions, region)
        .all(|corner| (length(axis.radial(corner)) - radius).abs() <= off)
}

/// The cylinder of a round edge, if it is one.
fn cylinder_of(shell: &Shell, regions: &Regions, members: &[usize]) -> Option<Cylinder> {
    let normals = members
        .iter()
        .map(|&n| (regions.all[n].normal, regions.all[n].area));
    let direction = cylinder::across(normals)?;
    let all: Vec<Vector> = members
        .iter()
        .flat_map(|&n| corners(shell, regions, n))
        .collect();
    let fitted = cylinder::fitted(&all, direction)?;
    let on = |&member: &usize| lies_on(shell, regions, member, fitted);
    members.iter().all(on).then_some(fitted)
}
