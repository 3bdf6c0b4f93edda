//! A polygon with holes as triangles, by clipping ears (D. Eberly, 'Triangulation by Ear Clipping').

pub type Place = [f64; 2];

fn area(a: Place, b: Place, c: Place) -> f64 {
    (b[0] - a[0]) * (c[1] - a[1]) - (b[1] - a[1]) * (c[0] - a[0])
}

fn signed(points: &[Place], ring: &[usize]) -> f64 {
    let origin = points[ring[0]];
    let pairs = ring
        .windows(2)
        .map(|pair| area(origin, points[pair[0]], points[pair[1]]));
    pairs.sum()
}

fn within(p: Place, a: Place, b: Place, c: Place) -> bool {
    area(a, b, p) >= 0.0 && area(b, c, p) >= 0.0 && area(c, a, p) >= 0.0
}

/// The triangles of a polygon whose first ring is its outline, as places in `points`, to the left around.
pub fn triangles(points: &[Place], rings: &[Vec<usize>]) -> Vec<[usize; 3]> {
    let turned = |ring: &Vec<usize>, left: bool| {
        let mut ring = ring.clone();
        if (signed(points, &ring) > 0.0) != left {
            ring.reverse();
        }
        ring
    };
    let mut ring = turned(&rings[0], true);
    let mut holes: Vec<Vec<usize>> = rings[1..].iter().map(|hole| turned(hole, false)).collect();
    let right = |hole: &Vec<usize>| hole.iter().map(|&n| points[n][0]).fold(f64::MIN, f64::max);
    holes.sort_by(|a, b| right(b).total_cmp(&right(a)));
    for hole in holes {
        bridge(points, &mut ring, &hole);
    }
    clip(points, ring)
}

/// Joins a hole to the ring around it by an edge that is walked both ways.
fn bridge(points: &[Place], ring: &mut Vec<usize>, hole: &[usize]) {
    let start = (0..hole.len())
        .max_by(|&a, &b| points[hole[a]][0].total_cmp(&points[hole[b]][0]))
        .unwrap();
    let m = points[hole[start]];
    let count = ring.len();
    // the nearest edge to the right, at the height of the hole's rightmost corner
    let mut best: Option<(f64, usize)> = None;
    for place in 0..count {
        let (a, b) = (points[ring[place]], points[ring[(place + 1) % count]]);
        if (a[1] <= m[1]) == (b[1] <= m[1]) || a[1] > b[1] {
            continue;
        }
        let x = a[0] + (m[1] - a[1]) / (b[1] - a[1]) * (b[0] - a[0]);
        if x >= m[0] && best.map_or(true, |(known, _)| x < known) {
            let far = if a[0] > b[0] {
                place
            } else {
                (place + 1) % count
            };
            best = Some((x, far));
        }
    }
    let (x, far) = best.expect("the hole lies within");
    let (hit, p) = ([x, m[1]], points[ring[far]]);
    // of corners between, the one that is seen under the least angle
    let mut chosen = far;
    let slope = |q: Place| (q[1] - m[1]).abs() / (q[0] - m[0]).max(1e-300);
    for place in 0..count {
        let q = points[ring[place]];
        let corner = if p[1] < m[1] {
            within(q, m, p, hit)
        } else {
            within(q, m, hit, p)
        };
        if q == p || q[0] < m[0] || !corner {
            continue;
        }
        let before = points[ring[(place + count - 1) % count]];
        let after = points[ring[(place + 1) % count]];
        if area(before, q, after) <= 0.0
            && (chosen == far || slope(q) < slope(points[ring[chosen]]))
        {
            chosen = place;
        }
    }
    // where the corner stands twice, as the end of another bridge, the turn that holds the hole
    let corner = points[ring[chosen]];
    let holds = |place: usize| {
        let before = points[ring[(place + count - 1) % count]];
        let after = points[ring[(place + 1) % count]];
        let (left, right) = (area(before, corner, m) > 0.0, area(corner, after, m) > 0.0);
        if area(before, corner, after) > 0.0 {
            left && right
        } else {
            left || right
        }
    };
    let place = (0..count)
        .find(|&n| points[ring[n]] == corner && holds(n))
        .unwrap_or(chosen);
    let mut joined: Vec<usize> = ring[..=place].to_vec();
    joined.extend(hole[start..].iter().chain(&hole[..=start]));
    joined.extend(&ring[place..]);
    *ring = joined;
}

fn clip(points: &[Place], mut ring: Vec<usize>) -> Vec<[usize; 3]> {
    let mut found = Vec::new();
    let mut at = 0;
    let mut failed = 0;
    while ring.len() > 3 {
        let count = ring.len();
        let [i, j, k] = [at % count, (at + 1) % count, (at + 2) % count];
        let [a, b, c] = [i, j, k].map(|n| points[ring[n]]);
        let turn = area(a, b, c);
        let strict = failed <= 2 * count;
        let free = |n: usize| {
            let p = points[ring[n]];
            n == i || n == j || n == k || p == a || p == b || p == c || !within(p, a, b, c)
        };
        let is_ear = if strict {
            turn > 1e-9 && (0..count).all(free)
        } else {
            turn > -1e-9 && (0..count).all(free)
        };
        if is_ear {
            found.push([ring[i], ring[j], ring[k]]);
            ring.remove(j);
            failed = 0;
            at = if j < i { i - 1 } else { i };
        } else {
            at += 1;
            failed += 1;
            assert!(failed <= 8 * count, "no ear of {count} corners");
        }
    }
    found.push([ring[0], ring[1], ring[2]]);
    found
}
