//! Features: what is connected below the outer faces; and whether the rows of a feature take away the volume that is gone.
use crate::geometry::{cross, dot, subtract, Vector};
use crate::planes::off_plane;
use crate::topology::NONE;
use crate::work::Work;

/// The features of a part: the one of each region that is no outer face.
pub struct Features {
    /// The feature of each region; [`NONE`] for an outer face.
    pub of: Vec<u32>,
    /// How many there are.
    pub count: usize,
}

impl Features {
    /// Those of a part.
    pub fn of(work: &Work<'_>) -> Features {
        let count = work.regions.all.len();
        let mut of = vec![NONE; count];
        let mut next = 0;
        for start in 0..count {
            if of[start] != NONE || work.outer.of[start] != NONE {
                continue;
            }
            of[start] = next;
            let mut open = vec![start as u32];
            while let Some(region) = open.pop() {
                for around in &work.regions.all[region as usize].loops {
                    for other in work.regions.across(around) {
                        let free = other != NONE && work.outer.of[other as usize] == NONE;
                        if free && of[other as usize] == NONE {
                            of[other as usize] = next;
                            open.push(other);
                        }
                    }
                }
            }
            next += 1;
        }
        Features {
            of,
            count: next as usize,
        }
    }

    /// The feature of each draft.
    pub fn of_drafts(&self, work: &Work<'_>) -> Vec<u32> {
        let mut features = vec![NONE; work.drafts.len()];
        for (region, &owner) in work.owner.iter().enumerate() {
            if owner != NONE && self.of[region] != NONE {
                features[owner as usize] = self.of[region];
            }
        }
        features
    }

    /// By how much the volume that the rows say differs from what is gone, at most over all features.
    pub fn difference(&self, work: &Work<'_>) -> f64 {
        let drafts = self.of_drafts(work);
        let mut said = vec![[0.0; 2]; self.count];
        for (draft, &feature) in work.drafts.iter().zip(&drafts) {
            if feature != NONE {
                said[feature as usize][0] += draft.volume[0];
                said[feature as usize][1] += draft.volume[1];
            }
        }
        let gone = self.volumes(work);
        let off = off_plane(work.shell);
        let mut worst = 0.0_f64;
        let mut rest = work.outer.body.volume() - work.shell.volume();
        let mut open = [0.0; 2];
        for feature in 0..self.count {
            let (volume, area) = gone[feature];
            match volume {
                Some(volume) => {
                    rest -= volume;
                    worst = worst.max(beyond(volume, said[feature], 0.05 + off * area));
                }
                None => (0..2).for_each(|side| open[side] += said[feature][side]),
            }
        }
        let total: f64 = work.shell.areas.iter().sum();
        // where the surface has gaps its volume says nothing
        if !work.shell.faults.is_none() {
            return worst;
        }
        worst.max(beyond(rest, open, 1.0 + work.shell.rounding * total))
    }

    /// The volume that each feature takes away, where it meets the outer faces in whole loops alone, and its area.
    fn volumes(&self, work: &Work<'_>) -> Vec<(Option<f64>, f64)> {
        let mut sums: Vec<(f64, f64, bool)> = vec![(0.0, 0.0, true); self.count];
        let from = work.shell.vertices.first().copied().unwrap_or([0.0; 3]);
        let six = |[a, b, c]: [Vector; 3]| {
            let [a, b, c] = [a, b, c].map(|corner| subtract(corner, from));
            dot(a, cross(b, c))
        };
        for (number, region) in work.regions.all.iter().enumerate() {
            if self.of[number] != NONE {
                let sum = &mut sums[self.of[number] as usize];
                sum.1 += region.area;
                // the void lies on the other side
                let volume: f64 = region
                    .triangles
                    .iter()
                    .map(|&t| six(work.shell.corners(t)))
                    .sum();
                sum.0 -= volume / 6.0;
                continue;
            }
            for around in &region.loops {
                let features: Vec<u32> = work
                    .regions
                    .across(around)
                    .map(|across| {
                        if across == NONE {
                            NONE
                        } else {
                            self.of[across as usize]
                        }
                    })
                    .collect();
                let Some(&first) = features.iter().find(|&&feature| feature != NONE) else {
                    continue;
                };
                if features.iter().any(|&feature| feature != first) {
                    let touched = features.iter().filter(|&&feature| feature != NONE);
                    touched.for_each(|&feature| sums[feature as usize].2 = false);
                    continue;
                }
                let points: Vec<Vector> = around
                    .vertices
                    .iter()
                    .map(|&v| work.shell.vertices[v as usize])
                    .collect();
                let lid: f64 = points
                    .windows(2)
                    .map(|pair| six([points[0], pair[1], pair[0]]))
                    .sum();
                sums[first as usize].0 += lid / 6.0;
            }
        }
        let told = |(volume, area, closed): (f64, f64, bool)| (closed.then_some(volume), area);
        sums.into_iter().map(told).collect()
    }
}

/// By how much a number lies outside a range, beyond a tolerance.
fn beyond(number: f64, [low, high]: [f64; 2], tolerance: f64) -> f64 {
    let off = (low - number).max(number - high).max(0.0);
    if off > tolerance {
        off
    } else {
        0.0
    }
}
