//! Grows cylinders and cones about an axis, over flat sides whose corners lie on them.
use crate::circles::{Circle, LEAST_SIDES, WIDEST_SIDE};
use crate::cylinder;
use crate::geometry::{cross, dot, length, scale, subtract, unit, Axis, Sheet, Vector};
use crate::loops::Loop;
use crate::planes::Regions;
use crate::rounds::{off_round, Round, Rounds};
use crate::topology::{Shell, NONE};
use std::f64::consts::TAU;

/// A surface of revolution to grow.
#[derive(Clone, Copy)]
struct Profile {
    axis: Axis,
    radius: f64,
    slope: f64,
    is_concave: bool,
    tolerance: f64,
}

/// The search for round surfaces, and those found so far.
pub struct Search<'a> {
    /// The shell.
    pub shell: &'a Shell,
    /// Its flat regions.
    pub regions: &'a Regions,
    /// What is found.
    pub rounds: Rounds,
}

impl Search<'_> {
    /// Grows what stands on a loop, where the loop is round as seen along some axis.
    pub fn stand_on_loop(&mut self, region: u32, around: &Loop) {
        let normal = self.regions.all[region as usize].normal;
        let mut starts: Vec<u32> = self.regions.across(around).collect();
        starts.dedup();
        starts.retain(|&start| start != NONE && self.rounds.of[start as usize] == NONE);
        if starts.len() < LEAST_SIDES {
            return;
        }
        let sheet = Sheet::of(normal);
        let points: Vec<Vector> = around
            .corners
            .iter()
            .map(|&v| self.shell.vertices[v as usize])
            .collect();
        let flat: Vec<[f64; 2]> = points.iter().map(|&point| sheet.flat(point)).collect();
        let tolerance = off_round(self.shell);
        if let Some(circle) = Circle::of_polygon(&flat, tolerance) {
            let height = self.regions.all[region as usize].offset;
            let axis = Axis {
                point: sheet.solid(circle.centre, height),
                direction: normal,
            };
            if self.stand_on_circle(axis, circle.radius, &starts) {
                return;
            }
        }
        self.lean_by_normals(&points, &starts);
    }

    /// Grows a cylinder or a cone about an axis from the regions that stand on a circle at height 0; whether it is one.
    fn stand_on_circle(&mut self, axis: Axis, radius: f64, starts: &[u32]) -> bool {
        let mut any = false;
        for &start in starts {
            if self.rounds.of[start as usize] == NONE {
                any |= self.grow_from(axis, 0.0, radius, start);
            }
        }
        any
    }

    /// The same about the axis that the normals of the regions lie across: a bore that is not straight.
    fn lean_by_normals(&mut self, points: &[Vector], starts: &[u32]) {
        let normals = starts.iter().map(|&n| {
            let region = &self.regions.all[n as usize];
            (region.normal, region.area)
        });
        let Some(direction) = cylinder::across(normals) else {
            return;
        };
        let mut corners = points.to_vec();
        for &start in starts {
            corners.extend(self.corners(start));
        }
        let tolerance = off_round(self.shell);
        let Some((axis, radius)) = cylinder::fitted(&corners, direction) else {
            return;
        };
        if !points
            .iter()
            .all(|&p| (length(axis.radial(p)) - radius).abs() <= 10.0 * tolerance)
        {
            return;
        }
        let start = starts[0];
        let outward = axis.radial(self.regions.all[start as usize].centre);
        let profile = Profile {
            axis,
            radius,
            slope: 0.0,
            is_concave: dot(outward, self.regions.all[start as usize].normal) < 0.0,
            tolerance: 10.0 * tolerance,
        };
        let loose = self.grown(&profile, start);
        let mut all: Vec<Vector> = loose.iter().flat_map(|&n| self.corners(n)).collect();
        all.extend(points);
        let Some((axis, radius)) = cylinder::fitted(&all, axis.direction) else {
            return;
        };
        self.accept(
            &Profile {
                axis,
                radius,
                tolerance,
                ..profile
            },
            start,
        );
    }

    /// Grows the surface about an axis that goes through a circle and a region beside it.
    fn grow_from(&mut self, axis: Axis, height: f64, radius: f64, start: u32) -> bool {
        let tolerance = off_round(self.shell);
        let far = self
            .corners(start)
            .map(|corner| (axis.height(corner) - height, length(axis.radial(corner))))
            .max_by(|a, b| a.0.abs().total_cmp(&b.0.abs()));
        let Some((rise, far_radius)) = far else {
            return false;
        };
        if rise.abs() <= 2.0 * tolerance {
            return false;
        }
        let mut slope = (far_radius - radius) / rise;
        if (far_radius - radius).abs() <= tolerance {
            slope = 0.0;
        }
        let region = &self.regions.all[start as usize];
        let outward = axis.radial(region.centre);
        let profile = Profile {
            axis,
            radius: radius - slope * height,
            slope,
            is_concave: dot(outward, region.normal) < 0.0,
            tolerance,
        };
        self.accept(&profile, start)
    }

    /// Takes what grows from a region, if it goes all around, and what follows it along the same axis.
    fn accept(&mut self, profile: &Profile, start: u32) -> bool {
        if !self.fits(profile, start) {
            return false;
        }
        let regions = self.grown(profile, start);
        let Some(sides) = self.all_around(profile, &regions) else {
            return false;
        };
        let profile = &self.fitted(profile, &regions);
        let heights = |n: &u32| {
            self.corners(*n)
                .map(|corner| profile.axis.height(corner))
                .collect::<Vec<_>>()
        };
        let heights: Vec<f64> = regions.iter().flat_map(heights).collect();
        let label = self.rounds.all.len() as u32;
        for &region in &regions {
            self.rounds.of[region as usize] = label;
        }
        self.rounds.all.push(Round {
            axis: profile.axis,
            radius: profile.radius,
            slope: profile.slope,
            is_concave: profile.is_concave,
            low: heights.iter().copied().fold(f64::INFINITY, f64::min),
            high: heights.iter().copied().fold(f64::NEG_INFINITY, f64::max),
            regions: regions.clone(),
            sides,
        });
        self.follow(profile, &regions);
        true
    }

    /// A cone by all its corners, of which the one that it was grown from may be rounded most.
    fn fitted(&self, profile: &Profile, regions: &[u32]) -> Profile {
        let corners = regions.iter().flat_map(|&region| self.corners(region));
        let points: Vec<[f64; 2]> = corners
            .map(|corner| {
                let axis = profile.axis;
                [axis.height(corner), length(axis.radial(corner))]
            })
            .collect();
        let count = points.len() as f64;
        let mean = [0, 1].map(|part| points.iter().map(|point| point[part]).sum::<f64>() / count);
        let spread = |part: usize| -> f64 {
            let product = |point: &[f64; 2]| (point[0] - mean[0]) * (point[part] - mean[part]);
            points.iter().map(product).sum()
        };
        if profile.slope == 0.0 || spread(0) <= 0.0 {
            return *profile;
        }
        let slope = spread(1) / spread(0);
        Profile {
            slope,
            radius: mean[1] - slope * mean[0],
            ..*profile
        }
    }

    /// Grows what stands at the ends of a surface, about the same axis.
    fn follow(&mut self, profile: &Profile, regions: &[u32]) {
        let mut edges: Vec<(u32, Vector)> = Vec::new();
        for &region in regions {
            for around in &self.regions.all[region as usize].loops {
                for (place, next) in self.regions.across(around).enumerate() {
                    let free = next != NONE && self.rounds.of[next as usize] == NONE;
                    if free && !self.is_level(profile.axis, next) {
                        edges.push((next, self.shell.vertices[around.vertices[place] as usize]));
                    }
                }
            }
        }
        for (next, corner) in edges {
            if self.rounds.of[next as usize] == NONE {
                let axis = profile.axis;
                self.grow_from(axis, axis.height(corner), length(axis.radial(corner)), next);
            }
        }
    }

    /// Whether a region lies across an axis.
    fn is_level(&self, axis: Axis, region: u32) -> bool {
        dot(self.regions.all[region as usize].normal, axis.direction).abs() > 1.0 - 1e-6
    }

    /// The corners of a region.
    fn corners(&self, region: u32) -> impl Iterator<Item = Vector> + '_ {
        self.regions.all[region as usize]
            .loops
            .iter()
            .flat_map(|around| &around.corners)
            .map(|&vertex| self.shell.vertices[vertex as usize])
    }

    /// Whether a region is a side of a surface: its corners lie on it, and its normal is that of the surface, but for half
    /// the angle of a side.
    fn fits(&self, profile: &Profile, region: u32) -> bool {
        let Profile { axis, slope, .. } = *profile;
        let normal = self.regions.all[region as usize].normal;
        let sign = if profile.is_concave { -1.0 } else { 1.0 };
        let steep = (1.0 + slope * slope).sqrt();
        let least = (WIDEST_SIDE / 2.0).cos();
        let is_sliver = self.regions.all[region as usize].is_sliver(self.shell);
        self.corners(region).all(|corner| {
            let outward = axis.radial(corner);
            let radius = length(outward);
            let wanted = profile.radius + slope * axis.height(corner);
            if (radius - wanted).abs() > profile.tolerance * steep {
                return false;
            }
            if is_sliver || radius <= profile.tolerance * steep {
                return true;
            }
            let ideal = subtract(scale(outward, 1.0 / radius), scale(axis.direction, slope));
            sign * dot(normal, ideal) / steep >= least
        })
    }

    /// The regions that a surface grows to.
    fn grown(&self, profile: &Profile, start: u32) -> Vec<u32> {
        let mut seen = std::collections::HashSet::from([start]);
        let mut regions = vec![start];
        let mut next = 0;
        while let Some(&region) = regions.get(next) {
            next += 1;
            for around in &self.regions.all[region as usize].loops {
                for other in self.regions.across(around) {
                    let free = other != NONE && self.rounds.of[other as usize] == NONE;
                    if free && !seen.contains(&other) && self.fits(profile, other) {
                        seen.insert(other);
                        regions.push(other);
                    }
                }
            }
        }
        regions
    }

    /// How many sides a surface has, if it goes all around its axis.
    fn all_around(&self, profile: &Profile, regions: &[u32]) -> Option<usize> {
        let axis = profile.axis;
        let start = unit(cross(axis.direction, least_axis(axis.direction)));
        let side = cross(axis.direction, start);
        let angle = |outward: Vector| dot(outward, side).atan2(dot(outward, start));
        let mut spans: Vec<[f64; 2]> = Vec::new();
        let mut corners: Vec<f64> = Vec::new();
        for &region in regions {
            let own: Vec<f64> = self
                .corners(region)
                .map(|corner| axis.radial(corner))
                .filter(|&outward| length(outward) > profile.tolerance)
                .map(angle)
                .collect();
            let &first = own.first()?;
            let off = |a: &f64| crate::circles::wrapped(a - first);
            let low = own.iter().map(off).fold(0.0, f64::min);
            let high = own.iter().map(off).fold(0.0, f64::max);
            let from = (first + low).rem_euclid(TAU);
            spans.push([from, from + high - low]);
            corners.extend(own);
        }
        spans.sort_by(|a, b| a[0].total_cmp(&b[0]));
        let gap = 1e-4 + profile.tolerance / profile.radius.abs().max(1e-3);
        let mut reach = spans.last()?[1] - TAU;
        reach = spans
            .iter()
            .fold(reach, |most, span| most.max(span[1] - TAU));
        for span in &spans {
            if span[0] > reach + gap {
                return None;
            }
            reach = reach.max(span[1]);
        }
        if reach < TAU - gap {
            return None;
        }
        corners.sort_by(f64::total_cmp);
        let apart = |pair: &&[f64]| pair[1] - pair[0] > 1e-3;
        let count = corners.windows(2).filter(apart).count();
        let closes = corners.first()? + TAU - corners.last()? > 1e-3;
        Some(count + usize::from(closes))
    }
}

/// The axis that a direction leans to least.
fn least_axis(direction: Vector) -> Vector {
    let least = (0..3)
        .min_by(|&a, &b| direction[a].abs().total_cmp(&direction[b].abs()))
        .unwrap_or(0);
    let mut axis = [0.0; 3];
    axis[least] = 1.0;
    axis
}
