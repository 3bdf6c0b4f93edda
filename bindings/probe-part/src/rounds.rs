//! Round surfaces: cylinders and cones, grown over the flat sides that the mesh gives them. The corners of the sides lie on
//! the surface.
use crate::circles::LEAST_SIDES;
use crate::geometry::Axis;
use crate::planes::Regions;
use crate::revolve::Search;
use crate::topology::{Shell, NONE};

/// How far a corner may lie off a round surface, beside the rounding of its coordinates: 0.004 mm.
const OFF: f64 = 4e-3;

/// A cylinder or a cone.
#[derive(Clone, Debug)]
pub struct Round {
    /// Its axis.
    pub axis: Axis,
    /// Its radius at the height 0 of the axis.
    pub radius: f64,
    /// How much the radius grows with the height: 0 is a cylinder.
    pub slope: f64,
    /// Whether it is seen from within, as the wall of a bore is.
    pub is_concave: bool,
    /// Its flat sides, among the regions.
    pub regions: Vec<u32>,
    /// Its least height.
    pub low: f64,
    /// Its largest.
    pub high: f64,
    /// How many sides it has.
    pub sides: usize,
}

impl Round {
    /// The radius at a height.
    pub fn radius_at(&self, height: f64) -> f64 {
        self.radius + self.slope * height
    }

    /// Whether it is a cylinder.
    pub fn is_cylinder(&self) -> bool {
        self.slope == 0.0
    }
}

/// How far a corner may lie off a round surface.
pub fn off_round(shell: &Shell) -> f64 {
    OFF + 4.0 * shell.rounding
}

/// The round surfaces of a shell that go all around, and the one of each region.
#[derive(Clone, Debug)]
pub struct Rounds {
    /// The surfaces.
    pub all: Vec<Round>,
    /// The surface of each region; [`NONE`] where it has none.
    pub of: Vec<u32>,
}

impl Rounds {
    /// Finds them: from the circles around flat regions, the largest regions first, and from there along each axis.
    pub fn find(shell: &Shell, regions: &Regions) -> Rounds {
        let mut search = Search {
            shell,
            regions,
            rounds: Rounds {
                all: Vec::new(),
                of: vec![NONE; regions.all.len()],
            },
        };
        let mut order: Vec<u32> = (0..regions.all.len() as u32).collect();
        order.sort_by(|&a, &b| {
            let area = |n: u32| regions.all[n as usize].area;
            area(b).total_cmp(&area(a))
        });
        for region in order {
            for around in &regions.all[region as usize].loops {
                if around.corners.len() >= LEAST_SIDES && search.rounds.of[region as usize] == NONE
                {
                    search.stand_on_loop(region, around);
                }
            }
        }
        search.rounds.without_curves(regions)
    }

    /// Leaves out cones that follow another cone: a curve that is neither, such as a ball's, is tessellated so.
    fn without_curves(mut self, regions: &Regions) -> Rounds {
        let is_cone = |round: u32| round != NONE && !self.all[round as usize].is_cylinder();
        let beside = |number: u32| {
            let own = &self.all[number as usize].regions;
            let loops = own.iter().flat_map(|&n| &regions.all[n as usize].loops);
            loops
                .flat_map(|around| regions.across(around))
                .any(|other| {
                    let round = if other == NONE {
                        NONE
                    } else {
                        self.of[other as usize]
                    };
                    round != number && is_cone(round)
                })
        };
        let curved: Vec<u32> = (0..self.all.len() as u32)
            .filter(|&number| is_cone(number) && beside(number))
            .collect();
        for number in curved {
            for region in std::mem::take(&mut self.all[number as usize].regions) {
                self.of[region as usize] = NONE;
            }
        }
        self
    }
}
