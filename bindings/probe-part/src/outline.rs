//! Which outline a polygon is. Its corners lie on straight sides and arcs, which are fitted through them: no corner needs
//! to lie at the end of an arc or at its extreme.
use crate::bent::bent;
use crate::boxes::{box_around, rectangle, rounded, slot};
use crate::circles::Circle;
use crate::fit::Place;
use crate::model::Outline;

/// An outline with its middle.
#[derive(Clone, Debug, PartialEq)]
pub struct Named {
    /// What it is.
    pub outline: Outline,
    /// Its middle.
    pub centre: Place,
}

/// The outline of a polygon of corners, which lie off it by a tolerance at most.
pub fn named(corners: &[Place], tolerance: f64) -> Named {
    found(corners, tolerance).unwrap_or_else(|| {
        let [low, high] = box_around(corners);
        Named {
            outline: Outline::Other {
                size: [high[0] - low[0], high[1] - low[1]],
            },
            centre: [(low[0] + high[0]) / 2.0, (low[1] + high[1]) / 2.0],
        }
    })
}

/// The outline of a polygon, where it is one that has measures.
fn found(corners: &[Place], tolerance: f64) -> Option<Named> {
    circle(corners, tolerance)
        .or_else(|| rectangle(corners, tolerance))
        .or_else(|| slot(corners, tolerance))
        .or_else(|| rounded(corners, tolerance))
        .or_else(|| bent(corners, tolerance))
}

fn circle(corners: &[Place], tolerance: f64) -> Option<Named> {
    let circle = Circle::of_polygon(corners, tolerance)?;
    Some(Named {
        outline: Outline::Circle {
            diameter: 2.0 * circle.radius,
            sides: corners.len(),
        },
        centre: circle.centre,
    })
}

/// Corners so far off an outline are nearly on it: 0.1 mm, and two thousandths of its shorter side.
const NEARLY: [f64; 2] = [0.1, 0.002];

/// The outline that a polygon nearly is, where it is none: what somebody has to look at.
pub fn nearly(corners: &[Place]) -> Option<Outline> {
    let [low, high] = box_around(corners);
    let short = (high[0] - low[0]).min(high[1] - low[1]);
    let tolerance = (NEARLY[0] + NEARLY[1] * short).min(short / 10.0);
    Some(found(corners, tolerance)?.outline)
}
