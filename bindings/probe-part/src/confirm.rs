//! Casts that confirm what was recognised: down a row's axis, just inside and just outside its outline.
use crate::model::{Check, Frame};
use crate::shape::Shape;
use crate::words::fixed;
use crate::work::{Draft, Probe};
use probe_rays::{Batch, Cast, Ray, Refusal, Scratch};

/// How far before and behind what is expected a surface may be hit, in millimetres, beside what the rounding of corners
/// makes.
const NEAR: f64 = 0.01;

/// A probe reaches so far beyond the part.
const BEYOND: f64 = 10.0;

/// What the casts say of each row, over the machine's threads; a cast that is refused is an error. `wide` is how far it is
/// through the whole part, and `rounding` how far a coordinate may be off.
pub fn confirm(
    shape: &Shape,
    frame: &Frame,
    drafts: &[Draft],
    wide: f64,
    rounding: f64,
) -> Result<Vec<Check>, Refusal> {
    let near = NEAR + 4.0 * rounding;
    let checked = Batch::new()
        .progress("probing rows")
        .run(drafts, |draft, scratch| {
            for expected in &draft.probes {
                if let Check::Differs(why) = checked(shape, frame, expected, [wide, near], scratch)?
                {
                    return Ok(Check::Differs(why));
                }
            }
            Ok(Check::Confirmed)
        });
    checked.into_iter().collect()
}

fn checked(
    shape: &Shape,
    frame: &Frame,
    probe_of: &Probe,
    [wide, near]: [f64; 2],
    scratch: &mut Scratch,
) -> Result<Check, Refusal> {
    let [least, most] = probe_of.expected;
    let reach = if most.is_finite() {
        most + wide + BEYOND
    } else {
        least
    };
    let ray = Ray::toward(
        frame.place_in_file(probe_of.from),
        frame.direction_in_file(probe_of.way),
        reach.max(0.0),
    );
    let differs = |found: String| {
        let wanted = if most.is_infinite() {
            format!("nothing before {}", fixed(least, 2))
        } else {
            format!("a surface at {}", fixed((least + most) / 2.0, 2))
        };
        Check::Differs(format!(
            "a probe {} meets {found}, not {wanted}",
            probe_of.what
        ))
    };
    Ok(match shape.near_cast(&ray, scratch) {
        Cast::Refused(refusal) => return Err(refusal),
        Cast::None if most.is_infinite() => Check::Confirmed,
        Cast::None => differs("nothing".into()),
        Cast::Hit(hit) if hit.distance < least - near || hit.distance > most + near => {
            differs(format!("a surface at {}", fixed(hit.distance, 2)))
        }
        Cast::Hit(_) => Check::Confirmed,
    })
}
