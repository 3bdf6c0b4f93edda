//! Records with floats of eight bytes and of four.
use crate::answer::Refusal;
use crate::{calls, sys};

/// The maximum number of bytes of a record of version 2 or 3, its four length bytes included.
pub const MAX_RECORD: usize = 8_196;

/// Converts a record of version 2, with floats of eight bytes, to version 3, with floats of four.
///
/// Refuses with [`Refusal::BadShape`] if the bytes are not exactly one well-formed record of version 2, its length bytes
/// included, and with [`Refusal::NotRepresentable`] if a float of it is NaN or no f32 is exactly that number. The program
/// `probe` prints the same line for both records.
///
/// ```
/// use probe_rays::{record_to_long, record_to_short, Refusal};
///
/// // a plane: version 2, kind 1; origin, direction, maximum, near, normal and distance
/// let record = |direction: [f64; 3]| {
///     let [x, y, z] = direction;
///     let floats = [0.0, 0.0, 2.0, x, y, z, 5.0, 0.0, 0.0, 0.0, 1.0, 0.0];
///     let body = [2, 1].into_iter().chain(floats.into_iter().flat_map(f64::to_be_bytes));
///     98u32.to_be_bytes().into_iter().chain(body).collect::<Vec<u8>>()
/// };
/// let down = record([0.0, 0.0, -1.0]);
/// let short = record_to_short(&down)?;
/// assert_eq!((short.len(), short[4]), (4 + 50, 3));
/// assert_eq!(record_to_long(&short)?, down);
///
/// // no f32 is exactly 0.6 or 0.8: a direction that is not along an axis is seldom representable
/// assert_eq!(record_to_short(&record([0.6, 0.0, -0.8])), Err(Refusal::NotRepresentable));
/// # Ok::<(), Refusal>(())
/// ```
pub fn record_to_short(record: &[u8]) -> Result<Vec<u8>, Refusal> {
    converted(calls::record_to_short, record)
}

/// Converts a record of version 3 to version 2.
///
/// Refuses with [`Refusal::BadShape`] if the bytes are not exactly one well-formed record of version 3 whose version 2 is at
/// most [`MAX_RECORD`] bytes long, and with [`Refusal::NotRepresentable`] if the record has a NaN.
///
/// ```
/// use probe_rays::{record_to_long, Refusal};
///
/// let mut short = vec![0, 0, 0, 50, 3, 1];
/// for float in [0.0f32, 0.0, 2.0, 0.0, 0.0, -1.0, 5.0, 0.0, 0.0, 0.0, 1.0, 0.0] {
///     short.extend(float.to_be_bytes());
/// }
/// let long = record_to_long(&short)?;
/// assert_eq!((long.len(), long[4]), (4 + 98, 2));
/// assert_eq!(long[22..30], 2.0f64.to_be_bytes());
///
/// short[50..54].copy_from_slice(&f32::NAN.to_be_bytes());
/// assert_eq!(record_to_long(&short), Err(Refusal::NotRepresentable));
/// # Ok::<(), Refusal>(())
/// ```
pub fn record_to_long(record: &[u8]) -> Result<Vec<u8>, Refusal> {
    converted(calls::record_to_long, record)
}

fn converted(
    call: fn(&[u8], &mut [u8], &mut [usize]) -> u32,
    record: &[u8],
) -> Result<Vec<u8>, Refusal> {
    let mut out = vec![0; MAX_RECORD];
    let mut written = [0];
    match call(record, &mut out, &mut written) {
        sys::DONE => {
            out.truncate(written[0]);
            Ok(out)
        }
        number => Err(Refusal::from_number(number)),
    }
}
