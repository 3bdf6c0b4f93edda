//! How fine the numbers of a file are: the step that they are rounded to.

/// A step says something where so many different numbers of one magnitude lie on it.
const FEW: usize = 8;

/// Steps from 1 down to a ten-millionth of the file's unit are distinguished.
const MOST_PLACES: i32 = 7;

/// The numbers of one magnitude: how many decimal places they need, and some of them.
#[derive(Clone, Default)]
struct Magnitude {
    places: i32,
    some: Vec<f64>,
}

/// The largest step, of those up to `most`, that numbers of some magnitude are rounded to: from 1 to 10, from 10 to 100, and
/// so on, since a file may have a number of places or of digits. 0 where no numbers are.
pub fn step_of(numbers: impl IntoIterator<Item = f64>, most: f64) -> f64 {
    let mut magnitudes: Vec<(i32, Magnitude)> = Vec::new();
    for number in numbers {
        let number = number.abs();
        if !(number.is_finite() && number > 1e-6) {
            continue;
        }
        let decade = number.log10().floor() as i32;
        let place = match magnitudes.iter().position(|known| known.0 == decade) {
            Some(place) => place,
            None => {
                magnitudes.push((decade, Magnitude::default()));
                magnitudes.len() - 1
            }
        };
        let own = &mut magnitudes[place].1;
        while own.places <= MOST_PLACES && !has_places(number, own.places) {
            own.places += 1;
        }
        if own.some.len() < FEW && !own.some.contains(&number) {
            own.some.push(number);
        }
    }
    let is_known = |own: &Magnitude| own.some.len() >= FEW && own.places <= MOST_PLACES;
    magnitudes
        .iter()
        .filter(|(_, own)| is_known(own))
        .map(|(_, own)| 10.0_f64.powi(-own.places))
        .filter(|&step| step <= most)
        .fold(0.0, f64::max)
}

/// Whether a number has so many decimal places, apart from the rounding of single precision.
fn has_places(number: f64, places: i32) -> bool {
    let whole = number * 10.0_f64.powi(places);
    let rounding = whole * 6.1e-8 + 1e-9;
    rounding >= 0.25 || (whole - whole.round()).abs() <= rounding
}

#[cfg(test)]
mod tests {
    use super::step_of;

    /// Corners of a circle, rounded to so many places.
    fn circle(places: i32, scale: f64) -> Vec<f64> {
        let unit = 10.0_f64.powi(places);
        let corner = |n: u32| (300.0 + 17.5 * (f64::from(n) / 5.0).sin()) * scale;
        (0..64).map(|n| (corner(n) * unit).round() / unit).collect()
    }

    /// The places of a number of digits, of single precision, and of a drawing in whole and half millimetres.
    #[test]
    fn steps_are_read_from_the_numbers() {
        assert_eq!(step_of(circle(2, 1.0), 1.0), 0.01);
        assert_eq!(step_of(circle(5, 0.001), 1.0), 1e-5);
        assert_eq!(step_of(circle(2, 1.0), 0.001), 0.0);
        let single = circle(2, 1.0).into_iter().map(|n| f64::from(n as f32));
        assert_eq!(step_of(single, 1.0), 0.01);
        let fine = circle(15, 1.0).into_iter().map(|n| f64::from(n as f32));
        assert!(step_of(fine, 1.0) <= 1e-4);
        // six digits: five places below 10, two above 1,000
        let digits = circle(5, 0.01).into_iter().chain(circle(2, 10.0));
        assert_eq!(step_of(digits, 0.03), 0.01);
        // a few numbers say nothing
        assert_eq!(step_of([600.0, 400.0, 18.0, 12.25, 100.0], 1.0), 0.0);
    }
}
