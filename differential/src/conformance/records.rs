//! Records converted from floats of eight bytes to floats of four and back. The plain model parses the record, rounds every float
//! and writes it again (`oracle/src/record.rs`).
use super::book::{Book, equal, refused};
use super::json::bytes;
use super::rays::{aslant, down, from};
use oracle::{
    answer::Ray,
    record::{Record, Shape},
};
use probe_rays::{calls, sys};

/// A record of a version, its four length bytes included.
fn record(version: u8, ray: Ray, shape: Shape) -> Vec<u8> {
    Record {
        version,
        ray,
        shape,
    }
    .write()
}

/// The record that the bytes are, exactly, if they are one of the version.
fn parsed(version: u8, given: &[u8]) -> Option<Record> {
    let (length, body) = given.split_first_chunk::<4>()?;
    let whole = u32::from_be_bytes(*length) as usize == body.len();
    Record::parse(body).filter(|record| whole && record.version == version)
}

/// 2 for bytes that are no record of the version, or too long as version 2; 11 for a NaN, or a float that no f32 equals.
fn model(from: u8, to: u8, given: &[u8]) -> Result<Vec<u8>, u32> {
    let mut record = parsed(from, given).ok_or(2u32)?;
    let long = Record {
        version: 2,
        ..record.clone()
    };
    if !long.fits() {
        return Err(2);
    }
    let representable =
        |float: &f64| !float.is_nan() && f64::from(*float as f32).to_bits() == float.to_bits();
    if !record.floats_mut().iter().all(|float| representable(float)) {
        return Err(11);
    }
    record.version = to;
    Ok(record.write())
}

fn convert(book: &mut Book, call: &'static str, why: &str, given: &[u8]) {
    let (mut out, mut written) = (vec![0; 8_196], [0]);
    let (number, plain) = match call {
        "record_to_short" => (
            calls::record_to_short(given, &mut out, &mut written),
            model(2, 3, given),
        ),
        _ => (
            calls::record_to_long(given, &mut out, &mut written),
            model(3, 2, given),
        ),
    };
    let library = if number == sys::DONE {
        Ok(out[..written[0]].to_vec())
    } else {
        Err(number)
    };
    let answer = match equal(why, library, plain) {
        Ok(record) => bytes(&record),
        Err(number) => refused(number),
    };
    book.write(call, why, vec![("record", bytes(given))], answer);
}

fn plane() -> Shape {
    Shape::Plane {
        normal: [0.0, -0.0, 1.0],
        distance: 0.25,
    }
}

/// The longest distance grid that a record holds: 1,008 values.
fn longest() -> Shape {
    Shape::LevelSet {
        sides: [8, 9, 14],
        origin: [1.0, 2.0, 3.0],
        spacing: [4.0, 5.0, 6.0],
        values: (0..1_008).map(f64::from).collect(),
    }
}

pub fn write(book: &mut Book) {
    let ray = from(down(1.0, 2.0, 3.0, 5.0), 0.5);
    let long = record(2, ray, plane());
    let short = record(3, ray, plane());
    convert(book, "record_to_short", "a plane", &long);
    convert(book, "record_to_long", "a plane", &short);
    convert(
        book,
        "record_to_short",
        "a direction that no f32 holds",
        &record(2, aslant(1.0, 2.0, 3.0, 5.0), plane()),
    );
    convert(book, "record_to_short", "a record of version 3", &short);
    convert(book, "record_to_long", "a record of version 2", &long);
    convert(book, "record_to_short", "no byte", &[]);
    convert(
        book,
        "record_to_short",
        "a byte too few",
        &long[..long.len() - 1],
    );
    convert(
        book,
        "record_to_long",
        "a byte too many",
        &[short.as_slice(), &[0]].concat(),
    );
    convert(
        book,
        "record_to_long",
        "a NaN",
        &record(3, from(ray, f64::NAN), plane()),
    );
    convert(
        book,
        "record_to_short",
        "the longest distance grid",
        &record(2, ray, longest()),
    );
    convert(
        book,
        "record_to_long",
        "the longest distance grid",
        &record(3, ray, longest()),
    );
}
