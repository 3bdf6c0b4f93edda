//! The casts at a plane, a triangle, a height grid, heights within ranges and a distance grid.
use super::book::{Book, agreed, answer_json, answer_of, equal, ray_json, refused};
use super::json::{Json, floats, text, whole, wholes};
use super::rays::{aslant, down, from, lent, up};
use oracle::{
    answer::{Answer, Ray},
    height_ranges::{self, Clearance},
    plain,
    record::{Record, Shape},
};
use probe_rays::{HeightField, HeightRanges, LevelSet, Plane, calls, sys};

const MOST: f64 = f64::MAX;

/// The plain model's answer.
fn model(ray: &Ray, shape: Shape) -> Answer {
    plain::answer(&Record {
        version: 2,
        ray: *ray,
        shape,
    })
}

/// What a cast by numbers gives, and by the call without a near distance where that is 0.
fn both(why: &str, ray: &Ray, near: (u32, [f64; 4]), alone: (u32, [f64; 4])) -> Answer {
    let answer = answer_of(near.0, &near.1, None);
    if ray.near.to_bits() == 0 {
        agreed(why, answer_of(alone.0, &alone.1, None), answer);
    }
    answer
}

fn plane(book: &mut Book, why: &str, ray: Ray, normal: [f64; 3], distance: f64) {
    let (mut hit, mut alone) = ([0.0; 4], [0.0; 4]);
    let shape = Plane { normal, distance };
    let number = calls::ray_plane(&lent(&ray), &shape, &mut hit);
    let ([x, y, z], [dx, dy, dz]) = (ray.origin, ray.direction);
    // SAFETY: the pointer and the length are those of an array.
    let without = unsafe {
        sys::probe_ray_plane(
            x,
            y,
            z,
            dx,
            dy,
            dz,
            ray.maximum,
            normal[0],
            normal[1],
            normal[2],
            distance,
            alone.as_mut_ptr(),
            4,
        )
    };
    let library = both(why, &ray, (number, hit), (without, alone));
    let answer = agreed(why, library, model(&ray, Shape::Plane { normal, distance }));
    let numbers = [normal[0], normal[1], normal[2], distance];
    let arguments = vec![("ray", ray_json(&ray)), ("plane", floats(&numbers))];
    book.write("ray_plane", why, arguments, answer_json(&answer));
}

fn planes(book: &mut Book) {
    let (level, leaning) = ([0.0, 0.0, 1.0], [2.0 / 3.0, 1.0 / 3.0, 2.0 / 3.0]);
    plane(
        book,
        "aslant at a leaning plane",
        aslant(1.0, 2.0, 9.0, 50.0),
        leaning,
        0.5,
    );
    plane(
        book,
        "the same, nearer than near",
        from(aslant(1.0, 2.0, 9.0, 50.0), 29.0),
        leaning,
        0.5,
    );
    plane(
        book,
        "at just the maximum",
        down(0.0, 0.0, 2.0, 2.0),
        level,
        0.0,
    );
    plane(
        book,
        "past the maximum",
        down(0.0, 0.0, 2.0, 1.5),
        level,
        0.0,
    );
    plane(
        book,
        "at just the near distance",
        from(down(0.0, 0.0, 2.0, 5.0), 2.0),
        level,
        0.0,
    );
    plane(
        book,
        "nearer than near",
        from(down(0.0, 0.0, 2.0, 5.0), 2.5),
        level,
        0.0,
    );
    plane(
        book,
        "near above the maximum",
        from(down(0.0, 0.0, 2.0, 5.0), 5.5),
        level,
        0.0,
    );
    plane(book, "a plane at 3", up(0.0, 0.0, 1.0, 5.0), level, 3.0);
    plane(
        book,
        "at the origin, at -0",
        down(0.0, 0.0, 0.0, 5.0),
        level,
        0.0,
    );
    plane(
        book,
        "at the origin, at 0",
        up(0.0, 0.0, 0.0, 5.0),
        level,
        0.0,
    );
    let along = Ray {
        direction: [1.0, 0.0, 0.0],
        ..down(0.0, 0.0, 2.0, 5.0)
    };
    plane(book, "parallel", along, level, 0.0);
    let twice = Ray {
        direction: [0.0, 0.0, -2.0],
        ..down(0.0, 0.0, 2.0, 5.0)
    };
    plane(book, "a direction of length 2", twice, level, 0.0);
    plane(
        book,
        "a normal of length 2",
        down(0.0, 0.0, 2.0, 5.0),
        [0.0, 0.0, 2.0],
        0.0,
    );
    plane(
        book,
        "a distance that is not finite",
        down(0.0, 0.0, 2.0, 5.0),
        level,
        f64::INFINITY,
    );
    plane(
        book,
        "too far for a float",
        down(0.0, 0.0, -MOST, MOST),
        level,
        MOST,
    );
}

fn triangle(book: &mut Book, why: &str, ray: Ray, corners: [[f64; 3]; 3]) {
    let (mut hit, mut alone) = ([0.0; 4], [0.0; 4]);
    let number = calls::ray_triangle(&lent(&ray), &corners, &mut hit);
    let ([x, y, z], [dx, dy, dz], [a, b, c]) = (ray.origin, ray.direction, corners);
    // SAFETY: the pointer and the length are those of an array.
    let without = unsafe {
        sys::probe_ray_triangle(
            x,
            y,
            z,
            dx,
            dy,
            dz,
            ray.maximum,
            a[0],
            a[1],
            a[2],
            b[0],
            b[1],
            b[2],
            c[0],
            c[1],
            c[2],
            alone.as_mut_ptr(),
            4,
        )
    };
    let library = both(why, &ray, (number, hit), (without, alone));
    let answer = agreed(why, library, model(&ray, Shape::Triangle { corners }));
    let arguments = vec![
        ("ray", ray_json(&ray)),
        ("corners", floats(corners.as_flattened())),
    ];
    book.write("ray_triangle", why, arguments, answer_json(&answer));
}

fn triangles(book: &mut Book) {
    let flat = [[0.0, 0.0, 0.0], [1.0, 0.0, 0.0], [0.0, 1.0, 0.0]];
    let leaning = [[1.0, 2.0, 3.0], [7.0, 1.0, 2.0], [2.0, 8.0, 4.0]];
    let ray = aslant(4.0 / 3.0, 2.0 / 3.0, 9.0, 20.0);
    triangle(book, "aslant at a leaning triangle", ray, leaning);
    triangle(book, "the same, nearer than near", from(ray, 8.0), leaning);
    triangle(book, "inside", down(0.25, 0.25, 1.0, 1.0), flat);
    triangle(book, "on an edge", down(0.5, 0.5, 1.0, 1.0), flat);
    triangle(book, "outside", down(0.75, 0.5, 1.0, 1.0), flat);
    triangle(
        book,
        "from below: the normal is negated, its zeros too",
        up(0.25, 0.25, -1.0, 1.0),
        flat,
    );
    triangle(
        book,
        "at just the near distance",
        from(down(0.25, 0.25, 2.0, 5.0), 2.0),
        flat,
    );
    triangle(
        book,
        "nearer than near",
        from(down(0.25, 0.25, 2.0, 5.0), 2.5),
        flat,
    );
    triangle(book, "a maximum below 0", down(0.25, 0.25, 1.0, -1.0), flat);
    let far = [[0.0, 0.0, 0.0], [1e160, 1e160, 0.0], [0.0, 1e-7, 0.0]];
    triangle(
        book,
        "a distance that is not a number",
        down(5e159, 5e159, 1.0, 10.0),
        far,
    );
    let (x, y, p) = (2f64.powi(610), 2f64.powi(210), 2f64.powi(-10));
    let along = Ray {
        direction: [1.0, 0.0, 0.0],
        ..down(x / 4.0, y, p / 4.0, 1.0)
    };
    triangle(
        book,
        "no normal",
        along,
        [[0.0, 0.0, 0.0], [x, 0.0, p], [0.0, x, 0.0]],
    );
}

/// A height grid of so many rows and columns.
fn heights(
    book: &mut Book,
    why: &str,
    ray: Ray,
    counts: [usize; 2],
    spacing: [f64; 2],
    heights: &[f64],
) {
    let [rows, columns] = counts;
    let (mut hit, mut alone) = ([0.0; 4], [0.0; 4]);
    let field = HeightField {
        rows,
        columns,
        spacing,
        heights,
    };
    let number = calls::ray_height_field(&lent(&ray), &field, &mut hit);
    let ([x, y, z], [dx, dy, dz]) = (ray.origin, ray.direction);
    // SAFETY: the pointers and lengths are those of a slice and of an array.
    let without = unsafe {
        sys::probe_ray_height_field(
            x,
            y,
            z,
            dx,
            dy,
            dz,
            ray.maximum,
            rows,
            columns,
            spacing[0],
            spacing[1],
            heights.as_ptr(),
            heights.len(),
            alone.as_mut_ptr(),
            4,
        )
    };
    let library = both(why, &ray, (number, hit), (without, alone));
    let shape = Shape::HeightField {
        rows: rows as u32,
        columns: columns as u32,
        spacing,
        heights: heights.to_vec(),
    };
    let answer = agreed(why, library, model(&ray, shape));
    let arguments = vec![
        ("ray", ray_json(&ray)),
        ("rows", whole(rows)),
        ("columns", whole(columns)),
        ("spacing", floats(&spacing)),
        ("heights", floats(heights)),
    ];
    book.write("ray_height_field", why, arguments, answer_json(&answer));
}

/// So many heights, no two equal.
fn uneven(count: usize) -> Vec<f64> {
    (0..count)
        .map(|k| (k * k % 11) as f64 + k as f64 / 8.0)
        .collect()
}

fn height_fields(book: &mut Book) {
    let grid = uneven(12);
    let (counts, spacing) = ([3, 4], [2.0, 3.0]);
    heights(
        book,
        "3 rows and 4 columns",
        down(5.25, 4.5, 40.0, 60.0),
        counts,
        spacing,
        &grid,
    );
    heights(
        book,
        "aslant over the cells",
        aslant(0.5, 0.75, 12.0, 60.0),
        counts,
        spacing,
        &grid,
    );
    heights(
        book,
        "the same, nearer than near",
        from(aslant(0.5, 0.75, 12.0, 60.0), 10.5),
        counts,
        spacing,
        &grid,
    );
    heights(
        book,
        "beside the grid",
        down(7.0, 4.5, 40.0, 60.0),
        counts,
        spacing,
        &grid,
    );
    heights(
        book,
        "at just the near distance",
        from(down(0.75, 0.25, 2.0, 5.0), 2.0),
        [2, 2],
        [1.0, 1.0],
        &[0.0; 4],
    );
    heights(
        book,
        "one row",
        down(5.25, 4.5, 40.0, 60.0),
        [1, 12],
        spacing,
        &grid,
    );
    heights(
        book,
        "a height too few",
        down(5.25, 4.5, 40.0, 60.0),
        counts,
        spacing,
        &grid[1..],
    );
    heights(
        book,
        "1,024 rows",
        down(0.75, 0.25, 2.0, 5.0),
        [1_024, 2],
        [1.0, 1.0],
        &[0.5; 2_048],
    );
    heights(
        book,
        "1,025 rows",
        down(0.75, 0.25, 2.0, 5.0),
        [1_025, 2],
        [1.0, 1.0],
        &[0.5; 2_050],
    );
    heights(
        book,
        "a spacing of 0",
        down(5.25, 4.5, 40.0, 60.0),
        counts,
        [2.0, 0.0],
        &grid,
    );
}

fn ranges(book: &mut Book, why: &str, ray: Ray, counts: [usize; 2], lows: &[f64], highs: &[f64]) {
    let ([rows, columns], spacing) = (counts, [2.0, 3.0]);
    let mut cell = [0];
    let ranges = HeightRanges {
        rows,
        columns,
        spacing,
        lows,
        highs,
    };
    let library = match calls::ray_height_ranges(&lent(&ray), &ranges, &mut cell) {
        sys::CLEAR => Clearance::Clear,
        sys::POSSIBLE => Clearance::Possible(cell[0]),
        number => Clearance::Refused(number),
    };
    let plain = height_ranges::Ranges {
        rows,
        columns,
        spacing,
        lows: lows.to_vec(),
        highs: highs.to_vec(),
    };
    let answer = match equal(why, library, height_ranges::cast(&ray, &plain)) {
        Clearance::Clear => text("clear"),
        Clearance::Possible(cell) => Json::Object(vec![("possible", whole(cell))]),
        Clearance::Refused(number) => refused(number),
    };
    let arguments = vec![
        ("ray", ray_json(&ray)),
        ("rows", whole(rows)),
        ("columns", whole(columns)),
        ("spacing", floats(&spacing)),
        ("lows", floats(lows)),
        ("highs", floats(highs)),
    ];
    book.write("ray_height_ranges", why, arguments, answer);
}

fn height_ranges_cases(book: &mut Book) {
    let lows = uneven(12);
    let highs: Vec<f64> = lows.iter().map(|low| low + 0.5).collect();
    let ray = down(5.25, 4.5, 40.0, 35.0);
    ranges(
        book,
        "3 rows and 4 columns: the last cell",
        ray,
        [3, 4],
        &lows,
        &highs,
    );
    ranges(
        book,
        "above every range",
        down(5.25, 4.5, 40.0, 20.0),
        [3, 4],
        &lows,
        &highs,
    );
    ranges(
        book,
        "only the highs reach",
        down(5.25, 4.5, 20.0, 20.0 - 10.75),
        [3, 4],
        &lows,
        &highs,
    );
    ranges(
        book,
        "only the lows are passed",
        up(5.25, 4.5, 4.0, 2.125),
        [3, 4],
        &lows,
        &highs,
    );
    ranges(book, "lows above highs", ray, [3, 4], &highs, &lows);
    ranges(
        book,
        "near above the maximum",
        from(ray, 36.0),
        [3, 4],
        &lows,
        &highs,
    );
    ranges(book, "a range too few", ray, [3, 4], &lows, &highs[1..]);
    ranges(
        book,
        "4 rows and 3 columns",
        down(3.25, 7.5, 40.0, 35.0),
        [4, 3],
        &lows,
        &highs,
    );
}

struct Grid {
    sides: [u32; 3],
    origin: [f64; 3],
    spacing: [f64; 3],
    values: Vec<f64>,
}

fn level_set(book: &mut Book, why: &str, ray: Ray, grid: &Grid) {
    let (mut hit, mut alone) = ([0.0; 4], [0.0; 4]);
    let Grid {
        sides,
        origin: o,
        spacing: s,
        values,
    } = grid;
    let library = LevelSet {
        sides: *sides,
        origin: *o,
        spacing: *s,
        values,
    };
    let number = calls::ray_level_set(&lent(&ray), &library, &mut hit);
    let ([x, y, z], [dx, dy, dz]) = (ray.origin, ray.direction);
    // SAFETY: the pointers and lengths are those of a slice and of an array.
    let without = unsafe {
        sys::probe_ray_level_set(
            x,
            y,
            z,
            dx,
            dy,
            dz,
            ray.maximum,
            sides[0],
            sides[1],
            sides[2],
            o[0],
            o[1],
            o[2],
            s[0],
            s[1],
            s[2],
            values.as_ptr(),
            values.len(),
            alone.as_mut_ptr(),
            4,
        )
    };
    let library = both(why, &ray, (number, hit), (without, alone));
    let shape = Shape::LevelSet {
        sides: *sides,
        origin: *o,
        spacing: *s,
        values: values.clone(),
    };
    let answer = agreed(why, library, model(&ray, shape));
    let arguments = vec![
        ("ray", ray_json(&ray)),
        ("sides", wholes(sides)),
        ("origin", floats(o)),
        ("spacing", floats(s)),
        ("values", floats(values)),
    ];
    book.write("ray_level_set", why, arguments, answer_json(&answer));
}

/// Distances from a leaning plane, on a grid of 3 by 4 by 5 nodes whose sides, origin and spacings all differ.
fn leaning_grid() -> Grid {
    let ([i, j, k], origin, spacing) = ([3u32, 4, 5], [1.0, 2.0, 3.0], [2.0, 1.5, 1.25]);
    let at = |node: u32, axis: usize| origin[axis] + f64::from(node) * spacing[axis];
    let value = |x: f64, y: f64, z: f64| (2.0 * x + y + 2.0 * z) / 3.0 - 6.5;
    let values = (0..i * j * k).map(|n| value(at(n % i, 0), at(n / i % j, 1), at(n / i / j, 2)));
    Grid {
        sides: [i, j, k],
        origin,
        spacing,
        values: values.collect(),
    }
}

fn level_sets(book: &mut Book) {
    let grid = leaning_grid();
    let ray = aslant(1.5, 2.25, 9.0, 20.0);
    level_set(book, "a leaning plane, aslant", ray, &grid);
    level_set(book, "the same, nearer than near", from(ray, 6.0), &grid);
    level_set(
        book,
        "past the maximum",
        Ray {
            maximum: 0.5,
            ..ray
        },
        &grid,
    );
    level_set(book, "beside the grid", down(0.5, 2.5, 9.0, 20.0), &grid);
    level_set(
        book,
        "a value too few",
        ray,
        &Grid {
            values: grid.values[1..].to_vec(),
            ..leaning_grid()
        },
    );
    level_set(
        book,
        "a spacing of 0",
        ray,
        &Grid {
            spacing: [2.0, 0.0, 1.25],
            ..leaning_grid()
        },
    );
    level_set(
        book,
        "an origin that is not finite",
        ray,
        &Grid {
            origin: [1.0, f64::NAN, 3.0],
            ..leaning_grid()
        },
    );
    let zeros = Grid {
        sides: [2; 3],
        origin: [0.0; 3],
        spacing: [1.0; 3],
        values: vec![0.0; 8],
    };
    level_set(book, "no gradient", down(0.5, 0.5, 2.0, 5.0), &zeros);
    let sides = |side| Grid {
        sides: [side, 2, 2],
        values: (0..4 * side)
            .map(|n| if n < 2 * side { -0.5 } else { 0.5 })
            .collect(),
        ..Grid {
            origin: [0.0; 3],
            spacing: [1.0; 3],
            sides: [2; 3],
            values: Vec::new(),
        }
    };
    level_set(
        book,
        "256 nodes along a side",
        down(254.5, 0.5, 2.0, 5.0),
        &sides(256),
    );
    level_set(
        book,
        "257 nodes along a side",
        down(254.5, 0.5, 2.0, 5.0),
        &sides(257),
    );
}

pub fn write(book: &mut Book) {
    planes(book);
    triangles(book);
    height_fields(book);
    height_ranges_cases(book);
    level_sets(book);
}
