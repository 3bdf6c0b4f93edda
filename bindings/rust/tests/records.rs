//! The converter between records of version 2 and 3 against Rust's own casts: a record is cut and written again here, in code of
//! its own, with `as f32`, `as f64` and big-endian bytes. EVERY_F32=1 runs through all 2^32 patterns; else every 4,099th is taken,
//! and those beside each border.
use probe_rays::{calls, record_to_long, record_to_short, sys, Refusal, MAX_RECORD};

const LONGEST: u128 = 8_192;

/// One of the two directions.
#[derive(Clone, Copy, Debug, PartialEq)]
enum To {
    Short,
    Long,
}

impl To {
    fn versions(self) -> (u8, u8) {
        match self {
            To::Short => (2, 3),
            To::Long => (3, 2),
        }
    }

    /// The bytes of a float in the version that is read, and in the one that is written.
    fn sizes(self) -> (usize, usize) {
        match self {
            To::Short => (8, 4),
            To::Long => (4, 8),
        }
    }

    fn call(self) -> fn(&[u8], &mut [u8], &mut [usize]) -> u32 {
        match self {
            To::Short => calls::record_to_short,
            To::Long => calls::record_to_long,
        }
    }
}

fn word(bytes: &[u8], at: usize) -> u32 {
    u32::from_be_bytes(bytes[at..at + 4].try_into().unwrap())
}

/// Which bytes of a record are a float: from and to; none if the record is malformed. Counts are whole numbers.
fn runs(record: &[u8], version: u8, size: usize) -> Option<[(usize, usize); 2]> {
    if record.len() < 6 || word(record, 0) as usize != record.len() - 4 || record[4] != version {
        return None;
    }
    let counts = match record[5] {
        1 | 2 => 0,
        3 | 4 => 2,
        5 => 3,
        _ => return None,
    };
    let ray = 6 + 8 * size;
    let start = ray + 4 * counts;
    if record.len() < start {
        return None;
    }
    let count: Vec<u128> = (0..counts)
        .map(|k| word(record, ray + 4 * k).into())
        .collect();
    let (floats, words) = match record[5] {
        1 => (4, 0),
        2 => (9, 0),
        3 => (3 * count[0], 3 * count[1]),
        kind => (
            if kind == 4 { 2 } else { 6 } + count.iter().product::<u128>(),
            0,
        ),
    };
    let whole = start as u128 + floats * size as u128 + 4 * words;
    let long = 66 + 4 * counts as u128 + 8 * floats + 4 * words;
    if whole != record.len() as u128 || long > LONGEST {
        return None;
    }
    Some([(6, ray), (start, start + floats as usize * size)])
}

/// A float in the other size, if it is a number that the other size holds exactly.
fn float(to: To, bytes: &[u8]) -> Option<Vec<u8>> {
    match to {
        To::Short => {
            let long = f64::from_be_bytes(bytes.try_into().unwrap());
            let short = long as f32;
            (!long.is_nan() && f64::from(short).to_bits() == long.to_bits())
                .then(|| short.to_be_bytes().to_vec())
        }
        To::Long => {
            let short = f32::from_be_bytes(bytes.try_into().unwrap());
            (!short.is_nan()).then(|| f64::from(short).to_be_bytes().to_vec())
        }
    }
}

/// What the call is to answer, with an area of that many bytes, and a place for the length or none.
fn model(to: To, record: &[u8], room: usize, place: usize) -> Result<Vec<u8>, u32> {
    let ((from, version), (size, other)) = (to.versions(), to.sizes());
    let runs = runs(record, from, size).ok_or(2u32)?;
    let floats: usize = runs.iter().map(|(start, end)| (end - start) / size).sum();
    let length = record.len() - floats * size + floats * other;
    if room < length || place < 1 {
        return Err(3);
    }
    let mut body = vec![version, record[5]];
    let mut at = 6;
    for (start, end) in runs {
        body.extend(&record[at..start]);
        for one in record[start..end].chunks(size) {
            body.extend(float(to, one).ok_or(11u32)?);
        }
        at = end;
    }
    body.extend(&record[at..]);
    assert_eq!(4 + body.len(), length);
    Ok([&(body.len() as u32).to_be_bytes(), &body[..]].concat())
}

/// The call, in the middle of a larger area; the margins, and after a refusal all of it, are as before.
fn check(to: To, record: &[u8], room: usize, places: usize) -> Result<Vec<u8>, u32> {
    const MARGIN: usize = 5;
    let before: Vec<u8> = (0..room + 2 * MARGIN).map(|k| (k * 7 + 1) as u8).collect();
    let mut area = before.clone();
    let mut written = [usize::MAX; 3];
    let answer = to.call()(
        record,
        &mut area[MARGIN..MARGIN + room],
        &mut written[..places],
    );
    let expected = model(to, record, room, places);
    match &expected {
        Ok(new) => {
            assert_eq!(answer, sys::DONE, "{to:?} {record:02x?}");
            assert_eq!(written, [new.len(), usize::MAX, usize::MAX]);
            assert!(area[MARGIN..].starts_with(new), "{to:?} {record:02x?}");
            assert_eq!(area[..MARGIN], before[..MARGIN]);
            assert_eq!(area[MARGIN + new.len()..], before[MARGIN + new.len()..]);
        }
        Err(number) => {
            assert_eq!(
                answer, *number,
                "{to:?}, room {room}, {places} places: {record:02x?}"
            );
            assert_eq!(written, [usize::MAX; 3]);
            assert_eq!(area, before);
        }
    }
    expected
}

/// With room for every record.
fn convert(to: To, record: &[u8]) -> Result<Vec<u8>, u32> {
    check(to, record, MAX_RECORD, 1)
}

fn framed(body: &[u8]) -> Vec<u8> {
    [&(body.len() as u32).to_be_bytes(), body].concat()
}

/// A record of some floats, as their bytes: the ray's eight, the counts, the others, and the indices.
fn record(
    version: u8,
    kind: u8,
    ray: &[Vec<u8>],
    counts: &[u32],
    floats: &[Vec<u8>],
    indices: &[u32],
) -> Vec<u8> {
    let words = |list: &[u32]| {
        list.iter()
            .flat_map(|w| w.to_be_bytes())
            .collect::<Vec<u8>>()
    };
    framed(
        &[
            vec![version, kind],
            ray.concat(),
            words(counts),
            floats.concat(),
            words(indices),
        ]
        .concat(),
    )
}

fn long(x: f64) -> Vec<u8> {
    x.to_be_bytes().to_vec()
}

fn short(pattern: u32) -> Vec<u8> {
    pattern.to_be_bytes().to_vec()
}

fn long_ray() -> Vec<Vec<u8>> {
    [0.5, -0.0, 2.0, 0.0, 0.0, -1.0, 5.0, 0.25]
        .map(long)
        .to_vec()
}

fn short_ray() -> Vec<Vec<u8>> {
    [0.5f32, -0.0, 2.0, 0.0, 0.0, -1.0, 5.0, 0.25]
        .map(|x| short(x.to_bits()))
        .to_vec()
}

/// splitmix64
struct Random(u64);

impl Random {
    fn next(&mut self) -> u64 {
        self.0 = self.0.wrapping_add(0x9e37_79b9_7f4a_7c15);
        let mut z = self.0;
        z = (z ^ (z >> 30)).wrapping_mul(0xbf58_476d_1ce4_e5b9);
        z = (z ^ (z >> 27)).wrapping_mul(0x94d0_49bb_1331_11eb);
        z ^ (z >> 31)
    }

    fn below(&mut self, n: u64) -> u64 {
        self.next() % n
    }
}

/// A version 3 height grid of 1,012 patterns: the most that version 2 has room for. Its floats' bytes are the casts', there and back.
fn block(patterns: &[u32]) {
    let floats: Vec<Vec<u8>> = patterns.iter().map(|&p| short(p)).collect();
    let spacing = [short(0x3f80_0000), short(0x3f80_0000)];
    let counts = [1, patterns.len() as u32];
    let source = record(
        3,
        4,
        &short_ray(),
        &counts,
        &[&spacing[..], &floats].concat(),
        &[],
    );
    let wide = record_to_long(&source).unwrap();
    let values = &wide[wide.len() - 8 * patterns.len()..];
    for (pattern, bytes) in patterns.iter().zip(values.chunks(8)) {
        assert_eq!(
            bytes,
            (f32::from_bits(*pattern) as f64).to_be_bytes(),
            "{pattern:08x}"
        );
    }
    assert_eq!(record_to_short(&wide).unwrap(), source);
}

/// A plane whose distance is a pattern of either size.
fn plane(version: u8, distance: Vec<u8>) -> Vec<u8> {
    match version {
        2 => record(
            2,
            1,
            &long_ray(),
            &[],
            &[long(0.0), long(0.0), long(1.0), distance],
            &[],
        ),
        _ => record(
            3,
            1,
            &short_ray(),
            &[],
            &[short(0), short(0), short(0x3f80_0000), distance],
            &[],
        ),
    }
}

#[test]
fn every_pattern_of_four_bytes() {
    let stride = match std::env::var_os("EVERY_F32") {
        Some(_) => 1,
        None => 4_099,
    };
    let mut numbers = Vec::new();
    let mut nans = 0u64;
    let borders = [
        0u32,
        1,
        0x7f_ffff,
        0x80_0000,
        0x7f7f_ffff,
        0x7f80_0000,
        0x7f80_0001,
        0x7fc0_0000,
        0x7fff_ffff,
    ];
    let beside = borders
        .into_iter()
        .flat_map(|p| [p, p | 0x8000_0000])
        .flat_map(|p| [p.wrapping_sub(1), p, p.wrapping_add(1)]);
    for pattern in beside.chain((0..=u32::MAX).step_by(stride)) {
        if f32::from_bits(pattern).is_nan() {
            assert_eq!(
                record_to_long(&plane(3, short(pattern))),
                Err(Refusal::NotRepresentable),
                "{pattern:08x}"
            );
            nans += 1;
            continue;
        }
        numbers.push(pattern);
        if numbers.len() == 1_012 {
            block(&numbers);
            numbers.clear();
        }
    }
    block(&numbers);
    assert!(nans > 4_000);
}

#[test]
fn patterns_of_eight_bytes() {
    let mut held = [0u64; 2];
    let mut try_one = |bits: u64| {
        let found = convert(To::Short, &plane(2, bits.to_be_bytes().to_vec()));
        held[found.is_ok() as usize] += 1;
        if let Ok(found) = found {
            assert_eq!(convert(To::Long, &found).unwrap()[94..], bits.to_be_bytes());
        }
    };
    // beside each border: the last digits that four bytes have and drop, of a zero, the least and greatest subnormal and normal numbers,
    // infinity and NaN
    let borders =
        [0, 1, 0x7f_ffff, 0x80_0000, 0x7f7f_ffff].map(|p| (f32::from_bits(p) as f64).to_bits());
    let others = [
        0x3690_0000_0000_0000,
        0x47ef_ffff_f000_0000,
        0x7fef_ffff_ffff_ffff,
        0x7ff0_0000_0000_0000,
        0x7ff8_0000_0000_0000,
    ];
    for border in borders.into_iter().chain(others) {
        for step in (0..53)
            .map(|k| 1u64 << k)
            .chain([3, 0x1fff_ffff, 0x3fff_ffff])
        {
            for bits in [border, border.wrapping_add(step), border.wrapping_sub(step)] {
                try_one(bits);
                try_one(bits ^ (1 << 63));
            }
        }
    }
    // a NaN all of whose digits lie among those that four bytes drop
    for k in 0..29 {
        let bits = 0x7ff0_0000_0000_0000 | 1 << k;
        assert_eq!(
            convert(To::Short, &plane(2, u64::to_be_bytes(bits).to_vec())),
            Err(11)
        );
    }
    let random = &mut Random(113);
    for _ in 0..200_000 {
        let bits = random.next();
        try_one(bits);
        // one that four bytes hold, and one digit beside it
        let near = (f32::from_bits(bits as u32) as f64).to_bits();
        try_one(near);
        try_one(near ^ 1 << random.below(64));
    }
    assert!(held[0] > 100_000 && held[1] > 100_000, "{held:?}");
}

/// A record of any kind with some counts; each float is held but once in 300, where it may be anything.
fn any(random: &mut Random, to: To, loose: bool) -> Vec<u8> {
    let (version, _) = to.versions();
    let float = |random: &mut Random| {
        let bits = random.next();
        let wild = loose && bits % 300 == 0;
        match to {
            To::Long if wild => short(bits as u32 | 0x7f80_0000),
            To::Short if wild => long(f64::from_bits(bits.rotate_left(17))),
            _ => {
                let x = (bits % 4_001) as f32 / 8.0 - 250.0;
                if to == To::Long {
                    short(x.to_bits())
                } else {
                    long(x.into())
                }
            }
        }
    };
    let ray: Vec<Vec<u8>> = (0..8).map(|_| float(random)).collect();
    let kind = 1 + random.below(5) as u8;
    let small = |random: &mut Random| random.below(7) as u32;
    let counts: Vec<u32> = (0..[0, 0, 0, 2, 2, 3][kind as usize])
        .map(|_| small(random))
        .collect();
    let floats = match kind {
        1 => 4,
        2 => 9,
        3 => 3 * counts[0],
        4 => 2 + counts[0] * counts[1],
        _ => 6 + counts.iter().product::<u32>(),
    };
    let floats: Vec<Vec<u8>> = (0..floats).map(|_| float(random)).collect();
    let indices: Vec<u32> = (0..if kind == 3 { 3 * counts[1] } else { 0 })
        .map(|_| random.next() as u32)
        .collect();
    record(version, kind, &ray, &counts, &floats, &indices)
}

#[test]
fn records_of_all_kinds_and_areas_of_all_lengths() {
    let random = &mut Random(1);
    let mut answers = std::collections::BTreeMap::<(bool, u32), u32>::new();
    for turn in 0..20_000 {
        let to = if turn % 2 == 0 { To::Short } else { To::Long };
        let source = any(random, to, true);
        let expected = convert(to, &source);
        *answers
            .entry((turn % 2 == 0, expected.as_ref().err().copied().unwrap_or(0)))
            .or_default() += 1;
        if let Ok(new) = &expected {
            // the other way gives the same bytes; with room to spare, exactly enough, and too little
            let other = if to == To::Short { To::Long } else { To::Short };
            assert_eq!(convert(other, new).as_ref(), Ok(&source));
            for room in [new.len() + 1, new.len(), new.len() - 1, 0] {
                assert_eq!(
                    check(to, &source, room, 1).err(),
                    (room < new.len()).then_some(3)
                );
            }
        }
        // 3 goes before 11, and 2 before 3, wherever the room is missing
        for (room, places) in [(0, 1), (MAX_RECORD, 0), (3, 0)] {
            assert_eq!(check(to, &source, room, places), Err(3));
            assert_eq!(check(to, &source[1..], room, places), Err(2));
        }
    }
    assert!(
        answers.len() == 4 && answers.values().all(|&n| n > 100),
        "{answers:?}"
    );
}

#[test]
fn damage() {
    let random = &mut Random(2);
    for turn in 0..400 {
        let to = if turn % 2 == 0 { To::Short } else { To::Long };
        let source = any(random, to, false);
        assert!(convert(to, &source).is_ok());
        let bad = |bytes: &[u8]| assert_eq!(convert(to, bytes), Err(2), "{to:?} {bytes:02x?}");
        for cut in 0..source.len() {
            bad(&source[..cut]);
            bad(&source[cut + 1..]);
        }
        bad(&[&source[..], &[0]].concat());
        bad(&[&[0], &source[..]].concat());
        bad(&[&source[..], &source].concat());
        // the length bytes, with and without the bytes that they then say
        for length in [
            source.len() - 5,
            source.len() - 3,
            source.len(),
            0,
            8_193,
            u32::MAX as usize,
        ] {
            let mut other = source.clone();
            other[..4].copy_from_slice(&(length as u32).to_be_bytes());
            bad(&other);
            other.resize(4 + length.min(9_000), 0);
            bad(&other);
        }
        let version = source[4];
        for other in (0..=255).filter(|&v| v != version) {
            let mut wrong = source.clone();
            wrong[4] = other;
            bad(&wrong);
        }
        for other in [0, 6, 7, 128, 255] {
            let mut wrong = source.clone();
            wrong[5] = other;
            bad(&wrong);
        }
    }
    // counts whose products wrap at 2^32 or 2^64, with the bytes that the wrapped product would have
    for to in [To::Short, To::Long] {
        let (version, ray, one) = match to {
            To::Short => (2, long_ray(), long(1.0)),
            To::Long => (3, short_ray(), short(0x3f80_0000)),
        };
        for (kind, counts) in [
            (3, vec![1 << 30, 0]),
            (3, vec![0, 1 << 30]),
            (3, vec![0x5555_5556, 0]),
            (4, vec![1 << 16, 1 << 16]),
            (4, vec![1 << 31, 1 << 30]),
            (4, vec![u32::MAX, u32::MAX]),
            (5, vec![1 << 22, 1 << 21, 1 << 21]),
            (5, vec![1 << 21, 1 << 20, 1 << 20]),
            (5, vec![u32::MAX, u32::MAX, u32::MAX]),
            (5, vec![1 << 31, 2, 1]),
        ] {
            for many in [0, 1, 2, 3, 6, 7, 8] {
                let source = record(version, kind, &ray, &counts, &vec![one.clone(); many], &[]);
                assert_eq!(convert(to, &source), Err(2), "{kind} {counts:?}");
            }
        }
        // a zero among the counts: no value, whatever the other counts are
        let source = record(version, 4, &ray, &[0, u32::MAX], &vec![one.clone(); 2], &[]);
        assert!(convert(to, &source).is_ok());
        let source = record(
            version,
            5,
            &ray,
            &[u32::MAX, u32::MAX, 0],
            &vec![one.clone(); 6],
            &[],
        );
        assert!(convert(to, &source).is_ok());
    }
}

#[test]
fn lengths_around_the_longest() {
    // a grid of 1,008 values is 8,190 bytes in version 2, and of 1,012 heights 8,186; meshes by vertices and triangles
    let meshes = (0..=338).map(|v| (3, vec![v, (8_192 - 74 - 24 * v) / 12], 3 * v));
    let heights = (1_005..1_030).map(|n| (4, vec![1, n], 2 + n));
    let values = (1_000..1_030).map(|n| (5, vec![1, n, 1], 6 + n));
    let mut ends = [0; 2];
    for (kind, counts, floats) in meshes.chain(heights).chain(values) {
        for more in 0..if kind == 3 { 2 } else { 1 } {
            let mut counts = counts.clone();
            counts[1] += more;
            let indices: Vec<u32> = if kind == 3 {
                (0..3 * counts[1]).collect()
            } else {
                Vec::new()
            };
            let one = record(
                3,
                kind,
                &short_ray(),
                &counts,
                &vec![short(0x4040_0000); floats as usize],
                &indices,
            );
            let two = record(
                2,
                kind,
                &long_ray(),
                &counts,
                &vec![long(3.0); floats as usize],
                &indices,
            );
            let fits = two.len() <= MAX_RECORD;
            ends[fits as usize] += 1;
            assert_eq!(
                check(To::Long, &one, two.len(), 1),
                if fits { Ok(two.clone()) } else { Err(2) }
            );
            assert_eq!(
                check(To::Short, &two, one.len(), 1),
                if fits { Ok(one) } else { Err(2) }
            );
        }
    }
    assert!(ends[0] > 300 && ends[1] > 300, "{ends:?}");
}
