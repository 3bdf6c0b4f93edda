//! A small seeded generator of numbers (splitmix64), so that a run can be repeated.

pub struct Random(u64);

impl Random {
    pub fn new(seed: u64) -> Self {
        Self(seed)
    }

    /// The generator of one record of a run, so that each record can be made alone.
    pub fn of_record(seed: u64, number: u64) -> Self {
        let mut random = Self(seed ^ number.wrapping_mul(0xd134_2543_de82_ef95));
        random.bits();
        random
    }

    pub fn bits(&mut self) -> u64 {
        self.0 = self.0.wrapping_add(0x9e37_79b9_7f4a_7c15);
        let mut z = self.0;
        z = (z ^ (z >> 30)).wrapping_mul(0xbf58_476d_1ce4_e5b9);
        z = (z ^ (z >> 27)).wrapping_mul(0x94d0_49bb_1331_11eb);
        z ^ (z >> 31)
    }

    /// A whole number below `limit`, which is above 0.
    pub fn below(&mut self, limit: usize) -> usize {
        (self.bits() % limit as u64) as usize
    }

    pub fn within(&mut self, low: i64, high: i64) -> i64 {
        low + self.below((high - low + 1) as usize) as i64
    }

    /// True once in `times`.
    pub fn once_in(&mut self, times: usize) -> bool {
        self.below(times) == 0
    }

    pub fn pick<T: Copy>(&mut self, from: &[T]) -> T {
        from[self.below(from.len())]
    }

    /// From 0 to below 1.
    pub fn unit(&mut self) -> f64 {
        (self.bits() >> 11) as f64 / (1u64 << 53) as f64
    }

    pub fn between(&mut self, low: f64, high: f64) -> f64 {
        low + (high - low) * self.unit()
    }

    pub fn sign(&mut self) -> f64 {
        self.pick(&[1.0, -1.0])
    }

    pub fn shuffle<T>(&mut self, list: &mut [T]) {
        for last in (1..list.len()).rev() {
            list.swap(last, self.below(last + 1));
        }
    }

    /// A coordinate of an ordinary part: often whole, so that edges are met exactly.
    pub fn coordinate(&mut self) -> f64 {
        match self.below(10) {
            0..4 => self.within(-4, 4) as f64,
            4..6 => self.within(-16, 16) as f64 / 4.0,
            6 => self.within(-9, 9) as f64 / 3.0,
            _ => self.between(-4.0, 4.0),
        }
    }

    /// A float that few programs expect.
    pub fn special(&mut self) -> f64 {
        let size = match self.below(12) {
            0 => f64::NAN,
            1 => f64::from_bits(0x7ff0_0000_0000_0001),
            2 | 3 => f64::INFINITY,
            4 => 0.0,
            5 => f64::MAX,
            6 => f64::MIN_POSITIVE,
            7 => f64::from_bits(self.pick(&[1, 2, 0x000f_ffff_ffff_ffff])),
            8 => f64::EPSILON * self.pick(&[0.5, 1.0, 16.0, 32.0, 64.0]),
            9 => 10f64.powi(self.within(-323, 308) as i32),
            10 => 1.0 + f64::EPSILON * self.within(-4, 4) as f64,
            _ => f64::from_bits(self.bits() >> 1),
        };
        size * self.sign()
    }

    /// The float some steps of the last place away.
    pub fn nudged(&mut self, value: f64) -> f64 {
        let mut moved = value;
        for _ in 0..self.within(1, 3) {
            moved = if self.once_in(2) {
                moved.next_up()
            } else {
                moved.next_down()
            };
        }
        moved
    }
}
