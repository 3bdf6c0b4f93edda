//! Slices lent to the library, each inside a larger buffer with marks on both sides.

/// What a slice holds, compared bit by bit.
pub trait Word: Copy {
    fn bits(self) -> u64;
    fn of_bits(bits: u64) -> Self;
}

impl Word for f64 {
    fn bits(self) -> u64 {
        self.to_bits()
    }
    fn of_bits(bits: u64) -> Self {
        f64::from_bits(bits)
    }
}

impl Word for u32 {
    fn bits(self) -> u64 {
        self.into()
    }
    fn of_bits(bits: u64) -> Self {
        bits as u32
    }
}

impl Word for usize {
    fn bits(self) -> u64 {
        self as u64
    }
    fn of_bits(bits: u64) -> Self {
        bits as usize
    }
}

/// Whether two slices hold the same bits.
pub fn same_bits<T: Word>(a: &[T], b: &[T]) -> bool {
    a.len() == b.len() && a.iter().zip(b).all(|(a, b)| a.bits() == b.bits())
}

/// More than a box or a node's words, so that a neighbour written by mistake lies in it.
const MARGIN: usize = 16;

fn mark<T: Word>(place: usize) -> T {
    T::of_bits(0xa5a5_5a5a_c3c3_0000 ^ place as u64)
}

pub struct Lent<T> {
    buffer: Vec<T>,
    length: usize,
}

impl<T: Word> Lent<T> {
    pub fn new(contents: &[T]) -> Self {
        let mut buffer = Vec::with_capacity(contents.len() + 2 * MARGIN);
        buffer.extend((0..MARGIN).map(mark::<T>));
        buffer.extend_from_slice(contents);
        buffer.extend((0..MARGIN).map(mark::<T>));
        Self {
            buffer,
            length: contents.len(),
        }
    }

    /// The slice that a call may write.
    pub fn slice(&mut self) -> &mut [T] {
        &mut self.buffer[MARGIN..MARGIN + self.length]
    }

    pub fn contents(&self) -> &[T] {
        &self.buffer[MARGIN..MARGIN + self.length]
    }

    /// Whether both margins hold their marks.
    pub fn margins_hold(&self) -> bool {
        let marks: [T; MARGIN] = std::array::from_fn(mark);
        same_bits(&self.buffer[..MARGIN], &marks)
            && same_bits(&self.buffer[MARGIN + self.length..], &marks)
    }
}
