// Memory that is lent to a call: a place inside a larger buffer, so that what lies beside it can be seen to stay as it was.
use crate::cases::Random;

/// How much there is on either side.
pub const STRIP: usize = 16;

#[derive(Clone, PartialEq)]
pub struct Lent<T> {
    all: Vec<T>,
    from: usize,
    length: usize,
}

/// Junk to fill memory with.
pub trait Junk: Copy + PartialEq {
    fn junk(r: &mut Random) -> Self;
}

impl Junk for u8 {
    fn junk(r: &mut Random) -> u8 {
        r.bits() as u8
    }
}

/// An f32 by its bits, among them NaNs of both kinds, with any sign and payload.
impl Junk for u32 {
    fn junk(r: &mut Random) -> u32 {
        let bits = r.bits() as u32;
        match r.below(4) {
            0 => bits | 0x7fc00000,
            1 => bits & !0x400000 | 0x7f800001,
            _ => bits,
        }
    }
}

impl Junk for i16 {
    fn junk(r: &mut Random) -> i16 {
        r.bits() as i16
    }
}

impl<T: Junk> Lent<T> {
    /// From any place, on any alignment that T has.
    pub fn new(r: &mut Random, length: usize) -> Lent<T> {
        let all = (0..length + 2 * STRIP).map(|_| T::junk(r)).collect();
        Lent { all, from: 1 + r.below(STRIP), length }
    }

    /// The same contents lent from other memory.
    pub fn moved(&self, r: &mut Random) -> Lent<T> {
        let mut other = Lent::new(r, self.length);
        other.put(self.held());
        other
    }

    pub fn held(&self) -> &[T] {
        &self.all[self.from..self.from + self.length]
    }

    pub fn lend(&mut self) -> &mut [T] {
        self.lend_of_length(self.length)
    }

    /// Lent as if it were longer or shorter, by STRIP - 1 at most if longer.
    pub fn lend_of_length(&mut self, length: usize) -> &mut [T] {
        &mut self.all[self.from..self.from + length]
    }

    /// Over the first of what is held.
    pub fn put(&mut self, contents: &[T]) {
        self.all[self.from..self.from + contents.len()].copy_from_slice(contents);
    }

    /// Where the two aren't the same, counted from the first place lent.
    pub fn differs_at(&self, other: &Lent<T>) -> Option<isize> {
        let at = self.all.iter().zip(&other.all).position(|(a, b)| a != b)?;
        Some(at as isize - self.from as isize)
    }
}
