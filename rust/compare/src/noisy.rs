//! Slices to be lent, full of noise and between noise, so that a test sees what is left of it.
use oracle::generate::Rng;

/// A number of a lent slice; a float is its bits.
pub trait Word: Copy + PartialEq + Default {
    /// Bits that are read in a particular way: a float that is infinite, no number, a zero, subnormal; all ones.
    const SPECIAL: &[u64];
    fn of(bits: u64) -> Self;
}

impl Word for u8 {
    const SPECIAL: &[u64] = &[0, 1, 2, 0xff];
    fn of(bits: u64) -> u8 {
        bits as u8
    }
}

impl Word for u32 {
    const SPECIAL: &[u64] =
        &[0x7f80_0000, 0xff80_0000, 0x7fc0_0000, 0xff80_0001, 0x7f80_0001, 0x8000_0000, 0, 1, 0xffff_ffff];
    fn of(bits: u64) -> u32 {
        bits as u32
    }
}

impl Word for u64 {
    const SPECIAL: &[u64] = &[
        0x7ff0_0000_0000_0000,
        0xfff0_0000_0000_0000,
        0x7ff8_0000_0000_0000,
        0xfff0_0000_0000_0001,
        0x7ff0_0000_0000_0001,
        0x8000_0000_0000_0000,
        0,
        1,
        u64::MAX,
    ];
    fn of(bits: u64) -> u64 {
        bits
    }
}

/// How many numbers stand before and behind a lent slice.
const GUARD: usize = 64;

/// A slice to be lent, and what it and the numbers around it were.
pub struct Noisy<T> {
    all: Vec<T>,
    was: Vec<T>,
}

/// Any bits, one in eight times special ones.
fn noise<T: Word>(r: &mut Rng) -> T {
    let bits = r.bits();
    T::of(if bits >> 61 == 0 { T::SPECIAL[(bits >> 32) as usize % T::SPECIAL.len()] } else { bits })
}

impl<T: Word> Noisy<T> {
    /// So many numbers of noise.
    pub fn new(r: &mut Rng, len: usize) -> Noisy<T> {
        let was: Vec<T> = (0..len + 2 * GUARD).map(|_| noise(r)).collect();
        Noisy { all: was.clone(), was }
    }

    /// These numbers, between noise.
    pub fn around(r: &mut Rng, numbers: &[T]) -> Noisy<T> {
        let mut noisy = Noisy::new(r, numbers.len());
        noisy.lend().copy_from_slice(numbers);
        noisy.was.clone_from(&noisy.all);
        noisy
    }

    fn inner(&self) -> std::ops::Range<usize> {
        GUARD..self.all.len() - GUARD
    }

    pub fn lent(&self) -> &[T] {
        &self.all[self.inner()]
    }

    pub fn lend(&mut self) -> &mut [T] {
        let inner = self.inner();
        &mut self.all[inner]
    }

    /// Neither the slice nor what lies around it has changed.
    pub fn untouched(&self) -> bool {
        self.all == self.was
    }

    /// What lies around the slice has not changed.
    pub fn guarded(&self) -> bool {
        let inner = self.inner();
        self.all[..GUARD] == self.was[..GUARD] && self.all[inner.end..] == self.was[inner.end..]
    }

    /// The slice has `used` in front, and zeros behind.
    pub fn holds(&self, used: &[T]) -> bool {
        let lent = self.lent();
        lent.starts_with(used) && lent[used.len()..].iter().all(|v| *v == T::default())
    }
}
