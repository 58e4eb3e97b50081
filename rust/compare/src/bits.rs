//! Results as bits, so that equal means the same bits, and one NaN is as good as another.

pub trait Bits {
    fn bits(self) -> u64;
}

impl Bits for f64 {
    fn bits(self) -> u64 {
        if self.is_nan() { f64::NAN.to_bits() } else { self.to_bits() }
    }
}

impl Bits for f32 {
    fn bits(self) -> u64 {
        if self.is_nan() { f32::NAN.to_bits() as u64 } else { self.to_bits() as u64 }
    }
}

impl Bits for u64 {
    fn bits(self) -> u64 {
        self
    }
}

impl Bits for u32 {
    fn bits(self) -> u64 {
        self as u64
    }
}

impl Bits for bool {
    fn bits(self) -> u64 {
        self as u64
    }
}

/// `total_cmp` as 0 less, 1 equal, 2 greater, with every NaN the positive quiet one: the proved floats
/// have one NaN. What the planner orders is never NaN.
pub fn order(a: f64, b: f64) -> u32 {
    let one_nan = |v: f64| f64::from_bits(v.bits());
    (one_nan(a).total_cmp(&one_nan(b)) as i32 + 1) as u32
}
