//! Fingerprints of what is compared with stored answers.

/// One step of a generator of maps, and of a fingerprint.
pub fn mix(h: u64, v: u64) -> u64 {
    const PRIME: u64 = (1 << 31) - 1;
    (h % PRIME * 48_271 + v % PRIME) % PRIME
}

pub fn fingerprint(values: impl IntoIterator<Item = u64>) -> u64 {
    values.into_iter().fold(1, mix)
}
