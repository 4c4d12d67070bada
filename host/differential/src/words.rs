//! Keys and bit patterns.

/// Qubit q is bit q mod 64 of word q/64, by whole division (SPECIFICATION 1.1).
pub fn bit(key: &[u64], qubit: u64) -> bool {
    key[(qubit / 64) as usize] >> (qubit % 64) & 1 == 1
}

/// Flips the qubit's bit.
pub fn flip(key: &mut [u64], qubit: u64) {
    key[(qubit / 64) as usize] ^= 1 << (qubit % 64);
}

/// The key with the qubit's bit as asked.
pub fn with_bit(key: &[u64], qubit: u64, set: bool) -> Vec<u64> {
    let mut key = key.to_vec();
    if bit(&key, qubit) != set {
        flip(&mut key, qubit);
    }
    key
}

/// Whether the pattern is neither an infinity nor a NaN.
pub fn is_finite(pattern: u64) -> bool {
    f64::from_bits(pattern).is_finite()
}
