//! Key numbers.

/// How many fields each variant of `InputKey` has, in its order.
pub const FIELDS: [u32; 22] = [1, 0, 0, 1, 2, 2, 3, 1, 0, 0, 0, 0, 0, 0, 0, 1, 1, 1, 0, 0, 0, 3];

/// The number of `InputKey::ZK`.
pub const ZK: u64 = 11 << 48;

/// Whether a key has this number: variant × 2^48 + fields of 16 bits, unused ones 0.
pub fn is_key(number: u64) -> bool {
    let (variant, fields) = (number >> 48, number % (1 << 48));
    variant < 22 && fields >> (16 * FIELDS[variant as usize]) == 0
}
