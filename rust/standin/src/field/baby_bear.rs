//! Elements modulo q, always in lowest form.

use core::ops::{Add, Mul, Neg, Sub};

use super::{ExtensionField, Felt, Field, TwoAdicField, generators};

/// The modulus q = 2^31 − 2^27 + 1, in a word of an element.
const MODULUS: u32 = 0x7800_0001;

/// The greatest power of two that divides q − 1.
const TWO_ADICITY: usize = 27;

/// The generators of order 2^0 to 2^27; the last is 31^15.
const GENERATORS: [u64; TWO_ADICITY + 1] = generators(440_564_289, BabyBear::MODULUS);

/// An element modulo q, below q.
#[derive(Clone, Copy, Debug, Default, PartialEq, Eq, Hash)]
pub struct BabyBear(u32);

impl BabyBear {
    /// The modulus q.
    pub const MODULUS: u64 = MODULUS as u64;

    /// The element of a word below q.
    pub fn new(word: u64) -> Self {
        assert!(word < Self::MODULUS, "a coordinate is below the modulus");
        Self(word as u32)
    }

    /// The word of this element.
    #[inline]
    pub fn word(self) -> u64 {
        self.0.into()
    }
}

impl Add for BabyBear {
    type Output = Self;
    #[inline]
    fn add(self, other: Self) -> Self {
        let sum = self.0 + other.0;
        Self(if sum >= MODULUS { sum - MODULUS } else { sum })
    }
}

impl Sub for BabyBear {
    type Output = Self;
    #[inline]
    fn sub(self, other: Self) -> Self {
        let (difference, borrow) = self.0.overflowing_sub(other.0);
        Self(if borrow { difference.wrapping_add(MODULUS) } else { difference })
    }
}

impl Mul for BabyBear {
    type Output = Self;
    #[inline]
    fn mul(self, other: Self) -> Self {
        Self((self.word() * other.word() % Self::MODULUS) as u32)
    }
}

impl Neg for BabyBear {
    type Output = Self;
    #[inline]
    fn neg(self) -> Self {
        Self::ZERO - self
    }
}

impl Field for BabyBear {
    const ZERO: Self = Self(0);
    const ONE: Self = Self(1);

    fn inverse(&self) -> Self {
        self.power(Self::MODULUS - 2)
    }
}

impl TwoAdicField for BabyBear {
    fn two_adic_generator(bits: usize) -> Self {
        assert!(bits <= TWO_ADICITY, "q − 1 has no such power of two");
        Self::new(GENERATORS[bits])
    }
}

/// In a stream, whose elements are those modulo p, a residue is its word and a zero.
impl ExtensionField<Felt> for BabyBear {
    #[inline]
    fn as_basis_coefficients_slice(&self) -> [Felt; 2] {
        [Felt::from_lowest(self.word()), Felt::ZERO]
    }
}

#[cfg(test)]
mod tests {
    use super::*;

    const Q: u64 = BabyBear::MODULUS;

    #[test]
    fn arithmetic_is_that_modulo_q() {
        let words = [0, 1, 2, 31, 1 << 16, 1 << 27, 1 << 30, Q / 2, Q / 2 + 1, Q - 2, Q - 1];
        for a in words {
            for b in words {
                let (x, y) = (BabyBear::new(a), BabyBear::new(b));
                assert_eq!((x + y).word(), (a + b) % Q);
                assert_eq!((x - y).word(), (a + Q - b) % Q);
                assert_eq!((x * y).word(), (a as u128 * b as u128 % Q as u128) as u64);
            }
            assert_eq!((-BabyBear::new(a)).word(), (Q - a) % Q);
        }
    }

    #[test]
    fn inverses() {
        for word in [1, 2, 31, 1 << 27, Q / 2, Q - 1] {
            let a = BabyBear::new(word);
            assert_eq!(a * a.inverse(), BabyBear::ONE);
        }
        assert_eq!(BabyBear::ZERO.inverse(), BabyBear::ZERO);
    }
}
