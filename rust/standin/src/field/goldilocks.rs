//! Elements modulo p and pairs of them, always in lowest form.

use core::ops::{Add, Mul, Neg, Sub};

use super::{ExtensionField, Field, TwoAdicField, generators};

/// The modulus p = 2^64 − 2^32 + 1.
const MODULUS: u64 = 0xffff_ffff_0000_0001;

/// 2^64 modulo p.
const EPSILON: u64 = 0xffff_ffff;

/// u², the square of the extension's generator.
const U_SQUARED: Felt = Felt(7);

/// The greatest power of two that divides p − 1.
const TWO_ADICITY: usize = 32;

/// The generators of order 2^0 to 2^32; the last is entry 32 of the public Goldilocks table.
const GENERATORS: [u64; TWO_ADICITY + 1] = generators(1_753_635_133_440_165_772, MODULUS);

/// An element modulo p, below p.
#[derive(Clone, Copy, Debug, Default, PartialEq, Eq, Hash)]
pub struct Felt(u64);

impl Felt {
    /// The modulus p.
    pub const MODULUS: u64 = MODULUS;

    pub const ZERO: Self = Self(0);

    /// The element of a word below p.
    pub fn new(word: u64) -> Self {
        assert!(word < MODULUS, "a coordinate is below the modulus");
        Self(word)
    }

    /// The element of a word that is known to be below p.
    #[inline]
    pub fn from_lowest(word: u64) -> Self {
        debug_assert!(word < MODULUS, "a coordinate is below the modulus");
        Self(word)
    }

    /// The element of a word below p, under the name that streams are written with.
    #[inline]
    pub fn new_unchecked(word: u64) -> Self {
        Self::from_lowest(word)
    }

    /// The word of this element, under the name that streams are read with.
    #[inline]
    pub fn as_canonical_u64(&self) -> u64 {
        self.word()
    }

    /// high · 2^64 + low modulo p.
    #[inline]
    pub fn of_words(high: u64, low: u64) -> Self {
        Self(reduce((high as u128) << 64 | low as u128))
    }

    /// The word of this element.
    #[inline]
    pub fn word(self) -> u64 {
        self.0
    }
}

/// The sum of two words that is below 2p, modulo p.
#[inline]
fn fold(a: u64, b: u64) -> u64 {
    let (sum, carry) = a.overflowing_add(b);
    if carry || sum >= MODULUS { sum.wrapping_add(EPSILON) } else { sum }
}

/// Marks a branch that is hardly ever taken.
#[cold]
fn rarely() {}

/// A 128-bit number modulo p, by 2^64 = 2^32 − 1 and 2^96 = −1.
#[inline]
fn reduce(x: u128) -> u64 {
    let (low, high) = (x as u64, (x >> 64) as u64);
    let (difference, borrow) = low.overflowing_sub(high >> 32);
    let middle = (high & EPSILON) * EPSILON;
    if borrow {
        rarely();
        return fold(difference.wrapping_sub(EPSILON), middle);
    }
    fold(difference, middle)
}

impl Add for Felt {
    type Output = Self;
    #[inline]
    fn add(self, other: Self) -> Self {
        Self(fold(self.0, other.0))
    }
}

impl Sub for Felt {
    type Output = Self;
    #[inline]
    fn sub(self, other: Self) -> Self {
        let (difference, borrow) = self.0.overflowing_sub(other.0);
        Self(if borrow { difference.wrapping_add(MODULUS) } else { difference })
    }
}

impl Mul for Felt {
    type Output = Self;
    #[inline]
    fn mul(self, other: Self) -> Self {
        Self(reduce(self.0 as u128 * other.0 as u128))
    }
}

impl Neg for Felt {
    type Output = Self;
    #[inline]
    fn neg(self) -> Self {
        Self::ZERO - self
    }
}

impl Field for Felt {
    const ZERO: Self = Self::ZERO;
    const ONE: Self = Self(1);

    fn inverse(&self) -> Self {
        self.power(MODULUS - 2)
    }
}

impl TwoAdicField for Felt {
    fn two_adic_generator(bits: usize) -> Self {
        assert!(bits <= TWO_ADICITY, "p − 1 has no such power of two");
        Self(GENERATORS[bits])
    }
}

/// An element c0 + c1·u of the extension.
#[derive(Clone, Copy, Debug, Default, PartialEq, Eq, Hash)]
pub struct QuadFelt {
    pub c0: Felt,
    pub c1: Felt,
}

impl QuadFelt {
    /// c0 + c1·u.
    pub fn new(c0: Felt, c1: Felt) -> Self {
        Self { c0, c1 }
    }
}

impl From<Felt> for QuadFelt {
    fn from(c0: Felt) -> Self {
        Self { c0, c1: Felt::ZERO }
    }
}

impl Add for QuadFelt {
    type Output = Self;
    #[inline]
    fn add(self, other: Self) -> Self {
        Self::new(self.c0 + other.c0, self.c1 + other.c1)
    }
}

impl Sub for QuadFelt {
    type Output = Self;
    #[inline]
    fn sub(self, other: Self) -> Self {
        Self::new(self.c0 - other.c0, self.c1 - other.c1)
    }
}

impl Mul for QuadFelt {
    type Output = Self;
    #[inline]
    fn mul(self, other: Self) -> Self {
        Self::new(
            self.c0 * other.c0 + U_SQUARED * (self.c1 * other.c1),
            self.c0 * other.c1 + self.c1 * other.c0,
        )
    }
}

impl Neg for QuadFelt {
    type Output = Self;
    #[inline]
    fn neg(self) -> Self {
        Self::new(-self.c0, -self.c1)
    }
}

impl Field for QuadFelt {
    const ZERO: Self = Self { c0: Felt::ZERO, c1: Felt::ZERO };
    const ONE: Self = Self { c0: Felt::ONE, c1: Felt::ZERO };

    fn inverse(&self) -> Self {
        let norm = self.c0 * self.c0 - U_SQUARED * (self.c1 * self.c1);
        let scale = norm.inverse();
        Self::new(self.c0 * scale, -self.c1 * scale)
    }
}

impl ExtensionField<Felt> for QuadFelt {
    #[inline]
    fn as_basis_coefficients_slice(&self) -> [Felt; 2] {
        [self.c0, self.c1]
    }
}

#[cfg(test)]
mod tests {
    use super::*;

    /// Words at the corners of the reduction.
    const WORDS: [u64; 10] =
        [0, 1, 2, 7, EPSILON - 1, EPSILON, EPSILON + 1, 1 << 63, MODULUS - 2, MODULUS - 1];

    #[test]
    fn arithmetic_is_that_modulo_p() {
        let p = MODULUS as u128;
        for a in WORDS {
            for b in WORDS {
                let (x, y) = (Felt::new(a), Felt::new(b));
                let (a, b) = (a as u128, b as u128);
                assert_eq!((x + y).word() as u128, (a + b) % p);
                assert_eq!((x - y).word() as u128, (a + p - b) % p);
                assert_eq!((x * y).word() as u128, a * b % p);
            }
        }
    }

    #[test]
    fn products_of_many_words() {
        let mut state = 1u64;
        for _ in 0..100_000 {
            state = state.wrapping_mul(0x9e37_79b9_7f4a_7c15) ^ state >> 31;
            let a = state % MODULUS;
            state = state.wrapping_mul(0x9e37_79b9_7f4a_7c15).wrapping_add(1);
            let b = state % MODULUS;
            let product = (a as u128 * b as u128 % MODULUS as u128) as u64;
            assert_eq!((Felt::new(a) * Felt::new(b)).word(), product);
        }
    }

    #[test]
    fn inverses_and_the_square_of_u() {
        for word in &WORDS[1..] {
            let a = Felt::new(*word);
            assert_eq!(a * a.inverse(), Felt::ONE);
            let pair = QuadFelt::new(a, Felt::new(5));
            assert_eq!(pair * pair.inverse(), QuadFelt::ONE);
        }
        let u = QuadFelt::new(Felt::ZERO, Felt::ONE);
        assert_eq!(u * u, QuadFelt::from(Felt::new(7)));
    }
}
