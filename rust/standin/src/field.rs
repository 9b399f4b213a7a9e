//! What the Rust asks of a field, and the two fields of the calls.

mod baby_bear;
mod goldilocks;

use core::fmt::Debug;
use core::hash::Hash;
use core::ops::{Add, AddAssign, Mul, MulAssign, Neg, Sub, SubAssign};

pub use baby_bear::BabyBear;
pub use goldilocks::{Felt, QuadFelt};

/// What the builder and the rounds ask of a field.
pub trait Field:
    Copy
    + Debug
    + Eq
    + Hash
    + Add<Output = Self>
    + Sub<Output = Self>
    + Mul<Output = Self>
    + Neg<Output = Self>
    + AddAssign
    + SubAssign
    + MulAssign
{
    const ZERO: Self;
    const ONE: Self;

    /// The inverse of a nonzero element; 0 for 0.
    fn inverse(&self) -> Self;

    /// This element to the power `exponent`.
    fn power(self, mut exponent: u64) -> Self {
        let (mut power, mut square) = (Self::ONE, self);
        while exponent > 0 {
            if exponent & 1 == 1 {
                power *= square;
            }
            square *= square;
            exponent >>= 1;
        }
        power
    }
}

/// A field with generators of the subgroups of order 2^k.
pub trait TwoAdicField: Field {
    /// The generator of order 2^`bits`.
    fn two_adic_generator(bits: usize) -> Self;
}

/// A field whose elements have two coordinates of another one.
pub trait ExtensionField<F>: Field {
    /// The coordinates; the crate that this stands in for lends a slice of them.
    fn as_basis_coefficients_slice(&self) -> [F; 2];
}

/// The generators of order 2^0 to 2^(N − 1): `last` is the last, each of the others is the square
/// of the next.
const fn generators<const N: usize>(last: u64, modulus: u64) -> [u64; N] {
    let mut table = [last; N];
    let mut bits = N - 1;
    while bits > 0 {
        bits -= 1;
        let next = table[bits + 1] as u128;
        table[bits] = (next * next % modulus as u128) as u64;
    }
    table
}

macro_rules! assigning {
    ($($type:ty),*) => {$(
        impl AddAssign for $type {
            #[inline]
            fn add_assign(&mut self, other: Self) {
                *self = *self + other;
            }
        }
        impl SubAssign for $type {
            #[inline]
            fn sub_assign(&mut self, other: Self) {
                *self = *self - other;
            }
        }
        impl MulAssign for $type {
            #[inline]
            fn mul_assign(&mut self, other: Self) {
                *self = *self * other;
            }
        }
    )*};
}

assigning!(Felt, QuadFelt, BabyBear);

#[cfg(test)]
mod tests {
    use super::*;

    /// Holds the generators to a generator of all that is not zero, raised to its odd part.
    fn hold<F: TwoAdicField>(all: F, odd: u64, two_adicity: usize) {
        assert_eq!(F::two_adic_generator(0), F::ONE);
        assert_eq!(F::two_adic_generator(1), -F::ONE);
        assert_eq!(F::two_adic_generator(two_adicity), all.power(odd));
        for bits in 0..two_adicity {
            let next = F::two_adic_generator(bits + 1);
            assert_eq!(F::two_adic_generator(bits), next * next);
        }
    }

    #[test]
    fn generators_are_powers_of_7_and_of_31() {
        hold(Felt::new(7), (Felt::MODULUS - 1) >> 32, 32);
        hold(BabyBear::new(31), 15, 27);
        assert_eq!((BabyBear::MODULUS - 1) >> 27, 15);
        assert_eq!(Felt::two_adic_generator(8).word(), 0xbf79_143c_e60c_a966);
    }
}
