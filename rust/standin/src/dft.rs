//! The inverse transform over a subgroup of order 2^k, in O(P log P).

use core::cell::RefCell;

use crate::field::TwoAdicField;

/// From the values on a subgroup to the coefficients, lowest degree first.
pub trait TwoAdicSubgroupDft<F: TwoAdicField> {
    /// Coefficient j is the sum of value i × w^(−ij), over P.
    fn idft(&self, values: Vec<F>) -> Vec<F>;
}

/// The transform by butterflies of two, which keeps what it works out for a length.
#[derive(Clone, Debug)]
pub struct Radix2DFTSmallBatch<F>(RefCell<Option<Plan<F>>>);

impl<F> Default for Radix2DFTSmallBatch<F> {
    fn default() -> Self {
        Self(RefCell::new(None))
    }
}

/// What transforms of one length share.
#[derive(Clone, Debug)]
struct Plan<F> {
    length: usize,
    /// The powers of the inverse generator below half the length.
    twiddles: Vec<F>,
    /// One over the length.
    scale: F,
}

impl<F: TwoAdicField> Plan<F> {
    fn new(length: usize) -> Self {
        let bits = length.ilog2() as usize;
        let inverse = F::two_adic_generator(bits).inverse();
        let powers = core::iter::successors(Some(F::ONE), |&power| Some(power * inverse));
        let order = (0..bits).fold(F::ONE, |order, _| order + order);
        Self { length, twiddles: powers.take(length / 2).collect(), scale: order.inverse() }
    }
}

impl<F: TwoAdicField> TwoAdicSubgroupDft<F> for Radix2DFTSmallBatch<F> {
    fn idft(&self, mut values: Vec<F>) -> Vec<F> {
        let length = values.len();
        assert!(length.is_power_of_two(), "a subgroup's order is a power of two");
        let mut kept = self.0.borrow_mut();
        if kept.as_ref().is_none_or(|plan| plan.length != length) {
            *kept = Some(Plan::new(length));
        }
        let Some(plan) = kept.as_ref() else { unreachable!("a plan was made") };
        let bits = length.ilog2() as usize;
        reverse_bits(&mut values, bits);
        for level in 1..=bits {
            butterflies(&mut values, level, &plan.twiddles);
        }
        for value in &mut values {
            *value *= plan.scale;
        }
        values
    }
}

/// Swaps each entry with the one at the reversed bits of its place.
fn reverse_bits<F>(values: &mut [F], bits: usize) {
    for place in 0..values.len() {
        let other =
            if bits == 0 { 0 } else { place.reverse_bits() >> (usize::BITS as usize - bits) };
        if place < other {
            values.swap(place, other);
        }
    }
}

/// One level: blocks of 2^`level` entries over the inverse generator of that order.
fn butterflies<F: TwoAdicField>(values: &mut [F], level: usize, twiddles: &[F]) {
    let half = 1 << (level - 1);
    let stride = twiddles.len() / half;
    for block in values.chunks_exact_mut(2 * half) {
        let (low, high) = block.split_at_mut(half);
        for ((a, b), &twiddle) in low.iter_mut().zip(high).zip(twiddles.iter().step_by(stride)) {
            let scaled = *b * twiddle;
            (*a, *b) = (*a + scaled, *a - scaled);
        }
    }
}

#[cfg(test)]
mod tests {
    use super::*;
    use crate::field::{BabyBear, Felt};

    /// Holds a transform of this length to its sum.
    fn hold<F: TwoAdicField>(dft: &Radix2DFTSmallBatch<F>, bits: usize, element: fn(u64) -> F) {
        let length = 1 << bits;
        let values: Vec<F> = (0..length).map(|i| element(i * i * i + 3)).collect();
        let inverse = F::two_adic_generator(bits).inverse();
        let scale = element(length).inverse();
        let mut step = F::ONE;
        for coefficient in dft.idft(values.clone()) {
            let (mut sum, mut power) = (F::ZERO, F::ONE);
            for value in &values {
                sum += *value * power;
                power *= step;
            }
            assert_eq!(coefficient, sum * scale);
            step *= inverse;
        }
    }

    #[test]
    fn coefficients_are_the_sums_of_their_definition() {
        let (p, q) = (Radix2DFTSmallBatch::default(), Radix2DFTSmallBatch::default());
        for bits in [0, 1, 2, 3, 4, 5, 6, 7, 7, 3] {
            hold(&p, bits, Felt::new);
            hold(&q, bits, BabyBear::new);
        }
    }
}
