//! Products modulo p and modulo q, each on the one before it, and side by side.

use std::hint::black_box;
use std::time::Instant;

use model::field::{P, Q};

use crate::measure::{Bench, median, shown};

unsafe extern "C" {
    /// value · factor^count in a field; 0 where a word is not below its modulus.
    safe fn felt_dependent(field: u64, value: u64, factor: u64, count: u64) -> u64;
    /// The sum modulo 2^64 of the products of neighbours, in field 2 of their low halves.
    fn felt_independent(field: u64, words: *const u64, length: usize) -> u64;
}

/// The products of one timing that each take the one before.
const COUNT: u64 = 100_000;

/// The words whose neighbours are multiplied in one timing, and how often.
const WORDS: usize = 1_024;
const REPEATS: usize = 100;

/// By the 128-bit product and its remainder.
fn remainder(a: u64, b: u64) -> u64 {
    (a as u128 * b as u128 % P as u128) as u64
}

/// By the two-step reduction.
fn reduction(a: u64, b: u64) -> u64 {
    (oracle::Felt::from_lowest(a) * oracle::Felt::from_lowest(b)).word()
}

/// By the two-step reduction of a product made of four 32-bit products.
fn halves(a: u64, b: u64) -> u64 {
    let ((a1, a0), (b1, b0)) = ((a >> 32, a & 0xffff_ffff), (b >> 32, b & 0xffff_ffff));
    let low = a0 * b0;
    let middle = a1 * b0 + (low >> 32);
    let cross = a0 * b1 + (middle & 0xffff_ffff);
    let high = a1 * b1 + (middle >> 32) + (cross >> 32);
    oracle::Felt::of_words(high, cross << 32 | low & 0xffff_ffff).word()
}

/// By the 64-bit product of the low halves and its remainder.
fn short_remainder(a: u64, b: u64) -> u64 {
    (a & 0xffff_ffff) * (b & 0xffff_ffff) % Q
}

/// Products that each take the one before; 0 where a word is not below the modulus.
fn dependent<const M: u64>(value: u64, factor: u64, product: impl Fn(u64, u64) -> u64) -> u64 {
    if value >= M || factor >= M {
        return 0;
    }
    (0..COUNT).fold(value, |value, _| product(value, factor))
}

/// Products of neighbours, added modulo 2^64.
fn independent(words: &[u64], product: impl Fn(u64, u64) -> u64) -> u64 {
    words.windows(2).fold(0, |sum, pair| sum.wrapping_add(product(pair[0], pair[1])))
}

/// A way to multiply: its name and both loops.
struct Way {
    name: &'static str,
    dependent: fn(u64, u64) -> u64,
    independent: fn(&[u64]) -> u64,
}

/// A way of plain Rust, under a modulus.
macro_rules! way {
    ($name:literal, $modulus:expr, $product:expr) => {
        Way {
            name: $name,
            dependent: |value, factor| dependent::<{ $modulus }>(value, factor, $product),
            independent: |words| independent(words, $product),
        }
    };
}

/// Ours in the field of this number.
const fn ours<const FIELD: u64>() -> Way {
    Way {
        name: "ours",
        dependent: |value, factor| felt_dependent(FIELD, value, factor, COUNT),
        // SAFETY: the pointer and the length are one slice's.
        independent: |words| unsafe { felt_independent(FIELD, words.as_ptr(), words.len()) },
    }
}

/// The products of a field: what their rows are about, and the ways to multiply, ours
/// first.
pub struct Products {
    pub name: &'static str,
    modulus: u64,
    ways: &'static [Way],
}

/// The products in field 1, then in field 2.
pub const ALL: [Products; 2] = [
    Products {
        name: "a product modulo p",
        modulus: P,
        ways: &[
            ours::<1>(),
            way!("Rust, u128 and %", P, remainder),
            way!("Rust, u128, two-step reduction", P, reduction),
            way!("Rust, 32-bit halves, two-step reduction", P, halves),
        ],
    },
    Products {
        name: "a product modulo q",
        modulus: Q,
        ways: &[ours::<2>(), way!("Rust, u64 and %", Q, short_remainder)],
    },
];

/// The seconds of one product, in either loop.
fn times(way: &Way, words: &[u64]) -> [f64; 2] {
    let begun = Instant::now();
    black_box((way.dependent)(black_box(words[0]), black_box(words[1])));
    let half = Instant::now();
    for _ in 0..REPEATS {
        black_box((way.independent)(black_box(words)));
    }
    let one = half.duration_since(begun).as_secs_f64() / COUNT as f64;
    [one, half.elapsed().as_secs_f64() / (REPEATS * (WORDS - 1)) as f64]
}

impl Products {
    /// Words below the modulus, on which all ways agree.
    fn words(&self) -> Vec<u64> {
        let mut rng = differential::Rng::new(1);
        let words: Vec<u64> = (0..WORDS).map(|_| rng.below(self.modulus)).collect();
        let answers = |way: &Way| [(way.dependent)(words[0], words[1]), (way.independent)(&words)];
        let agree = self.ways.iter().all(|way| answers(way) == answers(&self.ways[0]));
        assert!(agree, "{}: the ways to multiply differ", self.name);
        words
    }

    /// A row for each way, timed by turns, with how many times its time ours takes.
    pub fn print(&self, bench: &Bench) {
        println!(
            "\n{:<44} {:>12} {:>8} {:>12} {:>8}",
            self.name, "dependent", "ours by", "independent", "ours by"
        );
        let (ways, words) = (self.ways, self.words());
        let turns = if bench.quick { 51 } else { 501 };
        let mut taken = vec![[const { Vec::new() }; 2]; ways.len()];
        for _ in 0..turns {
            for (way, taken) in ways.iter().zip(&mut taken) {
                let both = times(way, &words);
                taken.iter_mut().zip(both).for_each(|(all, one)| all.push(one));
            }
        }
        let medians: Vec<[f64; 2]> = taken.into_iter().map(|both| both.map(median)).collect();
        for (way, both) in ways.iter().zip(&medians) {
            let by = |which: usize| format!("{:.2}", medians[0][which] / both[which]);
            println!(
                "{:<44} {:>12} {:>8} {:>12} {:>8}",
                way.name,
                shown(both[0]),
                by(0),
                shown(both[1]),
                by(1)
            );
        }
    }
}
