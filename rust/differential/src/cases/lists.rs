//! Lists of records.

use model::{FIELDS, Field, Judge, LIMIT, Record, ZK};

use crate::{Rng, Rust};

/// Any key's number.
pub(super) fn any_key(rng: &mut Rng) -> u64 {
    let variant = rng.below(22);
    let fields = (0..FIELDS[variant as usize]).fold(0, |fields, place| {
        let random = rng.below(65_536);
        fields + (rng.pick(&[0, 1, 2, 65_535, random]) << (16 * place))
    });
    (variant << 48) + fields
}

/// An input: one of few keys, seldom any.
fn input(rng: &mut Rng, keys: u64) -> Record {
    let key = match rng.below(40) {
        0 => any_key(rng),
        1 => ZK,
        _ => rng.below(keys),
    };
    [0, key, 0]
}

/// A constant: a small one, seldom any.
fn constant(field: Field, rng: &mut Rng) -> Record {
    let small = [0, 1, field.modulus - 1, 2, field.modulus - 2];
    let coordinate = |rng: &mut Rng| match rng.below(12) {
        0 => rng.word(),
        _ => rng.pick(&small),
    };
    let c0 = coordinate(rng);
    let c1 = if rng.once_in(8) { coordinate(rng) } else { 0 };
    let [c0, c1] = field.reduced([c0, c1]);
    [1, c0, c1]
}

/// How a list is made.
#[derive(Clone, Copy)]
struct Style {
    keys: u64,
    /// Weights of the tags, 0 to 5.
    weights: [u64; 6],
    /// How operands are chosen.
    operands: Operands,
    /// An earlier record is repeated once in so many.
    repeats: u64,
}

#[derive(Clone, Copy)]
enum Operands {
    /// Any earlier place.
    Any,
    /// One of the last three, or any.
    Recent,
    /// One that nothing mentions yet, or any.
    Unused,
    /// One of the first few places, or an unused one.
    Early,
}

/// A style at random.
fn style(rng: &mut Rng) -> Style {
    const WEIGHTS: [[u64; 6]; 7] = [
        [4, 3, 3, 3, 3, 2],
        [2, 1, 3, 3, 3, 2],
        [1, 0, 4, 1, 4, 0],
        [1, 0, 3, 2, 4, 0],
        [1, 1, 3, 3, 1, 4],
        [1, 1, 2, 2, 6, 1],
        [1, 0, 6, 0, 2, 0],
    ];
    Style {
        keys: rng.within(1, 4),
        weights: rng.pick(&WEIGHTS),
        operands: rng.pick(&[
            Operands::Any,
            Operands::Recent,
            Operands::Unused,
            Operands::Unused,
            Operands::Early,
        ]),
        repeats: rng.pick(&[4, 12, 1_000]),
    }
}

/// An operand of the record at place `length`.
fn operand(rng: &mut Rng, style: Style, length: usize, unused: &mut Vec<u64>) -> u64 {
    let length = length as u64;
    match style.operands {
        Operands::Recent if !rng.once_in(3) => length - 1 - rng.below(length.min(3)),
        Operands::Early if !rng.once_in(2) => rng.below(length.min(style.keys + 1)),
        Operands::Unused | Operands::Early if !unused.is_empty() && !rng.once_in(4) => {
            unused.swap_remove(rng.below(unused.len() as u64) as usize)
        }
        _ => rng.below(length),
    }
}

/// A record for the end of this list.
fn next(
    field: Field,
    rng: &mut Rng,
    style: Style,
    list: &[Record],
    unused: &mut Vec<u64>,
) -> Record {
    if list.is_empty() {
        return if rng.once_in(6) { constant(field, rng) } else { input(rng, style.keys) };
    }
    if rng.once_in(style.repeats) {
        return rng.pick(list);
    }
    let mut place = || operand(rng, style, list.len(), unused);
    let (first, second) = (place(), place());
    match rng.weighted(&style.weights) as u64 {
        0 => input(rng, style.keys),
        1 => constant(field, rng),
        5 => [5, first, 0],
        tag => [tag, first, second],
    }
}

/// A list of n records in one style.
fn styled(field: Field, rng: &mut Rng, n: usize) -> Vec<Record> {
    let style = style(rng);
    let (mut list, mut unused) = (Vec::with_capacity(n), Vec::new());
    for place in 0..n {
        let record = next(field, rng, style, &list, &mut unused);
        list.push(record);
        unused.push(place as u64);
    }
    list
}

/// Products over few factors, then sums and differences of them, each used once or twice.
fn sums_of_products(rng: &mut Rng, n: usize) -> Vec<Record> {
    let keys = rng.within(2, 5).min(n as u64);
    let mut list: Vec<Record> = (0..keys).map(|key| [0, key, 0]).collect();
    let mut unused: Vec<u64> = Vec::new();
    while list.len() < n {
        let place = list.len() as u64;
        if unused.len() < 2 || rng.once_in(2) {
            let (a, b) = (rng.below(keys), rng.below(keys));
            let tag = if rng.once_in(5) { 2 } else { 4 };
            list.push([tag, a, b]);
        } else {
            let a = unused.swap_remove(rng.below(unused.len() as u64) as usize);
            let b = if rng.once_in(6) { rng.below(place) } else { unused.pop().unwrap_or(0) };
            list.push([rng.pick(&[2, 2, 3, 4]), a, b]);
        }
        unused.push(place);
    }
    list
}

/// The number of records of a list at random: mostly few, seldom the most.
fn size(rng: &mut Rng) -> usize {
    let size = match rng.below(4_000) {
        0 => LIMIT - rng.below(2),
        1..10 => rng.within(200, 1_200),
        10..300 => rng.within(25, 120),
        300..1_500 => rng.within(9, 24),
        _ => rng.within(1, 8),
    };
    size as usize
}

/// A list of n records.
pub(super) fn of_size(field: Field, rng: &mut Rng, n: usize) -> Vec<Record> {
    match rng.below(8) {
        0 => {
            let mut list = Rust(field).build(&styled(field, rng, n)).0;
            list.truncate(n);
            list
        }
        1..4 => sums_of_products(rng, n),
        _ => styled(field, rng, n),
    }
}

/// A list of one record or more.
pub(super) fn any_nonempty(field: Field, rng: &mut Rng) -> Vec<Record> {
    let n = size(rng);
    of_size(field, rng, n)
}

/// A list, seldom empty.
pub(super) fn any(field: Field, rng: &mut Rng) -> Vec<Record> {
    if rng.once_in(40) { Vec::new() } else { any_nonempty(field, rng) }
}

/// A request on a list.
pub(super) fn request(field: Field, rng: &mut Rng, list: &[Record]) -> Record {
    let style = style(rng);
    let mut unused = (0..list.len() as u64).collect();
    next(field, rng, style, list, &mut unused)
}

/// A root: often the last record.
pub(super) fn root(rng: &mut Rng, list: &[Record]) -> u64 {
    if rng.once_in(2) { list.len() as u64 - 1 } else { rng.below(list.len() as u64) }
}

/// Two to eight roots, some of them at one place.
pub(super) fn several_roots(rng: &mut Rng, list: &[Record]) -> Vec<u64> {
    let count = 2 + rng.weighted(&[6, 4, 2, 1, 1, 1, 3]);
    let mut roots = vec![root(rng, list)];
    while roots.len() < count {
        let next = if rng.once_in(6) { rng.pick(&roots) } else { root(rng, list) };
        roots.push(next);
    }
    roots
}

/// The records that can stand at a place, over keys 0 and 1 and constants 0, 1 and −1.
pub(super) fn small_records(field: Field, place: u64) -> Vec<Record> {
    let minus_one = field.minus_one();
    let mut records = vec![[0, 0, 0], [0, 1, 0], [1, 0, 0], [1, 1, 0], [1, minus_one, 0]];
    for tag in 2..=4 {
        for first in 0..place {
            records.extend((0..place).map(|second| [tag, first, second]));
        }
    }
    records.extend((0..place).map(|operand| [5, operand, 0]));
    records
}

/// Every list of n such records, in the order of their words.
pub fn small_lists(field: Field, n: usize) -> Vec<Vec<Record>> {
    let mut lists = vec![vec![]];
    for place in 0..n {
        let records = small_records(field, place as u64);
        let longer = |list: &Vec<Record>| {
            let list = list.clone();
            records.iter().map(move |&record| [&list[..], &[record]].concat()).collect::<Vec<_>>()
        };
        lists = lists.iter().flat_map(longer).collect();
    }
    lists
}

/// Inputs 0 to `inputs` − 1, then every way to add and multiply `operations` times, and to
/// subtract where asked; operands in order.
pub(super) fn expressions(inputs: u64, operations: usize, subtract: bool) -> Vec<Vec<Record>> {
    let mut lists = vec![(0..inputs).map(|key| [0, key, 0]).collect::<Vec<Record>>()];
    for _ in 0..operations {
        let mut longer = Vec::new();
        for list in &lists {
            let place = list.len() as u64;
            for tag in if subtract { [2, 3, 4].as_slice() } else { &[2, 4] } {
                for first in 0..place {
                    for second in first..place {
                        longer.push([&list[..], &[[*tag, first, second]]].concat());
                    }
                }
            }
        }
        lists = longer;
    }
    lists
}

/// a·x1 + a·x2 + …, in 3k records.
pub fn chain(terms: u64) -> Vec<Record> {
    let mut list: Vec<Record> = (0..=terms).map(|key| [0, key, 0]).collect();
    list.extend((1..=terms).map(|term| [4, 0, term]));
    let first = terms + 1;
    let mut sum = first;
    for term in 1..terms {
        list.push([2, sum, first + term]);
        sum = list.len() as u64 - 1;
    }
    list
}

/// An expression of n records: inputs, then operations mostly on what is not yet used.
pub fn expression(field: Field, rng: &mut Rng, n: usize) -> Vec<Record> {
    let leaves = (n as u64 / 4).max(2);
    let mut list = inputs(leaves);
    let mut unused: Vec<u64> = (0..leaves).collect();
    let style = Style {
        keys: 1,
        weights: [0, 1, 4, 3, 4, 1],
        operands: Operands::Unused,
        repeats: 1_000_000,
    };
    while list.len() < n {
        let place = list.len() as u64;
        let record = next(field, rng, style, &list, &mut unused);
        list.push(record);
        unused.push(place);
    }
    list
}

/// A list of n records that no rewrite applies to: sums and differences in turn, each used twice.
pub fn unchanged(n: usize) -> Vec<Record> {
    let inputs = (n as u64 / 4).max(1);
    let mut list: Vec<Record> = (0..inputs).map(|key| [0, key, 0]).collect();
    while list.len() < n {
        let place = list.len() as u64;
        let tag = if place.is_multiple_of(2) { 2 } else { 3 };
        list.push([tag, place - inputs, place - 1]);
    }
    list
}

/// n inputs whose keys all have one hash in crates/index, each a second time in the other order.
pub fn colliding(n: u64) -> Vec<Record> {
    const LOW: u32 = 1_013_904_243;
    const HIGH: u32 = 965_271_753;
    // Newton's steps to the inverse of an odd number modulo 2^32.
    let inverse = (0..5).fold(LOW, |x, _| x.wrapping_mul(2u32.wrapping_sub(LOW.wrapping_mul(x))));
    let input = |third: u64| {
        let high = 6 << 16 | third;
        let low = HIGH.wrapping_mul(high as u32).wrapping_neg().wrapping_mul(inverse);
        [0, high << 32 | u64::from(low), 0]
    };
    (0..n / 2).chain((0..n - n / 2).rev()).map(input).collect()
}

/// Two inputs and a chain of negations of the first.
pub(super) fn negations(depth: u64) -> Vec<Record> {
    let mut list: Vec<Record> = vec![[0, 0, 0], [0, 1, 0], [5, 0, 0]];
    list.extend((2..depth + 1).map(|place| [5, place, 0]));
    list
}

/// A list with a record of every kind.
pub(super) fn every_kind(field: Field) -> [Record; 6] {
    let [c0, c1] = field.reduced([2, 3]);
    [[0, 1, 0], [1, c0, c1], [2, 0, 1], [3, 2, 0], [4, 3, 3], [5, 4, 0]]
}

/// n inputs of keys 0 to n − 1.
pub(super) fn inputs(n: u64) -> Vec<Record> {
    (0..n).map(|key| [0, key, 0]).collect()
}

/// n records of sums of two products with a common factor, so that a round grows past n.
pub(super) fn growing(n: usize) -> Vec<Record> {
    let keys = 64;
    let mut list = inputs(keys);
    'fill: for a in 0..keys {
        for b in a + 1..keys {
            let (factor, place) = ((a + b) % keys, list.len() as u64);
            if list.len() + 3 > n {
                break 'fill;
            }
            list.extend([[4, factor, a], [4, factor, b], [2, place, place + 1]]);
        }
    }
    list
}

#[cfg(test)]
mod tests {
    use std::collections::BTreeSet;

    use super::*;

    #[test]
    fn colliding_keys_are_keys_of_one_hash() {
        let list = colliding(4_096);
        let keys: BTreeSet<u64> = list.iter().map(|record| record[1]).collect();
        assert_eq!(keys.len(), 2_048);
        for key in keys {
            assert!(model::is_key(key));
            let (low, high) = (key as u32, (key >> 32) as u32);
            let hash = low.wrapping_mul(1_013_904_243).wrapping_add(high.wrapping_mul(965_271_753));
            assert_eq!(hash, 0);
        }
    }
}
