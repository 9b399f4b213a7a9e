//! Columns of entries.

use std::collections::HashMap;

use model::{Field, saving};

use crate::Rng;

/// A nonzero entry: often a small one.
fn value(field: Field, rng: &mut Rng) -> u64 {
    match rng.below(4) {
        0 => rng.within(1, field.minus_one()),
        1 => 1,
        2 => field.minus_one(),
        _ => rng.within(2, 9),
    }
}

/// A column that is zero but for `count` entries drawn from `values`.
fn scattered(rng: &mut Rng, length: usize, count: usize, values: &[u64]) -> Vec<u64> {
    let mut column = vec![0; length];
    let mut places: Vec<usize> = (0..length).collect();
    rng.shuffle(&mut places);
    for &place in &places[..count.min(length)] {
        column[place] = rng.pick(values);
    }
    column
}

/// A column with each entry drawn from `values`.
fn drawn(rng: &mut Rng, length: usize, values: &[u64]) -> Vec<u64> {
    (0..length).map(|_| rng.pick(values)).collect()
}

/// A column whose values come equally often.
fn tied(rng: &mut Rng, length: usize, values: &[u64]) -> Vec<u64> {
    let mut column: Vec<u64> = (0..length).map(|place| values[place % values.len()]).collect();
    rng.shuffle(&mut column);
    column
}

/// One column of this length.
pub(super) fn column(field: Field, rng: &mut Rng, length: usize) -> Vec<u64> {
    let (a, b) = (value(field, rng), value(field, rng));
    let near = [a, field.add(a, 1), field.sub(a, 1), 0];
    let few = rng.within(1, 11) as usize;
    match rng.below(13) {
        0 => vec![0; length],
        1 => vec![a; length],
        2 => scattered(rng, length, 1, &[1]),
        3 => scattered(rng, length, 1, &[a]),
        4 => scattered(rng, length, few, &[1, field.minus_one(), a]),
        5 => drawn(rng, length, &[a, b]),
        6 => drawn(rng, length, &near),
        7 => tied(rng, length, &near),
        8 => (0..length).map(|_| rng.below(field.modulus)).collect(),
        9 => {
            let mut column = vec![a; length];
            column[rng.below(length as u64) as usize] = rng.pick(&near);
            column
        }
        10 => tied(rng, length, &[a, b]),
        11 => tied(rng, length, &[0, a, b]),
        _ => {
            let values: Vec<u64> = (0..rng.within(2, 6)).map(|_| value(field, rng)).collect();
            drawn(rng, length, &[&values[..], &[0, 0]].concat())
        }
    }
}

/// A column length, seldom a long one.
fn length(rng: &mut Rng) -> usize {
    1 << rng.weighted(&[2, 3, 5, 7, 5, 3, 1, 1])
}

/// Up to 16 columns; often of one length, some repeated.
pub(super) fn any(field: Field, rng: &mut Rng) -> Vec<Vec<u64>> {
    let count = match rng.below(20) {
        0 => 0,
        1..14 => rng.within(1, 5),
        _ => rng.within(6, 16),
    };
    let (one, other) = (length(rng), length(rng));
    let kind = rng.below(4);
    let mut columns: Vec<Vec<u64>> = Vec::new();
    for _ in 0..count {
        if !columns.is_empty() && rng.once_in(8) {
            columns.push(columns[rng.below(columns.len() as u64) as usize].clone());
            continue;
        }
        let length = match kind {
            0 | 1 => one,
            2 => rng.pick(&[one, other]),
            _ => length(rng),
        };
        columns.push(column(field, rng, length));
    }
    columns
}

/// Distinct columns of this length whose savings come to exactly `target`.
pub(super) fn saving_exactly(
    field: Field,
    rng: &mut Rng,
    length: usize,
    target: u64,
) -> Option<Vec<Vec<u64>>> {
    for _ in 0..40 {
        let mut pool: Vec<Vec<u64>> = (0..40).map(|_| column(field, rng, length)).collect();
        pool.sort_unstable();
        pool.dedup();
        pool.retain(|column| saving(field, column) > 0);
        rng.shuffle(&mut pool);
        if let Some(chosen) = subset(field, &pool, target) {
            return Some(chosen.into_iter().map(|place| pool[place].clone()).collect());
        }
    }
    None
}

/// At most 16 of these columns whose savings come to `target`.
fn subset(field: Field, pool: &[Vec<u64>], target: u64) -> Option<Vec<usize>> {
    let mut sums: HashMap<u64, Vec<usize>> = HashMap::from([(0, vec![])]);
    for (place, column) in pool.iter().enumerate() {
        let saving = saving(field, column);
        for (sum, chosen) in sums.clone() {
            let sum = sum + saving;
            if sum <= target && chosen.len() < 16 {
                sums.entry(sum).or_insert_with(|| [&chosen[..], &[place]].concat());
            }
        }
    }
    sums.remove(&target)
}

#[cfg(test)]
mod tests {
    use super::*;

    #[test]
    fn every_period_has_columns_at_the_edge() {
        for (field, bits) in
            Field::ALL.into_iter().flat_map(|field| (1..=7).map(move |b| (field, b)))
        {
            for more in 0..=1 {
                let target = model::overhead(1 << bits) + more;
                assert!(saving_exactly(field, &mut Rng::new(3), 1 << bits, target).is_some());
            }
        }
    }
}
