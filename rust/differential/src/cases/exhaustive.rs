//! Short lists and short columns, every one.

use std::ops::ControlFlow::Continue;

use model::{Call, Case, Field, Record};

use super::faults::COORDINATES;
use super::lists::{expressions, several_roots, small_lists, small_records};
use super::make::{column_case, list_case, step_case};
use super::{Flow, Sink};
use crate::Rng;

/// Words for records that are good or bad in every way, beside the coordinates at the edges.
const WORDS: [u64; 5] = [0, 2, 1 << 16, 1 << 48 | 1, 22 << 48];

/// Tags that are good and bad.
const TAGS: [u64; 8] = [0, 1, 2, 3, 4, 5, 6, u64::MAX];

/// Takes every item, or one in `stride` where not thorough.
fn some<T>(items: Vec<T>, thorough: bool, stride: usize) -> impl Iterator<Item = T> {
    items.into_iter().step_by(if thorough { 1 } else { stride })
}

/// Every record of these words.
fn any_records() -> Vec<Record> {
    let words = [&WORDS[..], &COORDINATES].concat();
    let mut records = Vec::new();
    for tag in TAGS {
        for &first in &words {
            records.extend(words.iter().map(|&second| [tag, first, second]));
        }
    }
    records
}

/// Every request on every short list.
pub(super) fn step(field: Field, rng: &mut Rng, thorough: bool, sink: Sink) -> Flow {
    for n in 0..=4 {
        let requests = small_records(field, n as u64);
        let stride = if n < 3 { 1 } else { 41 };
        for list in some(small_lists(field, n), thorough, stride) {
            for &request in &requests {
                sink(step_case(field, rng, &list, request))?;
            }
        }
    }
    for request in any_records() {
        sink(step_case(field, rng, &[[0, 1, 0]], request))?;
        sink(step_case(field, rng, &[], request))?;
    }
    Continue(())
}

/// Every short list with every root, with every pair of roots where it has three records or fewer,
/// and with several roots.
fn short(call: Call, field: Field, rng: &mut Rng, thorough: bool, sink: Sink) -> Flow {
    for n in 1..=4 {
        let stride = if n < 4 { 1 } else { 29 };
        for list in some(small_lists(field, n), thorough, stride) {
            for root in 0..n as u64 {
                sink(list_case(call, field, rng, &list, &[root]))?;
            }
            let pairs = if n < 4 { n * n } else { 0 } as u64;
            for [one, other] in (0..pairs).map(|pair| [pair / n as u64, pair % n as u64]) {
                sink(list_case(call, field, rng, &list, &[one, other]))?;
            }
            let roots = several_roots(rng, &list);
            sink(list_case(call, field, rng, &list, &roots))?;
        }
    }
    Continue(())
}

/// Every short list, and one of every record, good or bad; of Normalise, short expressions.
pub(super) fn rooted(call: Call, field: Field, rng: &mut Rng, thorough: bool, sink: Sink) -> Flow {
    short(call, field, rng, thorough, sink)?;
    for record in any_records() {
        for roots in [&[0][..], &[1], &[u64::MAX], &[0, 1], &[], &[0; 9]] {
            sink(list_case(call, field, rng, &[record], roots))?;
        }
        sink(list_case(call, field, rng, &[[0, 1, 0], record], &[1]))?;
    }
    if call != Call::Normalize {
        return Continue(());
    }
    for (inputs, operations, subtract, stride) in
        [(2, 4, false, 7), (2, 4, true, 101), (3, 4, false, 211)]
    {
        for list in some(expressions(inputs, operations, subtract), thorough, stride) {
            sink(list_case(call, field, rng, &list, &[list.len() as u64 - 1]))?;
            if rng.once_in(8) {
                let roots = several_roots(rng, &list);
                sink(list_case(call, field, rng, &list, &roots))?;
            }
        }
    }
    Continue(())
}

/// Every column of this length over these values.
fn columns(length: usize, values: &[u64]) -> Vec<Vec<u64>> {
    let mut columns = vec![vec![]];
    for _ in 0..length {
        let longer = |column: &Vec<u64>| {
            let column = column.clone();
            values.iter().map(move |&value| [&column[..], &[value]].concat()).collect::<Vec<_>>()
        };
        columns = columns.iter().flat_map(longer).collect();
    }
    columns
}

/// The short columns, each alone, and with unit columns that bring its period to the basis.
fn column_sets(field: Field, thorough: bool) -> Vec<Vec<Vec<u64>>> {
    let minus_one = field.minus_one();
    let mut sets = Vec::new();
    for length in [1, 2, 4] {
        sets.extend(
            columns(length, &[0, 1, minus_one, 2, 3]).into_iter().map(|column| vec![column]),
        );
    }
    let pairs = columns(2, &[0, 1, minus_one, 5]);
    sets.extend(pairs.windows(4).map(<[_]>::to_vec));
    for column in some(columns(8, &[0, 1, 2]), thorough, 37) {
        sets.push([unit_columns(8, 4), vec![column]].concat());
    }
    for column in some(columns(4, &[0, 1, minus_one, 2, 3]), thorough, 7) {
        sets.push([unit_columns(4, 4), vec![column]].concat());
    }
    sets
}

/// The first `count` unit columns of this length.
pub(super) fn unit_columns(length: usize, count: usize) -> Vec<Vec<u64>> {
    let unit = |one: usize| (0..length).map(|place| u64::from(place == one)).collect();
    (0..count).map(unit).collect()
}

/// A case of columns on an empty list, its period the longest column.
fn plain(call: Call, field: Field, rng: &mut Rng, columns: &[Vec<u64>]) -> Case {
    let longest = columns.iter().map(Vec::len).max().unwrap_or(1) as u64;
    column_case(call, field, rng, &[], columns, longest, 1_200)
}

/// Every set of short columns.
pub(super) fn prepare(field: Field, rng: &mut Rng, thorough: bool, sink: Sink) -> Flow {
    for columns in column_sets(field, thorough) {
        sink(plain(Call::Prepare, field, rng, &columns))?;
    }
    Continue(())
}

/// Every set of short columns.
pub(super) fn lower(field: Field, rng: &mut Rng, thorough: bool, sink: Sink) -> Flow {
    for columns in column_sets(field, thorough) {
        sink(plain(Call::Lower, field, rng, &columns))?;
    }
    Continue(())
}
