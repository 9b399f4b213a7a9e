//! Cases from lists and columns: the stores lent, with garbage in and behind them.

use model::{Call, Case, Field, Judge, LIMIT, LOWER_WORK, Record, ZK, words};

use super::{circuits, columns, drawings, lists};
use crate::{Rng, Rust};

/// Words that a store may hold before a call.
fn garbage(rng: &mut Rng, length: usize) -> Vec<u64> {
    if length > 400 {
        return vec![rng.pick(&[0, 1, u64::MAX, 0xdead_beef]); length];
    }
    match rng.below(3) {
        0 => vec![rng.pick(&[0, 1, 5, u64::MAX]); length],
        1 => (0..length)
            .map(|place| if place % 3 == 0 { rng.below(6) } else { rng.below(9) })
            .collect(),
        _ => (0..length).map(|_| rng.word()).collect(),
    }
}

/// How many words more than needed are lent.
fn extra(rng: &mut Rng) -> usize {
    let many = rng.below(14);
    rng.pick(&[0, 0, 0, 1, 2, 3, 4, many]) as usize
}

/// A store of these words with garbage behind them.
fn source(rng: &mut Rng, words: Vec<u64>) -> Vec<u64> {
    let behind = extra(rng);
    let behind = garbage(rng, behind);
    [words, behind].concat()
}

/// A store of at least this many words of garbage.
pub(super) fn store(rng: &mut Rng, needed: usize) -> Vec<u64> {
    let length = needed + extra(rng);
    garbage(rng, length)
}

/// A request on a list, with room for one record in most.
pub(super) fn step_case(field: Field, rng: &mut Rng, list: &[Record], request: Record) -> Case {
    let room = rng.pick(&[0, 1, 2, 3, 3, 3, 3, 4, 6, 9]) as usize;
    roomy(field, rng, list, request, room)
}

/// A request on a list with exactly this many words of room.
pub(super) fn roomy(
    field: Field,
    rng: &mut Rng,
    list: &[Record],
    request: Record,
    room: usize,
) -> Case {
    Case {
        call: Call::Step,
        scalars: [&[field.number, list.len() as u64], &request[..]].concat(),
        stores: vec![[words(list), garbage(rng, room)].concat()],
    }
}

/// A call on a list with these roots, its stores long enough.
pub fn list_case(call: Call, field: Field, rng: &mut Rng, list: &[Record], roots: &[u64]) -> Case {
    let n = list.len();
    let mut scalars = vec![field.number, n as u64];
    let mut stores = vec![source(rng, words(list)), roots.to_vec()];
    match call {
        Call::Build => stores.extend([store(rng, 3 * n), store(rng, n)]),
        Call::Compact => stores.push(store(rng, 3 * n)),
        Call::Normalize => stores.extend([store(rng, 3 * n), store(rng, 6 * n)]),
        Call::Evaluate => {
            let entries = assignment(field, rng, list);
            scalars.push(entries.len() as u64);
            stores.push(source(rng, words(&entries)));
        }
        Call::Draw => stores.push(drawings::text(field, rng, list)),
        Call::Emit => {
            let layout = circuits::layout(rng, list);
            scalars.push(layout.len() as u64);
            stores.extend([source(rng, layout), circuits::result(rng, list)]);
        }
        _ => panic!("no call on a list with roots"),
    }
    Case { call, scalars, stores }
}

/// Entries for the keys of a list: shuffled, some repeated, seldom one left out.
fn assignment(field: Field, rng: &mut Rng, list: &[Record]) -> Vec<Record> {
    let mut keys: Vec<u64> =
        list.iter().filter(|record| record[0] == 0).map(|record| record[1]).collect();
    keys.sort_unstable();
    keys.dedup();
    if rng.once_in(12) && !keys.is_empty() {
        keys.swap_remove(rng.below(keys.len() as u64) as usize);
    }
    for _ in 0..rng.pick(&[0, 0, 1, 3]) {
        let other = rng.below(6);
        keys.push(if keys.is_empty() || rng.once_in(2) { other } else { rng.pick(&keys) });
    }
    keys.truncate(LIMIT as usize);
    rng.shuffle(&mut keys);
    let mut coordinate = || if rng.once_in(3) { rng.below(3) } else { rng.word() };
    let entry = |key: u64| {
        let [c0, c1] = field.reduced([coordinate(), coordinate()]);
        [key, c0, c1]
    };
    keys.into_iter().map(entry).collect()
}

/// A call on columns, its stores long enough; the list and the period are Lower's.
pub fn column_case(
    call: Call,
    field: Field,
    rng: &mut Rng,
    list: &[Record],
    columns: &[Vec<u64>],
    period: u64,
    result: usize,
) -> Case {
    let lengths: Vec<u64> = columns.iter().map(|column| column.len() as u64).collect();
    let entries = source(rng, columns.concat());
    if call == Call::Prepare {
        return Case { call, scalars: vec![field.number], stores: vec![lengths, entries] };
    }
    let work = LOWER_WORK + extra(rng);
    let stores = vec![
        source(rng, words(list)),
        lengths,
        entries,
        garbage(rng, result),
        garbage(rng, work),
        store(rng, columns.len()),
    ];
    Case { call, scalars: vec![field.number, list.len() as u64, period], stores }
}

/// A shared period for these columns, seldom the longest.
pub(super) fn period(field: Field, rng: &mut Rng, columns: &[Vec<u64>]) -> u64 {
    let longest = columns.iter().map(Vec::len).max().unwrap_or(1) as u64;
    match rng.below(24) {
        0 => field.longest_period,
        1 => 1 << rng.within(longest.ilog2().into(), field.longest_period.ilog2().into()),
        2 if columns.is_empty() => rng.word(),
        _ => longest << rng.below(4),
    }
}

/// A list to lower columns on: few records, seldom the columns' own nodes or a full list.
fn under(field: Field, rng: &mut Rng, columns: &[Vec<u64>], period: u64) -> Vec<Record> {
    let few = rng.below(9) as usize;
    match rng.below(300) {
        0..40 => Vec::new(),
        40..80 => vec![[0, ZK, 0], [1, 1, 0], [0, ZK, 0], [4, 0, 0], [4, 2, 2], [1, 1, 0]],
        80..110 if !columns.is_empty() && period.is_power_of_two() => {
            let mut nodes = Rust(field).lower(&[], columns, period).0;
            nodes.truncate(rng.below(1_000) as usize);
            nodes
        }
        110 => {
            let appended = Rust(field).lower(&[], columns, 1 << 20).0.len() as u64;
            lists::inputs((LIMIT + 1).saturating_sub(appended + rng.below(3)))
        }
        _ if few == 0 => Vec::new(),
        _ => lists::of_size(field, rng, few),
    }
}

/// A call on columns at random; a result store exactly enough, or a word short, in some.
pub(super) fn random_columns(call: Call, field: Field, rng: &mut Rng) -> Case {
    let columns = columns::any(field, rng);
    if call == Call::Prepare {
        return column_case(call, field, rng, &[], &columns, 0, 0);
    }
    let period = period(field, rng, &columns);
    let list = under(field, rng, &columns, period);
    let result = match rng.below(3) {
        0 if period.is_power_of_two() => {
            let count = Rust(field).lower(&list, &columns, period).0.len();
            (3 * count + rng.below(4) as usize).saturating_sub(1)
        }
        _ => 3 * LIMIT as usize + extra(rng),
    };
    column_case(call, field, rng, &list, &columns, period, result)
}
