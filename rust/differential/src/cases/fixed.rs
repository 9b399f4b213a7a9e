//! Corners by hand: boundaries, long lists, faults and pairs of faults.

use std::ops::ControlFlow::Continue;

use model::{Call, Case, Field, Judge, LIMIT, Record, ZK, overhead};

use super::circuits;
use super::columns::{column, saving_exactly};
use super::exhaustive::unit_columns;
use super::faults::{Fault, NO_FIELD, PERIODS, faults};
use super::lists::{
    chain, colliding, every_kind, growing, inputs, negations, of_size, several_roots, unchanged,
};
use super::make::{column_case, list_case, period, roomy};
use super::{Flow, Sink};
use crate::{Rng, Rust};

/// Requests on full lists, on nearly full ones, and behind long chains of negations.
pub(super) fn step(field: Field, rng: &mut Rng, thorough: bool, sink: Sink) -> Flow {
    let doubled: Vec<Record> =
        inputs(LIMIT).iter().map(|record| [0, record[1] % 1_000, 0]).collect();
    let full = [inputs(LIMIT), doubled, of_size(field, rng, LIMIT as usize), inputs(LIMIT - 1)];
    let [c0, c1] = field.reduced([3, 4]);
    let requests: [Record; 9] = [
        [0, 17, 0],
        [0, LIMIT - 1, 0],
        [0, 9_999, 0],
        [1, c0, c1],
        [2, 0, 1],
        [3, 7, 7],
        [4, 4_000, 3],
        [5, 12, 0],
        [0, 0, 0],
    ];
    for list in &full {
        for request in requests {
            for room in [0, 2, 3, 5] {
                sink(roomy(field, rng, list, request, room))?;
            }
        }
    }
    for depth in [1, 2, 3, 4, 3_999, 4_000] {
        let list = negations(depth);
        let last = list.len() as u64 - 1;
        let pairs = [(1, last), (last, 1), (0, last), (last, 0), (last, last), (last - 1, last)];
        for (a, b) in pairs {
            for request in [[2, a, b], [3, a, b], [4, a, b], [5, a, 0]] {
                sink(roomy(field, rng, &list, request, 3))?;
            }
        }
    }
    for _ in 0..if thorough { 400 } else { 20 } {
        let list = of_size(field, rng, LIMIT as usize - 1);
        let request = super::lists::request(field, rng, &list);
        sink(roomy(field, rng, &list, request, 3))?;
    }
    Continue(())
}

/// Lists that make each rewrite in each position, and what stands in its way.
pub(super) fn rewriting() -> Vec<Vec<Record>> {
    let mut lists = Vec::new();
    let factors = [[4, 0, 1], [4, 1, 0]];
    for tag in [2, 3] {
        for a in factors {
            for b in [[4, 0, 2], [4, 2, 0]] {
                lists.push([&inputs(3)[..], &[a, b, [tag, 3, 4]]].concat());
            }
        }
    }
    for tag in [2, 4] {
        for inner in [[tag, 0, 1], [tag, 1, 0]] {
            for outer in [[tag, 2, 4], [tag, 4, 2]] {
                let list = [&inputs(3)[..], &[[tag, 0, 2], inner, outer, [3, 3, 5]]].concat();
                lists.push([&list[..], &[[tag, 0, 2], [3, 6, 7]]].concat());
                lists.push(list);
            }
        }
    }
    // The candidate's greatest place stands behind the record.
    lists.push([&inputs(3)[..], &[[2, 0, 2], [2, 0, 1], [2, 2, 4], [2, 0, 2], [4, 5, 6]]].concat());
    // The products are the root, or used again: no rewrite.
    lists.push([&inputs(3)[..], &[[4, 0, 1], [4, 0, 2], [2, 3, 4], [3, 3, 5]]].concat());
    // Only an unreachable record is rewritten.
    lists.push([&inputs(3)[..], &[[2, 0, 1], [4, 0, 1], [4, 0, 2], [2, 4, 5]]].concat());
    lists.push(meeting());
    lists
}

/// A sum of products, at place 5, that a round brings to the product behind it, at place 7.
pub(super) fn meeting() -> Vec<Record> {
    [&inputs(3)[..], &[[4, 0, 1], [4, 0, 2], [2, 3, 4], [2, 1, 2], [4, 0, 6]]].concat()
}

/// The lists of document 01's examples A, B and C.
pub(super) fn examples() -> Vec<(Vec<Record>, u64)> {
    let a = [&inputs(3)[..], &[[4, 0, 1], [4, 0, 2], [2, 3, 4]]].concat();
    let b = [&inputs(3)[..], &[[2, 0, 2], [2, 0, 1], [2, 2, 4], [4, 3, 5]]].concat();
    vec![(a, 5), (b, 6), (inputs(2), 0)]
}

/// Long lists and the lists made by hand, for the calls with roots.
pub(super) fn rooted(call: Call, field: Field, rng: &mut Rng, thorough: bool, sink: Sink) -> Flow {
    for (list, root) in examples() {
        sink(list_case(call, field, rng, &list, &[root]))?;
    }
    for list in rewriting() {
        for root in 0..list.len() as u64 {
            sink(list_case(call, field, rng, &list, &[root]))?;
            for other in 0..list.len() as u64 {
                sink(list_case(call, field, rng, &list, &[root, other]))?;
            }
        }
    }
    for list in long(field, rng, thorough) {
        let last = list.len() as u64 - 1;
        let roots = [last, list.len() as u64 / 2];
        for root in roots.into_iter().take(if list.len() < LIMIT as usize { 1 } else { 2 }) {
            sink(list_case(call, field, rng, &list, &[root]))?;
        }
        let several = several_roots(rng, &list);
        sink(list_case(call, field, rng, &list, &several))?;
        sink(list_case(call, field, rng, &list, &eight_roots(last)))?;
    }
    Continue(())
}

/// Eight roots up to the last place, the second and the last one at one place.
pub(super) fn eight_roots(last: u64) -> [u64; 8] {
    [last / 2, last, 0, last / 3, last / 5, last - last / 7, last / 4, last]
}

/// Lists of 4,096 records and nearly so many, and ones that take many rounds.
fn long(field: Field, rng: &mut Rng, thorough: bool) -> Vec<Vec<Record>> {
    let limit = LIMIT as usize;
    let mut long = vec![
        inputs(1),
        inputs(LIMIT),
        colliding(40),
        colliding(LIMIT),
        unchanged(limit),
        unchanged(limit - 1),
        growing(limit),
    ];
    for depth in [5, 4_000] {
        let list = negations(depth);
        let last = list.len() as u64 - 1;
        for (tag, a, b) in [(2, 1, last), (2, last, 1), (3, 1, last), (3, last, 1), (2, last, last)]
        {
            long.push([&list[..], &[[tag, a, b]]].concat());
        }
    }
    for _ in 0..if thorough { 60 } else { 3 } {
        long.push(of_size(field, rng, limit));
        long.push(of_size(field, rng, limit - 1));
    }
    long.push(chain(if thorough { LIMIT / 3 } else { 310 }));
    long
}

/// Sets of columns at the edges of the choice between forms.
fn column_sets(field: Field, rng: &mut Rng, thorough: bool) -> Vec<Vec<Vec<u64>>> {
    let unit = unit_columns(8, 8);
    let mut sets = vec![vec![], vec![vec![0]], vec![vec![5]]];
    sets.extend((1..=8).map(|count| unit[..count].to_vec()));
    sets.push(vec![unit[0].clone(); 4]);
    for bits in 0..=7 {
        let length = 1usize << bits;
        sets.extend([0, 1, 7].map(|value| vec![vec![value; length]]));
        for _ in 0..if thorough { 60 } else { 12 } {
            sets.push(vec![column(field, rng, length)]);
            sets.push((0..rng.within(2, 8)).map(|_| column(field, rng, length)).collect());
        }
        if bits == 0 {
            continue;
        }
        for target in [1, 2, 3].map(|more| overhead(length as u64) - 2 + more) {
            for _ in 0..if thorough { 6 } else { 2 } {
                sets.extend(saving_exactly(field, rng, length, target));
            }
        }
    }
    let terms = |count: usize| {
        (0..128).map(|place| u64::from(place % 11 == 3 && place / 11 < count)).collect()
    };
    sets.extend([10, 11, 12].map(|count| vec![terms(count)]));
    sets.extend(longest(field, rng));
    sets
}

/// 16 columns of 128, in each form.
fn longest(field: Field, rng: &mut Rng) -> Vec<Vec<Vec<u64>>> {
    let dense = |rng: &mut Rng| (0..128).map(|_| rng.below(field.modulus)).collect::<Vec<u64>>();
    let few = |rng: &mut Rng| (0..128).map(|_| rng.below(2)).collect::<Vec<u64>>();
    let sparse = |rng: &mut Rng| {
        let one = rng.below(128);
        (0..128).map(|place| if place == one { rng.within(1, 9) } else { 0 }).collect::<Vec<u64>>()
    };
    let sixteen =
        |make: &dyn Fn(&mut Rng) -> Vec<u64>, rng: &mut Rng| (0..16).map(|_| make(rng)).collect();
    vec![
        sixteen(&dense, rng),
        sixteen(&few, rng),
        sixteen(&sparse, rng),
        sixteen(&|_| vec![3; 128], rng),
        sixteen(&|rng| column(field, rng, 128), rng),
    ]
}

/// Sets of columns at the edges.
pub(super) fn prepare(field: Field, rng: &mut Rng, thorough: bool, sink: Sink) -> Flow {
    for columns in column_sets(field, rng, thorough) {
        sink(column_case(Call::Prepare, field, rng, &[], &columns, 0, 0))?;
    }
    Continue(())
}

/// Sets of columns at the edges; lists that land on the limit; every kind of period.
pub(super) fn lower(field: Field, rng: &mut Rng, thorough: bool, sink: Sink) -> Flow {
    let most = 3 * LIMIT as usize;
    for columns in column_sets(field, rng, thorough) {
        let period = period(field, rng, &columns);
        sink(column_case(Call::Lower, field, rng, &[], &columns, period, most))?;
    }
    let set = vec![column(field, rng, 8), column(field, rng, 4), unit_columns(16, 1).remove(0)];
    for period in PERIODS.into_iter().chain([8, 16, 32]) {
        sink(column_case(Call::Lower, field, rng, &[], &set, period, most))?;
        sink(column_case(Call::Lower, field, rng, &inputs(2), &[], period, most))?;
        sink(column_case(Call::Lower, field, rng, &[], &[vec![3]], period, most))?;
    }
    let repeated = [[0, ZK, 0], [1, 1, 0], [0, ZK, 0], [1, 1, 0], [4, 0, 0], [4, 2, 2], [4, 2, 2]];
    sink(column_case(Call::Lower, field, rng, &repeated, &set, 32, most))?;
    for _ in 0..if thorough { 12 } else { 2 } {
        landing(field, rng, sink)?;
    }
    Continue(())
}

/// Lists under the same columns that end at 4,095, 4,096 and 4,097 records, and short results.
fn landing(field: Field, rng: &mut Rng, sink: Sink) -> Flow {
    let length = 1 << rng.within(0, 7);
    let columns: Vec<Vec<u64>> =
        (0..rng.within(1, 5)).map(|_| column(field, rng, length)).collect();
    let period = period(field, rng, &columns);
    let appended = Rust(field).lower(&[], &columns, period).0.len() as u64;
    for total in [LIMIT - 1, LIMIT, LIMIT + 1] {
        let list = inputs(total - appended);
        for result in [3 * total - 1, 3 * total, 3 * total + 1] {
            sink(column_case(Call::Lower, field, rng, &list, &columns, period, result as usize))?;
        }
    }
    let (full, most) = (inputs(LIMIT), 3 * LIMIT as usize);
    sink(column_case(Call::Lower, field, rng, &full, &columns, period, most))?;
    sink(column_case(Call::Lower, field, rng, &full, &[], period, most - 1))?;
    sink(column_case(Call::Lower, field, rng, &full, &[], period, most))
}

/// Good cases to put faults into.
fn bases(call: Call, field: Field, rng: &mut Rng) -> Vec<Case> {
    let list = every_kind(field);
    match call {
        Call::Step => {
            let full = inputs(LIMIT);
            vec![roomy(field, rng, &list, [2, 5, 0], 3), roomy(field, rng, &full, [0, 5, 0], 3)]
        }
        Call::Prepare | Call::Lower => {
            let columns = [vec![1, 2, 3, 4], unit_columns(8, 1).remove(0), vec![9]];
            let few = column_case(call, field, rng, &list, &columns, 16, 600);
            let sixteen: Vec<Vec<u64>> = (0..16).map(|value| vec![value]).collect();
            let most = column_case(call, field, rng, &list, &sixteen, 1, 600);
            let full = column_case(call, field, rng, &inputs(LIMIT), &[], 1, 3 * LIMIT as usize);
            vec![few, most, full]
        }
        Call::Emit => circuits::bases(field, rng),
        _ => {
            let full = inputs(LIMIT);
            vec![
                list_case(call, field, rng, &list, &[5]),
                list_case(call, field, rng, &list, &eight_roots(5)),
                list_case(call, field, rng, &full, &[LIMIT - 1]),
            ]
        }
    }
}

/// Each pair of these faults in a base, all of them where thorough.
fn paired(base: &Case, single: &[Fault], rng: &mut Rng, thorough: bool, sink: Sink) -> Flow {
    for (place, one) in single.iter().enumerate() {
        for other in &single[place + 1..] {
            if !thorough && !rng.once_in(8) {
                continue;
            }
            let mut case = base.clone();
            one.apply(&mut case, rng);
            other.apply(&mut case, rng);
            sink(case)?;
        }
    }
    Continue(())
}

/// Each fault in each base, and pairs of faults in the first, with roots in one with eight of them
/// too; last, numbers that no field has, with every fault at once.
pub(super) fn faulty(call: Call, field: Field, rng: &mut Rng, thorough: bool, sink: Sink) -> Flow {
    let bases = bases(call, field, rng);
    for base in &bases {
        for fault in faults(base, rng) {
            let mut case = base.clone();
            fault.apply(&mut case, rng);
            sink(case)?;
        }
    }
    let single = faults(&bases[0], rng);
    paired(&bases[0], &single, rng, thorough, sink)?;
    if bases[0].roots().is_some() {
        let several = faults(&bases[1], rng);
        paired(&bases[1], &several, rng, thorough, sink)?;
    }
    for number in NO_FIELD {
        let mut case = bases[0].clone();
        single.iter().for_each(|fault| fault.apply(&mut case, rng));
        case.scalars[0] = number;
        sink(case)?;
    }
    Continue(())
}
