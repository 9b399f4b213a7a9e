//! Lists to emit, with their layouts and the stores of their words.

use std::ops::ControlFlow::Continue;

use model::{Call, Case, Field, LIMIT, Record, check_list, emitted_words};

use super::faults::Fault;
use super::lists::{self, any_key, every_kind, expression, inputs, of_size};
use super::make::{list_case, store};
use super::{Flow, Sink};
use crate::Rng;

/// Whether a record is an operation.
fn is_operation(record: &Record) -> bool {
    record[0] > 1
}

/// The place of the last operation, or the last place of a list without one.
fn last(list: &[Record]) -> u64 {
    list.iter().rposition(is_operation).unwrap_or(list.len() - 1) as u64
}

/// A root: mostly the last operation.
pub(super) fn root(rng: &mut Rng, list: &[Record]) -> u64 {
    if rng.once_in(6) { lists::root(rng, list) } else { last(list) }
}

/// The keys of a list's inputs, each once.
fn keys(list: &[Record]) -> Vec<u64> {
    let inputs = list.iter().filter(|record| record[0] == 0);
    let mut keys: Vec<u64> = inputs.map(|record| record[1]).collect();
    keys.sort_unstable();
    keys.dedup();
    keys
}

/// A layout for the keys of a list: shuffled, some at several places, others among them; seldom one
/// left out or an odd number.
pub(super) fn layout(rng: &mut Rng, list: &[Record]) -> Vec<u64> {
    let mut keys = keys(list);
    if rng.once_in(14) && !keys.is_empty() {
        keys.swap_remove(rng.below(keys.len() as u64) as usize);
    }
    let wanted = keys.len() + rng.pick(&[0, 0, 1, 2]);
    while keys.len() < wanted || keys.len() % 2 == 1 {
        let any = any_key(rng);
        keys.push(if keys.is_empty() || rng.once_in(2) { any } else { rng.pick(&keys) });
    }
    if rng.once_in(14) {
        keys.pop();
    }
    keys.truncate(LIMIT as usize);
    rng.shuffle(&mut keys);
    keys
}

/// A result store for the words of a list: mostly exactly enough or more, in some too short.
pub(super) fn result(rng: &mut Rng, list: &[Record]) -> Vec<u64> {
    let exact = emitted_words(list);
    match rng.weighted(&[6, 3, 6, 2, 1, 1]) {
        0 => words(rng, exact),
        1 => words(rng, exact + 1),
        2 => store(rng, exact),
        3 => words(rng, exact.saturating_sub(1)),
        4 => {
            let some = rng.below(exact as u64 + 1) as usize;
            words(rng, some)
        }
        _ => Vec::new(),
    }
}

/// A store of so many words of noise.
fn words(rng: &mut Rng, length: usize) -> Vec<u64> {
    (0..length).map(|_| rng.word()).collect()
}

/// The words that Emit writes of a case, or those of its store where its list is refused.
pub(super) fn length(case: &Case) -> usize {
    let named = Field::numbered(case.scalars[0]);
    let list =
        named.and_then(|field| check_list(field, &case.stores[0], case.scalars[1], None).ok());
    list.map_or(case.stores[3].len(), |list| emitted_words(&list))
}

/// A case with this layout, its result store of so many words.
fn with(
    field: Field,
    rng: &mut Rng,
    (list, roots): (&[Record], &[u64]),
    layout: &[u64],
    room: usize,
) -> Case {
    let mut case = list_case(Call::Emit, field, rng, list, roots);
    case.scalars[2] = layout.len() as u64;
    case.stores[2] = layout.to_vec();
    case.stores[3] = words(rng, room);
    case
}

/// A good case: the keys in order and a key more where their number is odd, and words to spare.
fn good(field: Field, rng: &mut Rng, list: &[Record], roots: &[u64]) -> Case {
    let mut keys = keys(list);
    if keys.len() % 2 == 1 {
        keys.push(9);
    }
    with(field, rng, (list, roots), &keys, emitted_words(list) + 8)
}

/// Good cases to put faults into: one root, eight of them, no operations, a single key.
pub(super) fn bases(field: Field, rng: &mut Rng) -> Vec<Case> {
    let (list, full) = (every_kind(field), inputs(LIMIT));
    let single = with(field, rng, (&list, &[5]), &[1], 0);
    vec![
        good(field, rng, &list, &[5]),
        good(field, rng, &list, &[5, 0, 3, 5, 1, 2, 4, 5]),
        good(field, rng, &full, &[LIMIT - 1]),
        single,
    ]
}

/// The list with its last operation as root, over a good layout, with result stores too short, just
/// long enough, and longer.
fn rooms(field: Field, rng: &mut Rng, list: &[Record], sink: Sink) -> Flow {
    let exact = emitted_words(list);
    for room in [0, 1, exact / 2, exact.saturating_sub(1), exact, exact + 1, exact + 90] {
        let mut case = good(field, rng, list, &[last(list)]);
        case.stores[3] = words(rng, room);
        sink(case)?;
    }
    Continue(())
}

/// Constants of these numbers, their second coordinates too where the field has some.
fn constants(field: Field, count: u64) -> impl Iterator<Item = Record> {
    (1..=count).map(move |number| {
        let [c0, c1] = field.reduced([number / 2 + 1, number % 2]);
        if c1 == number % 2 { [1, c0, c1] } else { [1, number, 0] }
    })
}

/// So many different constants, then so many operations: sums, and negations in between where
/// asked.
fn counted(field: Field, number: u64, operations: u64, negated: bool) -> Vec<Record> {
    let mut list: Vec<Record> = inputs(1).into_iter().chain(constants(field, number)).collect();
    for count in 0..operations {
        let place = list.len() as u64;
        let record = if negated && count % 2 == 0 { [5, place - 1, 0] } else { [2, 0, place - 1] };
        list.push(record);
    }
    list
}

/// Zeros and negations in every order, constants repeated, and records that the root doesn't reach.
fn by_hand(field: Field) -> Vec<Vec<Record>> {
    let [c0, c1] = field.reduced([7, 5]);
    let (x, zero, five, seven) = ([0, 3, 0], [1, 0, 0], [1, 5, 0], [1, c0, c1]);
    let other = if c1 > 0 { [1, 7, 0] } else { [1, 8, 0] };
    vec![
        vec![x, [5, 0, 0]],
        vec![zero, [5, 0, 0]],
        vec![zero, x, [5, 1, 0]],
        vec![x, [5, 0, 0], zero, [2, 1, 2]],
        vec![x, five, [5, 1, 0], zero, [5, 2, 0], [2, 3, 4]],
        vec![x, five, [5, 0, 0], seven, [4, 2, 3]],
        vec![five, seven, five, [4, 0, 1], [2, 2, 3]],
        vec![seven, other, [2, 0, 1], other, seven, [4, 3, 2]],
        vec![seven, zero, other, zero, [5, 1, 0], [3, 4, 3]],
        vec![zero, zero, [2, 0, 1]],
        vec![x, five, seven, [2, 0, 0]],
        vec![x, [2, 0, 0], five, [4, 0, 2], [3, 1, 1]],
        vec![x, [2, 0, 0], five, [0, 9, 0], seven],
        vec![x, [5, 0, 0], [2, 0, 1], [4, 0, 0]],
        vec![[0, 1, 0], [0, 2, 0], x, [2, 0, 1]],
        vec![x, x, [3, 0, 1]],
        vec![five, seven, [4, 0, 1]],
    ]
}

/// Lists that ask for no key, for key 1, and for keys 1 and 2.
const ASKING: [&[Record]; 3] = [
    &[[1, 5, 0], [1, 6, 0], [4, 0, 1]],
    &[[0, 1, 0], [2, 0, 0]],
    &[[0, 1, 0], [0, 2, 0], [3, 0, 1]],
];

/// Layouts of few keys, some with a key at several places or a word that is no key.
const SHORT: [&[u64]; 14] = [
    &[],
    &[1],
    &[2],
    &[1, 2],
    &[2, 1],
    &[1, 1],
    &[9, 9],
    &[1, 2, 1],
    &[1, 2, 1, 2],
    &[2, 1, 1, 2],
    &[1, 2, 1, 9],
    &[1, 2, 1 << 48 | 1, 22 << 48],
    &[7 << 48 | 3, 1, 2, 21 << 48 | 1],
    &[1, 2, 22 << 48, 2],
];

/// The short layouts, then long ones: the most keys, one more, and one key at every place.
fn layouts() -> impl Iterator<Item = Vec<u64>> {
    let long = [(0..LIMIT).collect(), (0..=LIMIT).collect(), vec![1; LIMIT as usize]];
    SHORT.into_iter().map(<[u64]>::to_vec).chain(long)
}

/// A list with its last operation as root over a layout, and with words behind the keys, which are
/// none of the layout.
fn over(field: Field, rng: &mut Rng, list: &[Record], layout: &[u64], sink: Sink) -> Flow {
    for behind in [&[][..], &[22 << 48, 1, 2]] {
        let mut case = with(field, rng, (list, &[last(list)]), layout, 64);
        case.stores[2].extend(behind);
        sink(case)?;
    }
    Continue(())
}

/// Each list that asks for some keys over each layout.
fn over_layouts(field: Field, rng: &mut Rng, sink: Sink) -> Flow {
    for (layout, list) in layouts().flat_map(|layout| ASKING.map(|list| (layout.clone(), list))) {
        over(field, rng, list, &layout, sink)?;
    }
    Continue(())
}

/// Numbers of keys far beyond the most, over a layout of two.
fn more_keys(field: Field, rng: &mut Rng, sink: Sink) -> Flow {
    for k in [1 << 32, 1 << 32 | 2, 1 << 63, u64::MAX, u64::MAX - 1, u64::MAX / 3 + 1] {
        let mut case = with(field, rng, (ASKING[1], &[1]), &[1, 2], 64);
        case.scalars[2] = k;
        sink(case)?;
    }
    Continue(())
}

/// A fault for each test in its order, by which a good case of one root is refused.
fn in_order() -> [Vec<Fault>; 9] {
    let leaf = |place| Fault::Word(0, 3 * place, 0);
    let leaves = (2..6).flat_map(|place| {
        [leaf(place), Fault::Word(0, 3 * place + 1, 1), Fault::Word(0, 3 * place + 2, 0)]
    });
    [
        vec![Fault::Word(0, 12, 6)],
        vec![Fault::Word(1, 0, 6)],
        vec![Fault::Scalar(2, LIMIT + 1)],
        vec![Fault::Length(2, 1)],
        vec![Fault::Word(2, 0, 22 << 48)],
        vec![Fault::Word(0, 1, 8)],
        leaves.collect(),
        vec![Fault::Word(1, 0, 1)],
        vec![Fault::Length(3, 0)],
    ]
}

/// Each fault of the order with each other one, over this layout.
fn refused(field: Field, rng: &mut Rng, layout: &[u64], sink: Sink) -> Flow {
    let (list, faults) = (every_kind(field), in_order());
    for (one, other) in faults.iter().flat_map(|one| faults.iter().map(move |other| (one, other))) {
        let mut case = with(field, rng, (&list, &[5]), layout, 64);
        one.iter().chain(other).for_each(|fault| fault.apply(&mut case, rng));
        sink(case)?;
    }
    Continue(())
}

/// Roots that are leaves, earlier operations, and several.
const ROOTS: [&[u64]; 14] = [
    &[0],
    &[1],
    &[2],
    &[4],
    &[5],
    &[6],
    &[7],
    &[5, 5],
    &[4, 4],
    &[5, 4],
    &[4, 5],
    &[0, 0],
    &[5; 8],
    &[5, 5, 5],
];

/// These roots of a list of every kind with leaves behind, and of a list of inputs alone.
fn rooted(field: Field, rng: &mut Rng, roots: &[u64], sink: Sink) -> Flow {
    let list = [&every_kind(field)[..], &[[0, 1, 0], [1, 4, 0]]].concat();
    for keys in [&[1, 9][..], &[1], &[9, 9]] {
        sink(with(field, rng, (&list, roots), keys, 64))?;
    }
    sink(with(field, rng, (&inputs(8), roots), &[0, 1, 2, 3, 4, 5, 6, 7], 64))
}

/// A constant of random coordinates and an operation on it in turn, n records of them.
pub fn alternating(field: Field, rng: &mut Rng, n: usize) -> Vec<Record> {
    let mut list = inputs(1);
    while list.len() + 2 <= n {
        let [c0, c1] = field.reduced([rng.word(), rng.word()]);
        let place = list.len() as u64;
        list.extend([[1, c0, c1], [2 + rng.below(3), place - 1, place]]);
    }
    list
}

/// Eight inputs, then operations alone, each on the one before and any other.
pub fn operations(rng: &mut Rng, n: usize) -> Vec<Record> {
    let mut list = inputs(8);
    while list.len() < n {
        let place = list.len() as u64;
        list.push([2 + rng.below(3), place - 1, rng.below(place)]);
    }
    list
}

/// Lists of 4,096 records and nearly so many.
fn long(field: Field, rng: &mut Rng) -> Vec<Vec<Record>> {
    let most = LIMIT as usize;
    let shared = (0..LIMIT / 2).map(|place| [1, place % 3, 0]);
    let shared = shared.chain((LIMIT / 2..LIMIT).map(|place| [5, place - 1, 0]));
    let full = inputs(LIMIT - 2).into_iter().chain([[2, 0, LIMIT - 3], [4, 0, LIMIT - 2]]);
    vec![
        alternating(field, rng, most),
        operations(rng, most),
        expression(field, rng, most),
        expression(field, rng, most - 1),
        shared.collect(),
        full.collect(),
        counted(field, 2, LIMIT - 3, true),
        of_size(field, rng, most),
    ]
}

/// The list with result stores of each length, then four times with stores at random.
fn rooms_and_random(field: Field, rng: &mut Rng, list: &[Record], sink: Sink) -> Flow {
    rooms(field, rng, list, sink)?;
    (0..4).try_for_each(|_| sink(list_case(Call::Emit, field, rng, list, &[last(list)])))
}

/// Lists of every number of constants up to five with every number of operations up to 17.
fn every_count(field: Field) -> impl Iterator<Item = Vec<Record>> {
    let counts = [false, true].into_iter().flat_map(|negated| (0..6).map(move |n| (negated, n)));
    counts.flat_map(move |(negated, number)| {
        (1..18).map(move |operations| counted(field, number, operations, negated))
    })
}

/// Lists by hand, of every number of pads and constants, long ones; layouts, roots and refusals.
pub(super) fn fixed(field: Field, rng: &mut Rng, sink: Sink) -> Flow {
    by_hand(field).iter().try_for_each(|list| rooms_and_random(field, rng, list, sink))?;
    every_count(field).try_for_each(|list| rooms(field, rng, &list, sink))?;
    over_layouts(field, rng, sink)?;
    more_keys(field, rng, sink)?;
    ROOTS.iter().try_for_each(|roots| rooted(field, rng, roots, sink))?;
    refused(field, rng, &[1, 9], sink)?;
    refused(field, rng, &[1, 9, 1], sink)?;
    long(field, rng).iter().try_for_each(|list| rooms(field, rng, list, sink))
}
