//! Lists to draw, with the coordinates that print in every way, and the stores of their texts.

use std::ops::ControlFlow::Continue;

use model::{Call, Case, Field, Judge, LIMIT, Record, check_list, words};

use super::faults::Fault;
use super::lists::{any_key, every_kind, inputs, of_size};
use super::make::list_case;
use super::{Flow, Sink};
use crate::{Rng, Rust};

/// The bytes of the drawing of n records of a store, where they are good.
pub(super) fn length(field: Field, store: &[u64], n: u64) -> Option<usize> {
    check_list(field, store, n, None).ok().map(|list| Rust(field).draw(&list).len())
}

/// A text store of noise.
fn noise(rng: &mut Rng, length: usize) -> Vec<u64> {
    (0..length).map(|_| rng.below(256)).collect()
}

/// A text store for the drawing of a list: mostly exactly enough or more, in some too short.
pub(super) fn text(field: Field, rng: &mut Rng, list: &[Record]) -> Vec<u64> {
    let exact = length(field, &words(list), list.len() as u64).unwrap_or(64);
    let some = rng.below(100) as usize;
    let room = match rng.weighted(&[6, 3, 4, 3, 2, 1, 1]) {
        0 => exact,
        1 => exact + 1,
        2 => exact + some,
        3 => exact + 1_000 + some,
        4 => exact - 1,
        5 => rng.below(exact as u64) as usize,
        _ => 0,
    };
    noise(rng, room)
}

/// The coordinates at the edges of the signed range.
const EDGES: usize = 8;

/// Coordinates that print in every way: at the edges of the signed range, and beside the numbers
/// at which a digit more is printed.
fn coordinates(field: Field) -> Vec<u64> {
    let (half, modulus) = (field.modulus / 2, field.modulus);
    let edges: [u64; EDGES] = [0, 1, half - 1, half, half + 1, half + 2, modulus - 2, modulus - 1];
    let tens = (1..19).map(|digits| 10u64.pow(digits)).take_while(|&ten| ten < half);
    let longer = tens.flat_map(|ten| [ten - 1, ten, modulus - ten, modulus - ten + 1]);
    edges.into_iter().chain(longer).collect()
}

/// The list with other coordinates for some constants, and other keys for some inputs.
pub(super) fn varied(field: Field, rng: &mut Rng, mut list: Vec<Record>) -> Vec<Record> {
    let coordinates = coordinates(field);
    for record in &mut list {
        match record[0] {
            0 if rng.once_in(4) => record[1] = any_key(rng),
            1 if !rng.once_in(3) => {
                let [c0, c1] = field.reduced([rng.pick(&coordinates), rng.pick(&coordinates)]);
                *record = [1, c0, c1];
            }
            _ => {}
        }
    }
    list
}

/// The case with a text store of so many bytes.
fn with_room(mut case: Case, rng: &mut Rng, room: usize) -> Case {
    case.stores[2] = noise(rng, room);
    case
}

/// The list with text stores too short, just long enough, and longer.
fn rooms(field: Field, rng: &mut Rng, list: &[Record], sink: Sink) -> Flow {
    let root = list.len() as u64 - 1;
    let exact = length(field, &words(list), root + 1).expect("a good list");
    for room in [0, 1, exact / 2, exact - 2, exact - 1, exact, exact + 1, exact + 2, exact + 4_000]
    {
        let case = list_case(Call::Draw, field, rng, list, &[root]);
        sink(with_room(case, rng, room))?;
    }
    Continue(())
}

/// Lists of constants that have these coordinates, one for each second coordinate.
fn constants(field: Field) -> impl Iterator<Item = Vec<Record>> {
    let first = coordinates(field);
    let second = if field.bounds[1] > 1 { first.clone() } else { vec![0] };
    second.into_iter().map(move |c1| first.iter().map(|&c0| [1, c0, c1]).collect())
}

/// Operations on operands in either order, and on one twice.
fn operations() -> Vec<Record> {
    let pairs = [[0, 1], [1, 0], [0, 0], [1, 1]];
    let binary = [2, 3, 4].into_iter().flat_map(|tag| pairs.map(|[a, b]| [tag, a, b]));
    inputs(2).into_iter().chain(binary).chain([[5, 0, 0], [5, 14, 0]]).collect()
}

/// The list of so many records whose drawing is the longest.
fn longest(field: Field, most: usize) -> Vec<Record> {
    let [c0, c1] = field.reduced([field.modulus / 2 + 1; 2]);
    vec![[1, c0, c1]; most]
}

/// Lists of at most so many records to draw from house files: constants with an edge for one
/// coordinate and any for the other, operations, and the longest drawing.
pub(super) fn filed(field: Field, most: usize) -> [Vec<Record>; 4] {
    let any = coordinates(field);
    let edges = any[..EDGES].iter();
    let first = edges.flat_map(|&edge| any.iter().map(move |&other| [1, edge, other]));
    let first: Vec<Record> = first.take(most).collect();
    let second = first.iter().map(|&[tag, edge, other]| [tag, other, edge]).collect();
    [first, second, operations(), longest(field, most)]
}

/// What is refused before a text store that is too short.
fn refused(field: Field, rng: &mut Rng, sink: Sink) -> Flow {
    let list = every_kind(field);
    let faults = [
        Fault::Scalar(0, 3),
        Fault::Scalar(1, 0),
        Fault::Scalar(1, LIMIT + 1),
        Fault::Length(0, 17),
        Fault::Word(0, 12, 6),
        Fault::Word(0, 1, 22 << 48),
        Fault::Word(0, 4, field.modulus),
        Fault::Word(0, 16, 5),
        Fault::Length(1, 0),
        Fault::Length(1, 9),
        Fault::Word(1, 0, 6),
    ];
    for fault in faults {
        for room in [0, 1, 32, 64] {
            let mut case = list_case(Call::Draw, field, rng, &list, &[5]);
            fault.apply(&mut case, rng);
            sink(with_room(case, rng, room))?;
        }
    }
    Continue(())
}

/// Numbers of records around those at which the last place has a digit more.
const COUNTS: [u64; 15] = [1, 2, 9, 10, 11, 12, 99, 100, 101, 102, 999, 1_000, 1_001, 4_095, LIMIT];

/// Constants of every coordinate, every operation, and lists whose places have every number of
/// digits.
pub(super) fn fixed(field: Field, rng: &mut Rng, sink: Sink) -> Flow {
    for list in constants(field) {
        rooms(field, rng, &list, sink)?;
        for record in list {
            sink(list_case(Call::Draw, field, rng, &[record], &[0]))?;
        }
    }
    rooms(field, rng, &operations(), sink)?;
    for n in COUNTS {
        let list = of_size(field, rng, n as usize);
        let list = varied(field, rng, list);
        rooms(field, rng, &list, sink)?;
    }
    rooms(field, rng, &longest(field, LIMIT as usize), sink)?;
    refused(field, rng, sink)
}
