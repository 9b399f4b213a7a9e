//! The calls run in the stack that the header names.

use ace::Field;

use super::numbers::defined;

/// The most records of a list.
const MOST: u64 = 4_096;

/// As many roots as there may be, the last record among them.
const ROOTS: [u64; 8] = [MOST - 1, 0, 1, 2, MOST / 2, MOST - 2, MOST - 3, MOST - 1];

/// Two inputs, a chain of negations of the first, and the sum of the second and the chain's end,
/// which hands work on along the whole chain.
fn negations() -> Vec<u64> {
    let chain = (3..MOST - 1).flat_map(|place| [5, place - 1, 0]);
    let begin = [0, 0, 0, 0, 1, 0, 5, 0, 0].into_iter();
    begin.chain(chain).chain([2, 1, MOST - 2]).collect()
}

/// Runs this in a thread with the header's stack; one that is too small ends the whole test.
fn on_the_stack(call: impl FnOnce() -> bool + Send + 'static) -> bool {
    let size = defined()["STACK"] as usize;
    std::thread::Builder::new()
        .stack_size(size)
        .spawn(call)
        .expect("a thread")
        .join()
        .is_ok_and(|is| is)
}

#[test]
fn calls_on_a_long_chain_of_negations() {
    assert_eq!(negations().len() as u64, 3 * MOST);
    for field in Field::ALL {
        assert!(on_the_stack(move || {
            ace::step(field, &mut negations(), MOST - 1, 2, 1, MOST - 2).is_ok()
        }));
        assert!(on_the_stack(move || {
            let (mut result, mut map) = (negations(), negations());
            ace::build(field, &negations(), MOST, &ROOTS, &mut result, &mut map).is_ok()
        }));
        assert!(on_the_stack(move || {
            let (mut result, mut work) = (negations(), vec![9; 6 * MOST as usize]);
            ace::normalize(field, &negations(), MOST, &ROOTS, &mut result, &mut work).is_ok()
        }));
        assert!(on_the_stack(move || {
            let mut result = negations();
            ace::compact(field, &negations(), MOST, &ROOTS, &mut result).is_ok()
        }));
        assert!(on_the_stack(move || {
            let mut text = vec![9; 65 * MOST as usize];
            ace::draw(field, &negations(), MOST, &ROOTS, &mut text).is_ok()
        }));
        assert!(on_the_stack(move || {
            let mut result = vec![9; 4 * MOST as usize];
            ace::emit(field, &negations(), MOST, &[MOST - 1], &[0, 1], 2, &mut result).is_ok()
        }));
    }
}

/// Entries of columns, none of them alike.
fn mixed(count: u64) -> Vec<u64> {
    (0..count).map(|i| i * i * 479 + 3).collect()
}

/// Two inputs, then a constant, none of them alike, and a product in turn.
fn operations(field: Field) -> Vec<u64> {
    let records = (2..MOST).flat_map(|place| match place % 2 {
        0 => [1, field.modulus() - place, 0],
        _ => [4, place - 1, place - 2],
    });
    [0, 0, 0, 0, MOST - 1, 0].into_iter().chain(records).collect()
}

#[test]
fn calls_on_many_entries_and_columns() {
    for field in Field::ALL {
        assert!(on_the_stack(move || {
            let entries: Vec<u64> = (0..MOST).flat_map(|key| [key, 1, 0]).collect();
            ace::evaluate(field, &negations(), MOST, &ROOTS, &entries, MOST).is_ok()
        }));
        assert!(on_the_stack(move || {
            let (list, layout, root) = (operations(field), Vec::from_iter(0..MOST), MOST - 1);
            let mut result = vec![9; 4 * MOST as usize];
            ace::emit(field, &list, MOST, &[root], &layout, MOST, &mut result).is_ok()
        }));
        assert!(on_the_stack(move || ace::prepare(field, &[128; 16], &mixed(2_048)).is_ok()));
        assert!(on_the_stack(move || {
            let (mut result, mut work, mut places) = (vec![9; 12_288], vec![9; 12_288], [9; 10]);
            let (lengths, entries, places) = ([128; 10], mixed(1_280), &mut places);
            let (result, work) = (&mut result, &mut work);
            ace::lower(field, &[], 0, &lengths, &entries, 128, result, work, places).is_ok()
        }));
    }
}
