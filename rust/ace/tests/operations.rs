//! Emit on stores that held something else, what it must not touch, and a box that runs its words.

use ace::{BLANK, Emitted, Field, Kind, Refusal, words};

/// The most records of a list.
const MOST: usize = 4_096;

/// A result store that has room for every emission and a little more.
const ROOM: usize = 3 * MOST + 23 + 9;

/// A key that a layout holds and no list here asks for.
const OTHER: u64 = 9 << 48;

/// Two inputs, then a constant, a sum, a difference, a product and a negation in turn.
fn every_kind(field: Field, n: usize) -> Vec<u64> {
    let record = |place: u64| match place {
        0 | 1 => [0, place, 0],
        _ => match place % 5 {
            0 => [1, field.modulus() - place, 0],
            1 => [2, place - 1, place - 2],
            2 => [3, place - 2, place - 1],
            3 => [4, place - 1, place - 2],
            _ => [5, place - 1, 0],
        },
    };
    (0..n as u64).flat_map(record).collect()
}

/// A list, its number of records and its last operation, behind which a constant may stand.
fn counted(list: &[u64]) -> (&[u64], u64, [u64; 1]) {
    let n = list.len() as u64 / 3;
    let last = (0..n).rev().find(|&place| list[3 * place as usize] > 1);
    (list, n, [last.expect("an operation")])
}

/// A result store of noise, and one that holds the words of the longest list.
fn boxes(field: Field) -> [Vec<u64>; 2] {
    let mut held = vec![9; ROOM];
    let list = every_kind(field, MOST);
    let (list, n, root) = counted(&list);
    let emitted = ace::emit(field, list, n, &root, &[0, 1], 2, &mut held).expect("a list");
    let written = emitted.words(2) as usize;
    assert!(written > 10_000 && held[written..].iter().all(|&word| word == BLANK));
    [vec![u64::MAX; ROOM], held]
}

/// What a residue or an element without a second coordinate comes to by an operation.
fn applied(field: Field, kind: Kind, [left, right]: [u64; 2]) -> u64 {
    let (left, right, modulus) = (left as u128, right as u128, field.modulus() as u128);
    let result = match kind {
        Kind::Sub => left + modulus - right,
        Kind::Mul => left * right,
        Kind::Add => left + right,
    };
    (result % modulus) as u64
}

/// The values of the operations, as a box works them out over the values of a layout's places; all
/// second coordinates are 0.
fn run(field: Field, emitted: Emitted, inputs: &[u64], written: &[u64]) -> Vec<u64> {
    let (variables, count) = (emitted.num_vars as usize, emitted.num_ops as usize);
    let (constants, operations) = written.split_at(2 * (variables - inputs.len()));
    let mut nodes = vec![None; variables + count];
    let leaves = inputs.iter().copied().chain(constants.chunks(2).map(|pair| pair[0]));
    let (operated, leading) = nodes.split_at_mut(count);
    leading.iter_mut().rev().zip(leaves).for_each(|(node, leaf)| *node = Some(leaf));
    assert!(leading.iter().all(Option::is_some) && operated.iter().all(Option::is_none));
    for (place, words) in operations.chunks(3).enumerate() {
        let read = [1, 2].map(|word| nodes[words[word] as usize].expect("a value by now"));
        let kind = Kind::of(words[0]).expect("a kind");
        nodes[count - 1 - place] = Some(applied(field, kind, read));
    }
    nodes[..count].iter().rev().map(|value| value.expect("an operation's value")).collect()
}

#[test]
fn a_short_emission_behind_a_long_one() {
    for field in Field::ALL {
        for n in [3, 4, 5, 9, 10, 100, 1_000, MOST] {
            let list = every_kind(field, n);
            let (list, n, root) = counted(&list);
            let [mut fresh, mut used] = boxes(field);
            let emitted = ace::emit(field, list, n, &root, &[0, 1], 2, &mut fresh);
            assert_eq!(ace::emit(field, list, n, &root, &[0, 1], 2, &mut used), emitted);
            assert_eq!(fresh, used);
            let written = emitted.expect("a list").words(2) as usize;
            assert!(fresh[written..].iter().all(|&word| word == BLANK));
        }
    }
}

#[test]
fn the_box_has_the_root_s_value_and_its_squares() {
    for field in Field::ALL {
        for n in [3, 4, 5, 8, 9, 13, 14, 18, 100, 1_000, MOST] {
            let list = every_kind(field, n);
            let (list, n, root) = counted(&list);
            let (layout, inputs) = ([OTHER, 1, 0, 1], [2, 3, 5, 7]);
            let mut result = vec![9; ROOM];
            let emitted =
                ace::emit(field, list, n, &root, &layout, 4, &mut result).expect("a list");
            let own = list.chunks(3).filter(|record| record[0] > 1).count();
            let values = run(field, emitted, &inputs, &result[..emitted.words(4) as usize]);
            assert_eq!((2 * (emitted.num_vars - 4) + emitted.num_ops) % 8, 0);
            assert!(values.len() < own + 8);
            let assignment = [OTHER, 2, 0, 1, 3, 0, 0, 5, 0, 1, 7, 0];
            let roots = ace::evaluate(field, list, n, &root, &assignment, 4).expect("a list");
            assert_eq!((values[own - 1], 0), (roots[0].c0, roots[0].c1));
            for pair in values[own - 1..].windows(2) {
                assert_eq!(pair[1], applied(field, Kind::Mul, [pair[0]; 2]));
            }
        }
    }
}

#[test]
fn a_refusal_leaves_the_long_emission() {
    let list = [0, 0, 0, 1, 4, 0, 2, 0, 1];
    let leaves = [0, 0, 0, 1, 4, 0];
    for field in Field::ALL {
        let [_, mut held] = boxes(field);
        let before = held.clone();
        for (list, n, roots, layout, k, number, place) in [
            (&list[..], 0, &[0][..], &[0, 1][..], 2, 1, 0),
            (&list, 4, &[2], &[0, 1], 2, 2, 0),
            (&[6, 0, 0], 1, &[0], &[0, 1], 2, 3, 0),
            (&[1, u64::MAX, 0], 1, &[0], &[0, 1], 2, 4, 0),
            (&[5, 0, 0], 1, &[0], &[0, 1], 2, 5, 0),
            (&list, 3, &[], &[0, 1], 2, 46, 0),
            (&list, 3, &[3], &[0, 1], 2, 6, 0),
            (&list, 3, &[2], &[0, 1], 4_097, 11, 0),
            (&list, 3, &[2], &[0, 1], u64::MAX, 11, 0),
            (&list, 3, &[2], &[0, 1], 3, 2, 0),
            (&list, 3, &[2], &[0, 22 << 48], 2, 4, 1),
            (&list, 3, &[2], &[2, 1], 2, 12, 0),
            (&leaves, 2, &[1], &[0, 1], 2, 42, 0),
            (&list, 3, &[1], &[0, 1], 2, 43, 0),
            (&list, 3, &[2, 2], &[0, 1], 2, 43, 0),
            (&list, 3, &[2], &[0, 1], 1, 44, 0),
        ] {
            for room in [0, 15, ROOM] {
                let emitted = ace::emit(field, list, n, roots, layout, k, &mut held[..room]);
                assert_eq!(emitted, Err(Refusal { number, place }));
                assert_eq!(held, before);
            }
        }
        for room in [0, 1, 15] {
            let emitted = ace::emit(field, &list, 3, &[2], &[0, 1], 2, &mut held[..room]);
            assert_eq!(emitted, Err(Refusal { number: 2, place: 0 }));
            assert_eq!(held, before);
        }
    }
}

#[test]
fn a_number_that_no_field_has_leaves_the_words() {
    for (field, n) in [0, 3, 1 << 32 | 1, u64::MAX].into_iter().flat_map(|f| [(f, 0), (f, 2)]) {
        for room in [0, 33] {
            let (mut result, mut answer) = (vec![9; room], [u64::MAX; words::ANSWER]);
            let list = [0, 0, 0, 5, 0, 0];
            words::emit(field, &list, n, &[1], &[0, 0], 2, &mut result, &mut answer);
            assert_eq!(answer, [49, 0, 0, 0]);
            assert!(result.iter().all(|&word| word == 9));
        }
    }
}

#[test]
fn words_that_just_fit_are_taken_whole() {
    for field in Field::ALL {
        let list = every_kind(field, 12);
        let (list, n, root) = counted(&list);
        let [mut whole, mut exact] = boxes(field);
        let emitted = ace::emit(field, list, n, &root, &[0, 1], 2, &mut whole).expect("a list");
        let (before, length) = (exact.clone(), emitted.words(2) as usize);
        let short = ace::emit(field, list, n, &root, &[0, 1], 2, &mut exact[..length - 1]);
        assert_eq!(short, Err(Refusal { number: 2, place: 0 }));
        assert_eq!(exact, before);
        let fits = ace::emit(field, list, n, &root, &[0, 1], 2, &mut exact[..length]);
        assert_eq!(fits, Ok(emitted));
        assert_eq!((&exact[..length], &exact[length..]), (&whole[..length], &before[length..]));
    }
}

#[test]
fn what_stands_behind_a_list_and_its_layout_is_not_read() {
    for field in Field::ALL {
        let (short, long) = (every_kind(field, 7), every_kind(field, 60));
        let (_, n, root) = counted(&short);
        let [mut one, mut other] = boxes(field);
        let emitted = ace::emit(field, &short, n, &root, &[0, 1], 2, &mut one);
        let longer = [0, 1, 1, 0, 22 << 48];
        assert_eq!(ace::emit(field, &long, n, &root, &longer, 2, &mut other), emitted);
        assert_eq!(one, other);
    }
}
