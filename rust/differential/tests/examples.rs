//! Document 01's examples A to L, by its definitions and by the Rust of docs/src, in both fields.

use differential::{Rust, cases};
use model::field::{P, Q};
use model::{Call, Case, Field, Judge, Paper, Record, ZK, expected, words};
use oracle::{BabyBear, Element, QuadFelt};

/// Both judges over a field.
fn over(field: Field) -> [Box<dyn Judge>; 2] {
    [Box::new(Paper::over(field)), Box::new(Rust(field))]
}

/// Both judges over both fields.
fn judges() -> impl Iterator<Item = Box<dyn Judge>> {
    Field::ALL.into_iter().flat_map(over)
}

fn inputs(n: u64) -> Vec<Record> {
    (0..n).map(|key| [0, key, 0]).collect()
}

fn after(list: &[Record], more: &[Record]) -> Vec<Record> {
    [list, more].concat()
}

#[test]
fn a_the_listing() {
    let list = after(&inputs(3), &[[4, 0, 1], [4, 0, 2], [2, 3, 4]]);
    let answer = after(&inputs(3), &[[2, 1, 2], [4, 0, 3]]);
    for mut judge in judges() {
        assert_eq!(judge.normalize(&list, &[5]), (answer.clone(), vec![4], 1));
    }
}

#[test]
fn b_a_rotation() {
    let list = after(&inputs(3), &[[2, 0, 2], [2, 0, 1], [2, 2, 4], [4, 3, 5]]);
    let answer = after(&inputs(3), &[[2, 0, 2], [2, 1, 3], [4, 3, 4]]);
    for mut judge in judges() {
        assert_eq!(judge.normalize(&list, &[6]), (answer.clone(), vec![5], 1));
    }
}

#[test]
fn c_an_unused_input() {
    for mut judge in judges() {
        assert_eq!(judge.normalize(&inputs(2), &[0]), (inputs(2), vec![0], 0));
        assert_eq!(judge.compact(&inputs(2), &[0]), (inputs(1), vec![0]));
    }
}

#[test]
fn d_to_h_steps() {
    let x = inputs(1);
    let zero_and_x = [[1, 0, 0], [0, 0, 0]];
    let negations = [[0, 0, 0], [0, 1, 0], [5, 0, 0], [5, 1, 0]];
    for mut judge in judges() {
        assert_eq!(judge.step(&x, [3, 0, 0]), (after(&x, &[[1, 0, 0]]), 1));
        assert_eq!(judge.step(&zero_and_x, [3, 0, 1]), (after(&zero_and_x, &[[3, 0, 1]]), 2));
        let one = judge.step(&x, [5, 0, 0]).0;
        assert_eq!(judge.step(&one, [5, 1, 0]), (after(&x, &[[5, 0, 0], [5, 1, 0]]), 2));
        assert_eq!(judge.step(&negations, [2, 2, 3]), (after(&negations, &[[2, 2, 3]]), 4));
        let twice = [[0, 4, 0], [0, 4, 0]];
        assert_eq!(judge.step(&twice, [0, 4, 0]), (twice.to_vec(), 1));
    }
}

/// A number, added to or multiplied with itself.
fn with_itself(tag: u64, [c0, c1]: [u64; 2]) -> [Record; 2] {
    [[1, c0, c1], [tag, 0, 0]]
}

#[test]
fn i_and_j_the_field() {
    for mut judge in over(Field::GOLDILOCKS) {
        assert_eq!(judge.evaluate(&with_itself(4, [0, 1]), &[1, 0], &[]), [[7, 0], [0, 1]]);
        assert_eq!(judge.evaluate(&with_itself(2, [P - 1, 0]), &[1], &[]), [[P - 2, 0]]);
    }
    assert_eq!(Field::GOLDILOCKS.add(P - 1, P - 1), P - 2);
}

#[test]
fn i_and_j_in_field_2() {
    for mut judge in over(Field::BABY_BEAR) {
        assert_eq!(judge.evaluate(&with_itself(4, [Q - 1, 0]), &[1], &[]), [[1, 0]]);
        assert_eq!(judge.evaluate(&with_itself(2, [Q - 1, 0]), &[1], &[]), [[Q - 2, 0]]);
        let u = Case {
            call: Call::Evaluate,
            scalars: vec![2, 2, 0],
            stores: vec![words(&with_itself(4, [0, 1])), vec![1], vec![]],
        };
        let refused = [&[4][..], &[0; 16]].concat();
        assert_eq!(expected(&u, judge.as_mut()).answer, refused);
    }
}

#[test]
fn no_field_has_another_number() {
    for number in [0, 3, 1 << 32 | 1, u64::MAX] {
        let scalars = vec![number, 9, 6, 0, 0];
        let case = Case { call: Call::Step, scalars, stores: vec![vec![5; 3]] };
        for mut judge in judges() {
            let outcome = expected(&case, judge.as_mut());
            assert_eq!(outcome.answer, [49, 0, 0, 0]);
            assert_eq!(outcome.after, [[5; 3]]);
        }
    }
}

#[test]
fn k_unit_columns() {
    let unit = |one: usize| (0..8).map(|place| u64::from(place == one)).collect::<Vec<u64>>();
    let three: Vec<Vec<u64>> = (0..3).map(unit).collect();
    let four: Vec<Vec<u64>> = (0..4).map(unit).collect();
    assert_eq!(model::overhead(8), 58);
    for mut judge in judges() {
        let saving = |column: &Vec<u64>| model::saving(judge.field(), column);
        assert_eq!(three.iter().map(saving).sum::<u64>(), 51);
        assert_eq!(four.iter().map(saving).sum::<u64>(), 68);
        assert_eq!(judge.forms(&three), [0, 0, 0]);
        assert_eq!(judge.forms(&four), [2, 2, 2, 2]);
        assert_eq!(judge.forms(&vec![unit(0); 4]), [0, 0, 0, 0]);
    }
}

#[test]
fn l_no_columns() {
    for mut judge in judges() {
        let case = Case {
            call: Call::Lower,
            scalars: vec![judge.field().number, 2, 3],
            stores: vec![words(&inputs(2)), vec![], vec![], vec![9; 8], vec![9; 12_288], vec![9]],
        };
        let outcome = expected(&case, judge.as_mut());
        assert_eq!(outcome.answer, [0, 2, 0, 0]);
        assert_eq!(outcome.after, [vec![0, 0, 0, 0, 1, 0, 0, 0], vec![0; 12_288], vec![0]]);
    }
}

#[test]
fn a_full_list_answers_a_known_input_and_refuses_a_new_one() {
    let list = words(&inputs(4_096));
    for (key, answer) in [(77, [0, 77, 4_096, 0]), (4_096, [7, 0, 0, 0])] {
        for mut judge in judges() {
            let scalars = vec![judge.field().number, 4_096, 0, key, 0];
            let case = Case { call: Call::Step, scalars, stores: vec![list.clone()] };
            let outcome = expected(&case, judge.as_mut());
            assert_eq!(outcome.answer, answer);
            assert_eq!(outcome.after, std::slice::from_ref(&list));
        }
    }
}

#[test]
fn request_thirteen_has_2660_lists() {
    let lists = |n| cases::small_lists(Field::GOLDILOCKS, n).len();
    let count: usize = (1..=3).map(|n| n * lists(n)).sum();
    assert_eq!(count, 2_660);
}

#[test]
fn key_numbers() {
    assert_eq!(ZK, 3_096_224_743_817_216);
    assert!(model::is_key(1) && model::is_key((21 << 48) + (1 << 48) - 1));
    assert!(!model::is_key(1 << 16) && !model::is_key(22 << 48) && !model::is_key((1 << 48) + 1));
}

/// Holds the ways to hand a list over to each other, over a field and its elements.
fn hand_over<E: Element>(field: Field) {
    let mut rng = differential::Rng::new(5);
    for _ in 0..3_000 {
        let case = cases::random(Call::Step, field, &mut rng);
        let [_, n, tag, first, second] = case.scalars[..] else { panic!("five numbers") };
        let Ok(list) = model::check_list(field, &case.stores[0], n, None) else { continue };
        let request = [tag, first, second];
        if model::check_record(field, request, n).is_some() {
            continue;
        }
        let answer = oracle::step::<E>(&list, request);
        assert_eq!(oracle::step_from_snapshot::<E>(&list, request), answer);
        if list.iter().any(|record| record[0] > 1) || tag < 2 {
            assert_eq!(oracle::step_from_nodes::<E>(&list, request), answer);
        }
    }
}

#[test]
fn a_list_may_be_handed_over_in_any_way() {
    hand_over::<QuadFelt>(Field::GOLDILOCKS);
    hand_over::<BabyBear>(Field::BABY_BEAR);
}

#[test]
fn the_longest_chain_takes_its_rounds_by_the_rust_itself() {
    let list = cases::chain(60);
    let last = list.len() as u64 - 1;
    for field in Field::ALL {
        let (normal, roots, rounds) = Rust(field).normalize(&list, &[last]);
        let whole = Rust(field).normalize_whole(&list, &[last]);
        assert_eq!(whole, (normal.clone(), roots.clone()));
        assert_eq!(rounds, 59);
        assert_eq!(Paper::over(field).normalize(&list, &[last]), (normal, roots, rounds));
    }
}

#[test]
fn two_roots_share_a_list() {
    let list = after(&inputs(3), &[[4, 0, 1], [4, 0, 2], [2, 3, 4], [2, 1, 2], [4, 0, 6]]);
    let short = after(&inputs(3), &[[2, 1, 2], [4, 0, 3]]);
    let left = after(&inputs(3), &[[4, 0, 1], [4, 0, 2], [2, 3, 4]]);
    for mut judge in judges() {
        // A round brings both onto the product; a root that is a product forbids it.
        assert_eq!(judge.normalize(&list, &[7, 5]), (short.clone(), vec![4, 4], 1));
        assert_eq!(judge.normalize(&left, &[5, 3]), (left.clone(), vec![5, 3], 0));
        // Each keeps what it reaches, in the roots' order, and one place may be named twice.
        let kept = after(&inputs(3), &[[4, 0, 2], [2, 1, 2]]);
        assert_eq!(judge.compact(&list, &[6, 4, 6]), (kept, vec![4, 3, 4]));
    }
}

#[test]
fn every_kind_of_root_is_tied() {
    for field in Field::ALL {
        let [c0, c1] = field.reduced([2, 3]);
        let last = [[1, 0, 0], [1, 1, 0], [1, c0, c1], [2, 0, 1], [3, 0, 1], [4, 1, 2], [5, 0, 0]];
        for record in last {
            let list = after(&inputs(3), &[[4, 0, 1], [4, 0, 2], [2, 3, 4], record]);
            let short = after(&inputs(3), &[[2, 1, 2], [4, 0, 3], record]);
            let whole = Rust(field).normalize_whole(&list, &[5, 6, 6]);
            assert_eq!(whole, (short.clone(), vec![4, 5, 5]));
            assert_eq!(Rust(field).normalize(&list, &[5, 6, 6]), (short, vec![4, 5, 5], 1));
            assert_eq!(Rust(field).compact(&list, &[6, 5, 6]), (list, vec![6, 5, 6]));
        }
    }
}

#[test]
fn roots_are_refused_behind_the_records() {
    let (good, late) = (words(&inputs(2)), words(&[[0, 0, 0], [5, 1, 0]]));
    for (list, n, roots, refusal) in [
        (&good, 2, &[][..], [46, 0]),
        (&good, 2, &[0; 9], [46, 0]),
        (&good, 2, &[2; 9], [46, 0]),
        (&good, 2, &[0, 1, 2], [6, 0]),
        (&good, 2, &[1 << 32], [6, 0]),
        (&late, 2, &[], [5, 1]),
        (&late, 3, &[], [2, 0]),
        (&late, 0, &[], [1, 0]),
    ] {
        for mut judge in judges() {
            let scalars = vec![judge.field().number, n];
            let stores = vec![list.clone(), roots.to_vec(), vec![]];
            let case = Case { call: Call::Compact, scalars, stores };
            let answer = expected(&case, judge.as_mut()).answer;
            assert_eq!(answer, [&refusal[..], &[0; 9]].concat());
        }
    }
}

#[test]
fn a_lowered_node_is_its_column_at_every_row() {
    let column: Vec<u64> = (0..8).map(|entry| entry * entry + 1).collect();
    for mut judge in judges() {
        let field = judge.field();
        let (list, places) = judge.lower(&[], std::slice::from_ref(&column), 16);
        for row in 0..16 {
            let point = field.power(field.generator(4), row);
            let values = model::values(field, &list, |_| [point, 0]);
            assert_eq!(values[places[0] as usize], [column[row as usize % 8], 0], "row {row}");
        }
    }
}

/// The drawing of a list with every kind of record.
const DRAWING: &str = "\
digraph g {
n0 [label=\"in 5\"];
n1 [label=\"const -1 0\"];
n2 [label=\"neg\"];
n3 [label=\"add\"];
n4 [label=\"sub\"];
n5 [label=\"mul\"];
n2 -> n0;
n3 -> n1;
n3 -> n2;
n4 -> n3;
n4 -> n0;
n5 -> n4;
n5 -> n4;
}
";

/// What Draw comes to on a list with one root and a text store of so many bytes.
fn drawn(judge: &mut dyn Judge, list: &[Record], room: usize) -> (Vec<u64>, String) {
    let scalars = vec![judge.field().number, list.len() as u64];
    let stores = vec![words(list), vec![0], vec![35; room]];
    let outcome = expected(&Case { call: Call::Draw, scalars, stores }, judge);
    let bytes = outcome.after[0].iter().map(|&byte| byte as u8).collect();
    (outcome.answer, String::from_utf8(bytes).expect("text"))
}

#[test]
fn request_one_draws_every_kind() {
    let length = DRAWING.len();
    for mut judge in judges() {
        let minus_one = judge.field().minus_one();
        let list = [[0, 5, 0], [1, minus_one, 0], [5, 0, 0], [2, 1, 2], [3, 3, 0], [4, 4, 4]];
        for (room, text) in [(length, DRAWING.to_string()), (length + 2, format!("{DRAWING}\0\0"))]
        {
            assert_eq!(drawn(judge.as_mut(), &list, room), (vec![0, length as u64, 0, 0], text));
        }
        let refused = (vec![41, 0, 0, 0], "#".repeat(length - 1));
        assert_eq!(drawn(judge.as_mut(), &list, length - 1), refused);
    }
}

#[test]
fn request_one_signs_coordinates() {
    for mut judge in judges() {
        let field = judge.field();
        let half = (field.modulus - 1) / 2;
        let list = [0, half, half + 1, field.modulus - 1].map(|c0| [1, c0, 0]);
        let (_, text) = drawn(judge.as_mut(), &list, 1_000);
        let labels = text.lines().filter_map(|line| line.strip_suffix("\"];")?.split_once('"'));
        let labels: Vec<&str> = labels.map(|(_, label)| label).collect();
        let signed = ["0".to_string(), format!("{half}"), format!("-{half}"), "-1".to_string()];
        assert_eq!(labels, signed.map(|c0| format!("const {c0} 0")));
    }
}

/// What Emit comes to on a list with these roots, over these keys, with a result store of so many
/// words.
fn emitted(
    judge: &mut dyn Judge,
    list: &[Record],
    roots: &[u64],
    keys: &[u64],
    room: usize,
) -> (Vec<u64>, Vec<u64>) {
    let scalars = vec![judge.field().number, list.len() as u64, keys.len() as u64];
    let stores = vec![words(list), roots.to_vec(), keys.to_vec(), vec![35; room]];
    let mut outcome = expected(&Case { call: Call::Emit, scalars, stores }, judge);
    (outcome.answer, outcome.after.remove(0))
}

#[test]
fn request_two_counts_nodes_down() {
    for mut judge in judges() {
        let minus_one = judge.field().minus_one();
        let list = [
            [0, 5, 0],
            [1, minus_one, 0],
            [5, 0, 0],
            [1, minus_one, 0],
            [2, 1, 2],
            [1, 3, 0],
            [4, 4, 5],
            [0, 7, 0],
            [3, 6, 7],
        ];
        let constants = [minus_one, 0, 0, 0, 3, 0, 0, 0];
        // Inputs are nodes 13 and 12, constants 11 to 8, operations 7 to 4, squares 3 to 0.
        let operations = [0, 10, 13, 2, 11, 7, 1, 6, 9, 0, 5, 12];
        let squares = [1, 4, 4, 1, 3, 3, 1, 2, 2, 1, 1, 1];
        let words = [&constants[..], &operations, &squares].concat();
        let behind = [&words[..], &[0, 0]].concat();
        let answer = vec![0, 6, 8, 0];
        let mut come =
            |roots: &[u64], keys: &[u64], room| emitted(judge.as_mut(), &list, roots, keys, room);
        assert_eq!(come(&[8], &[5, 7], 32), (answer.clone(), words));
        assert_eq!(come(&[8], &[5, 7], 34), (answer, behind));
        for (roots, keys, room, number, place) in [
            (&[8][..], &[5, 7][..], 31, 2, 0),
            (&[8], &[5, 8], 32, 12, 7),
            (&[8], &[5, 1 << 16], 32, 4, 1),
            (&[6], &[5, 7], 32, 43, 0),
            (&[8, 8], &[5, 7], 32, 43, 0),
            (&[8], &[5, 7, 7], 32, 44, 0),
        ] {
            assert_eq!(come(roots, keys, room), (vec![number, place, 0, 0], vec![35; room]));
        }
    }
}
