//! Draw on stores that held something else, and what it must not touch.

use ace::{Field, Refusal, words};

/// The most records of a list.
const MOST: usize = 4_096;

/// A text store that has room for every drawing and a little more.
const ROOM: usize = 65 * MOST + 33;

/// A list with a record of every kind in turn, each of them behind its operands.
fn every_kind(field: Field, n: usize) -> Vec<u64> {
    let minus_one = field.modulus() - 1;
    let c1 = if field == Field::Goldilocks { minus_one } else { 0 };
    let record = |place: u64| match place % 6 {
        0 => [0, place, 0],
        1 => [1, minus_one - place, c1],
        5 => [5, place - 1, 0],
        tag => [tag, place - 2, place - tag],
    };
    (0..n as u64).flat_map(record).collect()
}

/// A list and its number of records.
fn counted(list: &[u64]) -> (&[u64], u64) {
    (list, list.len() as u64 / 3)
}

/// A text store of zeros, and one that holds the drawing of the longest list.
fn boxes(field: Field) -> [Vec<u8>; 2] {
    let mut held = vec![b'#'; ROOM];
    let list = every_kind(field, MOST);
    let length = ace::draw(field, &list, MOST as u64, &[0], &mut held).expect("a list");
    assert!(length > 100_000 && held[length..].iter().all(|&byte| byte == 0));
    held[length..].fill(b'#');
    [vec![0; ROOM], held]
}

#[test]
fn a_short_drawing_behind_a_long_one() {
    for field in Field::ALL {
        for n in [1, 2, 6, 7, 100, 1_000, MOST] {
            let list = every_kind(field, n);
            let (list, n) = counted(&list);
            let [mut fresh, mut used] = boxes(field);
            let length = ace::draw(field, list, n, &[n - 1], &mut fresh).expect("a list");
            assert_eq!(ace::draw(field, list, n, &[n - 1], &mut used), Ok(length));
            assert_eq!(fresh, used);
            assert!(fresh.starts_with(b"digraph g {\n") && fresh[..length].ends_with(b";\n}\n"));
            assert!(fresh[length..].iter().all(|&byte| byte == 0));
        }
    }
}

#[test]
fn a_drawing_byte_for_byte() {
    let list = [0, 5, 0, 1, 0, 0, 3, 0, 1, 5, 2, 0, 4, 3, 3];
    for field in Field::ALL {
        let mut list = list;
        list[4] = field.modulus() - 1;
        let drawing = "digraph g {\nn0 [label=\"in 5\"];\nn1 [label=\"const -1 0\"];\n\
            n2 [label=\"sub\"];\nn3 [label=\"neg\"];\nn4 [label=\"mul\"];\n\
            n2 -> n0;\nn2 -> n1;\nn3 -> n2;\nn4 -> n3;\nn4 -> n3;\n}\n";
        let [_, mut text] = boxes(field);
        assert_eq!(ace::draw(field, &list, 5, &[4], &mut text), Ok(drawing.len()));
        let (front, behind) = text.split_at(drawing.len());
        assert_eq!(std::str::from_utf8(front), Ok(drawing));
        assert!(behind.iter().all(|&byte| byte == 0));
    }
}

#[test]
fn the_roots_are_not_drawn() {
    for field in Field::ALL {
        let list = every_kind(field, 12);
        let (list, n) = counted(&list);
        let drawn = |roots: &[u64]| {
            let [_, mut text] = boxes(field);
            ace::draw(field, list, n, roots, &mut text).map(|length| text[..length].to_vec())
        };
        let drawing = drawn(&[11]);
        assert!(drawing.is_ok());
        for roots in [&[0][..], &[3, 3], &[7, 6, 5, 4, 3, 2, 1, 0]] {
            assert_eq!(drawn(roots), drawing);
        }
    }
}

#[test]
fn what_stands_behind_a_list_is_not_drawn() {
    for field in Field::ALL {
        let (short, long) = (every_kind(field, 7), every_kind(field, 60));
        let [mut one, mut other] = boxes(field);
        let length = ace::draw(field, &short, 7, &[6], &mut one);
        assert_eq!(ace::draw(field, &long, 7, &[6], &mut other), length);
        assert_eq!(one, other);
    }
}

#[test]
fn a_refusal_leaves_the_long_drawing() {
    let late = [0, 0, 0, 2, 0, 1];
    for field in Field::ALL {
        let [_, mut held] = boxes(field);
        let before = held.clone();
        for (list, n, roots, number, place) in [
            (&late[..3], 0, &[0][..], 1, 0),
            (&late, 4_097, &[0], 1, 0),
            (&late, 3, &[0], 2, 0),
            (&[6, 0, 0], 1, &[0], 3, 0),
            (&[1, u64::MAX, 0], 1, &[0], 4, 0),
            (&late, 2, &[], 5, 1),
            (&late[..3], 1, &[], 46, 0),
            (&late[..3], 1, &[1; 9], 46, 0),
            (&late[..3], 1, &[0, 1], 6, 0),
        ] {
            for room in [0, 32, ROOM] {
                let drawn = ace::draw(field, list, n, roots, &mut held[..room]);
                assert_eq!(drawn, Err(Refusal { number, place }));
                assert_eq!(held, before);
            }
        }
        let list = every_kind(field, MOST);
        for room in [0, 1, 100_000] {
            let drawn = ace::draw(field, &list, MOST as u64, &[0], &mut held[..room]);
            assert_eq!(drawn, Err(Refusal { number: 41, place: 0 }));
            assert_eq!(held, before);
        }
    }
}

#[test]
fn a_number_that_no_field_has_leaves_the_text() {
    for (field, n) in [0, 3, 1 << 32 | 1, u64::MAX].into_iter().flat_map(|f| [(f, 0), (f, 1)]) {
        for room in [0, 33] {
            let (mut text, mut answer) = (vec![b'#'; room], [u64::MAX; words::ANSWER]);
            words::draw(field, &[0, 0, 0], n, &[0], &mut text, &mut answer);
            assert_eq!(answer, [49, 0, 0, 0]);
            assert!(text.iter().all(|&byte| byte == b'#'));
        }
    }
}

#[test]
fn a_text_that_just_fits_is_taken_whole() {
    for field in Field::ALL {
        let list = every_kind(field, 12);
        let (list, n) = counted(&list);
        let [mut whole, mut exact] = boxes(field);
        let length = ace::draw(field, list, n, &[0], &mut whole).expect("a list");
        let before = exact.clone();
        let short = ace::draw(field, list, n, &[0], &mut exact[..length - 1]);
        assert_eq!(short, Err(Refusal { number: 41, place: 0 }));
        assert_eq!(exact, before);
        assert_eq!(ace::draw(field, list, n, &[0], &mut exact[..length]), Ok(length));
        assert_eq!((&exact[..length], &exact[length..]), (&whole[..length], &before[length..]));
    }
}
