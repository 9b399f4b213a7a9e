//! Two boxes: one store is fresh, the other held a longer list. A short list comes to the same
//! answer and the same words in both, and every word behind it is the blank.

use ace::{BLANK, Field, words};
use words::{ANSWER, LIST, MOST_ROOTS};

/// The most records of a list.
const MOST: usize = 4_096;

/// The shared period of every lowering here.
const PERIOD: u64 = 8;

/// The calls that write a list whole.
#[derive(Clone, Copy, Debug, PartialEq)]
enum Call {
    Build,
    Compact,
    Normalize,
    Lower,
}

use Call::{Build, Compact, Lower, Normalize};

const CALLS: [Call; 4] = [Build, Compact, Normalize, Lower];

/// The calls on a list with roots.
const ROOTED: [Call; 3] = [Build, Compact, Normalize];

/// A list of records, its roots, and the lengths and entries of the columns lowered on it.
#[derive(Clone, Debug)]
struct List {
    field: Field,
    records: Vec<[u64; 3]>,
    roots: Vec<u64>,
    lengths: Vec<u64>,
    entries: Vec<u64>,
}

impl List {
    /// These records, the last one the root, and a column of four.
    fn new(field: Field, records: Vec<[u64; 3]>) -> Self {
        let roots = vec![records.len() as u64 - 1];
        Self { field, records, roots, lengths: vec![4], entries: vec![1, 2, 3, 4] }
    }

    /// Inputs, then sums of two earlier records: n records that no call shortens.
    fn long(field: Field, n: usize) -> Self {
        let inputs = n as u64 / 2;
        let mut records: Vec<[u64; 3]> = (0..inputs).map(|key| [0, key, 0]).collect();
        records.extend((inputs..n as u64).map(|place| [2, place - inputs, place - 1]));
        Self::new(field, records)
    }

    /// A list that this call makes as long as one can be; of Lower, with 16 columns of one entry:
    /// a constant each, ZK three times squared, and 0.
    fn longest(call: Call, field: Field) -> Self {
        let list = Self::long(field, if call == Lower { MOST - 21 } else { MOST });
        Self { lengths: vec![1; 16], entries: (1..=16).collect(), ..list }
    }

    fn n(&self) -> u64 {
        self.records.len() as u64
    }

    fn words(&self) -> &[u64] {
        self.records.as_flattened()
    }
}

/// Short lists of every kind of record; the third is document 01's listing, and each is there a
/// second time with eight roots, its own among them.
fn short_lists(field: Field) -> Vec<List> {
    let c1 = if field == Field::Goldilocks { 7 } else { 0 };
    let inputs = [[0, 0, 0], [0, 1, 0], [0, 2, 0]];
    let listing = [&inputs[..], &[[4, 0, 1], [4, 0, 2], [2, 3, 4]]].concat();
    let rotation = [&inputs[..], &[[2, 0, 2], [2, 0, 1], [2, 2, 4], [4, 3, 5]]].concat();
    let kinds = vec![[0, 1, 0], [1, 2, c1], [2, 0, 1], [3, 2, 0], [4, 3, 3], [5, 4, 0]];
    let unused = List { roots: vec![0], ..List::new(field, inputs[..2].to_vec()) };
    let whole = [vec![[0, 0, 0]], vec![[1, 5, c1]], listing, rotation, kinds];
    let whole = whole.into_iter().map(|records| List::new(field, records)).chain([unused]);
    let one: Vec<List> = whole.collect();
    let eight = one.iter().map(|list| {
        let roots = (0..MOST_ROOTS as u64).map(|root| (list.roots[0] + root) % list.n()).collect();
        List { roots, ..list.clone() }
    });
    one.iter().cloned().chain(eight).collect()
}

/// The answer words that a call writes.
fn answered<const N: usize>(call: impl FnOnce(&mut [u64; N])) -> [u64; N] {
    let mut answer = [u64::MAX; N];
    call(&mut answer);
    answer
}

/// A refusal of a call on a list.
fn refusal(number: u64, place: u64) -> [u64; LIST] {
    let mut answer = [0; LIST];
    answer[..2].copy_from_slice(&[number, place]);
    answer
}

/// A box: the stores that it lends again and again.
#[derive(Clone, Debug)]
struct Stores {
    result: Vec<u64>,
    map: Vec<u64>,
    work: Vec<u64>,
    places: Vec<u64>,
}

impl Stores {
    /// Stores of zeros, with room for the longest list and a little more.
    fn fresh() -> Self {
        Self {
            result: vec![0; 3 * MOST + 5],
            map: vec![0; MOST + 5],
            work: vec![0; 6 * MOST + 5],
            places: vec![0; 16 + 5],
        }
    }

    /// Stores of words that were left behind: records among them.
    fn used() -> Self {
        let mut stores = Self::fresh();
        let left = |store: &mut Vec<u64>| {
            for (place, word) in store.iter_mut().enumerate() {
                *word = if place % 3 == 0 { place as u64 / 3 % 6 } else { !(place as u64) };
            }
        };
        left(&mut stores.result);
        left(&mut stores.map);
        left(&mut stores.work);
        left(&mut stores.places);
        stores
    }

    /// The call's answer words on a list, of which these words are lent as n records; those of
    /// Lower with zeros behind.
    fn call(&mut self, call: Call, list: &List, words: &[u64], n: u64) -> [u64; LIST] {
        self.in_field(list.field.number(), call, list, words, n)
    }

    /// The call's answer words in the field of this number.
    fn in_field(
        &mut self,
        field: u64,
        call: Call,
        list: &List,
        words: &[u64],
        n: u64,
    ) -> [u64; LIST] {
        let Self { result, map, work, places } = self;
        let (roots, lengths, entries) = (&list.roots, &list.lengths, &list.entries);
        answered(|answer| match call {
            Build => words::build(field, words, n, roots, result, map, answer),
            Compact => words::compact(field, words, n, roots, result, answer),
            Normalize => words::normalize(field, words, n, roots, result, work, answer),
            Lower => {
                let lowered: [u64; ANSWER] = answered(|answer| {
                    words::lower(
                        field, words, n, lengths, entries, PERIOD, result, work, places, answer,
                    );
                });
                answer.fill(0);
                answer[..ANSWER].copy_from_slice(&lowered);
            }
        })
    }

    /// The answer words of a list that is accepted.
    fn load(&mut self, call: Call, list: &List) -> [u64; LIST] {
        let answer = self.call(call, list, list.words(), list.n());
        assert_eq!(answer[0], 0, "{call:?} accepts {list:?}");
        answer
    }

    /// Whether the words behind the list are the blank, and all of a work store is.
    fn blank_behind(&self, call: Call, list: &List, count: u64) -> bool {
        let blank = |words: &[u64]| words.iter().all(|&word| word == BLANK);
        let behind = match call {
            Build => blank(&self.map[list.records.len()..]),
            Compact => true,
            Normalize => blank(&self.work),
            Lower => blank(&self.work) && blank(&self.places[list.lengths.len()..]),
        };
        behind && blank(&self.result[3 * count as usize..])
    }

    /// The stores that a call writes.
    fn written(&self, call: Call) -> Vec<&[u64]> {
        match call {
            Build => vec![&self.result, &self.map],
            Compact => vec![&self.result],
            Normalize => vec![&self.result, &self.work],
            Lower => vec![&self.result, &self.work, &self.places],
        }
    }
}

/// Loads the list into both boxes: the same answer, the same words, blanks behind.
fn agree(call: Call, list: &List, fresh: &mut Stores, used: &mut Stores) {
    let answer = fresh.load(call, list);
    assert_eq!(used.load(call, list), answer, "{call:?} on {list:?}");
    assert_eq!(used.written(call), fresh.written(call), "{call:?} on {list:?}");
    assert!(used.blank_behind(call, list, answer[1]), "{call:?} on {list:?}");
}

#[test]
fn a_short_list_behind_a_long_one() {
    for (first, field) in CALLS.into_iter().flat_map(|call| Field::ALL.map(|field| (call, field))) {
        let (long, mut held) = (List::longest(first, field), Stores::used());
        assert_eq!(held.load(first, &long)[1], MOST as u64, "{first:?}");
        assert_eq!(held.result[..long.words().len()], *long.words());
        for second in CALLS {
            for short in short_lists(field) {
                agree(second, &short, &mut Stores::fresh(), &mut held.clone());
            }
        }
    }
}

#[test]
fn the_listing_is_in_both_boxes() {
    let expected = [0, 0, 0, 0, 1, 0, 0, 2, 0, 2, 1, 2, 4, 0, 3];
    for field in Field::ALL {
        let listing = &short_lists(field)[2];
        for mut stores in [Stores::fresh(), Stores::used()] {
            assert_eq!(stores.load(Normalize, listing), [0, 5, 1, 4, 0, 0, 0, 0, 0, 0, 0]);
            assert_eq!(stores.result[..15], expected);
            assert!(stores.result[15..].iter().all(|&word| word == BLANK));
        }
    }
}

#[test]
fn two_sets_that_share_a_list_are_in_both_boxes() {
    let inputs = [[0, 0, 0], [0, 1, 0], [0, 2, 0]];
    let sums = [[4, 0, 1], [4, 0, 2], [2, 3, 4], [2, 1, 2], [4, 0, 6]];
    for field in Field::ALL {
        let shared = List::new(field, [&inputs[..], &sums].concat());
        for mut stores in [Stores::fresh(), Stores::used()] {
            for (roots, answer) in [
                (vec![5, 1], [0, 5, 1, 4, 1, 0, 0, 0, 0, 0, 0]),
                (vec![7, 5, 7], [0, 5, 1, 4, 4, 4, 0, 0, 0, 0, 0]),
                (vec![5, 3], [0, 8, 0, 5, 3, 0, 0, 0, 0, 0, 0]),
            ] {
                let list = List { roots, ..shared.clone() };
                assert_eq!(stores.load(Normalize, &list), answer);
                assert!(stores.blank_behind(Normalize, &list, answer[1]));
            }
            let list = List { roots: vec![6, 4, 6], ..shared.clone() };
            let kept = [0, 5, 0, 4, 3, 4, 0, 0, 0, 0, 0];
            assert_eq!(stores.load(Compact, &list), kept);
            assert_eq!(stores.result[9..15], [4, 0, 2, 2, 1, 2]);
        }
    }
}

#[test]
fn a_column_of_one_entry_is_in_both_boxes() {
    for field in Field::ALL {
        let inputs = List::new(field, vec![[0, 9, 0]]);
        let list = List { lengths: vec![1], entries: vec![5], ..inputs };
        for mut stores in [Stores::fresh(), Stores::used()] {
            assert_eq!(stores.load(Lower, &list)[..ANSWER], [0, 7, 0, 0]);
            let nodes = [0, 9, 0, 0, 11 << 48, 0, 4, 1, 1, 4, 2, 2, 4, 3, 3, 1, 5, 0, 1, 0, 0];
            assert_eq!(stores.result[..21], nodes);
            assert_eq!(stores.places[..2], [5, BLANK]);
            assert!(stores.blank_behind(Lower, &list, 7));
        }
    }
}

#[test]
fn one_box_for_a_month_of_lists() {
    let mut held = Stores::used();
    for (turn, n) in [700, 3, 64, 2, 699, 12, 5, 333, 1, 8, 90, 4].into_iter().enumerate() {
        let field = Field::ALL[turn % 2];
        let one = List::new(field, vec![[0, 9, 0]]);
        let list = if n == 1 { one } else { List::long(field, n) };
        for (next, short) in short_lists(field).into_iter().enumerate() {
            agree(CALLS[turn % 4], &list, &mut Stores::fresh(), &mut held);
            agree(CALLS[(turn / 4 + next) % 4], &short, &mut Stores::fresh(), &mut held);
        }
    }
}

/// A box that holds the longest lists of field 1, loaded by every call.
fn full_box() -> Stores {
    let mut held = Stores::used();
    for call in CALLS {
        held.load(call, &List::longest(call, Field::Goldilocks));
    }
    held
}

#[test]
fn a_refusal_leaves_the_long_list() {
    let mut held = full_box();
    let before = held.clone();
    let late = [0, 0, 0, 2, 0, 1];
    for (calls, words, n, roots, refusal) in [
        (&CALLS[..], &late[..], 2, &[1][..], refusal(5, 1)),
        (&CALLS, &late, 3, &[0], refusal(2, 0)),
        (&CALLS, &late, 4_097, &[0], refusal(1, 0)),
        (&ROOTED, &late[..3], 1, &[1], refusal(6, 0)),
        (&ROOTED, &late[..3], 1, &[0, 0, u64::MAX], refusal(6, 0)),
        (&ROOTED, &late[..3], 1, &[], refusal(46, 0)),
        (&ROOTED, &late[..3], 1, &[0; 9], refusal(46, 0)),
        (&ROOTED, &late[..3], 1, &[1; 9], refusal(46, 0)),
        (&ROOTED, &late, 2, &[], refusal(5, 1)),
        (&ROOTED, &[], 0, &[0], refusal(1, 0)),
    ] {
        for (&call, field) in calls.iter().flat_map(|call| Field::ALL.map(|field| (call, field))) {
            let list = List { roots: roots.to_vec(), ..List::new(field, vec![[0, 0, 0]]) };
            assert_eq!(held.call(call, &list, words, n), refusal, "{call:?}");
            for written in CALLS {
                assert_eq!(held.written(written), before.written(written), "{call:?}");
            }
        }
    }
}

#[test]
fn a_number_that_no_field_has_leaves_the_long_list() {
    let mut held = full_box();
    let before = held.clone();
    let list = List::new(Field::Goldilocks, vec![[0, 0, 0]]);
    for field in [0, 3, 1 << 32 | 1, 1 << 32 | 2, u64::MAX] {
        for (call, n) in CALLS.into_iter().flat_map(|call| [1, 0, 2, u64::MAX].map(|n| (call, n))) {
            let answer = held.in_field(field, call, &list, list.words(), n);
            assert_eq!(answer, refusal(49, 0), "{call:?} of {n} records in field {field}");
            for written in CALLS {
                assert_eq!(held.written(written), before.written(written), "{call:?}");
            }
        }
    }
}

#[test]
fn refused_columns_leave_the_long_list() {
    let mut held = full_box();
    let before = held.clone();
    for field in Field::ALL {
        for (lengths, entries, refusal) in [
            (vec![1; 17], vec![0; 17], refusal(13, 0)),
            (vec![1, 3], vec![0; 4], refusal(14, 1)),
            (vec![4], vec![0; 3], refusal(2, 0)),
            (vec![1, 1], vec![0, field.modulus()], refusal(4, 1)),
            (vec![16], vec![0; 16], refusal(15, 0)),
        ] {
            let list = List { lengths, entries, ..List::new(field, vec![[0, 0, 0]]) };
            assert_eq!(held.call(Lower, &list, list.words(), 1), refusal);
            assert_eq!(held.written(Lower), before.written(Lower));
        }
    }
}

#[test]
fn a_lowering_without_room_blanks_its_work_alone() {
    for field in Field::ALL {
        let long = List::long(field, MOST);
        let list = List { lengths: vec![1; 16], entries: (1..=16).collect(), ..long };
        for held in [Stores::used(), full_box()] {
            let mut after = Stores { work: Stores::used().work, ..held.clone() };
            assert_eq!(after.call(Lower, &list, list.words(), list.n()), refusal(7, 0));
            assert_eq!((&after.result, &after.places), (&held.result, &held.places));
            assert!(after.work.iter().all(|&word| word == BLANK));
        }
    }
}

#[test]
fn what_stands_behind_a_list_is_not_read() {
    for short in Field::ALL.into_iter().flat_map(short_lists) {
        let (field, long) = (short.field, List::long(short.field, 60));
        let mut behind = short.words().to_vec();
        behind.extend(&long.words()[behind.len()..]);
        for call in CALLS {
            let (mut one, mut other) = (Stores::fresh(), Stores::fresh());
            let answer = one.load(call, &short);
            assert_eq!(other.call(call, &short, &behind, short.n()), answer);
            assert_eq!(one.written(call), other.written(call));
        }
        let assignment = [0, 3, 0, 1, 5, 0, 2, 1, 0];
        let (n, roots) = (short.n(), &short.roots);
        let value = |words: &[u64]| ace::evaluate(field, words, n, roots, &assignment, 3);
        assert!(value(&behind).is_ok());
        assert_eq!(value(&behind), value(short.words()));
    }
}

#[test]
fn a_step_writes_its_record_alone() {
    for short in Field::ALL.into_iter().flat_map(short_lists) {
        let (number, n) = (short.field.number(), short.n());
        let end = 3 * short.records.len();
        let mut held = [short.words(), &List::long(short.field, 60).words()[end..]].concat();
        let before = held.clone();
        let answer = answered(|answer| words::step(number, &mut held, n, 0, 77, 0, answer));
        assert_eq!(answer, [0, n, n + 1, 0]);
        assert_eq!(held[end..end + 3], [0, 77, 0]);
        assert_eq!((&held[..end], &held[end + 3..]), (&before[..end], &before[end + 3..]));
    }
}
