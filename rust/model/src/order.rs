//! The order of Emit's refusals, and what is noted of its stores.

use std::collections::HashSet;

use crate::case::{Case, Record};
use crate::circuit::{FEWEST, last_operation};
use crate::events::Event::{self, *};
use crate::judge::Judge;
use crate::lists::reached;
use crate::mutants::Mutant;
use crate::refusal::{ENTRIES, Refusal, check_layout, check_list, layout_fault};

/// Takes note of how many keys an accepted layout has, and of the words behind the emission.
pub(crate) fn note_emitted(case: &Case, behind: usize, judge: &mut dyn Judge) {
    let keys = case.number("k").expect("a call on a layout");
    let corners = [
        (keys == 0, LayoutNone),
        (keys == 2, LayoutTwo),
        (keys == ENTRIES, LayoutMost),
        (behind == 0, ResultExact),
        (behind > 0, ResultBehind),
    ];
    corners.into_iter().filter(|corner| corner.0).for_each(|corner| judge.note(corner.1));
}

/// The numbers of the tests behind the list check, in their order.
const NUMBERS: [u64; 8] = [11, 2, 4, 12, 42, 43, 44, 2];

/// What each of them can come before, and the mistake that tests the next one first.
const BEFORE: [(Event, Mutant); 7] = [
    (KeysFirst, Mutant::LayoutShortEarly),
    (LayoutShortFirst, Mutant::BadKeyEarly),
    (BadKeyFirst, Mutant::MissingEarly),
    (MissingFirst, Mutant::NoneEarly),
    (NoneFirst, Mutant::NotLastEarly),
    (NotLastFirst, Mutant::OddEarly),
    (OddFirst, Mutant::ResultEarly),
];

/// What each of these tests says, as far as it can be made alone: a place, where there is a fault.
fn faults(case: &Case, list: &[Record], roots: &[u64]) -> [Option<usize>; 8] {
    let [_, _, k] = case.scalars[..] else { panic!("three numbers") };
    let [_, _, layout, result] = &case.stores[..] else { panic!("four stores") };
    let held = &layout[..layout.len().min(k.min(ENTRIES) as usize)];
    let (keys, last) = (HashSet::<u64>::from_iter(held.iter().copied()), last_operation(list));
    let missing = |record: &Record| record[0] == 0 && !keys.contains(&record[1]);
    [
        (k > ENTRIES).then_some(0),
        ((layout.len() as u64) < k).then_some(0),
        layout_fault(held),
        list.iter().position(missing),
        last.is_none().then_some(0),
        (roots.len() != 1 || last != Some(roots[0])).then_some(0),
        (k % 2 == 1).then_some(0),
        (result.len() < FEWEST).then_some(0),
    ]
}

/// The refusal in force, which by mistake is the next one; takes note of the corner that it is, and
/// of what would be refused behind it.
pub(crate) fn refused(case: &Case, refusal: Refusal, judge: &mut dyn Judge) -> Refusal {
    let [_, n, k] = case.scalars[..] else { panic!("three numbers") };
    let roots = case.roots().expect("a call with roots");
    let list = match check_list(judge.field(), &case.stores[0], n, Some(roots)) {
        Ok(list) => list,
        Err(refused) => {
            if refused.number < 6 && check_layout(&case.stores[2], k).is_err() {
                judge.note(ListBeforeLayout);
            }
            return refusal;
        }
    };
    let unreached = |place: u64| !reached(&list, roots)[place as usize];
    match refusal.number {
        11 if k == ENTRIES + 1 => judge.note(LayoutOver),
        11 if k >= 1 << 63 => judge.note(LayoutWraps),
        12 if unreached(refusal.place) => judge.note(UnreachableInput),
        44 if k == 1 => judge.note(LayoutOne),
        _ => {}
    }
    let faults = faults(case, &list, roots);
    let first = faults.iter().position(Option::is_some).unwrap_or(BEFORE.len());
    match (BEFORE.get(first), faults.get(first + 1)) {
        (Some(&(event, mistake)), Some(&Some(place))) => {
            judge.note(event);
            let next = Refusal::at(NUMBERS[first + 1], place);
            if judge.has(mistake) { next } else { refusal }
        }
        _ => refusal,
    }
}
