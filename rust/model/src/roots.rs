//! A call's roots: how they are tested, what is noted of them, and how they are answered.

use crate::case::{Case, Record};
use crate::events::Event;
use crate::field::Field;
use crate::judge::Judge;
use crate::mutants::Mutant;
use crate::refusal::{MOST_ROOTS, Refusal, check_list, is_root_count};

/// The call's list and roots, where they pass the list check, and what the tests behind it give.
pub(crate) fn rooted<T>(
    case: &Case,
    field: Field,
    behind: Result<T, Refusal>,
    judge: &mut dyn Judge,
) -> Result<(Vec<Record>, Vec<u64>, T), Refusal> {
    let (n, roots) = case.number("n").zip(case.roots()).expect("a call with roots");
    let roots = tested(roots, n, judge);
    match check_list(field, &case.stores[0], n, Some(&roots)) {
        Ok(_) if roots.len() == MOST_ROOTS && judge.has(Mutant::EightRefused) => {
            Err(Refusal::new(46))
        }
        Ok(list) => Ok((list, roots, behind?)),
        Err(refusal) => {
            let refusal = in_order(refusal, &roots, n, judge);
            Err(before_stores(refusal, behind.err(), judge))
        }
    }
}

/// The roots that are tested: others than the given ones by mistake alone.
fn tested(roots: &[u64], n: u64, judge: &dyn Judge) -> Vec<u64> {
    match roots {
        [] if judge.has(Mutant::NoneTaken) => return vec![0],
        [eight @ .., _] if roots.len() == MOST_ROOTS + 1 && judge.has(Mutant::NineTaken) => {
            return eight.to_vec();
        }
        _ if judge.has(Mutant::RootsByte) => return roots[..roots.len() % 256].to_vec(),
        _ => {}
    }
    let (first, narrow) = (judge.has(Mutant::FirstRootTested), judge.has(Mutant::NarrowRoots));
    let taken = |(place, &root): (usize, &u64)| match place {
        _ if narrow => root % (1 << 32),
        1.. if first => root.min(n.saturating_sub(1)),
        _ => root,
    };
    roots.iter().enumerate().map(taken).collect()
}

/// The refusal of a list with these roots: 46 behind the records and before 6, save by mistake.
fn in_order(refusal: Refusal, roots: &[u64], n: u64, judge: &mut dyn Judge) -> Refusal {
    let (counted, outside) = (is_root_count(roots.len()), roots.iter().any(|&root| root >= n));
    let (event, mistake, other) = match refusal.number {
        1 | 2 if !counted => (Event::ListFirst, Mutant::RootsAtOnce, 46),
        3 | 4 if !counted => (Event::RecordFirst, Mutant::RootsEarly, 46),
        5 if !counted => (Event::OperandFirst, Mutant::RootsEarly, 46),
        46 if outside => (Event::RootsFirst, Mutant::RootsLate, 6),
        _ => return refusal,
    };
    judge.note(event);
    if judge.has(mistake) { Refusal::new(other) } else { refusal }
}

/// The refusal of roots before that of the stores or the assignment behind, save by mistake.
fn before_stores(refusal: Refusal, behind: Option<Refusal>, judge: &mut dyn Judge) -> Refusal {
    match behind {
        Some(behind) if matches!(refusal.number, 6 | 46) => {
            judge.note(Event::StoresBehind);
            if judge.has(Mutant::StoresFirst) { behind } else { refusal }
        }
        _ => refusal,
    }
}

/// Whether two of these are equal.
pub fn coincide<T: PartialEq>(places: &[T]) -> bool {
    places.iter().enumerate().any(|(place, root)| places[..place].contains(root))
}

/// What these roots come to, in their order, save by mistake.
pub(crate) fn answered<T: Copy + PartialEq>(
    roots: &[u64],
    mut each: Vec<T>,
    judge: &mut dyn Judge,
) -> Vec<T> {
    if coincide(roots) {
        judge.note(Event::RootsTogether);
    }
    if judge.has(Mutant::RootsReversed) {
        each.reverse();
    }
    if judge.has(Mutant::LastRootForAll) {
        each = vec![each[each.len() - 1]; each.len()];
    }
    if judge.has(Mutant::EqualOnce) {
        each.dedup();
    }
    if judge.has(Mutant::Padded) {
        each.resize(MOST_ROOTS, each[each.len() - 1]);
    }
    each
}

/// The values of a call that answers a list of this length: it, the rounds kept, the roots.
pub(crate) fn listed(
    count: usize,
    rounds: u64,
    roots: &[u64],
    places: Vec<u64>,
    judge: &mut dyn Judge,
) -> Vec<u64> {
    if coincide(&places) && !coincide(roots) {
        judge.note(Event::RootsMeet);
    }
    let places = answered(roots, places, judge);
    match judge.has(Mutant::RoundsLast) {
        false => [&[count as u64, rounds], &places[..]].concat(),
        true => [&[count as u64], &places[..], &[rounds]].concat(),
    }
}
