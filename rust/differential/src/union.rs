//! What several roots reach, place by place, by a walk that shares no code with document 01's.

use std::collections::{BTreeMap, BTreeSet};

use model::Record;

/// The places of a record's operands.
fn operands([tag, first, second]: Record) -> Vec<u64> {
    match tag {
        2..=4 => vec![first, second],
        5 => vec![first],
        _ => vec![],
    }
}

/// The places that a root reaches.
fn reached(list: &[Record], root: u64) -> BTreeSet<u64> {
    let (mut found, mut open) = (BTreeSet::new(), vec![root]);
    while let Some(place) = open.pop() {
        if found.insert(place) {
            open.extend(operands(list[place as usize]));
        }
    }
    found
}

/// The records at these places in order, with the new places of their operands, and of these roots.
fn kept(list: &[Record], places: &BTreeSet<u64>, roots: &[u64]) -> (Vec<Record>, Vec<u64>) {
    let new: BTreeMap<u64, u64> = places.iter().copied().zip(0..).collect();
    let renamed = |&place: &u64| match list[place as usize] {
        [tag @ 2..=4, first, second] => [tag, new[&first], new[&second]],
        [5, first, second] => [5, new[&first], second],
        other => other,
    };
    (places.iter().map(renamed).collect(), roots.iter().map(|root| new[root]).collect())
}

/// Whether the list and roots behind are exactly the union of what each root of those before keeps,
/// which is told root by root.
pub(crate) fn is_union(
    (list, roots): (&[Record], &[u64]),
    behind: (&[Record], &[u64]),
    each: &[(Vec<Record>, Vec<u64>)],
) -> bool {
    let places: Vec<_> = roots.iter().map(|&root| reached(list, root)).collect();
    let all: BTreeSet<u64> = places.iter().flatten().copied().collect();
    let alone = places.iter().zip(roots).map(|(places, &root)| kept(list, places, &[root]));
    let (union, new) = kept(list, &all, roots);
    alone.eq(each.iter().cloned()) && (&union[..], &new[..]) == behind
}

#[cfg(test)]
mod tests {
    use super::*;

    #[test]
    fn a_record_too_many_or_too_few_or_another_place_is_no_union() {
        let list = [[0, 0, 0], [0, 1, 0], [5, 0, 0], [2, 0, 1]];
        let each = [(vec![[0, 0, 0], [5, 0, 0]], vec![1]), (vec![[0, 1, 0]], vec![0])];
        let is = |roots: &[u64], union: &[Record], places: &[u64]| {
            is_union((&list, roots), (union, places), &each)
        };
        assert!(is(&[2, 1], &list[..3], &[2, 1]));
        assert!(!is(&[2, 1], &list, &[2, 1]));
        assert!(!is(&[2, 1], &list[..2], &[2, 1]));
        assert!(!is(&[2, 1], &list[..3], &[1, 2]));
        assert!(!is(&[2, 0], &list[..3], &[2, 0]));
        assert!(!is(&[2], &list[..3], &[2]));
    }
}
