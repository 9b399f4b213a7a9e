//! Several roots as one: tied together behind their list, in records that no round touches.
//!
//! From each root an input is taken that the list has not, and these differences are multiplied by
//! each other. Then a record is reached from the last product where one of the roots reaches it, and
//! each root counts once in the fanout. No rule of a step and no rewrite applies to a difference
//! whose second operand stands nowhere else, nor to a product of such differences.

use std::collections::HashSet;

use model::Record;

/// The list with these roots tied together by inputs of these keys, one a root.
fn tie_by(keys: &[u64], list: &[Record], roots: &[u64]) -> Vec<Record> {
    let mut tied = list.to_vec();
    for (&key, &root) in keys.iter().zip(roots) {
        let last = tied.len() as u64 - 1;
        tied.extend([[0, key, 0], [3, root, last + 1]]);
        if tied.len() > list.len() + 2 {
            tied.push([4, last, last + 2]);
        }
    }
    tied
}

/// The list with these roots tied together: its last record reaches what they reach.
pub(crate) fn tie(list: &[Record], roots: &[u64]) -> Vec<Record> {
    let taken: HashSet<u64> = list.iter().map(|record| record[1]).collect();
    let free = (0..1 << 16).rev().filter(|key| !taken.contains(key));
    let keys: Vec<u64> = free.take(roots.len()).collect();
    tie_by(&keys, list, roots)
}

/// The list and the roots that were tied together, where the last record is the root of whole ties.
pub(crate) fn untie(tied: &[Record], root: u64, count: usize) -> Option<(Vec<Record>, Vec<u64>)> {
    let ties = tied.len().checked_sub(3 * count - 1)?;
    let (list, behind) = tied.split_at(ties);
    // The places of each root's input among the ties: 0, 2, 5, 8, …
    let inputs = (0..count).map(|root| (3 * root).saturating_sub(1));
    let keys: Vec<u64> = inputs.clone().map(|place| behind[place][1]).collect();
    let roots: Vec<u64> = inputs.map(|place| behind[place + 1][1]).collect();
    let are_whole = root + 1 == tied.len() as u64 && tie_by(&keys, list, &roots) == tied;
    are_whole.then(|| (list.to_vec(), roots))
}

#[cfg(test)]
mod tests {
    use super::*;

    #[test]
    fn what_was_tied_is_untied() {
        let list = [[0, 0, 0], [0, 65_535, 0], [2, 0, 1]];
        for roots in [&[2, 0][..], &[1, 1, 1], &[0, 1, 2, 0, 1, 2, 0, 1]] {
            let tied = tie(&list, roots);
            assert_eq!(tied.len(), list.len() + 3 * roots.len() - 1);
            let root = tied.len() as u64 - 1;
            assert_eq!(untie(&tied, root, roots.len()), Some((list.to_vec(), roots.to_vec())));
            assert_eq!(untie(&tied, root - 1, roots.len()), None);
            for place in list.len()..tied.len() {
                let mut other = tied.clone();
                other[place] = [5, 0, 0];
                assert_eq!(untie(&other, root, roots.len()), None);
            }
        }
    }
}
