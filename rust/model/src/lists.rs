//! What roots reach, compaction, and the values of a list.

use std::collections::HashMap;

use crate::case::Record;
use crate::events::Event::*;
use crate::field::{Field, Pair};
use crate::judge::Paper;
use crate::mutants::Mutant;

/// The places that a record mentions.
pub(crate) fn operands([tag, first, second]: Record) -> Vec<u64> {
    match tag {
        0 | 1 => vec![],
        5 => vec![first],
        _ => vec![first, second],
    }
}

/// Marks of the records that a root reaches.
pub fn reached(list: &[Record], roots: &[u64]) -> Vec<bool> {
    let mut marks = vec![false; list.len()];
    roots.iter().for_each(|&root| marks[root as usize] = true);
    for place in (0..list.len()).rev() {
        if marks[place] {
            for operand in operands(list[place]) {
                marks[operand as usize] = true;
            }
        }
    }
    marks
}

/// The reachable records in order, with their operands and the roots renamed.
pub(crate) fn compact(
    paper: &mut Paper,
    list: &[Record],
    roots: &[u64],
) -> (Vec<Record>, Vec<u64>) {
    let marked = if paper.is(Mutant::FirstRootMarked) { &roots[..1] } else { roots };
    let marks = reached(list, marked);
    let mut renamed = vec![0; list.len()];
    let mut kept: Vec<Record> = Vec::new();
    let mut seen: HashMap<Record, u64> = HashMap::new();
    let mut duplicates = false;
    for (place, &[tag, first, second]) in list.iter().enumerate() {
        if !marks[place] {
            continue;
        }
        let record = match tag {
            0 | 1 => [tag, first, second],
            5 => [tag, renamed[first as usize], 0],
            _ => [tag, renamed[first as usize], renamed[second as usize]],
        };
        let equal = seen.insert(record, kept.len() as u64);
        duplicates |= equal.is_some();
        renamed[place] = match equal {
            Some(equal) if paper.is(Mutant::DuplicatesDropped) => equal,
            _ => {
                kept.push(record);
                kept.len() as u64 - 1
            }
        };
    }
    paper.met(if kept.len() == list.len() { NothingDropped } else { SomeDropped });
    if duplicates {
        paper.met(DuplicatesKept);
    }
    let rename =
        |&root: &u64| if paper.is(Mutant::NoRename) { root } else { renamed[root as usize] };
    (kept, roots.iter().map(rename).collect())
}

/// The value of every record: an input's is its key's element.
pub fn values(field: Field, list: &[Record], element: impl Fn(u64) -> Pair) -> Vec<Pair> {
    let mut values: Vec<Pair> = Vec::with_capacity(list.len());
    for &[tag, first, second] in list {
        let value = |place: u64| values[place as usize];
        values.push(match tag {
            0 => element(first),
            1 => [first, second],
            2 => field.pair_add(value(first), value(second)),
            3 => field.pair_sub(value(first), value(second)),
            4 => field.pair_mul(value(first), value(second)),
            _ => field.pair_sub([0, 0], value(first)),
        });
    }
    values
}

/// The roots' values under an assignment; a key's last entry counts.
pub(crate) fn evaluate(
    paper: &mut Paper,
    list: &[Record],
    roots: &[u64],
    assignment: &[Record],
) -> Vec<Pair> {
    let mut elements: HashMap<u64, Pair> = HashMap::new();
    let mut repeated = false;
    for &[key, c0, c1] in assignment {
        let first = elements.get(&key).copied();
        repeated |= first.is_some_and(|first| first != [c0, c1]);
        elements.insert(key, first.filter(|_| paper.is(Mutant::FirstEntry)).unwrap_or([c0, c1]));
    }
    if repeated {
        paper.met(RepeatedKey);
    }
    let values = values(paper.field, list, |key| elements[&key]);
    roots.iter().map(|&root| values[root as usize]).collect()
}
