//! When a call says no: document 01's numbers, in its order.

use crate::case::{Record, records};
use crate::field::Field;
use crate::keys::is_key;

/// The most records of a list.
pub const LIMIT: u64 = 4_096;

/// The most roots of a list.
pub const MOST_ROOTS: usize = 8;

/// The most entries of an assignment or a layout.
pub const ENTRIES: u64 = 4_096;

/// The most columns.
pub const COLUMNS: usize = 16;

/// The longest column.
pub const LONGEST: u64 = 128;

/// The words of the work store that Lower asks for.
pub const LOWER_WORK: usize = 12_288;

/// A refusal's number, and the record, entry or column at fault, else 0.
#[derive(Clone, Copy, Debug, PartialEq, Eq)]
pub struct Refusal {
    pub number: u64,
    pub place: u64,
}

impl Refusal {
    /// A refusal that names no place.
    pub fn new(number: u64) -> Self {
        Self { number, place: 0 }
    }

    /// A refusal at a record, entry or column.
    pub fn at(number: u64, place: usize) -> Self {
        Self { number, place: place as u64 }
    }
}

/// What is wrong with a record at this place: 3, 4 or 5.
pub fn check_record(field: Field, [tag, first, second]: Record, place: u64) -> Option<u64> {
    let malformed = match tag {
        0 => !is_key(first) || second != 0,
        1 => !field.has([first, second]),
        5 => second != 0,
        _ => false,
    };
    let late = match tag {
        2..=4 => first >= place || second >= place,
        5 => first >= place,
        _ => false,
    };
    if tag > 5 {
        Some(3)
    } else if malformed {
        Some(4)
    } else if late {
        Some(5)
    } else {
        None
    }
}

/// Whether a list may have so many roots.
pub(crate) fn is_root_count(count: usize) -> bool {
    (1..=MOST_ROOTS).contains(&count)
}

/// The records of a list that passes the check; one without roots may be empty.
pub fn check_list(
    field: Field,
    store: &[u64],
    n: u64,
    roots: Option<&[u64]>,
) -> Result<Vec<Record>, Refusal> {
    if (n == 0 && roots.is_some()) || n > LIMIT {
        return Err(Refusal::new(1));
    }
    if (store.len() as u64) < 3 * n {
        return Err(Refusal::new(2));
    }
    let list = records(&store[..3 * n as usize]);
    for (place, &record) in list.iter().enumerate() {
        if let Some(number) = check_record(field, record, place as u64) {
            return Err(Refusal::at(number, place));
        }
    }
    if roots.is_some_and(|roots| !is_root_count(roots.len())) {
        return Err(Refusal::new(46));
    }
    if roots.is_some_and(|roots| roots.iter().any(|&root| root >= n)) {
        return Err(Refusal::new(6));
    }
    Ok(list)
}

/// The entries of an assignment that passes its tests.
pub fn check_assignment(field: Field, store: &[u64], m: u64) -> Result<Vec<Record>, Refusal> {
    if m > ENTRIES {
        return Err(Refusal::new(11));
    }
    if (store.len() as u64) < 3 * m {
        return Err(Refusal::new(2));
    }
    let entries = records(&store[..3 * m as usize]);
    match entries.iter().position(|&[key, c0, c1]| !is_key(key) || !field.has([c0, c1])) {
        Some(place) => Err(Refusal::at(4, place)),
        None => Ok(entries),
    }
}

/// The place of the first of these numbers that no key has.
pub(crate) fn layout_fault(keys: &[u64]) -> Option<usize> {
    keys.iter().position(|&key| !is_key(key))
}

/// The keys of a layout that passes its tests.
pub fn check_layout(store: &[u64], k: u64) -> Result<Vec<u64>, Refusal> {
    if k > ENTRIES {
        return Err(Refusal::new(11));
    }
    if (store.len() as u64) < k {
        return Err(Refusal::new(2));
    }
    let keys = &store[..k as usize];
    match layout_fault(keys) {
        Some(place) => Err(Refusal::at(4, place)),
        None => Ok(keys.to_vec()),
    }
}

/// The columns, where Prepare's tests let them pass.
pub fn check_columns(
    field: Field,
    lengths: &[u64],
    entries: &[u64],
) -> Result<Vec<Vec<u64>>, Refusal> {
    if lengths.len() > COLUMNS {
        return Err(Refusal::new(13));
    }
    let is_length = |&length: &u64| length.is_power_of_two() && length <= LONGEST;
    if let Some(place) = lengths.iter().position(|length| !is_length(length)) {
        return Err(Refusal::at(14, place));
    }
    if (entries.len() as u64) < lengths.iter().sum() {
        return Err(Refusal::new(2));
    }
    let mut rest = entries;
    let mut columns = Vec::new();
    for &length in lengths {
        let (column, behind) = rest.split_at(length as usize);
        columns.push(column.to_vec());
        rest = behind;
    }
    match columns.iter().position(|column| column.iter().any(|&entry| !field.has([entry, 0]))) {
        Some(place) => Err(Refusal::at(4, place)),
        None => Ok(columns),
    }
}
