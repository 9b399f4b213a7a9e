//! Faults, and the good values beside them, that are put into a case.

use model::field::{P, Q};
use model::{Call, Case, Field, LIMIT, LOWER_WORK, MOST_ROOTS, records};

use super::{circuits, drawings};
use crate::Rng;

/// Numbers of records that wrap, are too many, or are none.
const COUNTS: [u64; 8] =
    [0, LIMIT, LIMIT + 1, 1 << 32, 1 << 63, u64::MAX, u64::MAX / 3 + 1, u64::MAX / 6 + 1];

/// Numbers that no field has.
pub(super) const NO_FIELD: [u64; 5] = [0, 3, 1 << 32 | 1, 1 << 32 | 2, u64::MAX];

/// Coordinates and entries at the edges of either field.
pub(super) const COORDINATES: [u64; 7] = [1, Q - 1, Q, u32::MAX as u64, P - 1, P, u64::MAX];

/// Periods at the edges of either field, and none.
pub(super) const PERIODS: [u64; 13] = [
    0,
    1,
    3,
    24,
    1 << 27,
    (1 << 27) + 1,
    1 << 28,
    1 << 31,
    1 << 32,
    (1 << 32) + 1,
    1 << 33,
    1 << 63,
    u64::MAX,
];

/// Numbers of roots at the limits, and ones that a byte would mistake for 1.
const ROOT_COUNTS: [usize; 8] = [1, 2, MOST_ROOTS, MOST_ROOTS + 1, 16, 255, 257, 4_096];

/// Places that no short list has.
const FAR: [u64; 3] = [1 << 32, 1 << 63, u64::MAX];

/// One change of a case.
#[derive(Clone, Debug)]
pub(super) enum Fault {
    /// A number takes this value.
    Scalar(usize, u64),
    /// A store takes this length.
    Length(usize, usize),
    /// A word of a store takes this value.
    Word(usize, usize, u64),
}

impl Fault {
    /// Makes the change.
    pub(super) fn apply(&self, case: &mut Case, rng: &mut Rng) {
        match *self {
            Fault::Scalar(place, value) => case.scalars[place] = value,
            Fault::Length(store, length) => {
                case.stores[store].resize_with(length, || rng.below(9));
            }
            Fault::Word(store, place, value) => {
                if let Some(word) = case.stores[store].get_mut(place) {
                    *word = value;
                }
            }
        }
    }
}

/// The changes that touch a boundary of this case.
pub(super) fn faults(case: &Case, rng: &mut Rng) -> Vec<Fault> {
    let mut faults = Vec::new();
    let signature = case.call.signature();
    for (place, &name) in signature.scalars.iter().enumerate() {
        faults.extend(values(case, name).into_iter().map(|value| Fault::Scalar(place, value)));
    }
    for (place, store) in signature.stores.iter().enumerate() {
        let needed = needed(case, store.0);
        let lengths = [needed, needed.saturating_sub(1), needed + 1, 0, needed / 2];
        faults.extend(lengths.map(|length| Fault::Length(place, length)));
        faults.extend(match store.0 {
            "list" => list_words(case, place, rng),
            "roots" => root_words(case, place),
            "assignment" => assignment_words(case, place, rng),
            "layout" => layout_words(case, place, rng),
            "lengths" => length_words(case, place, rng),
            "entries" => entry_words(case, place, rng),
            _ => vec![],
        });
    }
    faults
}

/// A number of records or entries, at most as many as there may be; 0 where the call has none.
fn counted(case: &Case, name: &str) -> usize {
    case.number(name).unwrap_or(0).min(LIMIT) as usize
}

/// The number of whole records within both n and the store.
fn held(case: &Case) -> usize {
    counted(case, "n").min(case.stores[0].len() / 3)
}

/// The number of columns' entries that the lengths ask for.
fn total(lengths: &[u64]) -> usize {
    lengths.iter().map(|&length| length.min(1_000) as usize).sum()
}

/// The words that a store needs.
fn needed(case: &Case, store: &str) -> usize {
    let n = counted(case, "n");
    match (store, case.call) {
        ("list", Call::Step) => 3 * (n + 1),
        ("work", Call::Lower) => LOWER_WORK,
        ("result", Call::Lower) => case.stores[3].len(),
        ("result", Call::Emit) => circuits::length(case),
        ("work", _) => 6 * n,
        ("map", _) => n,
        ("roots", _) => case.stores[1].len(),
        ("assignment", _) => 3 * counted(case, "m"),
        ("layout", _) => counted(case, "k"),
        ("lengths", _) => 16,
        ("entries", Call::Prepare) => total(&case.stores[0]),
        ("entries", _) => total(&case.stores[1]),
        ("text", _) => text_length(case),
        ("places", _) => case.stores[1].len(),
        _ => 3 * n,
    }
}

/// The bytes of what Draw writes, or of its store where its list is refused.
fn text_length(case: &Case) -> usize {
    let named = Field::numbered(case.scalars[0]);
    let drawn = named.and_then(|field| drawings::length(field, &case.stores[0], case.scalars[1]));
    drawn.unwrap_or(case.stores[2].len())
}

/// The values to try for a number.
fn values(case: &Case, name: &str) -> Vec<u64> {
    let own = case.number(name).unwrap_or(0);
    let n = case.number("n").unwrap_or(0);
    match name {
        "field" => NO_FIELD.to_vec(),
        "n" => [&COUNTS[..], &[n.wrapping_add(1), n.wrapping_sub(1), n | 1 << 32]].concat(),
        "m" | "k" => [&COUNTS[..], &[own.wrapping_add(1), own.wrapping_sub(1)]].concat(),
        "tag" => vec![0, 1, 2, 3, 4, 5, 6, 1 << 32 | 2, u64::MAX],
        "first" | "second" => {
            let keys = [22 << 48, 1 << 48 | 1, 1 << 16];
            let places = [0, n, n.wrapping_add(1), n.wrapping_sub(1), n | 1 << 32];
            [&keys[..], &COORDINATES, &places].concat()
        }
        "period" => {
            let longest = case.stores[1].iter().copied().max().unwrap_or(1);
            [&PERIODS[..], &[longest, longest / 2, longest.wrapping_add(1)]].concat()
        }
        _ => unreachable!("no such number"),
    }
}

/// Changes of the first, the last and another record.
fn list_words(case: &Case, store: usize, rng: &mut Rng) -> Vec<Fault> {
    let held = held(case);
    if held == 0 {
        return vec![];
    }
    let mut places = vec![0, held - 1, rng.below(held as u64) as usize];
    places.sort_unstable();
    places.dedup();
    let list = records(&case.stores[store][..3 * held]);
    let mut faults = Vec::new();
    for place in places {
        let own = place as u64;
        let mut set = |word: usize, values: &[u64]| {
            faults.extend(values.iter().map(|&value| Fault::Word(store, 3 * place + word, value)));
        };
        set(0, &[6, 1 << 32, u64::MAX]);
        match list[place][0] {
            0 => {
                set(1, &[22 << 48, 1 << 48 | 1, 1 << 16, 4 << 48 | 1 << 32, u64::MAX, 21 << 48]);
                set(2, &[1, u64::MAX]);
            }
            1 => {
                set(1, &COORDINATES);
                set(2, &COORDINATES);
            }
            5 => {
                set(1, &[own, own + 1, own.saturating_sub(1), 1 << 32, u64::MAX]);
                set(2, &[1, u64::MAX]);
            }
            _ => {
                set(1, &[own, own + 1, own.saturating_sub(1), 1 << 32, u64::MAX]);
                set(2, &[own, own + 1, own.saturating_sub(1), 1 << 32, u64::MAX]);
            }
        }
    }
    faults
}

/// Numbers of roots that are too many or none, and each root inside and outside the list.
fn root_words(case: &Case, store: usize) -> Vec<Fault> {
    let mut faults = ROOT_COUNTS.map(|count| Fault::Length(store, count)).to_vec();
    let n = case.number("n").unwrap_or(0);
    let places = [&FAR[..], &[n, n.wrapping_add(1), n.wrapping_sub(1), 0, n | 1 << 32]].concat();
    for root in 0..case.stores[store].len().min(MOST_ROOTS) {
        faults.extend(places.iter().map(|&place| Fault::Word(store, root, place)));
    }
    faults
}

/// Changes of the first, the last and another entry.
fn assignment_words(case: &Case, store: usize, rng: &mut Rng) -> Vec<Fault> {
    let entries = counted(case, "m").min(case.stores[store].len() / 3);
    if entries == 0 {
        return vec![];
    }
    let mut faults = Vec::new();
    for place in [0, entries - 1, rng.below(entries as u64) as usize] {
        for key in [22 << 48, 1 << 48 | 1, u64::MAX, 9] {
            faults.push(Fault::Word(store, 3 * place, key));
        }
        for coordinate in COORDINATES {
            faults.push(Fault::Word(store, 3 * place + 1, coordinate));
            faults.push(Fault::Word(store, 3 * place + 2, coordinate));
        }
    }
    faults
}

/// Changes of the first, the last and another key.
fn layout_words(case: &Case, store: usize, rng: &mut Rng) -> Vec<Fault> {
    let keys = counted(case, "k").min(case.stores[store].len());
    if keys == 0 {
        return vec![];
    }
    let own = case.stores[store][0];
    let mut faults = Vec::new();
    for place in [0, keys - 1, rng.below(keys as u64) as usize] {
        for key in [22 << 48, 1 << 48 | 1, u64::MAX, 9, own] {
            faults.push(Fault::Word(store, place, key));
        }
    }
    faults
}

/// More columns than 16, and lengths that are none.
fn length_words(case: &Case, store: usize, rng: &mut Rng) -> Vec<Fault> {
    let columns = case.stores[store].len();
    let mut faults = vec![Fault::Length(store, 17), Fault::Length(store, columns + 1)];
    if columns > 0 {
        for place in [0, columns - 1, rng.below(columns as u64) as usize] {
            for length in [0, 1, 2, 3, 6, 96, 128, 129, 256, 1 << 32, 1 << 63, u64::MAX] {
                faults.push(Fault::Word(store, place, length));
            }
        }
    }
    faults
}

/// Entries at, above and just below each modulus; also behind the last column.
fn entry_words(case: &Case, store: usize, rng: &mut Rng) -> Vec<Fault> {
    let total = total(&case.stores[store - 1]);
    let mut faults = Vec::new();
    let any = rng.below(total as u64 + 1) as usize;
    for place in [0, total.saturating_sub(1), total, any] {
        for entry in COORDINATES {
            faults.push(Fault::Word(store, place, entry));
        }
    }
    faults
}
