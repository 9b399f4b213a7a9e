//! A sample of the Rust's answers, for the program `replay`; several roots are tied together.
//! Drawing, which the Rust doesn't do, is not among its answers.
//!
//! A stream of 64-bit little-endian words, a section for each call: the call's number, from 1 in
//! the order of `Call`, the number of cases, the number of the words that follow, and those: for
//! each case its numbers in the order of the call's signature, the field's first, each store as
//! lent, the answer words, and each writable store after the call. A store as lent is its length, a
//! filling word, the number of words given and those words; the rest are the filling word. After
//! the call the length is left out.

use std::collections::HashMap;
use std::ops::ControlFlow::{Break, Continue};

use model::{Call, Case, Event, Field, Mutant, Outcome, Paper, expected};

use crate::cases::{self, Flow};
use crate::{Rng, Rust};

/// The calls that are recorded, in the order of `Call`.
pub const CALLS: [Call; 8] = [
    Call::Step,
    Call::Build,
    Call::Compact,
    Call::Normalize,
    Call::Evaluate,
    Call::Prepare,
    Call::Lower,
    Call::Emit,
];

/// The most words of an ordinary case.
const ORDINARY: usize = 100;

/// The most words of a long case, of which few are taken.
const LONG: usize = 400;

/// How many cases that tell a wrong definition from the right one are taken for each.
const TELLING: usize = 2;

/// The words that `replay` has for a store that is only read, and for one that is written.
pub const READ: usize = 4_096;
pub const WRITTEN: usize = 12_352;

/// The words up to where the rest are equal, and the word that they equal.
fn packed(store: &[u64]) -> Vec<u64> {
    let fill = store.last().copied().unwrap_or(0);
    let given = store.iter().rposition(|&word| word != fill).map_or(0, |place| place + 1);
    [&[fill, given as u64], &store[..given]].concat()
}

/// One case and its outcome as words.
fn case_words(case: &Case, outcome: &Outcome) -> Vec<u64> {
    let mut words = case.scalars.clone();
    for store in &case.stores {
        words.push(store.len() as u64);
        words.extend(packed(store));
    }
    words.extend(&outcome.answer);
    for store in &outcome.after {
        words.extend(packed(store));
    }
    words
}

/// Whether `replay` has room for the stores of a case.
fn has_room(case: &Case) -> bool {
    let mut stores = case.call.signature().stores.iter().zip(&case.stores);
    stores.all(|(store, words)| words.len() <= if store.1 { WRITTEN } else { READ })
}

/// Whether a case has room and is not too long.
fn fits(case: &Case, outcome: &Outcome) -> bool {
    has_room(case) && case_words(case, outcome).len() <= LONG
}

/// The cases chosen over a field so far.
struct Sample {
    field: Field,
    /// How many of each outcome there are.
    seen: HashMap<u64, usize>,
    /// How many long ones there are.
    long: usize,
    chosen: Vec<(Case, Outcome)>,
    /// The cases wanted.
    count: usize,
    /// The most cases of one refusal.
    most: usize,
}

impl Sample {
    fn new(call: Call, field: Field, count: usize) -> Self {
        let most = count / (6 + call.signature().refusals.len()) + 1;
        Self { field, seen: HashMap::new(), long: 0, chosen: Vec::new(), count, most }
    }

    /// Takes a case of the field that is not too long, and whose outcome is not yet met often
    /// enough.
    fn take(&mut self, case: Case) {
        if case.scalars[0] != self.field.number {
            return;
        }
        let outcome = expected(&case, &mut Rust(self.field));
        let number = outcome.answer[0];
        let most = if number == 0 { self.count } else { self.most };
        let is_long = case_words(&case, &outcome).len() > ORDINARY;
        let met = self.seen.entry(number).or_default();
        let unfit = !fits(&case, &outcome) || (is_long && self.long >= self.count / 30);
        if unfit || *met >= most || self.chosen.len() >= self.count {
            return;
        }
        *met += 1;
        self.long += usize::from(is_long);
        self.chosen.push((case, outcome));
    }

    /// Takes a case at random, and another one with several roots where the call takes roots.
    fn take_random(&mut self, call: Call, rng: &mut Rng) {
        self.take(cases::random(call, self.field, rng));
        if let Some(case) = cases::several_roots(call, self.field, rng) {
            self.take(case);
        }
    }
}

/// Short cases of a field that a wrong definition answers otherwise than the Rust.
fn telling(mutant: Mutant, call: Call, field: Field, rng: &mut Rng) -> Vec<(Case, Outcome)> {
    let mut paper = Paper::wrong(mutant, field);
    let mut found = Vec::new();
    let mut keep = |case: Case| -> Flow {
        let right = expected(&case, &mut Rust(field));
        let is_over = case.scalars[0] == field.number;
        if is_over && fits(&case, &right) && expected(&case, &mut paper) != right {
            found.push((case, right));
        }
        if found.len() < TELLING { Continue(()) } else { Break(()) }
    };
    let _ = cases::telling(call, field, rng, &mut keep);
    found
}

/// Cases of a call over a field, `count` of them.
fn over(call: Call, field: Field, count: usize, rng: &mut Rng) -> Vec<(Case, Outcome)> {
    let mut sample = Sample::new(call, field, count);
    // Cases of no field tell when a field's number is tested.
    let others = Mutant::ALL.iter().filter(|mutant| **mutant != Mutant::FieldLate);
    for &mutant in others {
        if mutant.calls().contains(&call) && mutant.shows_in(field) {
            sample.chosen.extend(telling(mutant, call, field, rng));
        }
    }
    sample.chosen.truncate(count);
    let mut corners = Vec::new();
    let mut keep = |case| -> Flow {
        corners.push(case);
        Continue(())
    };
    let _ = cases::faulty(call, field, rng, false, &mut keep);
    let _ = cases::fixed(call, field, rng, false, &mut keep);
    rng.shuffle(&mut corners);
    for corner in corners.into_iter().take(count) {
        sample.take(corner);
        sample.take_random(call, rng);
    }
    for _ in 0..60 * count {
        sample.take_random(call, rng);
    }
    sample.most = count;
    while sample.chosen.len() < count {
        sample.take_random(call, rng);
    }
    sample.chosen
}

/// Cases with numbers that no field has, each another one, by turns with a good list or columns
/// and with a fault in them.
fn of_no_field(call: Call, count: usize, rng: &mut Rng) -> Vec<(Case, Outcome)> {
    let field = Field::GOLDILOCKS;
    let mut found: Vec<(Case, Outcome)> = Vec::new();
    let mut keep = |case: Case| -> Flow {
        let number = case.scalars[0];
        let mut paper = Paper::over(field);
        let outcome = expected(&case, &mut paper);
        let wanted = [Event::FieldAlone, Event::FieldFirst][found.len() % 2];
        let is_new = found.iter().all(|(other, _)| other.scalars[0] != number);
        if is_new && fits(&case, &outcome) && paper.tally.of(wanted) == 1 {
            found.push((case, outcome));
        }
        if found.len() < count { Continue(()) } else { Break(()) }
    };
    if count > 0 {
        let _ = cases::faulty(call, field, rng, true, &mut keep);
    }
    found
}

/// The cases recorded for a call, `count` of them, the same for the same seed: of 60, 36 over field
/// 1, 23 over field 2 and one of no field.
pub fn chosen(call: Call, count: usize, seed: u64) -> Vec<(Case, Outcome)> {
    let mut rng = Rng::new(seed);
    let (second, none) = (count * 23 / 60, count / 60);
    let mut chosen = over(call, Field::GOLDILOCKS, count - second - none, &mut rng);
    chosen.extend(over(call, Field::BABY_BEAR, second, &mut rng));
    chosen.extend(of_no_field(call, none, &mut rng));
    chosen
}

/// The section of a call's cases as bytes.
pub fn section(call: Call, chosen: &[(Case, Outcome)]) -> Vec<u8> {
    let cases: Vec<u64> =
        chosen.iter().flat_map(|(case, outcome)| case_words(case, outcome)).collect();
    let head = [call as u64 + 1, chosen.len() as u64, cases.len() as u64];
    head.iter().chain(&cases).flat_map(|word| word.to_le_bytes()).collect()
}

/// The sections of these calls, one after the other.
pub fn stream(calls: &[Call], count: usize, seed: u64) -> Vec<u8> {
    calls.iter().flat_map(|&call| section(call, &chosen(call, count, seed))).collect()
}
