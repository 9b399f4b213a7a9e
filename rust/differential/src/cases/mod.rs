//! The cases that are compared: corners by hand, short lists exhaustively, the rest at random.

mod circuits;
mod columns;
mod drawings;
mod exhaustive;
mod faults;
mod files;
mod fixed;
mod lists;
mod make;

use std::ops::ControlFlow::{self, Continue};

use model::{Call, Case, Field, Record};

use crate::Rng;

pub use circuits::{alternating, operations};
pub use files::{LONGEST_FILE, LONGEST_LENGTH, fixed_files, random_file};
pub use lists::{chain, colliding, expression, small_lists, unchanged};
pub use make::{column_case, list_case};

/// Whether more cases are wanted.
pub type Flow = ControlFlow<()>;

/// Where cases go.
pub type Sink<'a> = &'a mut dyn FnMut(Case) -> Flow;

/// Each fault of a call, and pairs of them: every pair where `thorough`.
pub fn faulty(call: Call, field: Field, rng: &mut Rng, thorough: bool, sink: Sink) -> Flow {
    fixed::faulty(call, field, rng, thorough, sink)
}

/// The corners of a call made by hand, and long lists: more of them where `thorough`.
pub fn fixed(call: Call, field: Field, rng: &mut Rng, thorough: bool, sink: Sink) -> Flow {
    match call {
        Call::Step => fixed::step(field, rng, thorough, sink),
        Call::Prepare => fixed::prepare(field, rng, thorough, sink),
        Call::Lower => fixed::lower(field, rng, thorough, sink),
        Call::Draw => {
            fixed::rooted(call, field, rng, thorough, sink)?;
            drawings::fixed(field, rng, sink)
        }
        Call::Emit => {
            fixed::rooted(call, field, rng, thorough, sink)?;
            circuits::fixed(field, rng, sink)
        }
        _ => fixed::rooted(call, field, rng, thorough, sink),
    }
}

/// The short lists of a call, all of them where `thorough`.
pub fn exhaustive(call: Call, field: Field, rng: &mut Rng, thorough: bool, sink: Sink) -> Flow {
    match call {
        Call::Step => exhaustive::step(field, rng, thorough, sink),
        Call::Prepare => exhaustive::prepare(field, rng, thorough, sink),
        Call::Lower => exhaustive::lower(field, rng, thorough, sink),
        _ => exhaustive::rooted(call, field, rng, thorough, sink),
    }
}

/// The cases that tell a wrong definition: few short lists, faults, random cases and corners.
pub fn telling(call: Call, field: Field, rng: &mut Rng, sink: Sink) -> Flow {
    exhaustive(call, field, rng, false, sink)?;
    faulty(call, field, rng, false, sink)?;
    for _ in 0..20_000 {
        sink(random(call, field, rng))?;
        several_roots(call, field, rng).map_or(Continue(()), &mut *sink)?;
    }
    fixed(call, field, rng, false, sink)
}

/// A case at random, with faults in some; of a list with roots, with one root.
pub fn random(call: Call, field: Field, rng: &mut Rng) -> Case {
    let case = match call {
        Call::Step => {
            let list = lists::any(field, rng);
            let request = lists::request(field, rng, &list);
            make::step_case(field, rng, &list, request)
        }
        Call::Prepare | Call::Lower => make::random_columns(call, field, rng),
        _ => {
            let list = rooted_list(call, field, rng);
            let root = match call {
                Call::Emit => circuits::root(rng, &list),
                _ => lists::root(rng, &list),
            };
            make::list_case(call, field, rng, &list, &[root])
        }
    };
    with_faults(case, rng)
}

/// A case at random with several roots, with faults in some, where the call takes roots.
pub fn several_roots(call: Call, field: Field, rng: &mut Rng) -> Option<Case> {
    if !call.signature().stores.iter().any(|store| store.0 == "roots") {
        return None;
    }
    let list = rooted_list(call, field, rng);
    let roots = lists::several_roots(rng, &list);
    let case = make::list_case(call, field, rng, &list, &roots);
    Some(with_faults(case, rng))
}

/// A list at random for a call with roots; of drawing, with coordinates that print in every way.
fn rooted_list(call: Call, field: Field, rng: &mut Rng) -> Vec<Record> {
    let list = lists::any_nonempty(field, rng);
    if call == Call::Draw { drawings::varied(field, rng, list) } else { list }
}

/// The case, with faults in some.
fn with_faults(mut case: Case, rng: &mut Rng) -> Case {
    let count = [0, 1, 2, 3][rng.weighted(&[12, 4, 3, 1])];
    for _ in 0..count {
        let faults = faults::faults(&case, rng);
        let fault = &faults[rng.below(faults.len() as u64) as usize];
        fault.apply(&mut case, rng);
    }
    case
}
