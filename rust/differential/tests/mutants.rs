//! Wrong definitions are told apart by the cases that a run compares.

use std::ops::ControlFlow::{Break, Continue};

use differential::compare::agrees;
use differential::{Rng, cases, record, report};
use model::{Call, Field, Mutant, Paper, expected};

/// Whether a case of a quick run is answered otherwise by this mutant than by the Rust.
fn told(mutant: Mutant, call: Call, field: Field) -> bool {
    let mut paper = Paper::wrong(mutant, field);
    let mut rng = Rng::new(1);
    let mut sink = |case: model::Case| {
        let few = case.stores.iter().all(|store| store.len() <= 12_400);
        if few && !agrees(&case, field, &mut paper) { Break(()) } else { Continue(()) }
    };
    cases::telling(call, field, &mut rng, &mut sink).is_break()
}

/// Every one of these calls, and every field, that show a mistake, which these tell from the right definitions.
fn assert_told(calls: &[Call], mut told: impl FnMut(Mutant, Call, Field) -> bool) {
    let mut missed = Vec::new();
    for &mutant in Mutant::ALL {
        for &call in mutant.calls().iter().filter(|call| calls.contains(call)) {
            for field in Field::ALL.into_iter().filter(|&field| mutant.shows_in(field)) {
                if !told(mutant, call, field) {
                    missed.push(format!("{} ({})", mutant.text(), report::name(call, field)));
                }
            }
        }
    }
    assert!(missed.is_empty(), "not told apart: {}", missed.join("; "));
}

#[test]
fn every_wrong_definition_gives_a_difference() {
    assert_told(&Call::ALL, told);
}

#[test]
fn a_recorded_sample_tells_every_wrong_definition_of_its_calls() {
    let recorded = record::CALLS.map(|call| (call, record::chosen(call, 300, 1)));
    assert_told(&record::CALLS, |mutant, call, field| {
        let (_, cases) = recorded.iter().find(|(other, _)| *other == call).expect("a call");
        let mut paper = Paper::wrong(mutant, field);
        let is_other = |number| Field::numbered(number).is_some_and(|other| other != field);
        let mut own = cases.iter().filter(|(case, _)| !is_other(case.scalars[0]));
        own.any(|(case, outcome)| expected(case, &mut paper) != *outcome)
    });
}

#[test]
fn the_right_definitions_give_none() {
    for field in Field::ALL {
        let mut paper = Paper::over(field);
        for call in Call::ALL {
            let mut rng = Rng::new(2);
            for _ in 0..2_000 {
                let several = cases::several_roots(call, field, &mut rng);
                for case in several.into_iter().chain([cases::random(call, field, &mut rng)]) {
                    assert!(agrees(&case, field, &mut paper), "{}", case.text(true));
                }
            }
        }
    }
}
