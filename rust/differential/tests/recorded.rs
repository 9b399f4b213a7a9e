//! The stream that `replay` replays is what its command writes now.

use std::path::Path;
use std::sync::LazyLock;

use differential::record;
use model::{Call, Case, Field, Outcome};

/// The cases of a section, and the seed, where the command names none.
const COUNT: usize = 300;
const SEED: u64 = 1;

/// The bytes that `replay` has for a section behind its head.
const BUFFER: usize = 262_144;

/// A section's head: the call's number, the cases, their words.
const HEAD: usize = 24;

/// Each call's cases, with what they come to.
static CHOSEN: LazyLock<[Vec<(Case, Outcome)>; record::CALLS.len()]> =
    LazyLock::new(|| record::CALLS.map(|call| record::chosen(call, COUNT, SEED)));

/// The cases of a call's section.
fn chosen(call: Call) -> &'static [(Case, Outcome)] {
    let place = record::CALLS.iter().position(|&other| other == call);
    &CHOSEN[place.expect("a recorded call")]
}

/// The number of cases that a section's head gives.
fn cases(section: &[u8]) -> u64 {
    u64::from_le_bytes(section[8..16].try_into().unwrap())
}

#[test]
fn the_recorded_stream_is_the_commands() {
    let file = Path::new(env!("CARGO_MANIFEST_DIR")).join("../../crates/replay/stdin");
    let recorded = std::fs::read(file).unwrap();
    let mut rest = &recorded[..];
    for call in record::CALLS {
        let section = record::section(call, chosen(call));
        let name = call.signature().name;
        assert_eq!(cases(&section), COUNT as u64, "{name}");
        assert!(section.len() <= HEAD + BUFFER, "{name}: too long for replay's buffer");
        assert!(
            rest.starts_with(&section),
            "{name}: run ./differential record --out crates/replay/stdin"
        );
        rest = &rest[section.len()..];
    }
    assert!(rest.is_empty(), "{} bytes behind the last call", rest.len());
}

#[test]
fn a_section_has_cases_of_both_fields_and_of_none() {
    for call in record::CALLS {
        let fields = || chosen(call).iter().map(|(case, _)| Field::numbered(case.scalars[0]));
        let counts = [Some(Field::GOLDILOCKS), Some(Field::BABY_BEAR), None]
            .map(|field| fields().filter(|other| *other == field).count());
        assert_eq!(counts, [180, 115, 5], "{}", call.signature().name);
    }
}

#[test]
fn a_section_has_cases_of_one_root_of_several_and_of_too_many() {
    let rooted: Vec<_> = CHOSEN.iter().filter(|cases| cases[0].0.roots().is_some()).collect();
    assert_eq!(rooted.len(), 5);
    for cases in rooted {
        let counts: Vec<usize> =
            cases.iter().filter_map(|(case, _)| case.roots().map(<[u64]>::len)).collect();
        let of = |range: std::ops::RangeInclusive<usize>| {
            counts.iter().filter(|count| range.contains(count)).count()
        };
        let name = cases[0].0.call.signature().name;
        assert!(of(1..=1) >= 75 && of(2..=8) >= 50 && of(8..=8) >= 5, "{name}");
        assert!(of(0..=0) >= 2 && of(9..=usize::MAX) >= 2, "{name}");
    }
}

#[test]
fn a_recorded_case_has_room_in_replay() {
    for (case, _) in CHOSEN.iter().flatten() {
        for (store, words) in case.call.signature().stores.iter().zip(&case.stores) {
            let most = if store.1 { record::WRITTEN } else { record::READ };
            assert!(words.len() <= most, "{} words:\n{}", words.len(), case.text(false));
        }
    }
}

#[test]
fn a_small_sample_has_as_many_cases_as_asked_for() {
    for call in record::CALLS {
        assert_eq!(record::chosen(call, 20, SEED).len(), 20, "{}", call.signature().name);
    }
}
