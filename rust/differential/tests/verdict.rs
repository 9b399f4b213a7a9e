//! What is absent, or was never checked, counts as failed.

use std::collections::BTreeSet;
use std::process::Command;

use differential::compare::{
    AGAIN, ALONE, CIRCUIT, Comparison, ENTRIES, READ, RUN, UNION, VALUES, WHOLE,
};
use differential::report::{Missing, Summary};
use model::{Call, Field};

#[test]
fn an_absent_program_counts_as_failed() {
    for name in ["normlist", "drawlist"] {
        let mut command = Command::new(env!("CARGO_BIN_EXE_differential"));
        let file = format!("/nowhere/{name}");
        let output = command.args(["--quick", "--call", name, "--program", &file]).output();
        let output = output.expect("the comparison");
        let printed = String::from_utf8(output.stdout).expect("text");
        let line = format!("{name}\n  FAILED   not compared: {file} is not there");
        assert!(printed.contains(&line), "{printed}");
        assert!(printed.ends_with("\n0 passed, 1 failed\n"), "{printed}");
        assert_eq!(output.status.code(), Some(1));
    }
}

/// The calls with roots.
const ROOTED: [Call; 6] =
    [Call::Build, Call::Compact, Call::Normalize, Call::Evaluate, Call::Draw, Call::Emit];

/// What only calls with roots can meet.
const OF_ROOTS: [&str; 14] = [
    "refusal 46",
    "1 root",
    "2 roots",
    "8 roots",
    "roots at one place",
    "46 for 0 roots",
    "46 for 9 roots",
    "46 for 257 roots",
    "6 for n at each position",
    "6 for 18446744073709551615 at each position",
    "3 or 4 before 46",
    "5 before 46",
    "46 before 6",
    "46 or 6 before the stores",
];

/// What only drawing can meet.
const OF_DRAWINGS: [&str; 29] = [
    "refusal 41",
    "input drawn",
    "constant drawn",
    "add drawn",
    "sub drawn",
    "mul drawn",
    "neg drawn",
    "two equal operands drawn",
    "drawing of one record",
    "drawing of 4,096 records",
    "c0 of 0 drawn",
    "c0 of 1 drawn",
    "c0 of (m−1)/2 drawn",
    "c0 of (m+1)/2 drawn",
    "c0 of m−1 drawn",
    "c1 of 0 drawn",
    "text store exactly enough",
    "text store of one byte more",
    "text store of 1,000 bytes or more behind",
    "41 for a text store one byte short",
    "41 for an empty text store",
    "1 before 41",
    "2 before 41",
    "3 before 41",
    "4 before 41",
    "5 before 41",
    "6 before 41",
    "46 before 41",
    "49 before 41",
];

/// What only emitting can meet.
const OF_EMISSIONS: [&str; 44] = [
    "refusal 42",
    "refusal 43",
    "refusal 44",
    "layout of no keys",
    "44 for a layout of one key",
    "layout of two keys",
    "layout of 4,096 keys",
    "11 for 4,097 keys",
    "11 for 2^63 keys or more",
    "key of an input at several places",
    "leaf behind the last operation",
    "operation that the root does not reach",
    "constant that the root does not reach",
    "constant repeated",
    "constant of zero without a negation",
    "zero added for a negation",
    "zero of an earlier negation",
    "constant of zero before a negation",
    "constant of zero behind a negation",
    "no constants",
    "constants of an even number",
    "constants padded",
    "0 pads",
    "1 pad",
    "2 pads",
    "3 pads",
    "4 pads",
    "5 pads",
    "6 pads",
    "7 pads",
    "operations of 4,096 records",
    "result store longer than its words",
    "43 for a leaf",
    "43 for an operation before the last",
    "43 for the last operation named twice",
    "43 for other roots than one",
    "1 to 5 before the layout",
    "11 before the layout's 2",
    "the layout's 2 before its 4",
    "the layout's 4 before 12",
    "12 before 42",
    "42 before 43",
    "43 before 44",
    "44 before 2",
];

/// What has to be met, by which calls and over which fields.
const REQUIRED: [(&[&str], &[Call], &[Field]); 8] = [
    (&["acceptance", "refusal 49", "49 before another refusal"], &Call::ALL, &Field::ALL),
    (&OF_ROOTS, &ROOTED, &Field::ALL),
    (&OF_DRAWINGS, &[Call::Draw], &Field::ALL),
    (&["c1 of m−1 drawn"], &[Call::Draw], &[Field::GOLDILOCKS]),
    (&OF_EMISSIONS, &[Call::Emit], &Field::ALL),
    (&["constants that differ in c1 alone"], &[Call::Emit], &[Field::GOLDILOCKS]),
    (&["refusal 11", "12 at an unreachable input"], &[Call::Emit, Call::Evaluate], &Field::ALL),
    (
        &["result store exactly enough", "result store one word short"],
        &[Call::Emit, Call::Lower],
        &Field::ALL,
    ),
];

/// Every call over every field, before any case.
fn runs() -> impl Iterator<Item = Comparison> {
    let calls = Call::ALL.into_iter().flat_map(|call| Field::ALL.map(|field| (call, field)));
    calls.map(|(call, field)| Comparison::new(call, field, 1, None))
}

/// What counts as failed in a run though it need not be met, or has to be and does not count.
fn mistaken(run: &Comparison) -> Vec<&'static str> {
    let missing = Summary::of_call(run).missing;
    let unmet = |what: &str| missing.contains(&Missing::Unmet(what.to_string()));
    let required = REQUIRED.into_iter().flat_map(|(whats, calls, fields)| {
        let wanted = calls.contains(&run.call) && fields.contains(&run.field);
        whats.iter().map(move |&what| (what, wanted))
    });
    required.filter(|(what, wanted)| unmet(what) != *wanted).map(|(what, _)| what).collect()
}

#[test]
fn what_was_never_met_counts_as_failed() {
    for run in runs() {
        assert_eq!(mistaken(&run), [""; 0], "{}", Summary::of_call(&run).name);
    }
}

/// The second checks that count as failed in a summary.
fn never(summary: &Summary) -> impl Iterator<Item = &str> {
    summary.missing.iter().filter_map(|missing| match missing {
        Missing::Second(check) => Some(*check),
        _ => None,
    })
}

#[test]
fn a_second_check_that_was_never_made_counts_as_failed() {
    for run in runs() {
        let summary = Summary::of_call(&run);
        assert!(never(&summary).eq(run.second.into_keys()), "{}", summary.name);
    }
}

#[test]
fn every_second_check_is_one_of_a_call() {
    let all = [AGAIN, WHOLE, VALUES, ALONE, UNION, ENTRIES, READ, RUN, CIRCUIT];
    let checks: BTreeSet<&str> = runs().flat_map(|run| run.second.into_keys()).collect();
    assert_eq!(checks, BTreeSet::from(all));
}

#[test]
fn each_field_has_a_row_of_its_own() {
    let run = |words: &[&str]| {
        let mut command = Command::new(env!("CARGO_BIN_EXE_differential"));
        let always = ["--without-ours", "--quick", "--cases", "50"];
        let output = command.args(always).args(words).output().expect("the comparison");
        String::from_utf8_lossy(&[output.stdout, output.stderr].concat()).into_owned()
    };
    let rows = |printed: &str, name: &str| {
        printed.lines().filter(|line| line.starts_with(&format!("{name} "))).count()
    };
    let both = run(&["--call", "compact"]);
    assert_eq!((rows(&both, "compact, field 1"), rows(&both, "compact, field 2")), (1, 1));
    let second = run(&["--call", "compact", "--field", "2"]);
    assert_eq!((rows(&second, "compact, field 1"), rows(&second, "compact, field 2")), (0, 1));
    assert!(run(&["--field", "3"]).contains("--field takes 1 or 2, not 3"));
    for name in ["normlist", "drawlist"] {
        let second = run(&["--call", name, "--field", "2"]);
        assert!(second.contains(&format!("{name} reads house files of field 1 alone")));
        assert_eq!(rows(&run(&["--call", name, "--every", "50"]), name), 1);
    }
    for words in [&["--program", "x"][..], &["--program", "x", "--call", "draw"]] {
        assert!(run(words).contains("--program goes with --call and a program's name"));
    }
}
