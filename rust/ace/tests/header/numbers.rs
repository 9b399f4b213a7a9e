//! The header's interface, fields, refusals, limits, blank and keys are those of the calls.

use std::collections::BTreeMap;

use ace::{Field, Kind, Refusal, words};

use super::text;

/// The numbers that the header defines, by name.
pub fn defined() -> BTreeMap<String, u64> {
    let header = text("include/ace.h");
    let lines = header.lines().filter_map(|line| line.strip_prefix("#define ACE_"));
    let pairs = lines.filter_map(|line| line.split_once(' '));
    let number = |value: &str| {
        let digits = value.trim_start_matches("UINT64_C(").trim_end_matches(')');
        digits.parse().unwrap_or_else(|_| panic!("{value} is a number"))
    };
    pairs.map(|(name, value)| (name.to_string(), number(value))).collect()
}

/// The answer words that a call writes.
fn answered<const N: usize>(call: impl FnOnce(&mut [u64; N])) -> Vec<u64> {
    let mut answer = [u64::MAX; N];
    call(&mut answer);
    answer.to_vec()
}

/// n inputs.
fn inputs(n: u64) -> Vec<u64> {
    (0..n).flat_map(|key| [0, key, 0]).collect()
}

/// What Compact answers in field 1, with a result store that is long enough.
fn compacted(list: &[u64], n: u64, roots: &[u64]) -> Vec<u64> {
    let mut result = vec![9; list.len()];
    answered(|answer| words::compact(1, list, n, roots, &mut result, answer))
}

/// What Compact answers to so many roots.
fn rooted(roots: u64) -> Vec<u64> {
    compacted(&[0, 0, 0], 1, &vec![0; roots as usize])
}

/// What Step answers to an input or a constant on an empty list.
fn stepped(field: u64, room: usize, tag: u64, first: u64) -> Vec<u64> {
    let mut list = vec![9; room];
    answered(|answer| words::step(field, &mut list, 0, tag, first, 0, answer))
}

/// What Evaluate answers in field 1.
fn evaluated(list: &[u64], n: u64, assignment: &[u64], m: u64) -> Vec<u64> {
    answered(|answer| words::evaluate(1, list, n, &[0], assignment, m, answer))
}

/// What Prepare answers to columns of zeros in field 1.
fn prepared(lengths: &[u64]) -> Vec<u64> {
    let entries = vec![0; lengths.iter().sum::<u64>() as usize];
    answered(|answer| words::prepare(1, lengths, &entries, answer))
}

/// What Draw answers to input 0 in field 1, with this room for its text.
fn drawn(room: usize) -> Vec<u64> {
    let mut text = vec![9; room];
    answered(|answer| words::draw(1, &[0, 0, 0], 1, &[0], &mut text, answer))
}

/// Input 0 and its negation: 16 words.
const NEGATED: [u64; 6] = [0, 0, 0, 5, 0, 0];

/// What Emit answers in field 1 to two records, with these keys and this room for its words.
fn emitted(list: &[u64; 6], root: u64, keys: &[u64], room: usize) -> Vec<u64> {
    let (k, mut result) = (keys.len() as u64, vec![9; room]);
    answered(|answer| words::emit(1, list, 2, &[root], keys, k, &mut result, answer))
}

/// What Lower answers to a column of one entry on an empty list, and the result store.
fn lowered(field: u64, period: u64, work: u64) -> (Vec<u64>, Vec<u64>) {
    let (mut result, mut work, mut places) = (vec![9; 300], vec![9; work as usize], [9]);
    let (result_store, work) = (&mut result, &mut work);
    let answer = answered(|answer| {
        words::lower(field, &[], 0, &[1], &[5], period, result_store, work, &mut places, answer)
    });
    (answer, result)
}

/// Each refusal's name in the header, and the answer of a call that is driven to it.
fn refusals() -> Vec<(&'static str, Vec<u64>, u64)> {
    vec![
        ("COUNT", compacted(&[], 0, &[0]), 0),
        ("STORE", compacted(&[0, 0], 1, &[0]), 0),
        ("TAG", compacted(&[0, 0, 0, 6, 0, 0], 2, &[0]), 1),
        ("WORD", compacted(&[0, 0, 0, 0, 0, 1], 2, &[0]), 1),
        ("OPERAND", compacted(&[0, 0, 0, 5, 1, 0], 2, &[0]), 1),
        ("ROOT", compacted(&[0, 0, 0], 1, &[0, 1]), 0),
        ("ROOTS", rooted(0), 0),
        ("ROOM", stepped(1, 0, 0, 0), 0),
        ("ENTRIES", evaluated(&[1, 0, 0], 1, &[], 4_097), 0),
        ("INPUT", evaluated(&[1, 0, 0, 0, 0, 0], 2, &[], 0), 1),
        ("COLUMNS", prepared(&[1; 17]), 0),
        ("LENGTH", prepared(&[1, 3]), 1),
        ("PERIOD", lowered(1, 0, 12_288).0, 0),
        ("TEXT", drawn(0), 0),
        ("OPERATIONS", emitted(&[0; 6], 1, &[0, 0], 16), 0),
        ("LAST", emitted(&NEGATED, 0, &[0, 0], 16), 0),
        ("ODD", emitted(&NEGATED, 1, &[0], 16), 0),
        ("FIELD", stepped(3, 0, 0, 0), 0),
    ]
}

#[test]
fn every_refusal_is_what_a_call_answers() {
    let mut defined = defined();
    for (name, answer, place) in refusals() {
        let number = defined.remove(&format!("REFUSED_{name}")).expect(name);
        assert_eq!(answer[..2], [number, place], "{name}");
        assert!(answer[2..].iter().all(|&word| word == 0), "{name}: {answer:?}");
    }
    assert!(!defined.keys().any(|name| name.starts_with("REFUSED_")), "{defined:?}");
}

#[test]
fn every_refusal_has_the_reason_that_the_rust_gives() {
    let header = text("include/ace.h");
    let lines: Vec<&str> = header.lines().collect();
    for (name, number) in defined().iter().filter(|(name, _)| name.starts_with("REFUSED_")) {
        let line = format!("#define ACE_{name} {number}");
        let place = lines.iter().position(|other| *other == line).expect(name);
        let reason = Refusal { number: *number, place: 0 }.reason();
        assert_eq!(lines[place - 1], format!("/* {reason} */"));
    }
}

/// Each limit of the header: what a call answers within it and beyond it, and how it refuses.
fn limits() -> Vec<(&'static str, [Vec<u64>; 2], u64)> {
    let defined = defined();
    let of = |name: &str| defined[name];
    let more = |name: &str| [of(name), of(name) + 1];
    let twice = |name: &str| [of(name), 2 * of(name)];
    let below = |name: &str| [of(name) - 1, of(name)];
    let (p, q, work) = (of("FIELD_P"), of("FIELD_Q"), of("LOWER_WORK"));
    let keyed = |k| emitted(&NEGATED, 1, &(0..k).collect::<Vec<u64>>(), 16);
    vec![
        ("records", more("MOST_RECORDS").map(|n| compacted(&inputs(n), n, &[0])), 1),
        ("roots", more("MOST_ROOTS").map(rooted), 46),
        ("entries", more("MOST_ENTRIES").map(|m| evaluated(&[0; 3], 1, &inputs(m), m)), 11),
        ("columns", more("MOST_COLUMNS").map(|n| prepared(&vec![1; n as usize])), 13),
        ("column", twice("LONGEST_COLUMN").map(|length| prepared(&[length])), 14),
        ("period", twice("LONGEST_PERIOD").map(|period| lowered(p, period, work).0), 15),
        ("period in q", twice("LONGEST_PERIOD_Q").map(|period| lowered(q, period, work).0), 15),
        ("work", [work, work - 1].map(|work| lowered(p, 1, work).0), 2),
        ("text", [33, 32].map(drawn), 41),
        ("keys", more("MOST_KEYS").map(keyed), 11),
        ("words", [16, 15].map(|room| emitted(&NEGATED, 1, &[0, 0], room)), 2),
        ("p", below("P").map(|first| stepped(p, 3, 1, first)), 4),
        ("q", below("Q").map(|first| stepped(q, 3, 1, first)), 4),
    ]
}

#[test]
fn every_limit_is_where_the_calls_begin_to_refuse() {
    for (name, [within, outside], number) in limits() {
        assert_eq!((within[0], outside[0]), (0, number), "{name}");
    }
}

#[test]
fn answers_blank_and_zk_are_the_header_s() {
    let defined = defined();
    assert_eq!(defined["ANSWER_WORDS"] as usize, stepped(1, 3, 0, 0).len());
    assert_eq!(defined["ANSWER_WORDS"] as usize, drawn(33).len());
    assert_eq!(defined["ANSWER_WORDS"] as usize, emitted(&NEGATED, 1, &[0, 0], 16).len());
    assert_eq!(defined["LIST_WORDS"] as usize, rooted(1).len());
    assert_eq!(defined["EVALUATE_WORDS"] as usize, evaluated(&[1, 0, 0], 1, &[], 0).len());
    assert_eq!(defined["PREPARE_WORDS"] as usize, prepared(&[1]).len());
    assert_eq!(defined["MOST_ROOTS"] as usize, words::MOST_ROOTS);
    assert_eq!(defined["BLANK"], ace::BLANK);
    let (answer, result) = lowered(1, 1, defined["LOWER_WORK"]);
    assert_eq!(answer[..2], [0, 3]);
    assert_eq!(result[..3], [0, defined["ZK"], 0]);
    assert!(result[9..].iter().all(|&word| word == defined["BLANK"]));
}

#[test]
fn the_interface_is_the_archive_s_and_the_wrapper_s() {
    assert_eq!(defined()["INTERFACE"], words::interface());
    assert_eq!(words::INTERFACE, words::interface());
}

#[test]
fn the_wrapper_s_fields_are_the_header_s() {
    let defined = defined();
    for (field, number, modulus, period) in [
        (Field::Goldilocks, "FIELD_P", "P", "LONGEST_PERIOD"),
        (Field::BabyBear, "FIELD_Q", "Q", "LONGEST_PERIOD_Q"),
    ] {
        let numbers = [number, modulus, period].map(|name| defined[name]);
        assert_eq!(numbers, [field.number(), field.modulus(), field.longest_period()]);
    }
}

#[test]
fn every_number_of_the_header_is_tested() {
    let others = defined().into_keys().filter(|name| !name.starts_with("REFUSED_"));
    let tested = [
        "ANSWER_WORDS",
        "BLANK",
        "DRAWING_BYTES",
        "DRAWING_RECORD_BYTES",
        "EMITTED_RECORD_WORDS",
        "EMITTED_WORDS",
        "EVALUATE_WORDS",
        "FIELD_P",
        "FIELD_Q",
        "INTERFACE",
        "KIND_ADD",
        "KIND_MUL",
        "KIND_SUB",
        "LIST_WORDS",
        "LONGEST_COLUMN",
        "LONGEST_PERIOD",
        "LONGEST_PERIOD_Q",
        "LOWER_WORK",
        "MOST_COLUMNS",
        "MOST_ENTRIES",
        "MOST_KEYS",
        "MOST_RECORDS",
        "MOST_ROOTS",
        "P",
        "PREPARE_WORDS",
        "Q",
        "STACK",
        "ZK",
    ];
    assert!(others.eq(tested));
}

#[test]
fn a_drawing_has_at_most_the_headers_bytes() {
    let sizes = defined();
    let [ends, record] = ["DRAWING_BYTES", "DRAWING_RECORD_BYTES"].map(|name| sizes[name] as usize);
    let past_half = Field::Goldilocks.modulus() / 2 + 1;
    let length = |n: usize| {
        let list = [1, past_half, past_half].repeat(n);
        let mut text = vec![9; ends + record * n];
        ace::draw(Field::Goldilocks, &list, n as u64, &[0], &mut text).expect("a list")
    };
    assert_eq!(length(1_002) - length(1_001), record);
    // Place 0 has one digit for four.
    assert_eq!(length(1) + 3, ends + record);
    assert!(length(4_096) <= ends + record * 4_096);
}

/// The words emitted of two constants other than 0 and negations, n records, or the refusal's
/// number; of 3 records and 8k more, these are the most words there are.
fn most_emitted(n: u64, room: u64) -> Result<u64, u64> {
    let chain = (2..n).flat_map(|place| [5, place - 1, 0]);
    let list: Vec<u64> = [1, 5, 0, 1, 6, 0].into_iter().chain(chain).collect();
    let mut result = vec![9; room as usize];
    let emitted = ace::emit(Field::Goldilocks, &list, n, &[n - 1], &[], 0, &mut result);
    emitted.map(|emitted| emitted.words(0)).map_err(|refusal| refusal.number)
}

#[test]
fn an_emission_has_at_most_the_headers_words() {
    let sizes = defined();
    let [ends, record] = ["EMITTED_WORDS", "EMITTED_RECORD_WORDS"].map(|name| sizes[name]);
    for n in [3, 11, 4_091] {
        let most = ends + record * n;
        assert_eq!([most, most - 1].map(|room| most_emitted(n, room)), [Ok(most), Err(2)]);
    }
}

#[test]
fn an_operation_has_the_header_s_kinds() {
    let sizes = defined();
    for (tag, name, kind) in
        [(2, "KIND_ADD", Kind::Add), (3, "KIND_SUB", Kind::Sub), (4, "KIND_MUL", Kind::Mul)]
    {
        let mut result = [9; 32];
        let list = [0, 0, 0, tag, 0, 0];
        ace::emit(Field::Goldilocks, &list, 2, &[1], &[0, 0], 2, &mut result).expect("a list");
        assert_eq!(result[0], sizes[name]);
        assert_eq!(Kind::of(result[0]), Some(kind));
    }
}

/// The variants that the header lists: number, name and how many fields.
fn variants() -> Vec<(u64, String, u32)> {
    let header = text("include/ace.h");
    let (_, behind) = header.split_once("The variants and their fields:\n").expect("the variants");
    let (table, _) = behind.split_once("\n *\n").expect("the end of the variants");
    let halves = table.lines().flat_map(|line| {
        let line = line.strip_prefix(" *").expect("a line of the comment");
        let (left, right) = line.split_at(36.min(line.len()));
        [left.trim(), right.trim()]
    });
    let mut found: Vec<(u64, String, u32)> = halves.map(variant).collect();
    found.sort();
    found
}

/// The number, name and fields of a variant.
fn variant(text: &str) -> (u64, String, u32) {
    let (number, name) = text.split_once(' ').expect("a number and a name");
    let fields = name.split_once('(').map_or(0, |(_, fields)| fields.split(',').count() as u32);
    let name = name.split('(').next().expect("a name");
    (number.parse().expect("a number"), name.to_string(), fields)
}

#[test]
fn every_variant_is_a_key_with_its_fields() {
    let variants = variants();
    assert!(variants.iter().map(|variant| variant.0).eq(0..22));
    for (number, name, fields) in &variants {
        let most = (number << 48) + (1 << (16 * fields)) - 1;
        assert_eq!(stepped(1, 3, 0, most)[0], 0, "{name} has {fields} fields");
        if *fields < 3 {
            assert_eq!(stepped(1, 3, 0, most + 1)[..2], [4, 0], "{name} has no more fields");
        }
    }
    assert_eq!(stepped(1, 3, 0, 22 << 48)[..2], [4, 0]);
    assert!(variants.contains(&(defined()["ZK"] >> 48, "ZK".to_string(), 0)));
}
