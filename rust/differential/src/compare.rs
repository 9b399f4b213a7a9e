//! One case on all sides: document 01, the Rust of docs/src, and the proved call.

use std::collections::BTreeMap;

use model::field::Pair;
use model::{
    Call, Case, Emission, Field, Judge, MOST_ROOTS, Outcome, Paper, Record, ZK, check_columns,
    expected, records, run, values,
};

use crate::cases::list_case;
use crate::ours::{self, Lending};
use crate::reader::read;
use crate::roots::Roots;
use crate::union::is_union;
use crate::{Rng, Rust};

/// The answer of Normalise normalised again, its rounds at once, and the roots' values.
pub const AGAIN: &str = "answers normalised again";

/// Several roots tied together, by `normalize_dag` itself.
pub const WHOLE: &str = "several roots by normalize_dag";

/// The values of several roots before and behind, by the Rust one by one.
pub const VALUES: &str = "values of several roots";

/// What each of several roots reaches, by the Rust one by one.
pub const ALONE: &str = "several roots compacted one by one";

/// The union of what each of several roots keeps by the Rust, by old places.
pub const UNION: &str = "unions of what each root keeps";

/// A column's entry as its node's value.
pub const ENTRIES: &str = "columns at a row";

/// A drawing as the list that it shows.
pub const READ: &str = "drawings read back";

/// Operations run in order over values of a layout's places, and held to the Rust's Evaluate.
pub const RUN: &str = "operations run";

/// `AceCircuit::eval` on the same values.
pub const CIRCUIT: &str = "circuits by AceCircuit::eval";

/// Numbers of roots that are none, one too many, and one that a byte would mistake for 1.
const WRONG: [usize; 3] = [0, MOST_ROOTS + 1, 257];

/// The second checks of a call, none of which shares code with document 01's definitions of it.
fn second_checks(call: Call) -> &'static [&'static str] {
    match call {
        Call::Build => &[VALUES],
        Call::Compact => &[VALUES, ALONE, UNION],
        Call::Normalize => &[AGAIN, WHOLE, VALUES],
        Call::Lower => &[ENTRIES],
        Call::Draw => &[READ],
        Call::Emit => &[RUN, CIRCUIT],
        Call::Step | Call::Evaluate | Call::Prepare => &[],
    }
}

/// A case on which two sides differ, ready to send.
pub struct Difference {
    /// Every word.
    pub whole: String,
    /// With long stores cut, if any is long.
    pub short: Option<String>,
    /// The house file that it is about, if any.
    pub file: Option<Vec<u8>>,
}

/// A call's comparisons over a field so far.
pub struct Comparison {
    pub call: Call,
    pub field: Field,
    /// Cases compared, follow-ups among them.
    pub cases: u64,
    /// Cases that differed.
    pub failed: u64,
    /// How often each refusal was met; 0 is acceptance.
    pub outcomes: BTreeMap<u64, u64>,
    /// Document 01's definitions, with the count of what they met.
    pub paper: Paper,
    /// The roots that were met.
    pub roots: Roots,
    /// How often each second check of the call was made.
    pub second: BTreeMap<&'static str, u64>,
    /// How the proved call is lent its stores; without it the other two sides are compared alone.
    ours: Option<Lending>,
    rng: Rng,
}

impl Comparison {
    pub fn new(call: Call, field: Field, seed: u64, ours: Option<Lending>) -> Self {
        Self {
            call,
            field,
            cases: 0,
            failed: 0,
            outcomes: BTreeMap::new(),
            paper: Paper::over(field),
            roots: Roots::new(WRONG, u64::MAX),
            second: second_checks(call).iter().map(|&check| (check, 0)).collect(),
            ours,
            rng: Rng::new(seed),
        }
    }

    /// Compares one case and what follows from it.
    pub fn take(&mut self, case: &Case) -> Vec<Difference> {
        let mut found = Vec::new();
        let outcome = self.sides(case, &mut found);
        if outcome.accepted() {
            match case.call {
                Call::Build | Call::Compact | Call::Normalize => {
                    self.rooted(case, &outcome, &mut found);
                }
                Call::Lower => self.entries(case, &outcome, &mut found),
                Call::Draw => self.read(case, &outcome, &mut found),
                Call::Emit => self.run(case, &outcome, &mut found),
                _ => {}
            }
        }
        self.failed += u64::from(!found.is_empty());
        found
    }

    /// Counts a second check.
    fn checked(&mut self, check: &'static str) {
        *self.second.get_mut(check).expect("a check of the call") += 1;
    }

    /// The Rust's outcome, with the differences of the other sides from it.
    fn sides(&mut self, case: &Case, found: &mut Vec<Difference>) -> Outcome {
        self.cases += 1;
        let rust = expected(case, &mut Rust(self.field));
        *self.outcomes.entry(rust.answer[0]).or_default() += 1;
        if let Some((roots, n)) = case.roots().zip(case.number("n")) {
            self.roots.count(rust.answer[0], roots, n);
        }
        let paper = expected(case, &mut self.paper);
        if paper != rust {
            found.push(told(case, ("document 01", &paper), ("the Rust", &rust)));
        }
        if let Some(lending) = self.ours {
            match ours::run(case, lending) {
                Ok(outcome) if outcome == rust => {}
                Ok(outcome) => {
                    found.push(told(case, ("the proved call", &outcome), ("the Rust", &rust)))
                }
                Err(damage) => found.push(said(case, &format!("the proved call {damage}"))),
            }
        }
        rust
    }

    /// Holds a list with its roots to what the call made of them.
    fn rooted(&mut self, case: &Case, outcome: &Outcome, found: &mut Vec<Difference>) {
        let (before, after) = (Rooted::lent(case), Rooted::answered(case, outcome));
        let several = before.roots.len() > 1;
        if several || case.call == Call::Normalize {
            let seed = self.rng.word();
            if before.values(self.field, seed) != after.values(self.field, seed) {
                found.push(said(case, "a root's value changed"));
            }
        }
        if several {
            self.checked(VALUES);
        }
        match case.call {
            Call::Compact if several => {
                let alone = before.alone(self.field);
                if alone != after.alone(self.field) {
                    found.push(said(case, "a root reaches other records"));
                }
                self.checked(ALONE);
                if !is_union(before.parts(), after.parts(), &alone) {
                    found.push(said(case, "not the union of what each root keeps"));
                }
                self.checked(UNION);
            }
            Call::Normalize => self.again(case, &before, &after, found),
            _ => {}
        }
    }

    /// Normalises the answer again and holds the rounds to `normalize_dag`.
    fn again(&mut self, case: &Case, before: &Rooted, after: &Rooted, found: &mut Vec<Difference>) {
        let next = list_case(case.call, self.field, &mut self.rng, &after.list, &after.roots);
        let outcome = self.sides(&next, found);
        if outcome.answer[2] != 0 || Rooted::answered(&next, &outcome) != *after {
            found.push(said(&next, "an answer normalised again changed"));
        }
        self.checked(AGAIN);
        let (list, roots) = Rust(self.field).normalize_whole(&before.list, &before.roots);
        if (Rooted { list, roots }) != *after {
            found.push(said(case, "normalize_dag and its rounds one by one differ"));
        }
        if before.roots.len() > 1 {
            self.checked(WHOLE);
        }
    }

    /// Evaluates each column's node at a power of the shared generator: the column's entry.
    fn entries(&mut self, case: &Case, outcome: &Outcome, found: &mut Vec<Difference>) {
        let [_, _, period] = case.scalars[..] else { panic!("three numbers") };
        let field = self.field;
        let columns = check_columns(field, &case.stores[1], &case.stores[2]);
        let columns = columns.expect("accepted columns");
        if columns.is_empty() {
            return;
        }
        let list = records(&outcome.after[0][..3 * outcome.answer[1] as usize]);
        let row = self.rng.below(period);
        let point = field.power(field.generator(period.ilog2()), row);
        let seed = self.rng.word();
        let element = |key| if key == ZK { [point, 0] } else { element(field, key, seed) };
        let values = values(field, &list, element);
        for (column, &place) in columns.iter().zip(&outcome.after[2]) {
            let entry = column[(row % column.len() as u64) as usize];
            if values[place as usize] != [entry, 0] {
                found.push(said(case, &format!("a column's node is not its entry at row {row}")));
            }
        }
        self.checked(ENTRIES);
    }

    /// Reads the drawing back.
    fn read(&mut self, case: &Case, outcome: &Outcome, found: &mut Vec<Difference>) {
        let (drawing, behind) = outcome.after[0].split_at(outcome.answer[1] as usize);
        let text: Vec<u8> = drawing.iter().map(|&byte| byte as u8).collect();
        let list = read(self.field, &text);
        if list.is_none_or(|list| list != Rooted::lent(case).list) {
            found.push(said(case, "the drawing shows another list"));
        }
        if behind.iter().any(|&byte| byte != 0) {
            found.push(said(case, "a byte behind the drawing is not 0"));
        }
        self.checked(READ);
    }

    /// Runs the operations over values of the layout's places, and holds them to the root's value.
    fn run(&mut self, case: &Case, outcome: &Outcome, found: &mut Vec<Difference>) {
        let (field, Rooted { list, roots }) = (self.field, Rooted::lent(case));
        let keys = case.number("k").expect("a call on a layout");
        let layout = &case.stores[2][..keys as usize];
        let seed = self.rng.word();
        let inputs: Vec<Pair> = (0..keys).map(|place| element(field, place, seed)).collect();
        let entries = layout.iter().zip(&inputs);
        let entries: Vec<Record> = entries.map(|(&key, &[c0, c1])| [key, c0, c1]).collect();
        let value = Rust(field).evaluate(&list, &roots, &entries)[0];
        let [num_vars, num_ops] = [1, 2].map(|at| outcome.answer[at]);
        let constants = num_vars - keys;
        if !constants.is_multiple_of(2) || !(2 * constants + num_ops).is_multiple_of(8) {
            found.push(said(case, "the words fill no blocks"));
        }
        let words = outcome.after[0][..(2 * constants + 3 * num_ops) as usize].to_vec();
        let own = list.iter().filter(|record| record[0] > 1).count();
        let wrong = match run(field, &Emission { num_vars, num_ops, words }, &inputs) {
            Ok(values) => wrong_values(field, &values, own, value).map(str::to_string),
            Err(wrong) => Some(wrong),
        };
        found.extend(wrong.map(|wrong| said(case, &wrong)));
        self.checked(RUN);
        if Rust(field).circuit_value(&list, roots[0], layout, &inputs) != value {
            found.push(said(case, "AceCircuit::eval has another value"));
        }
        self.checked(CIRCUIT);
    }
}

/// What is wrong with the values of these operations, where a list has so many and this root's value.
fn wrong_values(field: Field, values: &[Pair], own: usize, value: Pair) -> Option<&'static str> {
    if values[own - 1] != value {
        return Some("the last operation before the pads has not the root's value");
    }
    let squared = |pair: &[Pair]| pair[1] == field.pair_mul(pair[0], pair[0]);
    if !values[own - 1..].windows(2).all(squared) {
        return Some("a pad is not the square of the one before");
    }
    (values.len() >= own + 8).then_some("there are eight pads or more")
}

/// A list with its roots.
#[derive(PartialEq)]
struct Rooted {
    list: Vec<Record>,
    roots: Vec<u64>,
}

impl Rooted {
    /// What is lent to a call.
    fn lent(case: &Case) -> Self {
        let n = case.number("n").expect("a call on a list") as usize;
        let roots = case.roots().expect("a call with roots").to_vec();
        Self { list: records(&case.stores[0][..3 * n]), roots }
    }

    /// What a call answers.
    fn answered(case: &Case, outcome: &Outcome) -> Self {
        let count = outcome.answer[1] as usize;
        let given = case.roots().expect("a call with roots").len();
        let roots = outcome.answer[3..3 + given].to_vec();
        Self { list: records(&outcome.after[0][..3 * count]), roots }
    }

    fn parts(&self) -> (&[Record], &[u64]) {
        (&self.list, &self.roots)
    }

    /// The roots' values with the elements of this seed; those of several roots by the Rust.
    fn values(&self, field: Field, seed: u64) -> Vec<Pair> {
        if let [root] = self.roots[..] {
            return vec![values(field, &self.list, |key| element(field, key, seed))[root as usize]];
        }
        let inputs = self.list.iter().filter(|record| record[0] == 0);
        let entry = |record: &Record| {
            let [c0, c1] = element(field, record[1], seed);
            [record[1], c0, c1]
        };
        let assignment: Vec<Record> = inputs.map(entry).collect();
        Rust(field).evaluate(&self.list, &self.roots, &assignment)
    }

    /// What the Rust's compaction makes of the list with each root alone.
    fn alone(&self, field: Field) -> Vec<(Vec<Record>, Vec<u64>)> {
        let mut rust = Rust(field);
        self.roots.chunks(1).map(|root| rust.compact(&self.list, root)).collect()
    }
}

/// An element for a key, different under each seed.
fn element(field: Field, key: u64, seed: u64) -> Pair {
    let mut rng = Rng::new(key ^ seed.rotate_left(17));
    field.reduced([rng.word(), rng.word()])
}

/// Whether a judge answers this case as the Rust over this field does.
pub fn agrees(case: &Case, field: Field, judge: &mut dyn Judge) -> bool {
    expected(case, judge) == expected(case, &mut Rust(field))
}

/// A difference of two outcomes.
fn told(case: &Case, one: (&str, &Outcome), other: (&str, &Outcome)) -> Difference {
    difference(case, |whole| {
        format!(
            "  {}:\n{}  {}:\n{}",
            one.0,
            one.1.text(case.call, other.1, whole),
            other.0,
            other.1.text(case.call, one.1, whole),
        )
    })
}

/// A case of which this is to be said.
fn said(case: &Case, what: &str) -> Difference {
    difference(case, |_| format!("  {what}\n"))
}

/// A case with what is said of it, in full and short.
fn difference(case: &Case, said: impl Fn(bool) -> String) -> Difference {
    let text = |whole: bool| case.text(whole) + &said(whole);
    Difference { whole: text(true), short: case.is_long().then(|| text(false)), file: None }
}
