//! What a run prints.

use std::collections::BTreeMap;
use std::fmt::{self, Write};

use model::{Call, Event, Field};

use crate::compare::Comparison;
use crate::printing::{Printing, REFUSALS};
use crate::required;

/// What counts as failed beside the cases that differed.
#[derive(Clone, Debug, PartialEq, Eq)]
pub enum Missing {
    /// This was never met.
    Unmet(String),
    /// This second check was never made.
    Second(&'static str),
    /// The part was not compared, for this reason.
    Absent(String),
}

impl fmt::Display for Missing {
    fn fmt(&self, f: &mut fmt::Formatter) -> fmt::Result {
        match self {
            Missing::Unmet(what) => write!(f, "never met: {what}"),
            Missing::Second(check) => write!(f, "a second check was never made: {check}"),
            Missing::Absent(why) => write!(f, "not compared: {why}"),
        }
    }
}

/// The name of a call over a field.
pub fn name(call: Call, field: Field) -> String {
    format!("{}, field {}", call.signature().name, field.number)
}

/// What was compared under one name, and what was met.
pub struct Summary {
    pub name: String,
    /// Cases compared.
    pub cases: u64,
    /// Cases that differed.
    pub failed: u64,
    pub seconds: f64,
    /// How often each refusal was met; 0 is acceptance.
    outcomes: BTreeMap<u64, u64>,
    met: Vec<(String, u64)>,
    pub missing: Vec<Missing>,
}

/// A number with commas.
pub fn grouped(number: u64) -> String {
    let digits = number.to_string();
    let mut text = String::new();
    for (place, digit) in digits.chars().enumerate() {
        if place > 0 && (digits.len() - place).is_multiple_of(3) {
            text.push(',');
        }
        text.push(digit);
    }
    text
}

impl Summary {
    /// What was met of what had to be.
    fn new(
        name: String,
        counts: [u64; 2],
        outcomes: &BTreeMap<u64, u64>,
        refusals: &[u64],
        met: Vec<(String, u64)>,
    ) -> Self {
        let refusals = refusals.iter().map(|&number| (number, format!("refusal {number}")));
        let outcome = [(0, "acceptance".to_string())].into_iter().chain(refusals);
        let never = outcome.filter(|(number, _)| !outcomes.contains_key(number));
        let unmet = met.iter().filter(|(_, count)| *count == 0).map(|(text, _)| text.clone());
        let missing = never.map(|(_, text)| text).chain(unmet).map(Missing::Unmet).collect();
        let [cases, failed] = counts;
        Self { name, cases, failed, seconds: 0.0, outcomes: outcomes.clone(), met, missing }
    }

    /// The summary of a call's comparisons.
    pub fn of_call(run: &Comparison) -> Self {
        let signature = run.call.signature();
        let of = |event: Event| (event.text().to_string(), run.paper.tally.of(event));
        let events = required::events(run.call, run.field).into_iter();
        let mut met: Vec<(String, u64)> = events.map(of).collect();
        let has = |name| signature.stores.iter().any(|store| store.0 == name);
        if has("lengths") {
            met.extend(forms(run));
        }
        if has("roots") {
            met.extend(run.roots.met());
        }
        let (made, never): (Vec<_>, Vec<_>) = run.second.iter().partition(|(_, count)| **count > 0);
        met.extend(made.iter().map(|(check, count)| (format!("second check, {check}"), **count)));
        let counts = [run.cases, run.failed];
        let name = name(run.call, run.field);
        let mut summary = Self::new(name, counts, &run.outcomes, signature.refusals, met);
        summary.missing.extend(never.iter().map(|(check, _)| Missing::Second(check)));
        summary
    }

    /// The summary of a part that could not be compared, and why.
    pub fn absent(name: String, why: String) -> Self {
        let missing = vec![Missing::Absent(why)];
        let outcomes = BTreeMap::new();
        Self { name, cases: 0, failed: 0, seconds: 0.0, outcomes, met: vec![], missing }
    }

    /// The summary of a program's comparisons.
    pub fn of_printing(run: &Printing) -> Self {
        let (name, counts) = (run.printer.name().to_string(), [run.cases, run.failed]);
        Self::new(name, counts, &run.outcomes, &REFUSALS, run.met())
    }

    /// Cases accepted.
    fn accepted(&self) -> u64 {
        self.outcomes.get(&0).copied().unwrap_or(0)
    }

    /// What was met, on lines of their own, and what never was.
    pub fn details(&self) -> String {
        let mut text = format!("{}\n", self.name);
        let refused = self.outcomes.iter().filter(|(number, _)| **number != 0);
        let refused = refused.map(|(number, count)| format!("{number} ×{}", grouped(*count)));
        text.push_str(&wrapped("  refused  ", &refused.collect::<Vec<_>>()));
        let met = self.met.iter().map(|(what, count)| format!("{what} ×{}", grouped(*count)));
        text.push_str(&wrapped("  met      ", &met.collect::<Vec<_>>()));
        for missing in &self.missing {
            let _ = writeln!(text, "  FAILED   {missing}");
        }
        text
    }
}

/// How often columns of each length took each form, and how often savings met each edge.
fn forms(run: &Comparison) -> Vec<(String, u64)> {
    let mut counts = Vec::new();
    for (bits, forms) in run.paper.tally.forms.iter().enumerate() {
        let length = 1 << bits;
        for (form, name) in ["sparse", "dense", "basis"].iter().enumerate() {
            if required::possible(bits, form) {
                counts.push((format!("{name} of {length}"), forms[form]));
            }
        }
        if bits > 0 {
            let [equal, above] = run.paper.tally.edges[bits];
            counts.push((format!("savings 7P+2 at {length}"), equal));
            counts.push((format!("savings 7P+3 at {length}"), above));
        }
    }
    counts
}

/// A row for each of these, and the sum where there are several.
pub fn table(rows: &[Summary]) -> String {
    let mut text = String::from(
        "                        cases      accepted       refused   differ    missing   seconds\n",
    );
    let mut row = |name: &str, numbers: [u64; 5], seconds: f64| {
        let [cases, accepted, refused, differ, missing] = numbers.map(grouped);
        let _ = writeln!(
            text,
            "{name:<18} {cases:>10} {accepted:>13} {refused:>13} {differ:>8} {missing:>10} {seconds:>9.1}",
        );
    };
    let mut sums = [0; 5];
    for each in rows {
        let refused = each.cases - each.accepted();
        let missing = each.missing.len() as u64;
        let numbers = [each.cases, each.accepted(), refused, each.failed, missing];
        row(&each.name, numbers, each.seconds);
        for (sum, number) in sums.iter_mut().zip(numbers) {
            *sum += number;
        }
    }
    if rows.len() > 1 {
        row("all", sums, rows.iter().map(|each| each.seconds).sum());
    }
    text
}

/// These items behind a heading, on lines of at most 100 characters.
fn wrapped(heading: &str, items: &[String]) -> String {
    if items.is_empty() {
        return String::new();
    }
    let margin = heading.chars().count();
    let mut text = String::from(heading);
    let mut width = margin;
    for (place, item) in items.iter().enumerate() {
        let length = item.chars().count();
        if width > margin && width + 3 + length > 100 {
            let _ = write!(text, "\n{:margin$}", "");
            width = margin;
        } else if place > 0 {
            text.push_str(" · ");
            width += 3;
        }
        text.push_str(item);
        width += length;
    }
    text + "\n"
}
