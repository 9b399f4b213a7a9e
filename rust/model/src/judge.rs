//! Who says what an accepted call comes to.

use crate::case::Record;
use crate::circuit::Emission;
use crate::events::{Event, Tally};
use crate::field::{Field, Pair};
use crate::mutants::Mutant;
use crate::refusal::Refusal;

/// The answers to lists, assignments and columns that are good, over one field.
pub trait Judge {
    /// The field.
    fn field(&self) -> Field;

    /// Whether this mistake is in force.
    fn has(&self, _mutant: Mutant) -> bool {
        false
    }

    /// The list after one request on it, and the result's place.
    fn step(&mut self, list: &[Record], request: Record) -> (Vec<Record>, u64);

    /// The list built from requests, and each request's place.
    fn build(&mut self, requests: &[Record]) -> (Vec<Record>, Vec<u64>);

    /// The compacted list and its roots.
    fn compact(&mut self, list: &[Record], roots: &[u64]) -> (Vec<Record>, Vec<u64>);

    /// The normalised list, its roots and the rounds kept.
    fn normalize(&mut self, list: &[Record], roots: &[u64]) -> (Vec<Record>, Vec<u64>, u64);

    /// The roots' values; every input of the list has an entry.
    fn evaluate(&mut self, list: &[Record], roots: &[u64], assignment: &[Record]) -> Vec<Pair>;

    /// Each column's form: 0 sparse, 1 dense, 2 basis.
    fn forms(&mut self, columns: &[Vec<u64>]) -> Vec<u64>;

    /// The list with the columns' nodes, and the place of each column's node.
    fn lower(
        &mut self,
        list: &[Record],
        columns: &[Vec<u64>],
        period: u64,
    ) -> (Vec<Record>, Vec<u64>);

    /// The list's drawing.
    fn draw(&mut self, list: &[Record]) -> String;

    /// What the list is emitted as over a layout of good keys, or 12, 42, 43 or 44.
    fn emit(&mut self, list: &[Record], roots: &[u64], layout: &[u64])
    -> Result<Emission, Refusal>;

    /// Takes note of a corner that the call reached.
    fn note(&mut self, _event: Event) {}
}

/// The papers' definitions over a field, with one of them wrong where a mutant is chosen.
pub struct Paper {
    pub field: Field,
    pub mutant: Option<Mutant>,
    pub tally: Tally,
}

impl Paper {
    /// The definitions over this field.
    pub fn over(field: Field) -> Self {
        Self { field, mutant: None, tally: Tally::default() }
    }

    /// The definitions with this mistake in them.
    pub fn wrong(mutant: Mutant, field: Field) -> Self {
        Self { mutant: Some(mutant), ..Self::over(mutant.field(field)) }
    }

    /// Whether this mistake is in force.
    pub(crate) fn is(&self, mutant: Mutant) -> bool {
        self.mutant == Some(mutant)
    }

    /// Counts a rule, a rewrite or a choice that was made.
    pub(crate) fn met(&mut self, event: Event) {
        self.tally.count(event);
    }
}

impl Judge for Paper {
    fn field(&self) -> Field {
        self.field
    }

    fn has(&self, mutant: Mutant) -> bool {
        self.is(mutant)
    }

    fn step(&mut self, list: &[Record], request: Record) -> (Vec<Record>, u64) {
        crate::steps::step(self, list, request)
    }

    fn build(&mut self, requests: &[Record]) -> (Vec<Record>, Vec<u64>) {
        crate::steps::build(self, requests)
    }

    fn compact(&mut self, list: &[Record], roots: &[u64]) -> (Vec<Record>, Vec<u64>) {
        crate::lists::compact(self, list, roots)
    }

    fn normalize(&mut self, list: &[Record], roots: &[u64]) -> (Vec<Record>, Vec<u64>, u64) {
        crate::normalize::normalize(self, list, roots)
    }

    fn evaluate(&mut self, list: &[Record], roots: &[u64], assignment: &[Record]) -> Vec<Pair> {
        crate::lists::evaluate(self, list, roots, assignment)
    }

    fn forms(&mut self, columns: &[Vec<u64>]) -> Vec<u64> {
        crate::columns::forms(self, columns)
    }

    fn lower(
        &mut self,
        list: &[Record],
        columns: &[Vec<u64>],
        period: u64,
    ) -> (Vec<Record>, Vec<u64>) {
        crate::columns::lower(self, list, columns, period)
    }

    fn draw(&mut self, list: &[Record]) -> String {
        crate::draw::drawing(self, list)
    }

    fn emit(
        &mut self,
        list: &[Record],
        roots: &[u64],
        layout: &[u64],
    ) -> Result<Emission, Refusal> {
        crate::circuit::emit(self, list, roots, layout)
    }

    fn note(&mut self, event: Event) {
        self.met(event);
    }
}
