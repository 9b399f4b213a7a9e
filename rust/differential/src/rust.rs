//! The Rust of docs/src as judge.

use std::collections::HashMap;

use model::field::Pair;
use model::{Emission, Field, Judge, Record, Refusal};
use oracle::{BabyBear, QuadFelt, Unemitted};

use crate::tie::{tie, untie};

/// The Rust of docs/src over a field. It knows one root: several are tied together. It doesn't
/// draw: a writer over its nodes does.
#[derive(Clone, Copy, Debug)]
pub struct Rust(pub Field);

/// A function of the oracle over a field.
macro_rules! over {
    ($field:expr, $call:ident($($argument:expr),*)) => {
        match $field {
            Field::GOLDILOCKS => oracle::$call::<QuadFelt>($($argument),*),
            Field::BABY_BEAR => oracle::$call::<BabyBear>($($argument),*),
            other => panic!("the Rust is not over {other:?}"),
        }
    };
}

/// What a function of lists with one root comes to with these roots.
fn on_roots(
    list: &[Record],
    roots: &[u64],
    of_one: impl FnOnce(&[Record], u64) -> (Vec<Record>, u64),
) -> (Vec<Record>, Vec<u64>) {
    if let [root] = *roots {
        let (list, root) = of_one(list, root);
        return (list, vec![root]);
    }
    let tied = tie(list, roots);
    let (list, root) = of_one(&tied, tied.len() as u64 - 1);
    untie(&list, root, roots.len()).expect("no round and no compaction touches the ties")
}

/// The public value that no layout has.
const OUTSIDE: u64 = 65_535;

/// The list with each key renamed to the public value of its last place in a layout.
fn renamed(list: &[Record], layout: &[u64]) -> Vec<Record> {
    let places: HashMap<u64, u64> = layout.iter().copied().zip(0..).collect();
    let record = |&record: &Record| match record {
        [0, key, _] => [0, places.get(&key).copied().unwrap_or(OUTSIDE), 0],
        other => other,
    };
    list.iter().map(record).collect()
}

/// The refusal of a list, with its keys renamed, that the Rust makes no operations of.
fn unemitted(renamed: &[Record], why: Unemitted) -> Refusal {
    match why {
        Unemitted::MissingKey => {
            let missing = renamed.iter().position(|&record| record == [0, OUTSIDE, 0]);
            Refusal::at(12, missing.expect("an input without a place"))
        }
        Unemitted::NoOperations => Refusal::new(42),
        Unemitted::RootNotLast => Refusal::new(43),
        Unemitted::OddLayout => Refusal::new(44),
    }
}

impl Rust {
    /// The value of `AceCircuit::eval` for the values of a layout's places.
    pub fn circuit_value(
        self,
        list: &[Record],
        root: u64,
        layout: &[u64],
        values: &[Pair],
    ) -> Pair {
        over!(self.0, circuit_value(&renamed(list, layout), root, values))
    }

    /// The normalised list and its roots, by `normalize_dag` itself.
    pub fn normalize_whole(self, list: &[Record], roots: &[u64]) -> (Vec<Record>, Vec<u64>) {
        on_roots(list, roots, |list, root| over!(self.0, normalize_whole(list, root)))
    }
}

impl Judge for Rust {
    fn field(&self) -> Field {
        self.0
    }

    fn step(&mut self, list: &[Record], request: Record) -> (Vec<Record>, u64) {
        over!(self.0, step(list, request))
    }

    fn build(&mut self, requests: &[Record]) -> (Vec<Record>, Vec<u64>) {
        over!(self.0, build(requests))
    }

    fn compact(&mut self, list: &[Record], roots: &[u64]) -> (Vec<Record>, Vec<u64>) {
        on_roots(list, roots, |list, root| over!(self.0, compact(list, root)))
    }

    fn normalize(&mut self, list: &[Record], roots: &[u64]) -> (Vec<Record>, Vec<u64>, u64) {
        let mut rounds = 0;
        let (list, roots) = on_roots(list, roots, |list, root| {
            let (list, root, kept) = over!(self.0, normalize(list, root));
            rounds = kept;
            (list, root)
        });
        (list, roots, rounds)
    }

    fn evaluate(&mut self, list: &[Record], roots: &[u64], assignment: &[Record]) -> Vec<Pair> {
        let value = |&root: &u64| over!(self.0, evaluate(list, root, assignment));
        roots.iter().map(value).map(|value| value.expect("every input has an entry")).collect()
    }

    fn forms(&mut self, columns: &[Vec<u64>]) -> Vec<u64> {
        over!(self.0, forms(columns))
    }

    fn lower(
        &mut self,
        list: &[Record],
        columns: &[Vec<u64>],
        period: u64,
    ) -> (Vec<Record>, Vec<u64>) {
        over!(self.0, lower(list, columns, period))
    }

    fn draw(&mut self, list: &[Record]) -> String {
        over!(self.0, draw(list))
    }

    /// Of several roots the Rust tells what comes before 43.
    fn emit(
        &mut self,
        list: &[Record],
        roots: &[u64],
        layout: &[u64],
    ) -> Result<Emission, Refusal> {
        let list = renamed(list, layout);
        let emitted = over!(self.0, emit(&list, roots[0], layout.len()));
        let emitted = emitted.map_err(|why| unemitted(&list, why));
        match emitted {
            Err(Refusal { number: 12 | 42, .. }) => emitted,
            _ if roots.len() > 1 => Err(Refusal::new(43)),
            _ => emitted,
        }
        .map(|oracle::Emission { num_vars, num_ops, words }| Emission {
            num_vars,
            num_ops,
            words,
        })
    }
}
