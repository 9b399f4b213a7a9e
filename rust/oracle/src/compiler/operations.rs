//! Circuits of the Rust: emitted, encoded, unpacked and run.

use super::circuit::{AceCircuit, emit_circuit};
use super::dag::words::{Dag, Element, Record};
use crate::encode::EncodedCircuit;
use crate::instruction::decode_instruction;
use crate::layout::read::plan::{InputCounts, InputRegion, LayoutRegions, StarkVarIndices};
use crate::{AceError, InputLayout};

/// Why the Rust makes no operations of a list, in the order in which it looks.
#[derive(Clone, Copy, Debug, PartialEq, Eq)]
pub enum Unemitted {
    MissingKey,
    NoOperations,
    RootNotLast,
    OddLayout,
}

impl Unemitted {
    /// What this error of the Rust says, which has a text for each.
    fn told(error: &AceError) -> Self {
        let AceError::InvalidInputLayout { message } = error else { panic!("{error:?}") };
        let texts = [
            ("missing input key in layout", Self::MissingKey),
            ("ACE circuit has no operations", Self::NoOperations),
            ("ACE circuit root must be the last operation", Self::RootNotLast),
            ("ACE READ layout must be aligned", Self::OddLayout),
        ];
        let known = texts.iter().find(|(begin, _)| message.starts_with(begin));
        known.unwrap_or_else(|| panic!("{message}")).1
    }
}

/// The inputs of a layout that has no keys: the scalars of the Rust's layout have to stand somewhere.
const SCALARS: usize = 2;

/// The regions of this many public values; every other one is empty, but for the scalars'.
fn regions(width: usize) -> LayoutRegions {
    let region = |width| InputRegion { offset: 0, width };
    LayoutRegions {
        public_values: region(width),
        randomness: region(1),
        preprocessed_curr: region(0),
        main_curr: region(0),
        aux_curr: region(0),
        quotient_curr: region(0),
        preprocessed_next: region(0),
        main_next: region(0),
        aux_next: region(0),
        quotient_next: region(0),
        aux_bus_boundary: region(0),
        stark_vars: region(1),
    }
}

/// The scalars of the Rust's layout, which no list asks for: they stand at the first input.
const STARK: StarkVarIndices = StarkVarIndices {
    alpha: 0,
    z_pow_n: 0,
    z_k: 0,
    is_first: 0,
    is_last: 0,
    is_transition: 0,
    reserved: 0,
    weight0: 0,
    f: 0,
    s0: 0,
    multi_air: None,
};

/// The counts of this many public values alone.
fn counts(width: usize) -> InputCounts {
    InputCounts {
        preprocessed_width: 0,
        width: 0,
        aux_width: 0,
        num_aux_boundary: 0,
        num_public: width,
        num_randomness: 0,
        num_quotient_chunks: 0,
    }
}

/// The Rust's layout of this many inputs, each a public value.
fn layout(width: usize) -> InputLayout {
    InputLayout {
        regions: regions(width),
        aux_rand_alpha: 0,
        aux_rand_beta: 0,
        stark: STARK,
        total_inputs: if width == 0 { SCALARS } else { width },
        counts: counts(width),
    }
}

/// A circuit of the Rust, unpacked: the counts, the constants' words, the operations' words.
#[derive(Clone, Debug, PartialEq, Eq)]
pub struct Emission {
    pub num_vars: u64,
    pub num_ops: u64,
    pub words: Vec<u64>,
}

/// The words of an encoded circuit, each operation's unpacked.
fn unpacked(encoded: &EncodedCircuit) -> Vec<u64> {
    let (constants, operations) = encoded.instructions().split_at(2 * encoded.num_constants());
    let mut words: Vec<u64> = constants.iter().map(|felt| felt.word()).collect();
    for &instruction in operations {
        let (left, right, op) = decode_instruction(instruction).expect("an operation");
        words.extend([op as u64, left.into(), right.into()]);
    }
    words
}

/// The circuit of a list over inputs that are public values: key i is input i.
fn circuit<E: Element>(
    list: &[Record],
    root: u64,
    width: usize,
) -> Result<AceCircuit<E>, AceError> {
    emit_circuit(&Dag::<E>::new(list, root).0, layout(width))
}

/// What the Rust emits of a list over this many public values.
pub fn emit<E: Element>(list: &[Record], root: u64, width: usize) -> Result<Emission, Unemitted> {
    let encoded = circuit::<E>(list, root, width).and_then(|circuit| circuit.to_ace());
    let encoded = encoded.map_err(|error| Unemitted::told(&error))?;
    let none = if width == 0 { SCALARS } else { 0 };
    Ok(Emission {
        num_vars: (encoded.num_vars() - none) as u64,
        num_ops: encoded.num_eval_rows() as u64,
        words: unpacked(&encoded),
    })
}

/// The value of the Rust's circuit with these public values.
pub fn circuit_value<E: Element>(list: &[Record], root: u64, values: &[[u64; 2]]) -> [u64; 2] {
    let circuit = circuit::<E>(list, root, values.len()).expect("a circuit");
    let mut inputs: Vec<E> = values.iter().map(|&value| E::of(value)).collect();
    inputs.resize(circuit.layout().total_inputs, E::ZERO);
    circuit.eval(&inputs).expect("as many values as inputs").words()
}

impl<E: Element> Dag<E> {
    /// The number of words in the stream of this DAG, whose keys are public values.
    pub fn emit(&self, width: usize) -> usize {
        let circuit = emit_circuit(&self.0, layout(width)).expect("a place for every key");
        circuit.to_ace().expect("a circuit that is encoded").size_in_felt()
    }
}
