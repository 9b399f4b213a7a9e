//! The Rust of docs/src as judge: its files, unchanged, over either stand-in field, behind plain
//! functions on records of three words.
//!
//! The build script copies the files from the folder that ACE_SRC names; none of their text stands
//! in the repository. One line is added behind normalize.rs: a name for its round, so that rounds
//! can be counted. What the files ask of their crate is given here: the error type, the degree of
//! the extension, and a layout that holds the keys of an assignment. Circuits are emitted over the
//! files' own layout. Drawing, which the files have not, is a plain writer over their nodes.

extern crate alloc;
extern crate standin as miden_crypto;
extern crate standin as p3_dft;

pub(crate) use layout::read::plan::InputLayout;

pub use compiler::dag::words::{
    Dag, Element, Layout, Nodes, Record, build, compact, draw, evaluate, forms, lower, normalize,
    normalize_whole, step, step_from_nodes, step_from_snapshot,
};
pub use compiler::operations::{Emission, Unemitted, circuit_value, emit};

pub use miden_crypto::field::{BabyBear, Felt, QuadFelt};

/// The folder that the files were taken from, as it was named.
pub const SOURCE: &str = env!("ORACLE_SOURCE");

/// The degree of the extension.
pub(crate) const EXT_DEGREE: usize = 2;

/// What evaluation says no with.
#[derive(Debug)]
pub enum AceError {
    InvalidInputLength { expected: usize, got: usize },
    InvalidInputLayout { message: String },
}

pub(crate) mod layout {
    use std::collections::HashMap;

    pub use read::keys::InputKey;

    /// The READ layout of the Rust, which circuits are emitted over; the rest uses its keys alone.
    pub(crate) mod read {
        use keys::{InputKey, InputKeyMapper};
        use plan::InputLayout;

        /// The selectors that keys.rs counts for an AIR.
        const SELECTORS_PER_AIR: usize = 3;

        include!(concat!(env!("OUT_DIR"), "/layout/keys_module.rs"));
        include!(concat!(env!("OUT_DIR"), "/layout/plan_module.rs"));
    }

    /// A layout that is a list of keys: a key's input is at its last place.
    #[derive(Debug, Clone, Default)]
    pub struct InputLayout {
        places: HashMap<InputKey, usize>,
        pub total_inputs: usize,
    }

    impl InputLayout {
        /// The layout of these keys, in this order.
        pub(crate) fn of(keys: impl Iterator<Item = InputKey>) -> Self {
            let mut layout = Self::default();
            for key in keys {
                layout.places.insert(key, layout.total_inputs);
                layout.total_inputs += 1;
            }
            layout
        }

        /// The place of a key's input.
        pub fn index(&self, key: InputKey) -> Option<usize> {
            self.places.get(&key).copied()
        }
    }
}

include!(concat!(env!("OUT_DIR"), "/encode_module.rs"));
include!(concat!(env!("OUT_DIR"), "/instruction_module.rs"));

pub(crate) mod compiler {
    include!(concat!(env!("OUT_DIR"), "/compiler/circuit_module.rs"));
    include!(concat!(env!("OUT_DIR"), "/compiler/encode_module.rs"));

    pub(crate) mod operations;

    pub(crate) mod dag {
        pub(crate) use builder::DagBuilder;
        pub(crate) use ir::{AceDag, NodeId, NodeKind};

        include!(concat!(env!("OUT_DIR"), "/compiler/dag/builder_module.rs"));
        include!(concat!(env!("OUT_DIR"), "/compiler/dag/ir_module.rs"));
        include!(concat!(env!("OUT_DIR"), "/compiler/dag/normalize_module.rs"));
        include!(concat!(env!("OUT_DIR"), "/compiler/dag/periodic_module.rs"));

        mod drawing;
        pub(crate) mod words;
    }

    /// `eval_dag`, cut out of testing.rs.
    pub(crate) mod testing {
        use miden_crypto::field::Field;

        use super::dag::AceDag;
        use crate::{AceError, layout::InputLayout};

        include!(concat!(env!("OUT_DIR"), "/eval_dag.rs"));
    }
}
