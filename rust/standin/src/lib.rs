//! Stand-ins for what the Rust of docs/src takes from `miden_crypto` and `p3_dft`:
//! the field modulo p = 2^64 − 2^32 + 1 with its extension by u, u² = 7, the field modulo
//! q = 2^31 − 2^27 + 1, the inverse transform over a subgroup whose order is a power of two, and the
//! name of a hash.

pub mod field;
pub mod hash;

mod dft;

pub use dft::{Radix2DFTSmallBatch, TwoAdicSubgroupDft};
pub use field::Felt;
pub use hash::Word;
