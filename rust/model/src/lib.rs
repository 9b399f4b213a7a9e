//! Document 01 in plain Rust, with what document 02 adds, as a second opinion on every call.
//!
//! [`expected`] gives the whole outcome of a call: its answer words and each word of each store
//! that it may write. The refusals are document 01's, in its order, on raw words. What is accepted
//! goes to a [`Judge`] over the call's [`Field`]: the Rust of docs/src in a comparison, or
//! [`Paper`], these definitions, which also count the rules that they apply and can be made wrong
//! on purpose.

mod calls;
mod case;
mod circuit;
mod columns;
mod draw;
mod events;
pub mod field;
mod house_file;
mod judge;
mod keys;
mod lists;
mod mutants;
mod normalize;
mod order;
mod refusal;
mod roots;
mod steps;

pub use calls::expected;
pub use case::{Call, Case, Outcome, Record, Signature, Store, Unit, records, words};
pub use circuit::{Emission, emitted_words, run};
pub use columns::{basis_cost, overhead, saving, standalone_cost};
pub use events::{Event, Tally};
pub use field::Field;
pub use house_file::{
    BEFORE_ROOTS, FILE_LIMIT, HEAD, KINDS, RECORD, ROOT, before_records, file_drawing, file_length,
    listing, read_house_file, version_1, version_2,
};
pub use judge::{Judge, Paper};
pub use keys::{FIELDS, ZK, is_key};
pub use lists::{reached, values};
pub use mutants::Mutant;
pub use refusal::{
    COLUMNS, ENTRIES, LIMIT, LONGEST, LOWER_WORK, MOST_ROOTS, Refusal, check_columns, check_layout,
    check_list, check_record,
};
pub use roots::coincide;

/// The word behind what a call has filled.
pub const BLANK: u64 = 0;
