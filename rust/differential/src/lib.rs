//! The comparison run, in parts that also work without the proved calls.

pub mod cases;
pub mod compare;
pub mod ours;
pub mod printing;
pub mod program;
mod reader;
pub mod record;
pub mod report;
pub mod required;
mod rng;
pub mod roots;
mod rust;
mod tie;
mod union;

pub use rng::Rng;
pub use rust::Rust;
