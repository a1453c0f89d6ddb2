//! The two sides of the benchmark: `ours`, the verified static library, and `expert` with `translate`, Rust written for speed.

pub mod expert;
pub mod mend;
pub mod ours;
mod regex;
pub mod store;
pub mod translate;
pub mod ubf;
mod wildcard;
