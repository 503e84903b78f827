//! What nn_standby does on one thread, in plain Rust with no proof: it prints the same bytes. A measuring stick.
//!
//! The programs `typed` and `value` differ only in how they read a line: into fields, or as a `serde_json::Value`.
//! An image is read into fields by both. Neither has threads or a history, and both end where memory is refused.
//! The public modules are for a service over the same standby, which is no part of this crate.

mod blocks;
pub mod engine;
pub mod fault;
mod fields;
mod hash;
mod held;
pub mod history;
mod image;
pub mod line;
pub mod print;
mod program;
mod scenario;
mod tree;
pub mod typed;
pub mod value;

pub use program::run;
