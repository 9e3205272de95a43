//! Tests from outside for libwort: safe calls over its C interface, and a model of document 01 to hold it against.

pub mod answers;
pub mod cache;
pub mod caller;
pub mod chance;
pub mod crash;
pub mod cuts;
pub mod differ;
pub mod exhaust;
pub mod fenced;
pub mod library;
pub mod model;
pub mod names;
pub mod pools;
pub mod stepped;
pub mod table;
pub mod watch;
pub mod whole;

pub use answers::{Calls, Plan};
pub use library::Library;
pub use model::Model;

/// Runs the x86-64 program that its words name, on this processor or under an emulator.
pub const X86_64: &str = concat!(env!("CARGO_MANIFEST_DIR"), "/../tools/x86-64.sh");
