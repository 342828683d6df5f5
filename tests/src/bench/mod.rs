//! The benchmarks, a module for each group of tables.
#[cfg(feature = "before")]
pub mod beside;
pub mod clock;
pub mod columns;
pub mod early;
pub mod floor;
pub mod growth;
pub mod markdown;
pub mod memory;
pub mod plot;
pub mod program;
pub mod runs;
pub mod scheduler;
pub mod stream;
pub mod text;
pub mod whole;
