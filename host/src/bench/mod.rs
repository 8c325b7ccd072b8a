//! Measurements: the library (where it is linked), the reading as plain Rust, PostgreSQL and z3 side
//! by side in one run. `host/bench` says how to start them.

pub mod figures;
pub mod listings;
pub mod plot;
pub mod report;
pub mod sheets;
pub mod sizes;
pub mod smt;
pub mod stack;
pub mod stacks;
pub mod time;
pub mod verdicts;
