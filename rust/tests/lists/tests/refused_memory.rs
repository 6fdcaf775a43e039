// @generated from crates/linkinfo_tests/src/tests/refused_memory.rt by rust/translate/run.

//! Calls that are repeated once where an allocation failed. `tests/refused.rs` makes each
//! allocation fail in turn.

mod answers;
mod attributes;
mod control;
mod errors;
mod lists;
mod names;
mod payloads;
mod program;
mod strings;
mod typed;
mod without_memory;
