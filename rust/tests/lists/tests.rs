// @generated from crates/linkinfo_tests/src/tests.rt by rust/translate/run.

//! Tests with worked examples, with replies of a Linux kernel, of the lines of the program, and of
//! failed allocations.

mod assertions;
mod attributes;
mod built;
mod canonical;
mod comparing;
mod counts;
mod dumps;
mod elsewhere;
mod errors;
mod families;
mod fronts;
mod kinds;
mod laws;
mod lines;
mod links_difference;
mod links_unmet;
mod lists;
mod longest;
mod names;
mod nesting;
mod own;
mod payloads;
mod peers;
mod pfcp;
mod placed;
mod readme;
mod refused_memory;
mod removed;
mod standing;
mod streams;
mod typed;
mod unmet;
mod unmet_laws;
mod unmets;
mod values;
mod walks;
mod worked;
