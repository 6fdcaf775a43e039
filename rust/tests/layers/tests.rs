// @generated from crates/linkinfo_layers_tests/src/tests.rt by rust/translate/run.

//! Tests over worked byte strings, values and payloads: what the format specifies of values,
//! lengths, texts, numbers and rows.

mod assertions;
mod data;
mod emission;
mod flag_words;
mod flags;
mod framing;
mod kinds;
mod messages;
mod numbers;
mod payload_numbers;
mod payloads;
mod rows;
mod values;
mod view;
mod words;
