//! The calls of `compat`.

use crate::compat::calls::{TryFromStr, TryString, TryToText, printed};
use crate::compat::{env, hex, serde_json};
use serde_json::{Map, Value};
use std::io::{ErrorKind, Write};

#[test]
fn members_and_items() {
    let mut members = Map::new();
    for (name, number) in [("b", 1), ("a", 2), ("b", 3)] {
        serde_json::put(&mut members, name, Value::from(number)).unwrap();
    }
    let mut items = vec![Value::Null];
    serde_json::push(&mut items, Value::Object(members)).unwrap();
    let text = Value::Array(items).try_to_text().unwrap();
    assert_eq!(text, r#"[null,{"a":2,"b":3}]"#);
}

#[test]
fn texts() {
    assert_eq!(hex::encode(&[0, 0x1f, 0xa0]).unwrap(), "001fa0");
    assert_eq!(hex::encode(&[]).unwrap(), "");
    let mut text = try_format!("{}-{:02x}", 1, 10).unwrap();
    text.try_push('\u{e9}').unwrap();
    text.try_push_str("..").unwrap();
    assert_eq!(text, "1-0a\u{e9}..");
    let quoted = Value::try_from_str("a\"b\\").unwrap();
    assert_eq!(quoted.try_to_text().unwrap(), r#""a\"b\\""#);
    assert_eq!(try_vec![7_u8; 3].unwrap(), [7, 7, 7]);
    assert!(try_vec![0_u8; usize::MAX].is_err());
}

#[test]
fn words_of_the_command_line() {
    let words: Vec<String> = env::args().unwrap().collect();
    assert_eq!(words, std::env::args().collect::<Vec<_>>());
}

/// A writer whose writes or flushes fail.
struct Failing {
    flushes: bool,
}

impl Write for Failing {
    fn write(&mut self, bytes: &[u8]) -> std::io::Result<usize> {
        match self.flushes {
            true => Ok(bytes.len()),
            false => Err(ErrorKind::BrokenPipe.into()),
        }
    }

    fn flush(&mut self) -> std::io::Result<()> {
        Err(ErrorKind::StorageFull.into())
    }
}

#[test]
fn printing_reports_failures() {
    let mut to = Vec::new();
    printed(&mut to, format_args!("a{}\n", 1)).unwrap();
    assert_eq!(to, b"a1\n");
    for (flushes, kind) in [
        (false, ErrorKind::BrokenPipe),
        (true, ErrorKind::StorageFull),
    ] {
        let error = printed(Failing { flushes }, format_args!("a")).unwrap_err();
        assert_eq!(error.kind(), kind);
    }
}
