//! The stored traces through the archive: what the program's own test prints of them.

use dewbracket::{replay, Field, Refusal, Show};
use std::fs;
use std::path::Path;

fn folder() -> &'static Path {
    Path::new(concat!(env!("CARGO_MANIFEST_DIR"), "/../../crates/replay"))
}

#[test]
fn every_stored_trace_prints_what_is_stored() {
    let mut show = Show::default();
    let mut printed = String::new();
    for word in fs::read_to_string(folder().join("args")).unwrap().lines() {
        match (word, fs::read(folder().join("data").join(word))) {
            ("-a", _) => show.actions = true,
            ("-f", _) => show.fields = true,
            (_, Ok(trace)) => match replay(&trace, show) {
                Ok((text, _)) => printed += &text,
                Err(Refusal(number)) => printed += &format!("bad {number}\n"),
            },
            // One name is of no file, on purpose.
            (name, Err(_)) => assert_eq!(name, "missing.trace"),
        }
    }
    assert!(printed == fs::read_to_string(folder().join("stdout")).unwrap());
}

#[test]
fn the_device_comes_with_the_text() {
    let trace = fs::read(folder().join("data/bench-size-0x10100.trace")).unwrap();
    let (text, device) = replay(&trace, Show::default()).unwrap();
    assert_eq!(text.lines().last(), Some("end 4"));
    assert_eq!(device.driver_status(), 0xb);
    assert_eq!(device.field(0, Field::Size), Ok(256));
}

#[test]
fn a_trace_of_nothing_is_refused() {
    assert_eq!(replay(&[], Show::default()).err(), Some(Refusal(8)));
}
