//! What programs are held to, against the original as it answers now.

use std::fs;

fn assert_recorded(program: &str, expected: &str) {
    let path = format!("{}/../../crates/{program}/stdout", env!("CARGO_MANIFEST_DIR"));
    let recorded = fs::read_to_string(path)
        .unwrap_or_else(|error| panic!("what `host/run` prints for {program}: {error}"));
    for (line, expected) in recorded.lines().zip(expected.lines()) {
        assert_eq!(line, expected, "{program}");
    }
    assert_eq!(recorded.len(), expected.len(), "{program}");
}

/// Bit reads and writes.
#[test]
fn bit_trials() {
    assert_recorded("bit_trials", &oracle::bit_trials::lines());
}

/// Records written by the original, or refused by document 01's questions.
#[test]
fn write_trials() {
    assert_recorded("write_trials", &oracle::write_trials::lines());
}
