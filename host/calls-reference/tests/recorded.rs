//! The reference answers the calls of crates/calls/stdin as crates/calls/stdout says.

use std::fs;
use std::path::Path;

#[test]
fn recorded_calls() {
    let folder = Path::new(env!("CARGO_MANIFEST_DIR")).join("../../crates/calls");
    let calls = fs::read(folder.join("stdin")).unwrap();
    let answers = fs::read(folder.join("stdout")).unwrap();
    let calls = lines(&calls);
    let answers = lines(&answers);
    assert!(calls.len() > 2000);
    assert_eq!(calls.len(), answers.len());
    for (number, (call, answer)) in calls.iter().zip(&answers).enumerate() {
        let found = protocol::answer_line(call);
        let found = String::from_utf8_lossy(&found);
        let answer = String::from_utf8_lossy(answer);
        assert_eq!(found, answer, "call {}", number + 1);
    }
}

/// The lines of a file, each without its end.
fn lines(bytes: &[u8]) -> Vec<&[u8]> {
    let mut lines: Vec<&[u8]> = bytes.split(|byte| *byte == b'\n').collect();
    assert_eq!(lines.pop(), Some(&b""[..]));
    lines
}
