//! The book maker as a program: what it makes, what it drops, and what it cannot say.

use std::io::Write;
use std::process::{Command, Output, Stdio};

fn book(json: &str) -> Output {
    let mut command = Command::new(env!("CARGO_BIN_EXE_book"));
    command.stdin(Stdio::piped()).stdout(Stdio::piped()).stderr(Stdio::piped());
    let mut child = command.spawn().expect("the book maker starts");
    child.stdin.take().expect("piped").write_all(json.as_bytes()).expect("it reads its input");
    child.wait_with_output().expect("it ends")
}

fn note(output: &Output) -> String {
    String::from_utf8_lossy(&output.stderr).into_owned()
}

/// The error names type and member, and nothing stands on the output.
fn is_error(json: &str, words: &[&str]) {
    let output = book(json);
    assert!(!output.status.success() && output.stdout.is_empty());
    let note = note(&output);
    assert!(words.iter().all(|word| note.contains(word)), "{note}");
}

#[test]
fn chan_byte_by_byte() {
    let output = book(
        r#"[{"name": "Ch", "members": [{"name": "On", "type": "BOOL"}, {"name": "L", "type": "INT",
        "dim": 3, "external_access": "Read Only"}], "template_id": 258}]"#,
    );
    assert!(output.status.success() && output.stderr.is_empty());
    let expected = [
        &[1, 0, 2, 0][..],
        &[52, 0, 0, 0, 2, 4, 2, 1, 0, 0, 0, 0, 2, 0, 0, 0],
        &[54, 0, 0, 0, 2, 4, 0, 0, 0, 0, 0, 0, 56, 0, 0, 0],
        &[60, 0, 0, 0, 1, 3, 0, 2, 3, 0, 0, 0, 61, 0, 0, 0],
        b"ChOnBOOLLINT",
    ];
    assert_eq!(output.stdout, expected.concat());
}

#[test]
fn no_types() {
    assert_eq!(book("[]").stdout, [0, 0, 0, 0]);
}

#[test]
fn a_description_is_dropped_with_a_note() {
    let plain = book(r#"[{"name": "Chan", "members": [{"name": "Good", "type": "BOOL"}]}]"#);
    let output = book(r#"[{"name": "Chan", "members": [{"name": "Good", "type": "BOOL", "description": "d"}]}]"#);
    assert!(output.status.success());
    assert_eq!(output.stdout, plain.stdout);
    assert!(note(&output).contains("Chan") && note(&output).contains("Good"));
}

#[test]
fn what_no_book_can_say() {
    let long = "n".repeat(256);
    is_error(
        r#"[{"name": "Chan", "members": [{"name": "Good", "external_access": "Some"}]}]"#,
        &["Chan", "Good", "Some"],
    );
    is_error(r#"[{"name": "Chan", "members": [{"name": "Good", "external_access": "access 1"}]}]"#, &["Chan", "Good"]);
    is_error(&format!(r#"[{{"name": "{long}"}}]"#), &[&long, "255"]);
    is_error(&format!(r#"[{{"name": "Chan", "members": [{{"name": "{long}"}}]}}]"#), &["Chan", &long]);
    is_error(&format!(r#"[{{"name": "Chan", "members": [{{"name": "Good", "type": "{long}"}}]}}]"#), &["Chan", "Good"]);
    is_error(r#"[{"name": "Chan", "string": 4294967296}]"#, &["types"]);
    is_error("not JSON", &["types"]);
}

#[test]
fn more_than_a_count_can_say() {
    let types: Vec<String> = (0..65_536).map(|i| format!(r#"{{"name": "T{i}"}}"#)).collect();
    is_error(&format!("[{}]", types.join(",")), &["T65535", "65535 types"]);
    assert!(book(&format!("[{}]", types[1..].join(","))).status.success());
    let members: Vec<String> = (0..65_535).map(|i| format!(r#"{{"name": "m{i}"}}"#)).collect();
    let last = r#"{"name": "Two", "members": [{"name": "over"}]}"#;
    let first = format!(r#"{{"name": "One", "members": [{}]}}"#, members.join(","));
    assert!(book(&format!("[{first}]")).status.success());
    is_error(&format!("[{first}, {last}]"), &["Two", "over", "65535 members"]);
}
