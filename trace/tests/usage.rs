//! The command by itself: what it asks for, and that a run in which nothing is compared fails.

use std::process::{Command, Output};

fn trace(words: &[&str]) -> Output {
    Command::new(env!("CARGO_BIN_EXE_slavotuk-trace"))
        .args(words)
        .output()
        .unwrap()
}

fn complaint(words: &[&str]) -> (Option<i32>, String) {
    let output = trace(words);
    assert_eq!(output.stdout, b"", "{words:?}");
    let complaint = String::from_utf8(output.stderr).unwrap();
    (output.status.code(), complaint)
}

#[test]
fn bad_usage_gets_the_help_and_2() {
    let uses: [&[&str]; 9] = [
        &[],
        &["run"],
        &["run", "--short"],
        &["emulate"],
        &["emulate", "emulator", "plugin"],
        &["emulate", "emulator", "plugin", "--short"],
        &["run-names", "more"],
        &["names", "more"],
        &["--help", "more"],
    ];
    for words in uses {
        let (code, complaint) = complaint(words);
        assert_eq!(code, Some(2), "{words:?}");
        assert!(complaint.contains("usage: slavotuk-trace"), "{words:?}");
    }
}

#[test]
fn help_is_printed() {
    let output = trace(&["--help"]);
    assert!(output.status.success());
    assert!(String::from_utf8(output.stdout)
        .unwrap()
        .contains("usage: slavotuk-trace"));
}

#[test]
fn a_program_without_cases_fails() {
    let (code, complaint) = complaint(&["run", "true"]);
    assert_eq!(
        (code, complaint.trim_end()),
        (Some(1), "slavotuk-trace: true has no case")
    );
}

#[test]
fn a_program_that_fails_is_told() {
    let (code, complaint) = complaint(&["run", "false"]);
    assert_eq!(code, Some(1));
    assert!(complaint.contains("false failed: exit status: 1"));
}

#[test]
fn a_line_without_a_case_fails() {
    let (code, complaint) = complaint(&["run", "printf", r"case\tkill\tbyte 0\n"]);
    assert_eq!(code, Some(1));
    assert!(complaint.contains("1 lines more than there are cases"));
}
