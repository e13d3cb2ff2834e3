//! Runs the built console on a script.
#![allow(dead_code, unused_imports)]

mod folder;

pub use folder::Folder;
use std::io::Write;
use std::process::{Child, Command, Stdio};

/// What a run has written, and its exit code.
pub struct Run {
    pub out: String,
    pub err: String,
    pub code: Option<i32>,
}

pub fn console() -> Command {
    Command::new(env!("CARGO_BIN_EXE_slavotuk-console"))
}

pub fn spawn(command: &mut Command) -> Child {
    let piped = command.stdin(Stdio::piped()).stdout(Stdio::piped());
    piped.stderr(Stdio::piped()).spawn().unwrap()
}

/// Hands the script in from a thread of its own, so that a long answer can be read meanwhile.
pub fn run(script: impl AsRef<[u8]>) -> Run {
    let script = script.as_ref().to_vec();
    let mut child = spawn(&mut console());
    let mut input = child.stdin.take().unwrap();
    let writer = std::thread::spawn(move || {
        // the console may have quit before the script's end
        let _ = input.write_all(&script);
    });
    let output = child.wait_with_output().unwrap();
    writer.join().unwrap();
    Run {
        out: String::from_utf8(output.stdout).unwrap(),
        err: String::from_utf8(output.stderr).unwrap(),
        code: output.status.code(),
    }
}

/// A run whose lines are all good.
#[track_caller]
pub fn good(script: impl AsRef<[u8]>) -> String {
    let run = run(script);
    assert_eq!(run.err, "");
    assert_eq!(run.code, Some(0));
    run.out
}

/// The lines that a good script is answered with.
pub fn answers(script: &str) -> Vec<String> {
    good(script).lines().map(String::from).collect()
}
