//! The program that prints the figures, as a process.

use std::fs;
use std::io::{Read, Write};
use std::path::{Path, PathBuf};
use std::process::{Child, Command, Output, Stdio};
use std::thread;
use std::time::{Duration, Instant};

/// How long it may take where it has all that it needs to go on.
pub const PATIENCE: Duration = Duration::from_secs(30);

/// The program in its file.
pub struct Program {
    file: PathBuf,
}

impl Program {
    /// The program in this file, where there is one.
    pub fn find(file: &Path) -> Result<Program, String> {
        let found = fs::canonicalize(file).ok().filter(|found| found.is_file());
        let missing = || {
            let file = file.display();
            format!("there is no program {file}; 'make figures' builds build/figures")
        };
        Ok(Program {
            file: found.ok_or_else(missing)?,
        })
    }

    /// Its file, for a shell that begins it.
    pub fn file(&self) -> &Path {
        &self.file
    }

    /// The command that runs it.
    pub fn command(&self) -> Command {
        Command::new(&self.file)
    }

    /// Begins it with pipes to standard input and from standard output.
    pub fn begin(&self) -> Result<Child, String> {
        let mut command = self.command();
        let piped = command.stdin(Stdio::piped()).stdout(Stdio::piped());
        let begun = piped.stderr(Stdio::piped()).spawn();
        begun.map_err(|error| format!("{} can't be run: {error}", self.file.display()))
    }

    /// What it prints for a drawer; it may say nothing on standard error.
    pub fn print(&self, drawer: &[u8]) -> Result<String, String> {
        let mut child = self.begin()?;
        let mut input = child.stdin.take().expect("standard input is a pipe");
        let output = thread::scope(|scope| {
            // a write fails where the program has ended, and what it printed tells whether it might
            scope.spawn(move || input.write_all(drawer));
            child.wait_with_output()
        });
        printed(output.map_err(|error| format!("waiting for its end: {error}"))?)
    }

    /// What it prints for a drawer after which standard input is held open: it has to end by itself.
    pub fn print_held_open(&self, drawer: &[u8]) -> Result<String, String> {
        let mut child = self.begin()?;
        let mut input = child.stdin.take().expect("standard input is a pipe");
        let mut output = child.stdout.take().expect("standard output is a pipe");
        thread::scope(|scope| {
            let writer = scope.spawn(move || {
                let _ = input.write_all(drawer);
                input
            });
            let reader = scope.spawn(move || {
                let mut printed = String::new();
                output.read_to_string(&mut printed).map(|_| printed)
            });
            let ended = ends_in_time(&mut child);
            drop(writer.join());
            let printed = reader.join().expect("the reader ends");
            match ended {
                true => printed.map_err(|error| format!("reading what it prints: {error}")),
                false => Err("it waits for the end of its standard input".to_string()),
            }
        })
    }
}

/// What it said on each side.
pub fn said(output: &Output) -> (String, String) {
    let text = |bytes: &[u8]| String::from_utf8_lossy(bytes).into_owned();
    (text(&output.stdout), text(&output.stderr))
}

/// What it printed in a run that has not failed.
pub fn printed(output: Output) -> Result<String, String> {
    match said(&output) {
        (printed, complaint) if complaint.is_empty() && output.status.success() => Ok(printed),
        (_, complaint) => Err(format!(
            "{}, and says on standard error {complaint:?}",
            output.status
        )),
    }
}

/// Waits for its end, and ends it where that takes too long.
fn ends_in_time(child: &mut Child) -> bool {
    let begun = Instant::now();
    while begun.elapsed() < PATIENCE {
        match child.try_wait() {
            Ok(None) => thread::sleep(Duration::from_millis(1)),
            Ok(Some(_)) => return true,
            Err(_) => break,
        }
    }
    stop(child);
    false
}

/// Ends it.
pub fn stop(child: &mut Child) {
    // it fails where the program has ended by itself
    let _ = child.kill();
    let _ = child.wait();
}
