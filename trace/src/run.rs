//! A program that is traced: its trace comes on standard error, and what it says on standard output.

use crate::cut::{cut, Beside};
use crate::groups::Groups;
use crate::said::{Buffer, Case, Said};
use std::io::{BufRead, BufReader, ErrorKind, Read};
use std::process::{Child, Command, Stdio};
use std::sync::mpsc::{channel, Receiver};
use std::thread;
use std::time::Duration;

/// A line of a case is written before the case begins, so it is there or on its way. A program that keeps it back would wait for us, and we for it.
const PATIENCE: Duration = Duration::from_secs(60);

/// What came of a run.
pub struct Traced {
    /// Where the program's buffers lie.
    pub buffers: Vec<Buffer>,
    /// Its cases, compared.
    pub groups: Groups,
}

/// What prints the trace.
pub enum Tracer<'a> {
    /// valgrind's, for programs of this machine.
    Lackey,
    /// One of qemu's, with a plugin, for programs of another.
    Emulator {
        /// Its command.
        emulator: &'a str,
        /// The plugin's file.
        plugin: &'a str,
    },
}

impl Tracer<'_> {
    fn words(&self) -> Vec<&str> {
        match self {
            Tracer::Lackey => vec![
                "valgrind",
                "--quiet",
                "--tool=lackey",
                "--basic-counts=no",
                "--trace-mem=yes",
            ],
            Tracer::Emulator { emulator, plugin } => vec![emulator, "-plugin", plugin],
        }
    }
}

/// Runs the program and compares its cases, to its end.
pub fn run(tracer: &Tracer, program: &[&str]) -> Result<Traced, String> {
    let words = tracer.words();
    let mut child = start(&words, program)?;
    let trace = child.stderr.take().expect("it is piped");
    let output = child.stdout.take().expect("it is piped");
    let mut lines = Lines {
        said: in_background(output),
        buffers: Vec::new(),
    };
    let cases = cut(BufReader::with_capacity(1 << 20, trace), &mut lines);
    // of a trace that can't be cut nothing more is wanted, and the program would wait for ever to write it
    if cases.is_err() {
        child.kill().ok();
    }
    let status = child
        .wait()
        .map_err(|error| format!("{}: {error}", words[0]))?;
    let groups = cases?;
    if !status.success() {
        return Err(format!("{} failed: {status}", program[0]));
    }
    lines.nothing_left()?;
    Ok(Traced {
        buffers: lines.buffers,
        groups,
    })
}

fn start(tracer: &[&str], program: &[&str]) -> Result<Child, String> {
    Command::new(tracer[0])
        .args(&tracer[1..])
        .args(program)
        .stdin(Stdio::null())
        .stdout(Stdio::piped())
        .stderr(Stdio::piped())
        .spawn()
        .map_err(|error| match error.kind() {
            ErrorKind::NotFound => {
                format!("{} is not installed: tests/install gets it", tracer[0])
            }
            _ => format!("{}: {error}", tracer[0]),
        })
}

/// The lines that the program says, read beside the trace.
fn in_background(output: impl Read + Send + 'static) -> Receiver<Result<Said, String>> {
    let (sender, receiver) = channel();
    thread::spawn(move || {
        let lines = BufReader::new(output).lines();
        let mut said = lines.map(|line| Said::read(&line.map_err(|error| error.to_string())?));
        said.try_for_each(|line| sender.send(line))
    });
    receiver
}

struct Lines {
    said: Receiver<Result<Said, String>>,
    buffers: Vec<Buffer>,
}

impl Lines {
    /// The program has ended, and has said no more than its cases.
    fn nothing_left(&self) -> Result<(), String> {
        match self.said.iter().count() {
            0 => Ok(()),
            count => Err(format!(
                "the program printed {count} lines more than there are cases"
            )),
        }
    }
}

impl Beside for Lines {
    fn next_case(&mut self) -> Result<Case, String> {
        loop {
            match self.said.recv_timeout(PATIENCE) {
                Ok(Ok(Said::Case(case))) => return Ok(case),
                Ok(Ok(Said::Buffer(buffer))) => self.buffers.push(buffer),
                Ok(Err(fault)) => return Err(fault),
                Err(_) => {
                    return Err("a case began of which the program has printed no line".to_string())
                }
            }
        }
    }

    fn message(&mut self, line: &[u8]) {
        eprintln!("{}", String::from_utf8_lossy(line).trim_end());
    }
}
