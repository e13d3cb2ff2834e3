//! The program where it can't read or write, and with words on its command line: a message on standard error, and no total.

use crate::figures_drawers::{example, piece};
use crate::figures_program::{said, Program};
use crate::figures_trial::{keep, Setting};
use std::fs::{File, OpenOptions};
use std::io::{self, ErrorKind, Read, Seek, Write};
use std::os::fd::OwnedFd;
use std::os::unix::net::UnixStream;
use std::path::Path;
use std::process::{Command, Stdio};

/// Runs in which something fails.
pub fn failures(setting: &Setting) -> Result<String, String> {
    let program = &setting.program;
    let file = setting.kept.join("figures-example.drawer");
    let drawer = piece(&example()).repeat(1_000);
    keep(&file, &drawer).map_err(|error| format!("{}: {error}", file.display()))?;
    let mut runs = 0;
    for (what, mut command, message) in unreadable(program)? {
        complains(what, &mut command, message)?;
        runs += 1;
    }
    for (what, mut command, message) in unwritable(program, &file)? {
        complains(what, &mut command, message)?;
        runs += 1;
    }
    for word in ["drawer", "--help", "-", ""] {
        takes_no_word(program, word, &file)?;
        runs += 1;
    }
    Ok(format!("standard input a folder or closed, standard output full or closed, a word on the command line: {runs} runs, each with its message and no total"))
}

/// A read that fails at every place of two images, their ends too: the lines of the images before it, the message, and no total.
pub fn failed_reads(setting: &Setting) -> Result<String, String> {
    let image = piece(&example());
    let drawer = image.repeat(2);
    reads_can_fail()?;
    for there in 0..=drawer.len() {
        let what = format!("a read that fails after {there} bytes");
        let failing =
            failing_after(&drawer[..there]).map_err(|error| format!("{what}: {error}"))?;
        let mut command = setting.program.command();
        command.stdin(OwnedFd::from(failing));
        // document 02's example
        let lines = "0 5 0\n".repeat(there / image.len());
        let printed = complains(&what, &mut command, "standard input: ")?;
        if printed != lines {
            return Err(format!("{what}: expected {lines:?}, printed {printed:?}"));
        }
    }
    let runs = drawer.len() + 1;
    Ok(format!("a read that fails at every place of two images: {runs} runs, each with the lines before it, its message and no total"))
}

/// A stream of these bytes, after which a read fails: a socket fails so where the other end was closed with a byte in it that nobody has read.
fn failing_after(bytes: &[u8]) -> io::Result<UnixStream> {
    let (mut end, mut other) = UnixStream::pair()?;
    end.write_all(&[0])?;
    other.write_all(bytes)?;
    Ok(end)
}

/// That a read fails so is the system's doing. Where it does not, nothing is tried, and that is a failure of the test.
fn reads_can_fail() -> Result<(), String> {
    let bytes = [1, 2, 3];
    let mut read = Vec::new();
    let outcome = failing_after(&bytes).and_then(|mut end| end.read_to_end(&mut read));
    match outcome {
        Err(error) if error.kind() == ErrorKind::ConnectionReset && read == bytes => Ok(()),
        outcome => Err(format!("no read can be made to fail on this machine, so failed reads are not tried: of {bytes:?} it read {read:?} and then {outcome:?}")),
    }
}

/// What is tried, the command, and how its message begins.
type Run = (&'static str, Command, &'static str);

fn unreadable(program: &Program) -> Result<[Run; 2], String> {
    let message = "standard input: ";
    let mut folder = program.command();
    folder.stdin(open(Path::new("/"))?);
    let closed = in_a_shell(program, "<&-");
    Ok([
        ("a folder as standard input", folder, message),
        ("closed standard input", closed, message),
    ])
}

fn unwritable(program: &Program, drawer: &Path) -> Result<[Run; 3], String> {
    let message = "standard output: ";
    let full_disk = |input: Stdio| {
        let full = OpenOptions::new().write(true).open("/dev/full");
        let full = full.map_err(|error| format!("/dev/full: {error}"))?;
        let mut command = program.command();
        command.stdin(input).stdout(full);
        Ok::<Command, String>(command)
    };
    let images = full_disk(open(drawer)?.into())?;
    let empty = full_disk(Stdio::null())?;
    let mut closed = in_a_shell(program, ">&-");
    closed.stdin(open(drawer)?);
    Ok([
        ("a full disk, images", images, message),
        ("a full disk, an empty drawer", empty, message),
        ("closed standard output", closed, message),
    ])
}

fn open(file: &Path) -> Result<File, String> {
    File::open(file).map_err(|error| format!("{}: {error}", file.display()))
}

/// The program behind a redirection that a shell makes.
fn in_a_shell(program: &Program, redirection: &str) -> Command {
    let mut command = Command::new("sh");
    let line = format!("exec \"$0\" {redirection}");
    command.arg("-c").arg(line).arg(program.file());
    command
}

/// It ends with one message that begins so, and prints no total. What it prints.
fn complains(what: &str, command: &mut Command, message: &str) -> Result<String, String> {
    let output = command.stderr(Stdio::piped()).output();
    let output = output.map_err(|error| format!("{what}: {error}"))?;
    let (printed, complaint) = said(&output);
    let is_one = complaint.starts_with(message) && complaint.matches(message).count() == 1;
    if is_one && !printed.contains("total") {
        return Ok(printed);
    }
    Err(format!(
        "{what}: expected a message that begins {message:?} and no total, printed {printed:?} and on standard error {complaint:?}"
    ))
}

/// It tells how it is used, and neither prints nor reads.
fn takes_no_word(program: &Program, word: &str, drawer: &Path) -> Result<(), String> {
    let mut file = open(drawer)?;
    let lent = file.try_clone().map_err(|error| error.to_string())?;
    let output = program.command().arg(word).stdin(lent).output();
    let output = output.map_err(|error| format!("word {word:?}: {error}"))?;
    let (printed, complaint) = said(&output);
    let read = file.stream_position().map_err(|error| error.to_string())?;
    if complaint.starts_with("usage: figures < DRAWER") && printed.is_empty() && read == 0 {
        return Ok(());
    }
    Err(format!(
        "word {word:?}: expected its usage and nothing read, read {read} bytes, printed {printed:?} and on standard error {complaint:?}"
    ))
}
