//! A console for the management login module. A line is a call; the answer is its number in documents 01 and 02 and that number's name.

#![forbid(unsafe_code)]

mod bytes;
mod console;
#[cfg(test)]
mod document;
#[cfg(test)]
mod document_image;
#[cfg(test)]
mod document_rescue;
mod draw;
mod files;
#[cfg(test)]
#[path = "../tests/common/folder.rs"]
mod folder;
mod formats;
mod help;
mod line;
mod read;
mod replace;
mod rescue;
mod tables;
mod write;

use console::{Console, Next, Trouble};
use std::ffi::OsString;
use std::io::{self, BufRead, BufWriter, IsTerminal, Read, Write};
use std::process::ExitCode;

/// The longest line that is read: the longest message there is fits into it, with a blank after each byte.
const LONGEST_LINE: usize = 16 * 1024 * 1024;

const GREETING: &str =
    "Slavotuk: a fresh module, credentials 0 (word 15) and 1 (word 16); try help.";

const USAGE: &str = "\
usage: slavotuk-console [--help | --version]

Reads calls from standard input, one on a line, and answers each with its number
in documents 01 and 02 and that number's name. At a terminal it prompts; other
input is a script.

A bad line gets a message on standard error, and the console goes on.
Exit code: 0 where no line was bad, 1 where one was, 2 for bad arguments.

The lines:
";

fn main() -> ExitCode {
    let arguments: Vec<OsString> = std::env::args_os().skip(1).collect();
    match arguments.as_slice() {
        [] => converse(),
        [one] if one == "--help" || one == "-h" => usage(),
        [one] if one == "--version" || one == "-V" => version(),
        [one, ..] => {
            complain(&format!(
                "slavotuk-console: no argument {one:?}; --help says more"
            ));
            ExitCode::from(2)
        }
    }
}

fn usage() -> ExitCode {
    let mut out = io::stdout().lock();
    let written = out
        .write_all(USAGE.as_bytes())
        .and_then(|()| help::overview(&mut out));
    exit_code(written, true)
}

/// The console's version, and that of the archive it is linked to.
fn version() -> ExitCode {
    let library = slavotuk::entries::version();
    let (major, minor, patch) = (library >> 16, library >> 8 & 0xff, library & 0xff);
    let ours = env!("CARGO_PKG_VERSION");
    let written = writeln!(
        io::stdout(),
        "slavotuk-console {ours}, library {major}.{minor}.{patch}"
    );
    exit_code(written, true)
}

/// Writes a message to standard error. Where that is closed, there is nobody left to tell.
fn complain(message: &str) {
    let _ = writeln!(io::stderr(), "{message}");
}

/// The exit code. That the reader of our output has gone away is no failure.
fn exit_code(written: io::Result<()>, all_good: bool) -> ExitCode {
    match written {
        Err(error) if error.kind() != io::ErrorKind::BrokenPipe => {
            complain(&format!("standard output: {error}"));
            ExitCode::FAILURE
        }
        _ if all_good => ExitCode::SUCCESS,
        _ => ExitCode::FAILURE,
    }
}

fn converse() -> ExitCode {
    let input = io::stdin().lock();
    let mut talk = Talk {
        at_terminal: input.is_terminal(),
        out: BufWriter::new(io::stdout().lock()),
        console: Console::new(),
        line: 0,
        all_good: true,
    };
    let written = talk.go_through(input);
    exit_code(written, talk.all_good)
}

/// What is read from the input.
enum Input {
    Line(Vec<u8>),
    TooLong,
    End,
}

fn read_line(input: &mut impl BufRead) -> io::Result<Input> {
    let mut line = Vec::new();
    let limit = LONGEST_LINE as u64 + 1;
    input.take(limit).read_until(b'\n', &mut line)?;
    if line.is_empty() {
        return Ok(Input::End);
    }
    if line.len() <= LONGEST_LINE {
        return Ok(Input::Line(line));
    }
    while !line.is_empty() && !line.ends_with(b"\n") {
        line.clear();
        input.take(limit).read_until(b'\n', &mut line)?;
    }
    Ok(Input::TooLong)
}

/// A conversation with whoever writes the lines.
struct Talk<W: Write> {
    at_terminal: bool,
    out: W,
    console: Console,
    /// The number of the line that was read last.
    line: u64,
    /// Whether no line was bad.
    all_good: bool,
}

impl<W: Write> Talk<W> {
    fn go_through(&mut self, mut input: impl BufRead) -> io::Result<()> {
        self.greet()?;
        loop {
            self.prompt()?;
            self.line += 1;
            let done = match read_line(&mut input) {
                Ok(Input::End) => return self.take_leave(),
                Ok(Input::TooLong) => Err(Trouble::Line(format!("over {LONGEST_LINE} bytes long"))),
                Ok(Input::Line(line)) => self.carry_out(&line),
                Err(error) => {
                    self.all_good = false;
                    complain(&format!("standard input: {error}"));
                    return Ok(());
                }
            };
            self.out.flush()?;
            match done {
                Ok(Next::Line) => {}
                Ok(Next::End) => return Ok(()),
                Err(Trouble::Line(wrong)) => self.reject(&wrong),
                Err(Trouble::Output(error)) => return Err(error),
            }
        }
    }

    fn greet(&mut self) -> io::Result<()> {
        if self.at_terminal {
            writeln!(self.out, "{GREETING}")?;
        }
        Ok(())
    }

    fn prompt(&mut self) -> io::Result<()> {
        if self.at_terminal {
            write!(self.out, "slavotuk> ")?;
            self.out.flush()?;
        }
        Ok(())
    }

    /// Ends the prompt's line, which the end of the input has left open.
    fn take_leave(&mut self) -> io::Result<()> {
        if self.at_terminal {
            writeln!(self.out)?;
        }
        self.out.flush()
    }

    fn reject(&mut self, wrong: &str) {
        self.all_good = false;
        complain(&format!("line {}: {wrong}", self.line));
    }

    fn carry_out(&mut self, line: &[u8]) -> Result<Next, Trouble> {
        let text = std::str::from_utf8(line)
            .map_err(|_| String::from("not UTF-8 text"))?
            .trim();
        match line::read(text)? {
            Some(command) => self.console.run(command, text, &mut self.out),
            None => Ok(Next::Line),
        }
    }
}

#[cfg(test)]
mod tests {
    use super::*;

    fn talked(at_terminal: bool, input: &[u8]) -> (String, bool) {
        let mut talk = Talk {
            at_terminal,
            out: Vec::new(),
            console: Console::new(),
            line: 0,
            all_good: true,
        };
        talk.go_through(input).unwrap();
        (String::from_utf8(talk.out).unwrap(), talk.all_good)
    }

    #[test]
    fn a_person_is_greeted_and_prompted() {
        let (out, all_good) = talked(true, b"open 0\n\nopen 0\n");
        let talk = "slavotuk> 0 done\nslavotuk> slavotuk> 2 session\nslavotuk> \n";
        assert_eq!(out, format!("{GREETING}\n{talk}"));
        assert!(all_good);
    }

    #[test]
    fn a_script_gets_answers_alone() {
        assert_eq!(
            talked(false, b"open 0\nopen 0\n"),
            ("0 done\n2 session\n".into(), true)
        );
        assert_eq!(talked(false, b"quit\nopen 0\n"), (String::new(), true));
    }
}
