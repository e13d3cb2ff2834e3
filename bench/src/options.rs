//! The command line.

use crate::bound;
use crate::draw::{FEWEST_CALLS, MOST_CALLS};
use crate::input::{self, Named, ORDERED_CALLS};
use crate::programs::Program;
use crate::source::Source;
use std::path::PathBuf;

pub const HELP: &str = "\
slavotuk-bench: times the record entry beside ordinary Rust with the same answers and counts its instructions, holds it to the bound
of order 12, and times the other entries beside the record and build/figures beside cksum

usage: slavotuk-bench [--rounds N] [--calls N]
       slavotuk-bench input FILE [--rounds N]
       slavotuk-bench write NAME FILE
       slavotuk-bench count [--calls N] [--bound R]
       slavotuk-bench agree [--calls N]
       slavotuk-bench emulate EMULATOR PLUGIN PROGRAM [--calls N] [--bound R]
       slavotuk-bench run NAME|FILE PROGRAM [--calls N]

without a word  compares all answers, then measures everything
input        the calls of a file alone: compares their answers, times them and counts their instructions
write        writes an input that has a name to a file, which says itself how it is read
count        compares all answers, then counts the instructions of the order's two inputs, and holds these to the bound: nothing is timed
agree        compares all answers, and nothing else
emulate      counts the instructions of PROGRAM, which is this one compiled for another machine, by one of qemu's emulators and
             tests/count_qemu.c, and holds these to the bound
run          makes the calls once and checks nothing: for a profiler or a counter. PROGRAM is entry, ordinary, structured, nothing, which
             answers at once, or holds or ordinary-holds, which test the slice once for each call
--rounds N   rounds that are timed, after a warm-up (61)
--calls N    record calls in a round, 16 to 116506 (100000); a series has a tenth of them for each process
--bound R    what entry/ordinary may be at most with twelve standing (1.5)
--help       this text

NAME: twelve-first, twelve-last, eight-first, eight-last, four-first, four-last, one, none: so many stand, over both ports, and names
differ in that byte; port-0-first, port-0-last, port-0-one: twelve or one, all on port 0, with the calls of before there was another;
series-first, series-last: accepted records of one process after another; refused-first, refused-last: the same, refused at their claim;
marked: every second class that is granted is so only under elevation.

Exit code: 0 where all answers agree and the bound is kept; 1 where answers differ, the bound is not kept, or something is missing that
is needed; 2 for bad usage.";

/// What is to be done.
pub enum Command {
    Help,
    Everything {
        rounds: usize,
        calls: usize,
    },
    Input {
        file: PathBuf,
        rounds: usize,
    },
    Write {
        named: &'static Named,
        file: PathBuf,
    },
    Count {
        calls: usize,
        bound: f64,
    },
    Agree {
        calls: usize,
    },
    Emulate {
        emulator: PathBuf,
        plugin: PathBuf,
        program: PathBuf,
        calls: usize,
        bound: f64,
    },
    Run {
        source: Source,
        program: Program,
    },
}

/// The command that these words are, or what is wrong with them.
pub fn parse(words: &[String]) -> Result<Command, String> {
    if words.iter().any(|word| word == "--help") {
        return Ok(Command::Help);
    }
    let (words, mut options) = split(words)?;
    let command = command(&words, &mut options)?;
    match options.first() {
        None => Ok(command),
        Some((name, _)) => Err(format!("{name} is no option here")),
    }
}

/// Options that were given and not asked for yet, each with its value.
type Options<'a> = Vec<(&'a str, &'a str)>;

/// The words that are none of an option, and the options.
fn split(words: &[String]) -> Result<(Vec<&str>, Options<'_>), String> {
    let (mut plain, mut options) = (Vec::new(), Options::new());
    let mut rest = words.iter().map(String::as_str);
    while let Some(word) = rest.next() {
        if word.starts_with("--") {
            let value = rest.next().ok_or(format!("{word} takes a value"))?;
            if take(&mut options, word).is_some() {
                return Err(format!("{word} is given twice"));
            }
            options.push((word, value));
        } else {
            plain.push(word);
        }
    }
    Ok((plain, options))
}

fn command(words: &[&str], options: &mut Options) -> Result<Command, String> {
    Ok(match *words {
        [] => Command::Everything {
            rounds: rounds(options)?,
            calls: calls(options)?,
        },
        ["input", file] => Command::Input {
            file: file.into(),
            rounds: rounds(options)?,
        },
        ["write", name, file] => Command::Write {
            named: input::find(name).ok_or(format!("no input has the name {name}"))?,
            file: file.into(),
        },
        ["count"] => Command::Count {
            calls: calls(options)?,
            bound: bound(options)?,
        },
        ["agree"] => Command::Agree {
            calls: calls(options)?,
        },
        ["emulate", emulator, plugin, program] => Command::Emulate {
            emulator: emulator.into(),
            plugin: plugin.into(),
            program: program.into(),
            calls: calls(options)?,
            bound: bound(options)?,
        },
        ["run", subject, program] => Command::Run {
            source: source(subject, options)?,
            program: Program::find(program).ok_or(format!("no program has the name {program}"))?,
        },
        _ => return Err(format!("no such command: {}", words.join(" "))),
    })
}

/// A name before a file: a file of that name is told as ./NAME.
fn source(subject: &str, options: &mut Options) -> Result<Source, String> {
    Ok(match input::find(subject) {
        Some(named) => Source::Named {
            named,
            calls: calls(options)?,
        },
        None => Source::File(subject.into()),
    })
}

fn rounds(options: &mut Options) -> Result<usize, String> {
    number_in(options, "--rounds", 61, 1, 10_000)
}

fn calls(options: &mut Options) -> Result<usize, String> {
    number_in(options, "--calls", ORDERED_CALLS, FEWEST_CALLS, MOST_CALLS)
}

fn bound(options: &mut Options) -> Result<f64, String> {
    let Some(value) = take(options, "--bound") else {
        return Ok(bound::ORDERED);
    };
    value
        .parse()
        .ok()
        .filter(|bound| (0.0..=1e6).contains(bound))
        .ok_or("--bound takes a number from 0 to 1000000".to_string())
}

fn number_in(
    options: &mut Options,
    name: &str,
    usual: usize,
    least: usize,
    most: usize,
) -> Result<usize, String> {
    let Some(value) = take(options, name) else {
        return Ok(usual);
    };
    value
        .parse()
        .ok()
        .filter(|number| (least..=most).contains(number))
        .ok_or_else(|| format!("{name} takes a number from {least} to {most}"))
}

/// The value of an option, which is then no longer among them.
fn take<'a>(options: &mut Options<'a>, name: &str) -> Option<&'a str> {
    let at = options.iter().position(|(given, _)| *given == name)?;
    Some(options.remove(at).1)
}

#[cfg(test)]
mod tests {
    use super::*;

    fn parsed(line: &str) -> Result<Command, String> {
        let words: Vec<String> = line.split_whitespace().map(str::to_string).collect();
        parse(&words)
    }

    #[test]
    fn what_is_left_out_is_as_usual() {
        let usual = parsed("");
        assert!(matches!(
            usual,
            Ok(Command::Everything {
                rounds: 61,
                calls: 100_000
            })
        ));
        let Ok(Command::Count { calls, bound }) = parsed("count --bound 0.1") else {
            panic!("count is a command");
        };
        assert_eq!((calls, bound), (100_000, 0.1));
    }

    #[test]
    fn a_source_is_started_by_the_words_that_it_is_read_from() {
        for line in [
            "run twelve-last entry --calls 1600",
            "run ./one ordinary-holds",
        ] {
            let Ok(Command::Run { source, program }) = parsed(line) else {
                panic!("run is a command");
            };
            let words: Vec<_> = source.words(program);
            let words: Vec<_> = words.iter().map(|word| word.to_string_lossy()).collect();
            assert_eq!(words.join(" "), line);
        }
    }

    #[test]
    fn bad_usage_is_told() {
        for (line, told) in [
            ("--calls", "--calls takes a value"),
            ("--calls 15", "--calls takes a number from 16 to 116506"),
            ("--rounds 0", "--rounds takes a number from 1 to 10000"),
            (
                "count --bound much",
                "--bound takes a number from 0 to 1000000",
            ),
            (
                "count --bound NaN",
                "--bound takes a number from 0 to 1000000",
            ),
            ("--bound 1", "--bound is no option here"),
            ("--calls 16 --calls 17", "--calls is given twice"),
            ("run file entry --calls 16", "--calls is no option here"),
            ("write two file", "no input has the name two"),
            ("run one program", "no program has the name program"),
            ("input", "no such command: input"),
            ("count more", "no such command: count more"),
        ] {
            assert_eq!(parsed(line).err().as_deref(), Some(told), "{line}");
        }
    }
}
