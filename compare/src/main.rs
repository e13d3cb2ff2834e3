//! Runs the compiled archive and the program of order 6 beside the model of documents 01 and 02, and tells where they differ.
#![forbid(unsafe_code)]

mod across;
mod call;
mod claim;
mod damage;
mod depth;
mod figures;
mod figures_bounds;
mod figures_drawers;
mod figures_failures;
mod figures_process;
mod figures_program;
mod figures_random;
mod figures_trial;
mod generate;
mod grants;
mod image_test;
mod images;
mod known;
mod messages;
mod port_pairs;
mod port_steps;
mod ports;
mod protected;
mod random;
mod report;
mod rescue_draw;
mod rescue_test;
mod rescue_tried;
mod run;
mod sequence;
mod shrink;
mod sides;
mod unprotected;
mod wire;
mod wire_bounds;
mod wire_generate;
mod wire_random;
mod wire_test;
mod wire_tried;

use std::path::PathBuf;
use std::process::ExitCode;
use std::time::{Duration, SystemTime, UNIX_EPOCH};

const HELP: &str = "\
Runs the compiled archive and the program of order 6 beside the model of documents 01 and 02, and tells where they differ.

usage: slavotuk-compare test [--calls N] [--seed S]
       slavotuk-compare rescue [--seed S]
       slavotuk-compare soak [--seconds N | --forever] [--seed S]
       slavotuk-compare replay SEED
       slavotuk-compare figures [--drawers N] [--seed S] [--program FILE]

test    all tests: N calls in random sequences over 21 entries (5000000 unless given, at least 200000), with power cycles between
        them, claims that passed sent again, every pair of bits of a class in both words, every pair of sessions of both ports,
        damaged states, fresh modules, images, damaged images rescued, the listing messages, and all messages of 004 clause 9.2.
        The same seed makes the same calls; it is 1 unless given.
rescue  of these, the tests that rescue damaged images.
soak    random sequences, damaged states and damaged images for N seconds (60 unless given), with a line now and then. The seed
        is taken from the clock unless given, and printed.
replay  one sequence again, by the seed that a failure printed. The failure is printed with its sequence shrunk.
figures the program that prints figures of a drawer of images: all that it prints for known drawers, and for N that are drawn (25
        unless given, at least 2). The program is the one that 'make figures' builds unless given. A drawer that fails is kept
        below build/.

A test prints 'ok: ..' or 'FAILED: ..', and the last line is 'N passed, M failed'.
Exit codes: 0 nothing failed, 1 something failed, 2 bad usage, or no program there to be tried.
";

const LEAST_CALLS: u64 = 200_000;
const LEAST_DRAWERS: u64 = 2;

enum Command {
    Help,
    Test {
        calls: usize,
        seed: u64,
    },
    Rescue {
        seed: u64,
    },
    Soak {
        time: Option<Duration>,
        seed: u64,
    },
    Replay {
        seed: u64,
    },
    Figures {
        program: Option<PathBuf>,
        drawers: usize,
        seed: u64,
    },
}

fn main() -> ExitCode {
    let arguments: Vec<String> = std::env::args().skip(1).collect();
    parse(&arguments).and_then(run).unwrap_or_else(|message| {
        eprintln!("slavotuk-compare: {message}; --help tells more");
        ExitCode::from(2)
    })
}

fn run(command: Command) -> Result<ExitCode, String> {
    match command {
        Command::Help => {
            print!("{HELP}");
            Ok(ExitCode::SUCCESS)
        }
        Command::Test { calls, seed } => Ok(run::test(calls, seed)),
        Command::Rescue { seed } => Ok(run::rescue(seed)),
        Command::Soak { time, seed } => Ok(run::soak(time, seed)),
        Command::Replay { seed } => Ok(run::replay(seed)),
        Command::Figures {
            program,
            drawers,
            seed,
        } => figures::test(program.as_deref(), drawers, seed),
    }
}

fn parse(arguments: &[String]) -> Result<Command, String> {
    if arguments
        .iter()
        .any(|word| word == "--help" || word == "-h")
    {
        return Ok(Command::Help);
    }
    let mut words = arguments.iter().map(String::as_str);
    match words.next() {
        Some("test") => parse_test(words),
        Some("rescue") => parse_rescue(words),
        Some("soak") => parse_soak(words),
        Some("figures") => parse_figures(words),
        Some("replay") => {
            let seed = number(words.next(), "replay")?;
            match words.next() {
                None => Ok(Command::Replay { seed }),
                Some(word) => Err(format!("'{word}' is one word too many")),
            }
        }
        Some(word) => Err(format!("there is no command '{word}'")),
        None => Err("a command is missing".to_string()),
    }
}

fn parse_test<'a>(mut words: impl Iterator<Item = &'a str>) -> Result<Command, String> {
    let (mut calls, mut seed) = (5_000_000, 1);
    while let Some(word) = words.next() {
        match word {
            "--calls" => calls = number(words.next(), word)?,
            "--seed" => seed = number(words.next(), word)?,
            _ => return Err(format!("test has no option '{word}'")),
        }
    }
    if calls < LEAST_CALLS {
        return Err(format!("--calls is at least {LEAST_CALLS}"));
    }
    let calls = calls as usize;
    Ok(Command::Test { calls, seed })
}

fn parse_rescue<'a>(mut words: impl Iterator<Item = &'a str>) -> Result<Command, String> {
    let mut seed = 1;
    while let Some(word) = words.next() {
        match word {
            "--seed" => seed = number(words.next(), word)?,
            _ => return Err(format!("rescue has no option '{word}'")),
        }
    }
    Ok(Command::Rescue { seed })
}

fn parse_soak<'a>(mut words: impl Iterator<Item = &'a str>) -> Result<Command, String> {
    let mut time = Some(Duration::from_secs(60));
    let mut seed = None;
    while let Some(word) = words.next() {
        match word {
            "--seconds" => time = Some(Duration::from_secs(number(words.next(), word)?)),
            "--forever" => time = None,
            "--seed" => seed = Some(number(words.next(), word)?),
            _ => return Err(format!("soak has no option '{word}'")),
        }
    }
    let seed = seed.unwrap_or_else(seed_of_the_clock);
    Ok(Command::Soak { time, seed })
}

fn parse_figures<'a>(mut words: impl Iterator<Item = &'a str>) -> Result<Command, String> {
    let (mut program, mut drawers, mut seed) = (None, 25, 1);
    while let Some(word) = words.next() {
        match word {
            "--drawers" => drawers = number(words.next(), word)?,
            "--seed" => seed = number(words.next(), word)?,
            "--program" => {
                let file = words.next().ok_or(format!("{word} needs a file"))?;
                program = Some(PathBuf::from(file));
            }
            _ => return Err(format!("figures has no option '{word}'")),
        }
    }
    if drawers < LEAST_DRAWERS {
        return Err(format!("--drawers is at least {LEAST_DRAWERS}"));
    }
    Ok(Command::Figures {
        program,
        drawers: drawers as usize,
        seed,
    })
}

fn number(word: Option<&str>, of: &str) -> Result<u64, String> {
    let word = word.ok_or(format!("{of} needs a number"))?;
    let parsed = word.parse();
    parsed.map_err(|_| format!("{of} needs a number, not '{word}'"))
}

fn seed_of_the_clock() -> u64 {
    let since = SystemTime::now().duration_since(UNIX_EPOCH);
    since.map_or(1, |since| since.as_nanos() as u64)
}
