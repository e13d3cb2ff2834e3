//! Times the record entry beside ordinary Rust with the same answers on the same slice and counts its instructions, holds both to the bound of order 12, and times
//! the other entries beside the record and the program that prints figures beside `cksum`.

mod agreement;
mod bound;
mod costs;
mod counts;
mod draw;
mod figures;
mod file;
mod input;
mod marked;
mod numbers;
mod options;
mod ordinary;
mod parts;
mod programs;
mod report;
mod source;
mod states;
mod structured;
mod timing;

use bound::Ratios;
use counts::Counter;
use figures::Bench;
use file::Recorded;
use input::{Named, Row, MARKED, MIXED, ORDERED_CALLS, PORT_0, SERIES};
use options::Command;
use source::{Source, Subject};
use std::path::{Path, PathBuf};
use std::process::ExitCode;

fn main() -> ExitCode {
    let words: Vec<String> = std::env::args().skip(1).collect();
    let command = match options::parse(&words) {
        Ok(command) => command,
        Err(fault) => {
            eprintln!("slavotuk-bench: {fault}\n\n{}", options::HELP);
            return ExitCode::from(2);
        }
    };
    match done(command) {
        Ok(true) => ExitCode::SUCCESS,
        Ok(false) => ExitCode::FAILURE,
        Err(fault) => {
            eprintln!("slavotuk-bench: {fault}");
            ExitCode::FAILURE
        }
    }
}

/// Whether the bound is kept, where it was asked for.
fn done(command: Command) -> Result<bool, String> {
    match command {
        Command::Help => println!("{}", options::HELP),
        Command::Everything { rounds, calls } => return everything(rounds, calls),
        Command::Input { file, rounds } => of_file(&file, rounds)?,
        Command::Write { named, file } => write(named, &file)?,
        Command::Count { calls, bound } => return count(calls, bound),
        Command::Agree { calls } => agree(calls)?,
        Command::Emulate {
            emulator,
            plugin,
            program,
            calls,
            bound,
        } => {
            let counter = Counter::emulator(&emulator, &plugin, &program);
            return emulate(&counter, calls, bound);
        }
        Command::Run { source, program } => {
            program.make_calls(&source.input()?);
        }
    }
    Ok(true)
}

fn everything(rounds: usize, calls: usize) -> Result<bool, String> {
    let figures = Bench::prepare()?;
    let counter = Counter::callgrind()?;
    report::print_input(calls);
    agree(calls)?;
    println!();
    let ratios = records("Records", &MIXED, rounds, calls, &counter)?;
    records("All on port 0", &PORT_0, rounds, calls, &counter)?;
    records("Series", &SERIES, rounds, calls, &counter)?;
    records("Marked classes", &MARKED, rounds, calls, &counter)?;
    let parts = parts::Subjects::new(calls);
    report::print_parts(parts.times(rounds), parts.counts(&counter)?);
    println!();
    report::print_costs(rounds);
    println!();
    report::print_figures(&figures, rounds)?;
    println!();
    println!("{}", bound::goals(&ratios));
    Ok(is_within(&ratios, bound::ORDERED))
}

/// Times and instructions of these inputs.
fn records(
    title: &str,
    named: &'static [Named],
    rounds: usize,
    calls: usize,
    counter: &Counter,
) -> Result<[Ratios; 2], String> {
    let subjects = subjects(named, calls);
    let times = report::print_times(title, &subjects, rounds);
    println!();
    let counts = report::print_counts(title, &subjects, counter)?;
    println!();
    Ok([times, counts])
}

fn subjects(named: &'static [Named], calls: usize) -> Vec<Subject> {
    named
        .iter()
        .map(|named| Subject::named(named, calls))
        .collect()
}

fn of_file(file: &Path, rounds: usize) -> Result<(), String> {
    let recorded = file::read(file)?;
    report::print_file(&recorded.input);
    agreement::check_recorded(&recorded)?;
    println!();
    println!("The three agree on every call, with the file too, and leave the state that it says.");
    println!();
    let subjects = [Subject {
        source: Source::File(absolute(file)?),
        input: recorded.input,
    }];
    report::print_times("Records", &subjects, rounds);
    println!();
    report::print_counts("Records", &subjects, &Counter::callgrind()?)?;
    Ok(())
}

/// So that no file is taken for an input of its name.
fn absolute(file: &Path) -> Result<PathBuf, String> {
    file.canonicalize()
        .map_err(|error| format!("{}: {error}", file.display()))
}

fn write(named: &'static Named, file: &Path) -> Result<(), String> {
    let input = named.input(ORDERED_CALLS);
    let left = agreement::check_calls(&input)?;
    let drawn = match named.row {
        Row::Mixed | Row::Marked => {
            format!("Drawn and shuffled by SplitMix64 from seed {}.", draw::SEED)
        }
        Row::Series | Row::Refused => "Nothing in it is drawn.".to_string(),
    };
    Recorded { input, left }.write(file, &drawn)?;
    println!("{} is written to {}", named.name, file.display());
    Ok(())
}

fn count(calls: usize, bound: f64) -> Result<bool, String> {
    Bench::prepare()?;
    agree(calls)?;
    println!();
    let subjects = subjects(bound::ordered(), calls);
    let counts = report::print_counts("Records", &subjects, &Counter::callgrind()?)?;
    println!();
    Ok(is_within(&[counts], bound))
}

fn agree(calls: usize) -> Result<(), String> {
    agreement::check(calls)?;
    println!("The three agree on every call of every input and on calls with several faults. Entry and ordinary leave the same bytes, and agree on every slice that is one byte away.");
    Ok(())
}

fn emulate(counter: &Counter, calls: usize, bound: f64) -> Result<bool, String> {
    let counts = report::print_counts("Records", &subjects(&MIXED, calls), counter)?;
    println!();
    report::print_counts("All on port 0", &subjects(&PORT_0, calls), counter)?;
    println!();
    report::print_counts("Series", &subjects(&SERIES, calls), counter)?;
    println!();
    report::print_counts("Marked classes", &subjects(&MARKED, calls), counter)?;
    println!();
    Ok(is_within(&[counts], bound))
}

/// Prints the verdict.
fn is_within(ratios: &[Ratios], bound: f64) -> bool {
    let verdict = bound::verdict(ratios, bound);
    println!("{}", verdict.line);
    verdict.is_within
}
