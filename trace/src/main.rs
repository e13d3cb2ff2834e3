//! Runs a program under valgrind's lackey, or under an emulator that prints the same, and compares what its calls read from case to case. docs/TRACE.md says what for.
#![deny(unsafe_code)]

mod cut;
mod groups;
mod lines;
#[allow(unsafe_code)]
mod marks;
mod names;
mod run;
mod said;

use run::Tracer;
use std::process::ExitCode;

const HELP: &str = "\
slavotuk-trace: compares what calls read from memory, from case to case, on a trace by valgrind's lackey

usage: slavotuk-trace run PROGRAM [ARGUMENT..]
       slavotuk-trace emulate EMULATOR PLUGIN PROGRAM [ARGUMENT..]
       slavotuk-trace run-names
       slavotuk-trace names

run        runs the program under lackey. It says on standard output where its buffers lie and what each case is, and marks where a
           case begins and ends, as tests/trace.c does. For each group of cases a line tells whether all have the loads of the first
           one, and if not, which load is the first that differs. The last line is 'N passed, M failed'
emulate    the same of a program for another machine, run by one of qemu's emulators with tests/trace_qemu.c, which prints as lackey does
run-names  as run, of 'slavotuk-trace names'
names      is such a program: the comparisons of names that a program in Rust would use
--help     this text

Exit code: 0 where all groups pass and there is one; 1 where one fails or nothing could be compared; 2 for bad usage.";

fn main() -> ExitCode {
    let words: Vec<String> = std::env::args().skip(1).collect();
    let words: Vec<&str> = words.iter().map(String::as_str).collect();
    match words[..] {
        ["--help"] => {
            println!("{HELP}");
            ExitCode::SUCCESS
        }
        ["run", program, ..] if !program.starts_with('-') => {
            ended(compared(&Tracer::Lackey, &words[1..]))
        }
        ["emulate", emulator, plugin, program, ..] if !program.starts_with('-') => ended(compared(
            &Tracer::Emulator { emulator, plugin },
            &words[3..],
        )),
        ["run-names"] => ended(names_compared()),
        ["names"] => ended(names::try_all().map(|()| true)),
        _ => {
            eprintln!("{HELP}");
            ExitCode::from(2)
        }
    }
}

fn ended(result: Result<bool, String>) -> ExitCode {
    match result {
        Ok(true) => ExitCode::SUCCESS,
        Ok(false) => ExitCode::FAILURE,
        Err(fault) => {
            eprintln!("slavotuk-trace: {fault}");
            ExitCode::FAILURE
        }
    }
}

/// Runs this program once more, as the one that is traced.
fn names_compared() -> Result<bool, String> {
    let own = std::env::current_exe().map_err(|error| error.to_string())?;
    let own = own.to_str().ok_or("the path of this program is no text")?;
    compared(&Tracer::Lackey, &[own, "names"])
}

/// Prints what came of a run, and tells whether all groups passed.
fn compared(tracer: &Tracer, program: &[&str]) -> Result<bool, String> {
    let traced = run::run(tracer, program)?;
    let groups = traced.groups.groups();
    if groups.is_empty() {
        return Err(format!("{} has no case", program[0]));
    }
    for group in groups {
        println!("{}", group.told(&traced.buffers));
    }
    let passed = groups.iter().filter(|group| group.is_even()).count();
    println!("{passed} passed, {} failed", groups.len() - passed);
    Ok(passed == groups.len())
}
