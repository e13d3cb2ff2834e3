//! What is printed: the input, and the tables.

use crate::bound::Ratios;
use crate::costs;
use crate::counts::Counter;
use crate::draw;
use crate::figures::{self, Bench};
use crate::input::Input;
use crate::numbers::name_of;
use crate::parts::{Both, Parts};
use crate::programs::Program;
use crate::source::Subject;
use crate::states::{MARKS, NAME_BYTE, WORD};
use crate::timing;

/// The input of the order, and the others beside it.
pub fn print_input(calls: usize) {
    println!(
        "Input: {calls} record calls, drawn and shuffled by SplitMix64 from seed {}; half are accepted.",
        draw::SEED
    );
    println!();
    println!("| number | name | calls |");
    println!("|---|---|---|");
    for (number, count) in draw::mix(calls) {
        println!("| {number} | {} | {count} |", name_of(number));
    }
    println!();
    println!("On both ports sessions 0 and 1 are open with version 1.0, session 2 without one, and session 3 is closed. Credentials 0 to 6 are provisioned with the word {WORD:#x}, classes 0, 2, 4 .. 30; credential 7 is not, and its word is 0. Second words are 0, so that no class is marked.");
    println!("Twelve standing, 1.0 being session 0 of port 1: user processes of credentials 0 to 2, of each one in 0.0 and then one in 1.0; of credentials 0 and 1, of each one in 0.1 and then one in 1.1; an elevation of 6 in 0.0; a saved process of 6. Eight, four and one standing: the first of these. Calls are on the port of their process.");
    println!("Names: 48 bytes of {NAME_BYTE:#x}, but that the first byte (twelve-first, eight-first, four-first) or the last (twelve-last, eight-last, four-last) is the place, 0 to 11.");
    println!("Accepted: user claims in turn, each of a process and a class that are drawn. Number 1: one of a session of 4, a kind of 2, a credential of 8, a verdict of 2, a class of 3, a class of 32, a port of 2, drawn evenly.");
    println!("Number 6: an elevated claim in session 1 or a user claim without a process on either port, drawn evenly. Number 9: one too high or one too low, drawn evenly.");
    println!("Number 10: user claims in turn, of a class that is not granted; they spend their numbers as the accepted ones do.");
    println!("None standing: the calls of one standing. No claim can pass there, and what would be accepted, or get 8, 9 or 10, gets 6.");
    println!("All on port 0 (port-0-first, port-0-last, port-0-one): the calls of before there was a second port. Every session of port 1 is closed; twelve standing are user processes of credentials 0 to 5 in session 0 and of 0 to 3 in session 1, an elevation of 6 in session 0, a saved process of 6; number 1 is never for a port.");
    println!("Series: twelve standing, {} records of each active user process, one process after another, each in turn with its number and of class 4: all are accepted.", calls / 10);
    println!("Refused: the calls of a series with verdict 0 and number 0: each gets 8 at the last test of its claim, and nothing is written.");
    println!("Marked: twelve standing, names that differ in the last byte, and the second word {MARKS:#x}, classes 6, 7, 10, 11 .. 30, 31. A quarter each are accepted by a user claim in turn of a class that is granted and not marked; accepted by an elevated claim, of a class that is granted, marked or not; get 10 by a user claim in turn, of a class that is not granted, marked or not; and get 18 by a user claim in turn, of a class that is granted and marked. They are drawn and shuffled as the others are.");
    println!("`slavotuk-bench write NAME FILE` writes each of these with 100000 calls: its state, the calls and their answers.");
    println!();
    println!("entry: slavotuk_record. ordinary: plain Rust on the same slice, which it tests on each call. structured: plain Rust that keeps a struct and tests no slice.");
}

/// How many calls of a file get which number.
pub fn print_file(input: &Input) {
    println!(
        "Input: {} record calls of {}.",
        input.calls.len(),
        input.name
    );
    println!();
    println!("| number | name | calls |");
    println!("|---|---|---|");
    for (number, count) in input.tally() {
        println!("| {number} | {} | {count} |", name_of(number));
    }
}

/// A row for each input: nanoseconds, and the ratios.
pub fn print_times(title: &str, subjects: &[Subject], rounds: usize) -> Ratios {
    println!("{title}, ns a call, medians of {rounds} alternating rounds. A ratio is that of the medians; nine in ten rounds have one within the spread:");
    println!();
    println!(
        "| input | entry | ordinary | structured | entry/ordinary | spread | entry/structured |"
    );
    println!("|---|---|---|---|---|---|---|");
    let of = subjects
        .iter()
        .map(|subject| print_time(&subject.input, rounds));
    Ratios {
        way: "time",
        of: of.collect(),
    }
}

fn print_time(input: &Input, rounds: usize) -> (String, f64) {
    let turns = Program::ANSWERING.map(|program| (program, input));
    let [entry, ordinary, structured] = timing::measure(turns, rounds);
    let ratio = entry.to(&ordinary);
    println!(
        "| {} | {:.1} | {:.1} | {:.1} | {:.2} | {:.2} to {:.2} | {:.1} |",
        input.name,
        entry.median(),
        ordinary.median(),
        structured.median(),
        ratio.of_medians,
        ratio.low,
        ratio.high,
        entry.to(&structured).of_medians
    );
    (input.name.clone(), ratio.of_medians)
}

/// A row for each input: instructions, and the ratios.
pub fn print_counts(
    title: &str,
    subjects: &[Subject],
    counter: &Counter,
) -> Result<Ratios, String> {
    println!("{title}, instructions a call:");
    println!();
    println!("| input | entry | ordinary | structured | entry/ordinary | entry/structured |");
    println!("|---|---|---|---|---|---|");
    let of = subjects.iter().map(|subject| print_count(subject, counter));
    Ok(Ratios {
        way: "instructions",
        of: of.collect::<Result<_, _>>()?,
    })
}

fn print_count(subject: &Subject, counter: &Counter) -> Result<(String, f64), String> {
    let [entry, ordinary, structured] = counter.a_call(subject, Program::ANSWERING)?;
    let ratio = entry / ordinary;
    println!(
        "| {} | {entry:.1} | {ordinary:.1} | {structured:.1} | {ratio:.2} | {:.1} |",
        subject.input.name,
        entry / structured
    );
    Ok((subject.input.name.clone(), ratio))
}

/// A row for each part, and what another test would make of the whole.
pub fn print_parts(times: Both, counts: Both) {
    println!("Where an accepted record's time goes, twelve standing, names that differ in the last byte. The test is `holds` by itself, the claim is refused-last less that, the grant and the write are series-last less refused-last; of time these are differences of medians:");
    println!();
    println!("| part | entry, ns | ordinary, ns | entry, instructions | ordinary, instructions |");
    println!("|---|---|---|---|---|");
    print_part("the slice's test", times, counts, |parts| parts.test);
    print_part("the claim", times, counts, |parts| parts.claim);
    print_part("the grant and the write", times, counts, |parts| {
        parts.write
    });
    print_part("the whole", times, counts, Parts::whole);
    println!();
    let exchanged = |both: Both| both.entry.with_test_of(both.ordinary).whole();
    println!(
        "With the ordinary program's test the entry's record would take {:.1} ns and {:.1} instructions.",
        exchanged(times),
        exchanged(counts)
    );
}

fn print_part(name: &str, times: Both, counts: Both, part: fn(Parts) -> f64) {
    println!(
        "| {name} | {:.1} | {:.1} | {:.1} | {:.1} |",
        part(times.entry),
        part(times.ordinary),
        part(counts.entry),
        part(counts.ordinary)
    );
}

/// One row for each case: nanoseconds, and in brackets how many accepted records take as long.
pub fn print_costs(rounds: usize) {
    println!("Each call by itself, 10,000 times in a row, on the same states, names differing in the last byte: ns a call, and how many accepted records take as long. Medians of {rounds} alternating rounds:");
    println!();
    println!("| call | 0 standing | 1 standing | 12 standing |");
    println!("|---|---|---|---|");
    let figures = costs::measure(rounds);
    for (case, of_case) in costs::CASES.iter().zip(&figures) {
        let cells = of_case.iter().zip(&figures[0]).map(|pair| match pair {
            (None, _) => "-".to_string(),
            (Some(time), None) => format!("{time:.1}"),
            (Some(time), Some(record)) => format!("{time:.1} ({:.1})", time / record),
        });
        println!(
            "| {} | {} |",
            case.name,
            cells.collect::<Vec<_>>().join(" | ")
        );
    }
}

pub fn print_figures(figures: &Bench, rounds: usize) -> Result<(), String> {
    println!("The program that prints figures, on {}. Medians of {rounds} alternating rounds, from the start of a process to its end:", figures::describe());
    println!();
    println!("| figures, ms | cksum, ms | figures/cksum |");
    println!("|---|---|---|");
    let figures::Measured {
        figures,
        cksum,
        ratio,
    } = figures.measure(rounds)?;
    println!("| {figures:.1} | {cksum:.1} | {ratio:.1} |");
    Ok(())
}
