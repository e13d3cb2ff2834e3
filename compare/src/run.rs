//! What the program does with the archive: test, rescue, soak, replay.

use crate::damage;
use crate::depth::Depth;
use crate::grants;
use crate::image_test;
use crate::known;
use crate::messages;
use crate::random::Random;
use crate::report::Report;
use crate::sequence::{self, Failure, Plan};
use crate::shrink::{describe, shrink};
use crate::{port_pairs, port_steps, ports, rescue_test, wire, wire_test};
use std::process::ExitCode;
use std::sync::atomic::{AtomicBool, AtomicUsize, Ordering};
use std::thread;
use std::time::{Duration, Instant};

/// Calls of a sequence.
const SEQUENCE: usize = 1_000;

/// Sequences whose claims are sent again after each call, in every session of both ports. They are shorter: each call brings some hundred others.
const REPLAYED: usize = 300;
const REPLAYED_PLAN: Plan = Plan {
    calls: 400,
    replays: true,
};

/// What is to come up comes up at least once in so many calls.
const CALLS_FOR_ONE: u64 = 20_000;

/// Messages of 004 clause 9.2 that are drawn; two in three can be written.
const MESSAGES: usize = 3_100_000;

/// Every test, with about so many calls in random sequences.
pub fn test(calls: usize, seed: u64) -> ExitCode {
    let begun = Instant::now();
    let mut report = Report::default();
    println!("seed {seed}");
    test_sequences(calls, seed, &mut report);
    test_replays(seed, &mut report);
    report.judge(known::run_to_spent());
    report.judge(known::run_the_relays_attack());
    report.judge(known::run_the_kept_record());
    report.judge(grants::every_pair_of_bits());
    report.judge(grants::every_class_of_a_record());
    report.judge(port_steps::order_10());
    report.judge(port_steps::document_01_on_either_port());
    report.judge(port_steps::power_cycles());
    report.judge(ports::every_port_and_handle());
    report.judge(port_pairs::every_pair_of_sessions());
    report.judge(port_pairs::names_places_and_words());
    damage::test(seed, &mut report);
    damage::test_fresh(seed, &mut report);
    image_test::test(seed, &mut report);
    rescue_test::test(seed, &mut report);
    messages::test(seed, &mut report);
    for outcome in wire_test::test(&wire::Archive, MESSAGES, seed) {
        report.judge(outcome);
    }
    println!("{:.1} s", begun.elapsed().as_secs_f64());
    report.finish()
}

/// The tests that rescue damaged images, by themselves.
pub fn rescue(seed: u64) -> ExitCode {
    let mut report = Report::default();
    println!("seed {seed}");
    rescue_test::test(seed, &mut report);
    report.finish()
}

fn test_sequences(calls: usize, seed: u64, report: &mut Report) {
    let plan = Plan {
        calls: SEQUENCE,
        replays: false,
    };
    let (depth, failure) = run_all(&seeds(seed, (calls + SEQUENCE - 1) / SEQUENCE), plan);
    let (calls, sequences) = (depth.calls, depth.sequences);
    let title = format!("random sequences: {calls} calls in {sequences} sequences");
    match failure {
        Some(failure) => report.judge(Err(explain(&title, failure))),
        None => report.judge(Ok(title)),
    }
    judge_depth(&depth, calls / CALLS_FOR_ONE, report);
}

fn test_replays(seed: u64, report: &mut Report) {
    let (depth, failure) = run_all(&seeds(!seed, REPLAYED), REPLAYED_PLAN);
    let (calls, replays, others) = (depth.calls, depth.replays, depth.replays_of_others);
    let title = format!(
        "claims that passed their check sent again: {replays} times after {calls} calls with {} power cycles, none passed again; {others} were another process's turn",
        depth.power_cycles()
    );
    match failure {
        Some(failure) => report.judge(Err(explain(&title, failure))),
        None => report.judge(Ok(title)),
    }
    report.judge(depth.judge_replays());
}

fn judge_depth(depth: &Depth, least: u64, report: &mut Report) {
    for line in depth.table() {
        println!("{line}");
    }
    for outcome in depth.judge(least.max(1)) {
        report.judge(outcome);
    }
}

fn seeds(seed: u64, count: usize) -> Vec<u64> {
    let mut random = Random::new(seed);
    (0..count).map(|_| random.next()).collect()
}

/// Runs the seeds' sequences on every core, up to the first failure.
fn run_all(seeds: &[u64], plan: Plan) -> (Depth, Option<(u64, Failure)>) {
    let cores = thread::available_parallelism().map_or(1, usize::from);
    let (next, stopped) = (AtomicUsize::new(0), AtomicBool::new(false));
    let work = || {
        let mut depth = Depth::default();
        while !stopped.load(Ordering::Relaxed) {
            let Some(seed) = seeds.get(next.fetch_add(1, Ordering::Relaxed)) else {
                break;
            };
            if let Err(failure) = sequence::run(*seed, plan, &mut depth) {
                stopped.store(true, Ordering::Relaxed);
                return (depth, Some((*seed, *failure)));
            }
        }
        (depth, None)
    };
    let finished: Vec<_> = thread::scope(|scope| {
        let workers: Vec<_> = (0..cores).map(|_| scope.spawn(work)).collect();
        let join = |worker: thread::ScopedJoinHandle<_>| worker.join().expect("a worker ends");
        workers.into_iter().map(join).collect()
    });
    let mut depth = Depth::default();
    finished.iter().for_each(|(counted, _)| depth.add(counted));
    let failure = finished.into_iter().find_map(|(_, failure)| failure);
    (depth, failure)
}

/// The failure's lines: how to run it again, and the shrunk sequence.
fn explain(title: &str, (seed, failure): (u64, Failure)) -> String {
    let (at, what) = (failure.found.at + 1, failure.found.what.clone());
    let shrunk = shrink(failure);
    let calls = shrunk.sequence.calls.len();
    let lines = describe(&shrunk).join("\n      ");
    format!(
        "{title}\n  at call {at}: {what}\n  again: slavotuk-compare replay {seed}\n  shrunk from {at} to {calls} calls, each with its number:\n      {lines}"
    )
}

/// Runs until the time is over; without one, until it fails.
pub fn soak(time: Option<Duration>, seed: u64) -> ExitCode {
    const ROUND: usize = 200;
    let begun = Instant::now();
    let is_over = || time.is_some_and(|time| begun.elapsed() >= time);
    let mut said = begun;
    let mut random = Random::new(seed);
    let (mut depth, mut damaged) = (Depth::default(), 0);
    let mut report = Report::default();
    println!("seed {seed}");
    while !is_over() {
        let outcome = soak_round(random.next(), ROUND, &mut depth, &mut damaged);
        if let Err(what) = outcome {
            report.judge(Err(what));
            return report.finish();
        }
        if said.elapsed() >= Duration::from_secs(10) {
            said = Instant::now();
            println!("{}", progress(begun, &depth, damaged));
        }
    }
    for line in depth.table() {
        println!("{line}");
    }
    report.judge(Ok(progress(begun, &depth, damaged)));
    report.finish()
}

fn progress(begun: Instant, depth: &Depth, damaged: u64) -> String {
    format!(
        "{:.0} s: {} calls in {} sequences, {} claims sent again, {damaged} calls on damaged states and with damaged images",
        begun.elapsed().as_secs_f64(),
        depth.calls,
        depth.sequences,
        depth.replays
    )
}

/// Sequences on every core, two of them with replays, and damage to the state that one of them ends in and to its image.
fn soak_round(
    seed: u64,
    sequences: usize,
    depth: &mut Depth,
    damaged: &mut u64,
) -> Result<(), String> {
    let plan = Plan {
        calls: SEQUENCE,
        replays: false,
    };
    for (seeds, plan) in [
        (seeds(seed, sequences), plan),
        (seeds(!seed, 2), REPLAYED_PLAN),
    ] {
        let (counted, failure) = run_all(&seeds, plan);
        depth.add(&counted);
        if let Some(failure) = failure {
            return Err(explain("random sequences", failure));
        }
    }
    let reached = sequence::run(seed, plan, depth);
    let pair = reached.map_err(|failure| explain("random sequences", (seed, *failure)))?;
    *damaged += damage::soak(pair.archive.state(), &mut Random::new(seed))?;
    if let Some(module) = pair.module() {
        *damaged += image_test::soak(module, seed)?;
        *damaged += rescue_test::soak(module, seed)?;
    }
    Ok(())
}

/// Runs one sequence again, with replays.
pub fn replay(seed: u64) -> ExitCode {
    let plan = Plan {
        calls: SEQUENCE,
        replays: true,
    };
    let mut report = Report::default();
    let mut depth = Depth::default();
    let outcome = sequence::run(seed, plan, &mut depth);
    let title = format!("sequence {seed}: {} calls", depth.calls);
    report.judge(match outcome {
        Ok(_) => Ok(title),
        Err(failure) => Err(explain(&title, (seed, *failure))),
    });
    report.finish()
}
