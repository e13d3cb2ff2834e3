//! The programs that make the calls of an input.

use crate::input::{Call, Input};
use crate::numbers::DONE;
use crate::ordinary;
use crate::structured::Module;
use slavotuk::entries;
use std::hint::black_box;
use std::time::Instant;

/// What is done for each call.
#[derive(Clone, Copy, Debug, PartialEq, Eq)]
pub enum Program {
    /// The record entry.
    Entry,
    /// Plain Rust on the same slice, which it tests on each call.
    Ordinary,
    /// Plain Rust that keeps a struct and tests no slice.
    Structured,
    /// A function that answers at once: what is left is what all programs have in common.
    Nothing,
    /// The entry that tests a slice.
    Holds,
    /// The ordinary program's test of a slice.
    OrdinaryHolds,
}

impl Program {
    pub const ALL: [Program; 6] = [
        Program::Entry,
        Program::Ordinary,
        Program::Structured,
        Program::Nothing,
        Program::Holds,
        Program::OrdinaryHolds,
    ];

    /// Those that answer the calls.
    pub const ANSWERING: [Program; 3] = [Program::Entry, Program::Ordinary, Program::Structured];

    /// How it is called on the command line.
    pub fn name(self) -> &'static str {
        match self {
            Program::Entry => "entry",
            Program::Ordinary => "ordinary",
            Program::Structured => "structured",
            Program::Nothing => "nothing",
            Program::Holds => "holds",
            Program::OrdinaryHolds => "ordinary-holds",
        }
    }

    /// The program of that name.
    pub fn find(name: &str) -> Option<Program> {
        Program::ALL
            .into_iter()
            .find(|program| program.name() == name)
    }

    /// Makes all calls once, from the input's state on: nanoseconds for one call. What is timed and what is counted is the same loop; the state is there in
    /// both forms for every program, so that `nothing` has all that is not the calls.
    pub fn make_calls(self, input: &Input) -> f64 {
        let calls = &input.calls;
        let mut state = input.state.clone();
        let mut module = black_box(Module::from_bytes(&state));
        match self {
            Program::Entry => nanoseconds(calls, |call| {
                entries::record(&mut state, call.port, call.session, call.claim, call.class)
            }),
            Program::Ordinary => nanoseconds(calls, |call| {
                ordinary::record(&mut state, call.port, call.session, call.claim, call.class)
            }),
            Program::Structured => nanoseconds(calls, |call| {
                module.record(call.port, call.session, call.claim, call.class)
            }),
            Program::Nothing => nanoseconds(calls, black_box(nothing as fn(&Call) -> u32)),
            Program::Holds => nanoseconds(calls, |_| entries::holds(black_box(&state))),
            Program::OrdinaryHolds => nanoseconds(calls, |_| ordinary::holds(black_box(&state))),
        }
    }
}

/// Called through a pointer that the compiler knows nothing of, or the call would be left out.
fn nothing(_: &Call) -> u32 {
    DONE
}

/// Nanoseconds for one call, over a row of them.
#[inline(never)]
pub fn nanoseconds<Call, Answer>(calls: &[Call], mut call: impl FnMut(&Call) -> Answer) -> f64 {
    let start = Instant::now();
    for each in calls {
        black_box(call(black_box(each)));
    }
    start.elapsed().as_nanos() as f64 / calls.len() as f64
}
