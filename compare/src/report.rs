//! The lines that the tests print.

use crate::call::{Answer, Call};
use crate::sides::Pair;
use std::process::ExitCode;

/// Counts what passed and what failed, and prints a line for each.
#[derive(Default)]
pub struct Report {
    passed: usize,
    failed: usize,
}

impl Report {
    /// Prints the line of one test.
    pub fn judge(&mut self, outcome: Result<String, String>) {
        match outcome {
            Ok(line) => {
                self.passed += 1;
                println!("ok: {line}");
            }
            Err(line) => {
                self.failed += 1;
                println!("FAILED: {line}");
            }
        }
    }

    /// Prints the last line; 0 where nothing failed, else 1.
    pub fn finish(self) -> ExitCode {
        println!("{} passed, {} failed", self.passed, self.failed);
        match self.failed {
            0 => ExitCode::SUCCESS,
            _ => ExitCode::from(1),
        }
    }
}

/// Makes single calls on both sides and counts them.
#[derive(Default)]
pub struct Singles {
    /// Calls made.
    pub calls: u64,
}

impl Singles {
    /// Makes a call with these bytes lent as the state: the common answer, or what differs.
    pub fn on(&mut self, lent: &[u8], call: &Call) -> Result<Answer, String> {
        self.calls += 1;
        let mut pair = Pair::of(lent);
        let answered = pair.call(call);
        answered.map_err(|difference| format!("{call}: {difference}"))
    }

    /// Makes a call that takes no state.
    pub fn call(&mut self, call: &Call) -> Result<Answer, String> {
        self.on(&[], call)
    }
}
