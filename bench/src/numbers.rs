//! The numbers a record can answer, by the names of documents 01 and 02.

pub const DONE: u32 = 0;
pub const ARGUMENT: u32 = 1;
pub const SESSION: u32 = 2;
pub const NO_VERSION: u32 = 3;
pub const CREDENTIAL: u32 = 5;
pub const NO_PROCESS: u32 = 6;
pub const VERDICT: u32 = 8;
pub const OUT_OF_TURN: u32 = 9;
pub const NOT_GRANTED: u32 = 10;
pub const SPENT: u32 = 13;
pub const ONLY_ELEVATED: u32 = 18;

/// The name of a number, for people.
pub fn name_of(number: u32) -> &'static str {
    match number {
        DONE => "done",
        ARGUMENT => "argument",
        SESSION => "session",
        NO_VERSION => "no version",
        CREDENTIAL => "credential",
        NO_PROCESS => "no process",
        VERDICT => "verdict",
        OUT_OF_TURN => "out of turn",
        NOT_GRANTED => "not granted",
        SPENT => "spent",
        ONLY_ELEVATED => "only elevated",
        _ => "not a number of a record",
    }
}
