//! Where an input comes from: a name, or a file.

use crate::file;
use crate::input::{Input, Named};
use crate::programs::Program;
use std::ffi::OsString;
use std::path::PathBuf;

/// What `run` is told to make calls of.
#[derive(Clone)]
pub enum Source {
    Named { named: &'static Named, calls: usize },
    File(PathBuf),
}

impl Source {
    /// The input, made or read.
    pub fn input(&self) -> Result<Input, String> {
        match self {
            Source::Named { named, calls } => Ok(named.input(*calls)),
            Source::File(file) => file::read(file).map(|recorded| recorded.input),
        }
    }

    /// The words by which this program, started once more, makes these calls.
    pub fn words(&self, program: Program) -> Vec<OsString> {
        let program = program.name().into();
        match self {
            Source::Named { named, calls } => vec![
                "run".into(),
                named.name.into(),
                program,
                "--calls".into(),
                calls.to_string().into(),
            ],
            Source::File(file) => vec!["run".into(), file.into(), program],
        }
    }
}

/// An input that is there already, and where it comes from.
pub struct Subject {
    pub source: Source,
    pub input: Input,
}

impl Subject {
    pub fn named(named: &'static Named, calls: usize) -> Subject {
        Subject {
            source: Source::Named { named, calls },
            input: named.input(calls),
        }
    }
}
