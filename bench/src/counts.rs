//! How many instructions a call takes, by a counter under which this program is started once more.

use crate::programs::Program;
use crate::source::Subject;
use std::ffi::OsString;
use std::path::Path;
use std::process::{Command, Output};

/// Counts the instructions of a process, from its start to its end.
pub struct Counter {
    /// The counter's own words, and the program that it starts.
    words: Vec<OsString>,
    /// What stands before the total, in what it prints.
    before: &'static str,
}

impl Counter {
    /// valgrind's, of this program.
    pub fn callgrind() -> Result<Counter, String> {
        let own =
            std::env::current_exe().map_err(|error| format!("this program's own file: {error}"))?;
        let words = [
            "valgrind",
            "--tool=callgrind",
            "--callgrind-out-file=/dev/null",
        ];
        let words = words.into_iter().map(OsString::from);
        Ok(Counter {
            words: words.chain([own.into_os_string()]).collect(),
            before: "Collected : ",
        })
    }

    /// One of qemu's emulators with tests/count_qemu.c, of this program compiled for another machine.
    pub fn emulator(emulator: &Path, plugin: &Path, program: &Path) -> Counter {
        Counter {
            words: vec![
                emulator.into(),
                "-plugin".into(),
                plugin.into(),
                program.into(),
            ],
            before: "instructions: ",
        }
    }

    /// Instructions of one call by each program. What a process does beside its calls is taken off: it is all that `nothing` does.
    pub fn a_call<const PROGRAMS: usize>(
        &self,
        subject: &Subject,
        programs: [Program; PROGRAMS],
    ) -> Result<[f64; PROGRAMS], String> {
        let beside = self.total(&subject.source.words(Program::Nothing))?;
        let mut counts = [0.0; PROGRAMS];
        for (count, program) in counts.iter_mut().zip(programs) {
            let total = self.total(&subject.source.words(program))?;
            *count = (total - beside) / subject.input.calls.len() as f64;
        }
        Ok(counts)
    }

    /// The instructions of this program with these words.
    fn total(&self, words: &[OsString]) -> Result<f64, String> {
        let (command, before) = self.words.split_first().expect("a counter has a command");
        let output = Command::new(command).args(before).args(words).output();
        let output = output.map_err(|error| format!("{}: {error}", command.to_string_lossy()))?;
        let printed = String::from_utf8_lossy(&output.stderr);
        match self.read(&printed) {
            Some(total) if output.status.success() => Ok(total),
            _ => Err(self.told(words, &output)),
        }
    }

    fn read(&self, printed: &str) -> Option<f64> {
        let mut lines = printed.lines();
        let total = lines.find_map(|line| line.split_once(self.before))?.1;
        total.parse::<u64>().ok().map(|total| total as f64)
    }

    fn told(&self, words: &[OsString], output: &Output) -> String {
        let command: Vec<_> = self.words.iter().chain(words).collect();
        let command: Vec<_> = command.iter().map(|word| word.to_string_lossy()).collect();
        format!(
            "no count of instructions by {} ({}), which printed:\n{}{}",
            command.join(" "),
            output.status,
            String::from_utf8_lossy(&output.stdout),
            String::from_utf8_lossy(&output.stderr),
        )
    }
}

#[cfg(test)]
mod tests {
    use super::*;

    /// A shell in the counter's place, that runs this script.
    fn shell(script: &str) -> Counter {
        Counter {
            words: ["sh", "-c", script].map(OsString::from).to_vec(),
            before: "Collected : ",
        }
    }

    #[test]
    fn a_total_is_read_in_its_line() {
        let script = "printf '==1== Events    : Ir\\n==1== Collected : 12345\\n==1==\\n' >&2";
        assert_eq!(shell(script).total(&[]), Ok(12_345.0));
    }

    #[test]
    fn a_counter_without_a_total_is_told_with_what_it_printed() {
        for script in [
            "echo no such tool >&2",
            "echo 'no such tool, Collected : ' >&2",
            "echo no such tool; echo Collected : 5 >&2; exit 3",
        ] {
            let told = shell(script).total(&["run".into()]).unwrap_err();
            assert!(told.contains("no such tool"), "{told}");
            assert!(
                told.starts_with("no count of instructions by sh -c"),
                "{told}"
            );
        }
    }

    #[test]
    fn a_counter_that_is_not_there_is_told() {
        let nowhere = Path::new("/nowhere/emulator");
        let counter = Counter::emulator(nowhere, nowhere, nowhere);
        let told = counter.total(&[]).unwrap_err();
        assert!(told.starts_with("/nowhere/emulator: "), "{told}");
    }
}
