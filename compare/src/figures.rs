//! The program of document 02's order 6 beside the model: what it prints for drawers of images.

use crate::figures_program::Program;
use crate::figures_trial::Setting;
use crate::report::Report;
use crate::{figures_bounds, figures_failures, figures_process, figures_random};
use std::path::{Path, PathBuf};
use std::process::ExitCode;
use std::thread;
use std::time::Instant;

/// Some tests, and the line that they print.
type Group = fn(&Setting) -> Result<String, String>;

const GROUPS: [Group; 17] = [
    figures_bounds::known,
    figures_bounds::lone_bytes,
    figures_bounds::lengths,
    figures_bounds::cut_off,
    figures_bounds::skipped,
    figures_bounds::up_to_the_limit,
    figures_bounds::past_the_limit,
    figures_bounds::classes,
    figures_bounds::largest,
    figures_bounds::every_number,
    figures_bounds::every_byte,
    figures_bounds::every_length,
    figures_random::drawers,
    figures_process::short_reads,
    figures_failures::failures,
    figures_failures::failed_reads,
    figures_process::memory,
];

/// All groups beside each other, on the program in this file; without one, on what `make figures` builds.
pub fn test(file: Option<&Path>, drawers: usize, seed: u64) -> Result<ExitCode, String> {
    let begun = Instant::now();
    let kept = folder();
    let built = kept.join("figures");
    let setting = Setting {
        program: Program::find(file.unwrap_or(&built))?,
        kept,
        drawers,
        seed,
    };
    let setting = &setting;
    println!("seed {seed}");
    let outcomes = thread::scope(|scope| {
        let begun = GROUPS.map(|group| scope.spawn(move || group(setting)));
        begun.map(|group| group.join().expect("a group ends"))
    });
    let mut report = Report::default();
    for outcome in outcomes {
        report.judge(outcome);
    }
    println!("{:.1} s", begun.elapsed().as_secs_f64());
    Ok(report.finish())
}

/// The folder of what is built.
fn folder() -> PathBuf {
    Path::new(env!("CARGO_MANIFEST_DIR")).with_file_name("build")
}
