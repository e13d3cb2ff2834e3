//! One drawer after another handed to the program, and what it prints compared with what the model prints.

use crate::figures_program::Program;
use slavotuk_model::figures::figures;
use std::fmt::Display;
use std::fs;
use std::path::{Path, PathBuf};

/// What all groups of tests have in common.
pub struct Setting {
    /// The program that is tried.
    pub program: Program,
    /// Where a drawer that fails is kept.
    pub kept: PathBuf,
    /// How many drawers are drawn.
    pub drawers: usize,
    /// The seed of all that is drawn.
    pub seed: u64,
}

/// The trial of one group, which counts.
pub struct Trial<'a> {
    pub setting: &'a Setting,
    /// A word for the group, in the name of the file in which it keeps a drawer.
    group: &'static str,
    /// Drawers handed in.
    pub drawers: usize,
    /// Lines of good images.
    pub good: usize,
    /// Lines of bad ones.
    pub bad: usize,
}

impl Trial<'_> {
    pub fn new<'a>(setting: &'a Setting, group: &'static str) -> Trial<'a> {
        Trial {
            setting,
            group,
            drawers: 0,
            good: 0,
            bad: 0,
        }
    }

    /// Hands the drawer to the program.
    pub fn drawer(&mut self, which: impl Display, drawer: &[u8]) -> Result<(), String> {
        let printed = self.setting.program.print(drawer);
        self.judge(which, drawer, printed)
    }

    /// The same, and standard input is held open.
    pub fn held_open(&mut self, which: impl Display, drawer: &[u8]) -> Result<(), String> {
        let printed = self.setting.program.print_held_open(drawer);
        self.judge(format!("{which}, held open"), drawer, printed)
    }

    /// Compares what was printed for a drawer with what the model prints.
    pub fn judge(
        &mut self,
        which: impl Display,
        drawer: &[u8],
        printed: Result<String, String>,
    ) -> Result<(), String> {
        let expected = figures(drawer);
        let outcome = printed.and_then(|printed| compare(&expected, &printed));
        outcome.map_err(|what| self.explain(&format!("{which}: {what}"), drawer))?;
        self.drawers += 1;
        for line in expected.lines() {
            match line.as_bytes() {
                b"bad" => self.bad += 1,
                [b'0'..=b'9', ..] => self.good += 1,
                _ => {}
            }
        }
        Ok(())
    }

    /// The line of the group.
    pub fn counted(&self, what: &str) -> String {
        let (drawers, good, bad) = (self.drawers, self.good, self.bad);
        format!("{what}: {drawers} drawers with {good} good images and {bad} bad ones")
    }

    /// The failure, with the drawer in a file.
    fn explain(&self, what: &str, drawer: &[u8]) -> String {
        let Setting { kept, seed, .. } = self.setting;
        let file = kept.join(format!("figures-{}.drawer", self.group));
        let drawer = match keep(&file, drawer) {
            Ok(()) => format!("the drawer is {}", file.display()),
            Err(error) => format!("the drawer can't be kept in {}: {error}", file.display()),
        };
        format!("{what}; seed {seed}, {drawer}")
    }
}

/// Puts a drawer into a file.
pub fn keep(file: &Path, drawer: &[u8]) -> std::io::Result<()> {
    if let Some(folder) = file.parent() {
        fs::create_dir_all(folder)?;
    }
    fs::write(file, drawer)
}

/// The first line that differs, where one does. A line has its end with it.
fn compare(expected: &str, printed: &str) -> Result<(), String> {
    let mut right = expected.split_inclusive('\n');
    let mut told = printed.split_inclusive('\n');
    for line in 1.. {
        match (right.next(), told.next()) {
            (None, None) => break,
            (right, told) if right == told => {}
            (right, told) => {
                let (right, told) = (shown(right), shown(told));
                return Err(format!("line {line}: expected {right}, printed {told}"));
            }
        }
    }
    Ok(())
}

fn shown(line: Option<&str>) -> String {
    line.map_or("nothing".to_string(), |line| format!("{line:?}"))
}

#[cfg(test)]
mod tests {
    use super::*;

    #[test]
    fn the_first_line_that_differs_is_told() {
        let right = "0 5 0\nbad\ntotal 1 0 5\n";
        assert_eq!(compare(right, right), Ok(()));
        for (printed, told) in [
            (
                "0 5 0\n0 0 0\n",
                r#"line 2: expected "bad\n", printed "0 0 0\n""#,
            ),
            (
                "0 5 0\nbad\n",
                r#"line 3: expected "total 1 0 5\n", printed nothing"#,
            ),
            (
                "0 5 0\nbad\ntotal 1 0 5",
                r#"line 3: expected "total 1 0 5\n", printed "total 1 0 5""#,
            ),
            (
                "0 5 0\nbad\ntotal 1 0 5\n\n",
                r#"line 4: expected nothing, printed "\n""#,
            ),
        ] {
            assert_eq!(compare(right, printed), Err(told.to_string()));
        }
    }
}
