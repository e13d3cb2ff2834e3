//! What the last gate run proved: the log that tests/gate leaves, which has the date, the commit and the kit's identity before what
//! `rt ci` printed, and what `slavotuk-inspect wrong` did.

use crate::edit::Shelf;
use crate::wrong;
use std::collections::{BTreeSet, HashMap};
use std::fs;
use std::path::Path;

pub const PATH: &str = "build/gate.log";

/// Where a wrong build was refused, and the checker's words.
#[derive(Clone, Debug, Default, PartialEq, Eq)]
pub struct Refusal {
    pub place: String,
    pub words: String,
}

#[derive(Debug, Default)]
pub struct Run {
    pub date: String,
    pub commit: String,
    pub kit: String,
    /// those that were proved, in this run or on the same files in an earlier one
    pub crates: Vec<String>,
    /// those whose verdict, where the log has one, rests on an axiom or on a function in C
    pub assuming: BTreeSet<String>,
    pub refusals: HashMap<(String, String), Refusal>,
    /// the last line, which says how it ended
    pub end: String,
}

impl Run {
    /// None where no run is at hand.
    pub fn read(root: &Path) -> Option<Run> {
        let mut run = Run::of(&fs::read_to_string(root.join(PATH)).ok()?);
        for ((crate_name, edit), refusal) in &mut run.refusals {
            let logs = Shelf::ALL.map(|shelf| wrong::log_path(root, shelf, crate_name, edit));
            let log = logs.iter().find_map(|path| fs::read_to_string(path).ok());
            refusal.words = words_at(crate_name, &log.unwrap_or_default(), &refusal.place);
        }
        Some(run)
    }

    pub fn of(text: &str) -> Run {
        let mut run = Run::default();
        let mut crate_name = "";
        for line in text.lines() {
            if let Some(date) = line.strip_prefix("date: ") {
                run.date = date.to_string();
            } else if let Some(commit) = line.strip_prefix("commit: ") {
                run.commit = commit.to_string();
            } else if let Some(kit) = line.strip_prefix("kit: ") {
                run.kit = kit.to_string();
            } else if let Some(name) = line.strip_prefix("== ") {
                crate_name = name;
            } else if line.starts_with("logic=") && assumes(line) {
                run.assuming.insert(crate_name.to_string());
            } else if let Some(words) = line.strip_prefix("rt: ") {
                run.told(words);
            } else if let Some(words) = line.strip_prefix("wrong: ") {
                run.tried(words);
            }
        }
        run
    }

    fn told(&mut self, words: &str) {
        let proved = words.strip_suffix(" proved");
        let name = proved.or_else(|| words.split_once(" is kept: ").map(|(name, _)| name));
        // what has more words is of a crate's tests, or of one that is not proved
        if let Some(name) = name.filter(|name| !name.contains(' ')) {
            self.crates.push(name.to_string());
        }
        self.end = words.to_string();
    }

    fn tried(&mut self, words: &str) {
        let refused = words.split_once(": refused at ");
        let Some(((crate_name, edit), rest)) =
            refused.and_then(|(name, rest)| Some((name.split_once('/')?, rest)))
        else {
            return;
        };
        let place = rest.split(' ').next().unwrap_or_default();
        let refusal = Refusal {
            place: place.to_string(),
            words: String::new(),
        };
        self.refusals
            .insert((crate_name.to_string(), edit.to_string()), refusal);
    }
}

/// Whether a verdict rests on more than what is proved.
fn assumes(verdict: &str) -> bool {
    let mut words = verdict.split(' ');
    words.any(|word| word.starts_with("axioms=") || word.starts_with("foreign="))
}

/// What is said of the fact at a place.
fn words_at(crate_name: &str, log: &str, place: &str) -> String {
    let refusals = wrong::refusals(crate_name, log);
    let there = refusals.iter().find(|refusal| refusal.place == place);
    there.map_or("", |refusal| refusal.words).to_string()
}

#[cfg(test)]
mod tests {
    use super::*;

    #[test]
    fn a_log_is_read() {
        let run = Run::of(
            "date: 2026-11-15 18:00 UTC\ncommit: abc\nkit: rattle-kit-5b\nrt: rows is kept: an earlier run proved the same files\n== names\nfn names::same: proved\n\
             logic=proved functions=10 sum=06 native=nat\nrt: names proved\n== names: its tests\nlogic=proved functions=12 axioms=2\nrt: names: its tests are proved\n\
             == steps\nlogic=proved functions=32 axioms=1 target=x\nrt: steps proved\nrt: calls NOT PROVED\n\
             rt: must-fail names/sixteen.edit: refused, as it must be: note\nrt: ok; handles allowed: none; must-fail edits: 1 refused\n3 passed, 0 failed\n\
             wrong: names/sixteen: refused at src/lib.rt:20:3 (2.0 s)\nwrong: names/zero: refused at proofs/same/Answers.antt:21:3 (1.4 s)\nwrong: names/one: FAILED: NOT REFUSED (1.0 s)\n",
        );
        assert_eq!(
            (run.date.as_str(), run.commit.as_str(), run.kit.as_str()),
            ("2026-11-15 18:00 UTC", "abc", "rattle-kit-5b")
        );
        assert_eq!(run.crates, ["rows", "names", "steps"]);
        let assuming: Vec<&str> = run.assuming.iter().map(String::as_str).collect();
        assert_eq!(assuming, ["names: its tests", "steps"]);
        let place = |name: &str| {
            run.refusals[&("names".to_string(), name.to_string())]
                .place
                .as_str()
        };
        assert_eq!(run.refusals.len(), 2);
        assert_eq!(
            (place("sixteen"), place("zero")),
            ("src/lib.rt:20:3", "proofs/same/Answers.antt:21:3")
        );
        assert_eq!(
            run.end,
            "ok; handles allowed: none; must-fail edits: 1 refused"
        );
    }

    #[test]
    fn the_words_at_a_place_are_told_without_it() {
        let log = "note: src/lib.rt:3:4: it is not proved that the loop ends (`loop-i-smaller`)\nfn names::same: not proved\n./proofs/c.antt:3:4: error: `x`: more\n";
        assert_eq!(words_at("names", log, "proofs/c.antt:3:4"), "`x`: more");
        assert_eq!(
            words_at("names", log, "src/lib.rt:3:4"),
            "the loop ends (`loop-i-smaller`)"
        );
        assert_eq!(words_at("names", "", "src/lib.rt:3:4"), "");
    }
}
