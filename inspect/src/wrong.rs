//! Tries the wrong builds. Each is made by itself in a copy of its crate, and the prover has to refuse the copy, at the fact that the edit names.
//!
//! A copy is checked over what `rt check` kept of its crate, so that it costs what its edit changes and not the whole crate. That can't let a wrong build
//! pass for a refused one: a refusal is of this very check, and the crate as it stands was proved over the same. Where the fact is a goal of a function,
//! that function alone is checked first, and the crate only where it is not refused there. The log of each stays below build/, and what was tried on the
//! same files before is not tried again.

use crate::edit::{Edit, Fact, Shelf};
use crate::tree::{Crate, Tree};
use std::collections::hash_map::DefaultHasher;
use std::collections::{HashMap, VecDeque};
use std::ffi::OsStr;
use std::fs;
use std::hash::{Hash, Hasher};
use std::io;
use std::path::{Path, PathBuf};
use std::process::Command;
use std::sync::atomic::{AtomicUsize, Ordering};
use std::sync::Mutex;
use std::thread;
use std::time::Instant;

/// Words of errors that say no more than that a proof does not fit the edited code: a fact that is missing, or that rests on one that failed.
const NO_FACT: [&str; 4] = [
    "that can be named from here",
    "is not in scope",
    "was not admitted",
    "has no field",
];

/// Words of errors of a text that can't be read at all.
const UNREAD: [&str; 6] = [
    "is not in scope",
    "has no field",
    "is no name",
    "operand is missing",
    "expected the end",
    "cannot continue",
];

/// Words of a check over a library that was built of other files than those that lie there.
const STALE: &str = "Run the lower steps again";

/// What the prover said of a copy.
pub struct Check {
    /// none where it was ended from outside
    pub status: Option<i32>,
    pub seconds: f64,
    pub log: String,
}

/// What came of a wrong build: where it was refused, or what is wrong with it.
pub type Outcome = Result<String, String>;

/// Whether a wrong build was refused at its fact.
pub fn judged(edit: &Edit, check: &Check) -> Outcome {
    let has_line = |head| check.log.lines().any(|line| line.starts_with(head));
    match check.status {
        Some(0) => return Err("NOT REFUSED: the crate is still proved with this edit".to_string()),
        _ if check.log.contains(STALE) => {
            return Err("a library below is of other files: `rt check` builds it".to_string())
        }
        Some(1) if has_line("logic=not-proved") || has_line("only=") => {}
        _ => {
            let words = ["error", "no verdict"];
            let mut lines = check.log.lines();
            let first = lines.find(|line| words.iter().any(|word| line.contains(word)));
            return Err(format!(
                "did not reach the prover: {}",
                first.unwrap_or("no error is told")
            ));
        }
    }
    let refusals = refusals(&edit.crate_name, &check.log);
    if let Some(refusal) = refusals.iter().find(|refusal| refusal.is_unread(edit)) {
        return Err(format!(
            "cannot be read: {}: {}",
            refusal.place, refusal.words
        ));
    }
    let there: Vec<&Refusal> = refusals.iter().filter(|it| it.fact == edit.at).collect();
    if let Some(refusal) = there.iter().find(|refusal| refusal.is_of_a_fact()) {
        return Ok(refusal.place.to_string());
    }
    Err(match there.first() {
        Some(refusal) => format!(
            "the proof alone does not fit it: {}; refused {}",
            refusal.words,
            elsewhere(&refusals)
        ),
        None if edit.at == Fact::default() => {
            format!("names no fact: refused {}", elsewhere(&refusals))
        }
        None => format!(
            "refused, but not at `{}` of {}: {}",
            edit.at.name,
            edit.at.of,
            elsewhere(&refusals)
        ),
    })
}

/// The facts at which it was refused, as an edit names them.
fn elsewhere(refusals: &[Refusal]) -> String {
    let facts = refusals.iter().filter(|refusal| refusal.is_of_a_fact());
    let mut facts: Vec<String> = facts
        .map(|it| format!("{} {}", it.fact.of, it.fact.name))
        .collect();
    facts.dedup();
    match facts.as_slice() {
        [] => "at no fact that is told".to_string(),
        facts => format!("at {}", facts.join(", ")),
    }
}

/// A fact that the prover does not admit.
pub struct Refusal<'a> {
    pub fact: Fact,
    /// FILE:LINE:COLUMN, from the crate's folder on
    pub place: &'a str,
    pub words: &'a str,
}

impl Refusal<'_> {
    fn is_of_a_fact(&self) -> bool {
        !self.fact.name.is_empty() && NO_FACT.iter().all(|words| !self.words.contains(words))
    }

    /// Whether it says that a definition, or a text of the edit, is none.
    fn is_unread(&self, edit: &Edit) -> bool {
        let of_edit = |file: &str| edit.hunks.iter().any(|hunk| hunk.file == file);
        let file = self.place.split(':').next().unwrap_or_default();
        (file.starts_with("src/") || file.starts_with("specs/") || of_edit(file))
            && (self.fact.name.is_empty() || UNREAD.iter().any(|word| self.words.contains(word)))
    }
}

/// What the prover printed of each fact that it does not admit: an error in a file, or a note on a goal of a function, whose line comes after it.
pub fn refusals<'a>(crate_name: &str, log: &'a str) -> Vec<Refusal<'a>> {
    let mut found: Vec<Refusal> = Vec::new();
    let mut noted = 0;
    for line in log.lines() {
        if let Some((place, words)) = line.split_once(": error: ") {
            found.insert(noted, error(place, words));
            noted += 1;
        } else if let Some(refusal) = note(line) {
            found.push(refusal);
        } else if let Some(function) = function(crate_name, line) {
            let of_function = &mut found[noted..];
            of_function
                .iter_mut()
                .for_each(|it| it.fact.of = function.to_string());
            noted = found.len();
        }
    }
    found
}

/// An error at `FILE:LINE:COLUMN` begins with the fact's name, if it is of one.
fn error<'a>(place: &'a str, words: &'a str) -> Refusal<'a> {
    let place = place.strip_prefix("./").unwrap_or(place);
    let name = words.strip_prefix('`').and_then(|it| it.split_once("`:"));
    Refusal {
        fact: Fact {
            of: owner(place.split(':').next().unwrap_or_default()),
            name: name.map_or("", |(name, _)| name).to_string(),
        },
        place,
        words,
    }
}

/// The function whose proof a file is, or else the file: proofs/FUNCTION/Answers.antt, with a folder for each module above the function.
fn owner(file: &str) -> String {
    let own = file
        .strip_prefix("proofs/")
        .and_then(|path| path.rsplit_once('/'));
    own.map_or(file.to_string(), |(folders, _)| folders.replace('/', "::"))
}

/// `note: FILE:LINE:COLUMN: it is not proved that .. (`GOAL`)..`
fn note(line: &str) -> Option<Refusal<'_>> {
    let (place, words) = line
        .strip_prefix("note: ")?
        .split_once(": it is not proved that ")?;
    let (_, goal) = words.split_once("(`")?;
    let fact = Fact {
        of: String::new(),
        name: goal.split('`').next()?.to_string(),
    };
    Some(Refusal { fact, place, words })
}

/// `fn CRATE::FUNCTION: not proved`, or in place of the last words `no proof: ..`
fn function<'a>(crate_name: &str, line: &'a str) -> Option<&'a str> {
    let (function, _) = line.strip_prefix("fn ")?.split_once(": ")?;
    function.strip_prefix(crate_name)?.strip_prefix("::")
}

/// The log that is left of a wrong build.
pub fn log_path(root: &Path, shelf: Shelf, crate_name: &str, name: &str) -> PathBuf {
    let folder = root.join("build").join(shelf.name());
    folder.join(crate_name).join(format!("{name}.log"))
}

impl Check {
    /// What was kept of a check of the same files, if it said whether these are proved.
    fn kept(path: &Path, sum: u64) -> Option<Check> {
        let text = fs::read_to_string(path).ok()?;
        let (head, log) = text.split_once('\n')?;
        let mut words = head.split(' ');
        words.next().filter(|of| *of == format!("{sum:016x}"))?;
        let status = words.next().filter(|status| ["0", "1"].contains(status))?;
        Some(Check {
            status: status.parse().ok(),
            seconds: words.next()?.parse().ok()?,
            log: log.to_string(),
        })
        .filter(|_| !log.contains(STALE))
    }

    fn keep(&self, path: &Path, sum: u64) -> io::Result<()> {
        if let Some(folder) = path.parent() {
            fs::create_dir_all(folder)?;
        }
        let status = self.status.map_or("-".to_string(), |it| it.to_string());
        fs::write(
            path,
            format!("{sum:016x} {status} {:.1}\n{}", self.seconds, self.log),
        )
    }
}

/// What is told of a wrong build: what came of it, how many seconds it took, and whether it was tried just now.
pub type Tell<'a> = &'a (dyn Fn(&Edit, &Outcome, f64, bool) + Sync);

/// A program that checks copies of crates, and what it says of its version.
pub struct Prover {
    pub path: PathBuf,
    pub version: String,
}

/// Tries the wrong builds of some crates, or of all.
pub fn try_all(
    root: &Path,
    tree: &Tree,
    prover: &Prover,
    crates: &[&str],
    tell: Tell,
) -> io::Result<()> {
    let sources = sources(root, tree, prover)?;
    let queue = Mutex::new(queue(tree, crates));
    let work = || -> io::Result<()> {
        let room = Room::new(root, prover)?;
        loop {
            let next = queue.lock().expect("no thread has panicked").pop_front();
            let Some(edit) = next else {
                return Ok(());
            };
            let sources = &sources[edit.crate_name.as_str()];
            let path = log_path(root, edit.shelf, &edit.crate_name, &edit.name);
            let sum = sources.sum_with(edit);
            let kept = Check::kept(&path, sum);
            let is_new = kept.is_none();
            let check = match kept {
                Some(check) => check,
                None => room.check(sources, edit)?,
            };
            if is_new {
                check.keep(&path, sum)?;
            }
            tell(edit, &judged(edit, &check), check.seconds, is_new);
        }
    };
    let workers = thread::available_parallelism().map_or(1, |count| count.get());
    thread::scope(|scope| {
        let started: Vec<_> = (0..workers).map(|_| scope.spawn(work)).collect();
        started
            .into_iter()
            .try_for_each(|worker| worker.join().expect("no thread has panicked"))
    })
}

/// Tries them, and prints a line for each and last `N passed, M failed`; whether none failed.
pub fn report(root: &Path, tree: &Tree, prover: &Prover, crates: &[&str]) -> io::Result<bool> {
    let counts = Mutex::new((0, 0, 0));
    let tell = |edit: &Edit, outcome: &Outcome, seconds: f64, is_new: bool| {
        let mut counts = counts.lock().expect("no thread has panicked");
        counts.2 += usize::from(!is_new);
        let told = match outcome {
            Ok(place) => {
                counts.0 += 1;
                format!("refused at {place}")
            }
            Err(why) => {
                counts.1 += 1;
                format!("FAILED: {why}")
            }
        };
        println!(
            "wrong: {}/{}: {told} ({seconds:.1} s)",
            edit.crate_name, edit.name
        );
    };
    try_all(root, tree, prover, crates, &tell)?;
    let (passed, failed, kept) = counts.into_inner().expect("no thread has panicked");
    println!("{kept} of them were tried before, on the same files");
    println!("{passed} passed, {failed} failed");
    Ok(failed == 0)
}

/// What is to be tried: first what looks longest, so that no core waits at the end.
fn queue<'a>(tree: &'a Tree, crates: &[&str]) -> VecDeque<&'a Edit> {
    let wanted = |edit: &&Edit| crates.is_empty() || crates.contains(&edit.crate_name.as_str());
    let mut edits: Vec<&Edit> = tree.edits.iter().filter(wanted).collect();
    let lines = |edit: &&Edit| {
        let of_crate = tree.crates.iter().find(|c| c.name == edit.crate_name);
        std::cmp::Reverse(of_crate.map_or(0, |c| c.own_proof_lines))
    };
    edits.sort_by_key(lines);
    edits.into()
}

/// The texts of a crate, by their paths from its folder on.
type Files = Vec<(PathBuf, String)>;

/// The sources of a crate, and a sum of all that a check of it reads.
struct Sources<'a> {
    crate_name: &'a str,
    files: Files,
    sum: DefaultHasher,
}

/// The sources of the crates that have wrong builds.
fn sources<'a>(
    root: &Path,
    tree: &'a Tree,
    prover: &Prover,
) -> io::Result<HashMap<&'a str, Sources<'a>>> {
    let tried = |c: &&Crate| tree.edits.iter().any(|edit| edit.crate_name == c.name);
    let crates = tree.crates.iter().filter(tried);
    crates
        .map(|c| Ok((c.name.as_str(), Sources::of(root, c, prover)?)))
        .collect()
}

impl<'a> Sources<'a> {
    fn of(root: &Path, of_crate: &'a Crate, prover: &Prover) -> io::Result<Sources<'a>> {
        let mut files = Vec::new();
        let folder = root.join("crates").join(&of_crate.name);
        for part in ["src", "specs", "proofs"] {
            texts(&folder, Path::new(part), &mut files)?;
        }
        let mut sum = DefaultHasher::new();
        (&prover.version, &files).hash(&mut sum);
        for library in &of_crate.relies_on {
            // it has the sum of the library's other files
            let rlib = format!("crates/{library}/out/rlib/{library}.rlib/format");
            fs::read(root.join(rlib)).unwrap_or_default().hash(&mut sum);
        }
        Ok(Sources {
            crate_name: &of_crate.name,
            files,
            sum,
        })
    }

    fn sum_with(&self, edit: &Edit) -> u64 {
        let mut sum = self.sum.clone();
        // the goals of another function need not be in the log
        edit.at.of.hash(&mut sum);
        for hunk in &edit.hunks {
            (&hunk.file, &hunk.old, &hunk.new).hash(&mut sum);
        }
        sum.finish()
    }

    /// The files with the edit made, or what is wrong with it.
    fn edited(&self, edit: &Edit) -> Result<Files, String> {
        let mut files = self.files.clone();
        for hunk in &edit.hunks {
            let file = files
                .iter_mut()
                .find(|(path, _)| path == Path::new(&hunk.file));
            let text = file.map(|(_, text)| text);
            let once = text.filter(|text| text.matches(&hunk.old).count() == 1);
            let Some(text) = once else {
                let old = hunk.old.trim();
                return Err(format!(
                    "error: `{old}` is not in {} exactly once",
                    hunk.file
                ));
            };
            *text = text.replacen(&hunk.old, &hunk.new, 1);
        }
        Ok(files)
    }
}

/// The texts below a folder of a crate, in their order.
fn texts(crate_folder: &Path, inside: &Path, into: &mut Files) -> io::Result<()> {
    let folder = crate_folder.join(inside);
    if !folder.is_dir() {
        return Ok(());
    }
    let entries: io::Result<Vec<_>> = fs::read_dir(&folder)?.collect();
    let mut entries = entries?;
    entries.sort_by_key(|entry| entry.file_name());
    for entry in entries {
        let path = inside.join(entry.file_name());
        if entry.file_type()?.is_dir() {
            texts(crate_folder, &path, into)?;
        } else {
            into.push((path, fs::read_to_string(entry.path())?));
        }
    }
    Ok(())
}

/// A folder for one copy after another, and for what was checked of each.
struct Room<'a> {
    root: &'a Path,
    prover: &'a Prover,
    folder: PathBuf,
}

impl<'a> Room<'a> {
    fn new(root: &'a Path, prover: &'a Prover) -> io::Result<Room<'a>> {
        static ROOMS: AtomicUsize = AtomicUsize::new(0);
        let number = ROOMS.fetch_add(1, Ordering::Relaxed);
        let own = format!("slavotuk-wrong-{}-{number}", std::process::id());
        let folder = std::env::temp_dir().join(own);
        fs::create_dir_all(&folder)?;
        Ok(Room {
            root,
            prover,
            folder,
        })
    }

    fn check(&self, sources: &Sources, edit: &Edit) -> io::Result<Check> {
        let began = Instant::now();
        let mut check = match sources.edited(edit) {
            Ok(files) => self.prove(sources.crate_name, &files, edit)?,
            Err(log) => Check {
                status: Some(2),
                seconds: 0.0,
                log,
            },
        };
        check.seconds = began.elapsed().as_secs_f64();
        Ok(check)
    }

    fn prove(&self, crate_name: &str, files: &Files, edit: &Edit) -> io::Result<Check> {
        let (copy, checked) = (self.folder.join("copy"), self.folder.join("checked"));
        for folder in [&copy, &checked] {
            emptied(folder)?;
        }
        for (path, text) in files {
            let path = copy.join(path);
            fs::create_dir_all(path.parent().unwrap_or(&copy))?;
            fs::write(path, text)?;
        }
        let kept = format!("crates/{crate_name}/out/incremental");
        linked(&self.root.join(kept), &checked)?;
        let command = || {
            let mut command = Command::new(&self.prover.path);
            command.arg(crate_name).arg(&copy).arg(&checked);
            command
        };
        if let Some(function) = edit.at.function() {
            let check = said(command().args(["--only", function]))?;
            if judged(edit, &check).is_ok() {
                return Ok(check);
            }
        }
        said(&mut command())
    }
}

/// The prover's status, none where it was ended from outside twice, and what it said.
fn said(command: &mut Command) -> io::Result<Check> {
    let mut said = command.output()?;
    if said.status.code().is_none() {
        // most likely for memory
        said = command.output()?;
    }
    let log = [said.stdout, said.stderr].concat();
    Ok(Check {
        status: said.status.code(),
        seconds: 0.0,
        log: String::from_utf8_lossy(&log).into_owned(),
    })
}

impl Drop for Room<'_> {
    fn drop(&mut self) {
        // what can't be removed lies in the folder for temporary files
        let _ = fs::remove_dir_all(&self.folder);
    }
}

fn emptied(folder: &Path) -> io::Result<()> {
    if folder.exists() {
        fs::remove_dir_all(folder)?;
    }
    fs::create_dir_all(folder)
}

/// A copy of what was checked, by links where these can be made: a check replaces such a file, and writes into none.
fn linked(from: &Path, to: &Path) -> io::Result<()> {
    if !from.is_dir() {
        return Ok(());
    }
    fs::create_dir_all(to)?;
    for entry in fs::read_dir(from)? {
        let entry = entry?;
        let (path, target) = (entry.path(), to.join(entry.file_name()));
        let is_checked = path.extension() == Some(OsStr::new("oantt"));
        if entry.file_type()?.is_dir() {
            linked(&path, &target)?;
        } else if !(is_checked && fs::hard_link(&path, &target).is_ok()) {
            fs::copy(path, target)?;
        }
    }
    Ok(())
}

#[cfg(test)]
mod tests {
    use super::*;
    use crate::edit;

    fn edit_at(at: &str) -> Edit {
        let text = format!("# one byte\nat: {at}\nfile: src/lib.rt\nold: a\nnew: b\n");
        edit::read("names", Shelf::Wrong, "one_byte", &text)
    }

    fn checked(status: Option<i32>, log: String) -> Check {
        Check {
            status,
            seconds: 1.0,
            log,
        }
    }

    fn refused(at: &str, log: &str) -> Outcome {
        let log = format!("{log}\nlogic=not-proved\n");
        judged(&edit_at(at), &checked(Some(1), log))
    }

    const OPEN: &str = "note: src/lib.rt:9:1: it is not proved that what the function ensures holds when it returns (`returns-after-loop-i`)\nfn names::same: not proved";

    #[test]
    fn a_goal_that_is_not_proved_is_a_refusal() {
        let log = format!("note: src/lib.rt:3:1: it is not proved that the loop ends (`loop-i-smaller`); by it\nfn names::word: no proof: expected\n{OPEN}");
        assert_eq!(
            refused("same returns-after-loop-i", &log),
            Ok("src/lib.rt:9:1".to_string())
        );
        assert_eq!(
            refused("word loop-i-smaller", &log),
            Ok("src/lib.rt:3:1".to_string())
        );
        assert_eq!(
            refused("word returns", &log),
            Err("refused, but not at `returns` of word: at word loop-i-smaller, same returns-after-loop-i".to_string())
        );
    }

    #[test]
    fn an_answer_or_a_lemma_that_is_not_admitted_is_a_refusal() {
        let log = format!("./proofs/Laws.antt:3:4: error: `same_once`: expected\n./proofs/a/same/Answers.antt:9:13: error: `returns`: `search`: no proof\n{OPEN}");
        for (at, place) in [
            ("proofs/Laws.antt same_once", "proofs/Laws.antt:3:4"),
            ("a::same returns", "proofs/a/same/Answers.antt:9:13"),
            ("same returns-after-loop-i", "src/lib.rt:9:1"),
        ] {
            assert_eq!(refused(at, &log), Ok(place.to_string()));
        }
    }

    #[test]
    fn a_harmless_edit_is_found() {
        let log = "logic=proved functions=3\n".to_string();
        assert!(judged(&edit_at("same returns"), &checked(Some(0), log))
            .unwrap_err()
            .starts_with("NOT REFUSED"));
    }

    #[test]
    fn a_proof_that_does_not_fit_is_no_refusal() {
        for words in [
            "`returns`: `goal.returns`: module `G` has no `returns` that can be named from here",
            "`returns`: `loop` was not admitted (it has holes), so this cannot be checked",
            "`returns`: `c` has no field `before`",
        ] {
            let log = format!("./proofs/same/Answers.antt:9:13: error: {words}");
            assert!(refused("same returns", &log)
                .unwrap_err()
                .starts_with("the proof alone does not fit it"));
        }
    }

    #[test]
    fn a_refusal_elsewhere_is_found() {
        for place in [
            "proofs/same/Answers.antt:9:13: error: `loop-i-init`: no",
            "proofs/notsame/Answers.antt:9:13: error: `returns`: no",
            "proofs/Laws.antt:9:13: error: `returns`: no",
        ] {
            assert!(
                refused("same returns", &format!("./{place}"))
                    .unwrap_err()
                    .starts_with("refused, but not at"),
                "{place}"
            );
        }
    }

    #[test]
    fn a_text_that_can_not_be_read_is_found() {
        for line in [
            "src/lib.rt:3:1: error: `returns`: `sam` is not in scope",
            "./specs/Names.antt:3:1: error: the operand is missing",
        ] {
            let log = format!("{line}\n./proofs/same/Answers.antt:9:13: error: `returns`: no");
            assert!(refused("same returns", &log)
                .unwrap_err()
                .starts_with("cannot be read: "));
        }
    }

    #[test]
    fn what_does_not_reach_the_prover_is_found() {
        for (status, log) in [
            (Some(2), "error: no such file\n"),
            (None, ""),
            (Some(1), "src/lib.rt:1:1: error: expected `;`\n"),
            (Some(3), "rattle: no verdict: antt ran out of memory\n"),
        ] {
            let check = checked(status, log.to_string());
            assert!(judged(&edit_at("same returns"), &check)
                .unwrap_err()
                .starts_with("did not reach the prover"));
        }
    }

    #[test]
    fn a_library_of_other_files_is_found() {
        let log = "./proofs/same/Answers.antt:9:13: error: `returns`: module `Rattle-rows-specs` .. Run the lower steps again";
        assert!(refused("same returns", log)
            .unwrap_err()
            .starts_with("a library below is of other files"));
    }
}
