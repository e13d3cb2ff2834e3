//! `slavotuk-inspect check`, `page` and `wrong`, in the repository's folder.
#![forbid(unsafe_code)]

use slavotuk_inspect::believed::Figure;
use slavotuk_inspect::check;
use slavotuk_inspect::map::{self, Map};
use slavotuk_inspect::page::{self, Book, Origin};
use slavotuk_inspect::run::Run;
use slavotuk_inspect::tree::Tree;
use slavotuk_inspect::wrong::{self, Prover};
use std::fs;
use std::io;
use std::path::{Path, PathBuf};
use std::process::{Command, ExitCode};
use std::thread;

const HELP: &str = "\
usage: slavotuk-inspect check
       slavotuk-inspect page FILE
       slavotuk-inspect wrong [--proved] [CRATE..]

check   docs/STATEMENTS.md against the sources: what is wrong with it, and last 'N passed, M failed'
page    writes the inspector's page
wrong   has `rt` prove these crates, or all, unless they are proved, tries their wrong builds, and says of each where it was refused;
        last 'N passed, M failed'
";

fn main() -> ExitCode {
    let words: Vec<String> = std::env::args().skip(1).collect();
    let words: Vec<&str> = words.iter().map(String::as_str).collect();
    let done = match words.as_slice() {
        ["check"] => checked(),
        ["page", file] => written(Path::new(file)),
        ["wrong", "--proved", crates @ ..] => tried(crates, true),
        ["wrong", crates @ ..] => tried(crates, false),
        _ => {
            eprint!("{HELP}");
            return ExitCode::from(2);
        }
    };
    match done {
        Ok(true) => ExitCode::SUCCESS,
        Ok(false) => ExitCode::FAILURE,
        Err(e) => {
            eprintln!("slavotuk-inspect: {e}");
            ExitCode::from(2)
        }
    }
}

fn checked() -> io::Result<bool> {
    let root = Path::new(".");
    let verdicts = check::check(root, &Tree::read(root)?, &Map::read(root)?);
    Ok(check::report(&verdicts))
}

fn tried(crates: &[&str], are_proved: bool) -> io::Result<bool> {
    let root = Path::new(".");
    let tree = Tree::read(root)?;
    if let Some(name) = crates
        .iter()
        .find(|name| tree.crates.iter().all(|c| c.name != **name))
    {
        return Err(io::Error::new(
            io::ErrorKind::NotFound,
            format!("crates.txt lists no crate {name}"),
        ));
    }
    if !are_proved && !proved(root, crates)? {
        return Ok(false);
    }
    let prover = Prover {
        path: PathBuf::from("arch/prover"),
        version: said("rt", &["version"]),
    };
    wrong::report(root, &tree, &prover, crates)
}

/// Has `rt` prove these crates, or all, over what it kept, and prints the verdicts that it gives, or all that it says where it can't.
fn proved(root: &Path, crates: &[&str]) -> io::Result<bool> {
    let workers = thread::available_parallelism().map_or(1, |count| count.get());
    let all = format!("all check --jobs {workers}");
    let folders = crates.iter().map(|name| root.join("crates").join(name));
    let runs: Vec<(PathBuf, &str)> = match crates {
        [] => vec![(root.to_path_buf(), all.as_str())],
        _ => folders.map(|folder| (folder, "check")).collect(),
    };
    for (folder, words) in runs {
        let mut command = Command::new("rt");
        let output = command
            .args(words.split(' '))
            .current_dir(&folder)
            .output()?;
        let printed = String::from_utf8_lossy(&output.stdout);
        let is_verdict = |line: &&str| line.starts_with("== ") || line.starts_with("logic=");
        if output.status.success() {
            printed
                .lines()
                .filter(is_verdict)
                .for_each(|line| println!("{line}"));
        } else {
            println!("{printed}{}", String::from_utf8_lossy(&output.stderr));
            println!("FAILED: `rt {words}` in {}", folder.display());
            println!("0 passed, 1 failed");
            return Ok(false);
        }
    }
    Ok(true)
}

fn written(file: &Path) -> io::Result<bool> {
    let root = Path::new(".");
    let (tree, map) = (Tree::read(root)?, Map::read(root)?);
    let origin = Origin {
        commit: said("git", &["describe", "--always", "--dirty", "--abbrev=12"]),
        date: said("date", &["-u", "+%Y-%m-%d %H:%M UTC"]),
        readme: map::document(&root.join("README.md"))?,
        verdicts: check::check(root, &tree, &map),
    };
    let book = Book::new(&tree, &map, Run::read(root), origin);
    if let Some(folder) = file.parent() {
        fs::create_dir_all(folder)?;
    }
    fs::write(file, page::write(&book))?;
    let lines = Figure::ALL.map(|figure| book.believed.all_lines(&tree, figure));
    println!(
        "{}: {} sentences; lines to be believed: {} for {}, {} for {}",
        file.display(),
        map.rows().count(),
        lines[0],
        Figure::ALL[0].title(),
        lines[1],
        Figure::ALL[1].title()
    );
    Ok(true)
}

/// What a command says in a line.
fn said(command: &str, words: &[&str]) -> String {
    let output = Command::new(command).args(words).output();
    let text = output.map(|output| output.stdout).unwrap_or_default();
    match String::from_utf8_lossy(&text).trim() {
        "" => "unknown".to_string(),
        line => line.to_string(),
    }
}
