//! The sources: every crate of crates.txt with what its files declare and its wrong builds.

use crate::edit::{self, Edit, Shelf};
use crate::source::{counts, Content, Declaration, Kind};
use crate::{antt, rattle};
use std::fs;
use std::io;
use std::path::{Path, PathBuf};

#[derive(Clone, Copy, Debug, PartialEq, Eq)]
pub enum Folder {
    Specs,
    Proofs,
    Src,
}

impl Folder {
    pub const ALL: [Folder; 3] = [Folder::Specs, Folder::Proofs, Folder::Src];

    pub fn name(self) -> &'static str {
        match self {
            Folder::Specs => "specs",
            Folder::Proofs => "proofs",
            Folder::Src => "src",
        }
    }
}

pub struct File {
    pub crate_name: String,
    pub folder: Folder,
    /// without its ending
    pub stem: String,
    /// from the repository's folder on
    pub path: String,
    pub text: String,
    pub content: Content,
}

impl File {
    pub fn is_program(&self) -> bool {
        self.folder == Folder::Src && self.stem == "main"
    }

    /// As docs/STATEMENTS.md writes its place: the crate for code, CRATE/FILE for definitions and statements.
    pub fn place(&self) -> String {
        match self.folder {
            Folder::Src => self.crate_name.clone(),
            Folder::Specs | Folder::Proofs => format!("{}/{}", self.crate_name, self.stem),
        }
    }
}

#[derive(Debug, PartialEq)]
pub struct Crate {
    pub name: String,
    /// whether it is a static library: programs in C and Rust link what it exports, and no crate relies on it
    pub is_exported: bool,
    /// the heading that it stands below
    pub family: String,
    pub comment: String,
    /// the crates of this repository that it may cite
    pub relies_on: Vec<String>,
    /// lines of the proofs that belong to one function each, which are not read further
    pub own_proof_lines: usize,
}

/// A declaration of the tree: which file, and which of its declarations.
#[derive(Clone, Copy, Debug, PartialEq, Eq, PartialOrd, Ord, Hash)]
pub struct Id {
    pub file: usize,
    pub at: usize,
}

pub struct Tree {
    pub crates: Vec<Crate>,
    pub files: Vec<File>,
    pub edits: Vec<Edit>,
}

impl Tree {
    pub fn read(root: &Path) -> io::Result<Tree> {
        let crates = crates(&fs::read_to_string(root.join("crates.txt"))?);
        let mut tree = Tree {
            crates,
            files: Vec::new(),
            edits: Vec::new(),
        };
        for at in 0..tree.crates.len() {
            let name = tree.crates[at].name.clone();
            let folder = root.join("crates").join(&name);
            for kind in Folder::ALL {
                tree.files.extend(files(&folder, &name, kind)?);
            }
            for shelf in Shelf::ALL {
                tree.edits.extend(edits(&folder, &name, shelf)?);
            }
            tree.crates[at].own_proof_lines = proof_lines(&folder.join("proofs"))?;
        }
        Ok(tree)
    }

    pub fn declaration(&self, id: Id) -> &Declaration {
        &self.files[id.file].content.declarations[id.at]
    }

    pub fn file(&self, id: Id) -> &File {
        &self.files[id.file]
    }

    /// Every declaration but the modules, in the order of the crates and files.
    pub fn declarations(&self) -> impl Iterator<Item = Id> + '_ {
        let all =
            self.files.iter().enumerate().flat_map(|(file, f)| {
                (0..f.content.declarations.len()).map(move |at| Id { file, at })
            });
        all.filter(|id| self.declaration(*id).kind != Kind::Module)
    }

    /// The functions of the libraries that anyone may call.
    pub fn public_functions(&self) -> impl Iterator<Item = Id> + '_ {
        self.functions().filter(|id| !self.is_exported(*id))
    }

    /// The functions that a static library exports: each says what the function says that it calls.
    pub fn exports(&self) -> impl Iterator<Item = Id> + '_ {
        self.functions().filter(|id| self.is_exported(*id))
    }

    fn functions(&self) -> impl Iterator<Item = Id> + '_ {
        self.declarations().filter(|id| {
            let declaration = self.declaration(*id);
            declaration.kind == Kind::Function && declaration.public && !self.file(*id).is_program()
        })
    }

    fn is_exported(&self, id: Id) -> bool {
        let crate_name = &self.file(id).crate_name;
        self.crates
            .iter()
            .any(|c| c.name == *crate_name && c.is_exported)
    }

    /// Whether a function's contract says something of its answer: in a library each does, in a program those that have one.
    pub fn promises(&self, id: Id) -> bool {
        let statement = &self.declaration(id).statement;
        let has_contract = || {
            statement
                .iter()
                .any(|line| line.trim_start().starts_with("ensures"))
        };
        !self.file(id).is_program() || has_contract()
    }

    pub fn find_file(&self, crate_name: &str, folder: Folder, stem: &str) -> Option<usize> {
        self.files.iter().position(|file| {
            file.crate_name == crate_name && file.folder == folder && file.stem == stem
        })
    }

    /// What a file declares by a name, itself or as a member of something.
    pub fn named_in(&self, file: usize, name: &str) -> Vec<Id> {
        let declarations = &self.files[file].content.declarations;
        let has =
            |d: &Declaration| d.kind != Kind::Module && (d.name == name || d.has_member(name));
        (0..declarations.len())
            .filter(|at| has(&declarations[*at]))
            .map(|at| Id { file, at })
            .collect()
    }

    /// What the code of a crate declares by a name.
    pub fn coded(&self, crate_name: &str, name: &str) -> Option<Id> {
        let of_crate = |id: &Id| {
            self.file(*id).crate_name == crate_name && self.file(*id).folder == Folder::Src
        };
        self.declarations()
            .filter(of_crate)
            .find(|id| self.declaration(*id).name == name)
    }

    /// The declaration that has a line of a file.
    pub fn at_line(&self, file: usize, line: usize) -> Option<Id> {
        let declarations = &self.files[file].content.declarations;
        let at = declarations
            .iter()
            .position(|d| d.kind != Kind::Module && d.has_line(line))?;
        Some(Id { file, at })
    }

    /// The lines of a crate's files of one kind, without blank ones and comments.
    pub fn lines(&self, name: &str, folder: Folder) -> usize {
        let files = self
            .files
            .iter()
            .filter(|file| file.crate_name == name && file.folder == folder);
        let own = self
            .crates
            .iter()
            .find(|c| c.name == name && folder == Folder::Proofs)
            .map_or(0, |c| c.own_proof_lines);
        own + files
            .map(|file| file.text.lines().filter(|line| counts(line)).count())
            .sum::<usize>()
    }

    pub fn file_of_path(&self, path: &str) -> Option<usize> {
        self.files.iter().position(|file| file.path == path)
    }
}

/// The lines of crates.txt: `name: those it relies on` or `name staticlib: those it relies on`, below a comment, in families below a heading of two signs.
pub fn crates(text: &str) -> Vec<Crate> {
    let mut found: Vec<Crate> = Vec::new();
    let mut family = "";
    let mut comment = "";
    for line in text.lines() {
        if let Some(words) = line.strip_prefix("##") {
            family = words.trim();
        } else if let Some(words) = line.strip_prefix('#') {
            comment = words.trim();
        } else if let Some((name, others)) = line.split_once(':') {
            let (name, kind) = name.trim().split_once(' ').unwrap_or((name.trim(), ""));
            let relies_on = others.split_whitespace().map(str::to_string).collect();
            found.push(Crate {
                name: name.to_string(),
                is_exported: kind == "staticlib",
                family: family.to_string(),
                comment: comment.to_string(),
                relies_on,
                own_proof_lines: 0,
            });
        }
    }
    // the kit's own libraries are not the repository's
    let names: Vec<String> = found.iter().map(|c| c.name.clone()).collect();
    found
        .iter_mut()
        .for_each(|c| c.relies_on.retain(|other| names.contains(other)));
    found
}

/// What a folder has, by name; nothing where there is none.
fn listed(folder: &Path, ending: &str) -> io::Result<Vec<PathBuf>> {
    if !folder.is_dir() {
        return Ok(Vec::new());
    }
    let entries: io::Result<Vec<PathBuf>> = fs::read_dir(folder)?
        .map(|entry| entry.map(|e| e.path()))
        .collect();
    let mut paths = entries?;
    paths.retain(|path| path.extension().is_some_and(|e| e == ending));
    paths.sort();
    Ok(paths)
}

fn stem(path: &Path) -> String {
    path.file_stem()
        .unwrap_or_default()
        .to_string_lossy()
        .to_string()
}

fn files(folder: &Path, crate_name: &str, kind: Folder) -> io::Result<Vec<File>> {
    let ending = if kind == Folder::Src { "rt" } else { "antt" };
    let mut found = Vec::new();
    let mut order = String::new();
    for path in listed(&folder.join(kind.name()), ending)? {
        let text = fs::read_to_string(&path)?;
        let stem = stem(&path);
        if kind != Folder::Src && stem == "Lib" {
            order = text;
            continue;
        }
        let content = if kind == Folder::Src {
            rattle::read(&text)
        } else {
            antt::read(&text)
        };
        let path = format!("crates/{crate_name}/{}/{stem}.{ending}", kind.name());
        found.push(File {
            crate_name: crate_name.to_string(),
            folder: kind,
            stem,
            path,
            text,
            content,
        });
    }
    // Lib.antt lists its files as they build on each other
    found.sort_by_key(|file| {
        order
            .lines()
            .position(|line| line.ends_with(&format!("mod {}", file.stem)))
    });
    Ok(found)
}

fn edits(folder: &Path, crate_name: &str, shelf: Shelf) -> io::Result<Vec<Edit>> {
    let paths = listed(&folder.join(shelf.name()), "edit")?;
    paths
        .iter()
        .map(|path| {
            Ok(edit::read(
                crate_name,
                shelf,
                &stem(path),
                &fs::read_to_string(path)?,
            ))
        })
        .collect()
}

/// The lines of the proofs that belong to one function each: the files of proofs/FUNCTION/.
fn proof_lines(folder: &Path) -> io::Result<usize> {
    let mut lines = 0;
    if folder.is_dir() {
        for entry in fs::read_dir(folder)? {
            for path in listed(&entry?.path(), "antt")? {
                lines += fs::read_to_string(path)?
                    .lines()
                    .filter(|line| counts(line))
                    .count();
            }
        }
    }
    Ok(lines)
}

#[cfg(test)]
pub mod tests {
    use super::*;

    /// A tree of some files, each with its crate, its folder and its name.
    pub fn tree(files: &[(&str, Folder, &str, &str)]) -> Tree {
        let mut tree = Tree {
            crates: Vec::new(),
            files: Vec::new(),
            edits: Vec::new(),
        };
        for (crate_name, folder, stem, text) in files {
            if tree.crates.iter().all(|c| c.name != *crate_name) {
                tree.crates.extend(crates(&format!("{crate_name}:\n")));
            }
            let content = if *folder == Folder::Src {
                rattle::read(text)
            } else {
                antt::read(text)
            };
            let path = format!("crates/{crate_name}/{}/{stem}", folder.name());
            tree.files.push(File {
                crate_name: crate_name.to_string(),
                folder: *folder,
                stem: stem.to_string(),
                path,
                text: text.to_string(),
                content,
            });
        }
        tree
    }

    #[test]
    fn crates_have_their_comment_and_what_they_rely_on() {
        let found = crates("# lists: no code\nlists:\n# a program\nsteps: lists io libc\n");
        assert_eq!(found.len(), 2);
        assert_eq!(
            (found[0].name.as_str(), found[0].comment.as_str()),
            ("lists", "lists: no code")
        );
        assert_eq!(found[1].relies_on, ["lists"]);
    }

    #[test]
    fn a_static_library_is_told_from_a_library() {
        let found = crates("entries:\n# exported\nentries_c staticlib: entries\n");
        assert_eq!(found[1].name, "entries_c");
        assert_eq!((found[0].is_exported, found[1].is_exported), (false, true));
        assert_eq!(found[1].relies_on, ["entries"]);
    }
}
