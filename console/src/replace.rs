//! A file replaced: whole or not at all, and on the disk before it is called written.

use std::fs::{self, File};
use std::io::{self, Write};
use std::path::{Path, PathBuf};

/// How many names are tried for the new file. One that is taken was left behind by a process that was killed.
const TRIED_NAMES: u32 = 100;

/// Why the disk may not have the file's new bytes.
#[derive(Debug, PartialEq)]
pub struct Failure {
    pub why: String,
    /// Whether the file is the new one: all was done but for the last step. Else it is as it was.
    pub is_new: bool,
}

impl Failure {
    /// One that leaves the file as it was.
    fn before(why: impl ToString) -> Failure {
        Failure {
            why: why.to_string(),
            is_new: false,
        }
    }
}

/// Gives the file these bytes. An error before the last step leaves it as it was, with nothing new beside it.
///
/// A symbolic link stays, and the file that it leads to is replaced.
pub fn replace(file: &Path, bytes: &[u8]) -> Result<(), Failure> {
    let target = target_of(file).map_err(Failure::before)?;
    replace_by(&mut Real, &target, bytes)
}

/// The steps of a replacement. A test lets each of them fail.
trait Disk {
    fn create(&mut self, path: &Path) -> io::Result<File> {
        File::options().write(true).create_new(true).open(path)
    }

    fn write(&mut self, file: &mut File, bytes: &[u8]) -> io::Result<()> {
        file.write_all(bytes)
    }

    /// Waits until the disk has the file, or what a folder's names are.
    fn sync(&mut self, file: &File) -> io::Result<()> {
        file.sync_all()
    }

    fn rename(&mut self, from: &Path, to: &Path) -> io::Result<()> {
        fs::rename(from, to)
    }
}

struct Real;

impl Disk for Real {}

/// The file that is meant, behind symbolic links: one that is there, or a name that is free.
fn target_of(file: &Path) -> Result<PathBuf, String> {
    match file.canonicalize() {
        Ok(found) if found.is_file() => Ok(found),
        Ok(_) => Err("there is something else than a file".into()),
        Err(error) if error.kind() != io::ErrorKind::NotFound => Err(error.to_string()),
        Err(_) if file.file_name().is_none() => Err("it names no file".into()),
        Err(_) if file.is_symlink() => Err("it is a symbolic link that leads nowhere".into()),
        Err(_) => Ok(file.into()),
    }
}

fn replace_by(disk: &mut impl Disk, file: &Path, bytes: &[u8]) -> Result<(), Failure> {
    // opened first: where that fails, nothing has changed yet
    let path = folder_of(file);
    let folder = File::open(path).map_err(Failure::before)?;
    put_beside(disk, path, file, bytes).map_err(Failure::before)?;
    disk.sync(&folder).map_err(|error| Failure {
        why: format!("the file is new, but the disk may not have it: {error}"),
        is_new: true,
    })
}

fn folder_of(file: &Path) -> &Path {
    match file.parent() {
        Some(folder) if folder != Path::new("") => folder,
        _ => Path::new("."),
    }
}

/// Writes a new file in the same folder, and gives it the file's name when the disk has it.
fn put_beside(disk: &mut impl Disk, folder: &Path, file: &Path, bytes: &[u8]) -> io::Result<()> {
    let (part, mut new) = create_in(disk, folder)?;
    let put = disk
        .write(&mut new, bytes)
        .and_then(|()| disk.sync(&new))
        .and_then(|()| disk.rename(&part, file));
    if put.is_err() {
        // the first error is the one to tell
        let _ = fs::remove_file(&part);
    }
    put
}

/// A new file under a name that nobody else uses.
fn create_in(disk: &mut impl Disk, folder: &Path) -> io::Result<(PathBuf, File)> {
    let mut tried = 0;
    loop {
        let part = folder.join(format!(".slavotuk-{}-{tried}.part", std::process::id()));
        tried += 1;
        match disk.create(&part) {
            Ok(new) => return Ok((part, new)),
            Err(error) if error.kind() == io::ErrorKind::AlreadyExists && tried < TRIED_NAMES => {}
            Err(error) => return Err(error),
        }
    }
}

#[cfg(test)]
mod tests {
    use super::*;
    use crate::folder::Folder;

    const OLD: &[u8] = b"what the file held";
    const NEW: &[u8] = b"what it is to hold";

    #[derive(Clone, Copy, Debug, PartialEq)]
    enum Step {
        Create,
        Write,
        Sync,
        Rename,
        SyncFolder,
    }

    const STEPS: [Step; 5] = [
        Step::Create,
        Step::Write,
        Step::Sync,
        Step::Rename,
        Step::SyncFolder,
    ];

    /// A disk that notes its steps, and fails in one of them.
    #[derive(Default)]
    struct Noted {
        steps: Vec<Step>,
        fails: Option<Step>,
        /// The file that is replaced, and what it held at each step.
        file: PathBuf,
        held: Vec<Option<Vec<u8>>>,
    }

    impl Noted {
        fn step(&mut self, step: Step) -> io::Result<()> {
            self.steps.push(step);
            self.held.push(fs::read(&self.file).ok());
            match self.fails {
                Some(fails) if fails == step => Err(io::Error::new(io::ErrorKind::Other, "no")),
                _ => Ok(()),
            }
        }
    }

    impl Disk for Noted {
        fn create(&mut self, path: &Path) -> io::Result<File> {
            self.step(Step::Create)?;
            Real.create(path)
        }

        fn write(&mut self, file: &mut File, bytes: &[u8]) -> io::Result<()> {
            let (first, second) = bytes.split_at(bytes.len() / 2);
            Real.write(file, first)?;
            self.step(Step::Write)?;
            Real.write(file, second)
        }

        fn sync(&mut self, file: &File) -> io::Result<()> {
            let found = file.metadata()?;
            if found.is_dir() {
                self.step(Step::SyncFolder)?;
            } else {
                assert_eq!(found.len(), NEW.len() as u64);
                self.step(Step::Sync)?;
            }
            Real.sync(file)
        }

        fn rename(&mut self, from: &Path, to: &Path) -> io::Result<()> {
            self.step(Step::Rename)?;
            assert_eq!(fs::read(from)?, NEW);
            Real.rename(from, to)
        }
    }

    fn replaced(file: &Path, fails: Option<Step>) -> (Result<(), Failure>, Noted) {
        let mut disk = Noted {
            fails,
            file: file.into(),
            ..Noted::default()
        };
        let done = replace_by(&mut disk, file, NEW);
        (done, disk)
    }

    #[test]
    fn the_disk_has_the_bytes_before_the_name_and_the_name_at_the_end() {
        let folder = Folder::new("order");
        let file = PathBuf::from(folder.file("file"));
        for old in [None, Some(OLD.to_vec()), Some(NEW.to_vec())] {
            let (done, disk) = replaced(&file, None);
            assert_eq!(done, Ok(()));
            assert_eq!(disk.steps, STEPS);
            assert_eq!(disk.held[..4], vec![old; 4]);
            assert_eq!(disk.held[4].as_deref(), Some(NEW));
            assert_eq!(folder.names(), ["file"]);
            fs::write(&file, if disk.held[0].is_none() { OLD } else { NEW }).unwrap();
        }
    }

    #[test]
    fn a_step_that_fails_leaves_the_file_as_it_was() {
        let folder = Folder::new("fails");
        let file = PathBuf::from(folder.file("file"));
        for (at, step) in STEPS.into_iter().take(4).enumerate() {
            let (done, disk) = replaced(&file, Some(step));
            assert_eq!(done, Err(Failure::before("no")), "{step:?}");
            assert_eq!(disk.steps, STEPS[..=at]);
            assert_eq!(folder.names(), [""; 0], "{step:?}");

            fs::write(&file, OLD).unwrap();
            let (done, _) = replaced(&file, Some(step));
            assert_eq!(done, Err(Failure::before("no")), "{step:?}");
            assert_eq!(fs::read(&file).unwrap(), OLD, "{step:?}");
            assert_eq!(folder.names(), ["file"], "{step:?}");
            fs::remove_file(&file).unwrap();
        }
    }

    #[test]
    fn a_folder_that_is_not_on_the_disk_is_told() {
        let folder = Folder::new("folder");
        let file = PathBuf::from(folder.file("file"));
        fs::write(&file, OLD).unwrap();
        let (done, _) = replaced(&file, Some(Step::SyncFolder));
        let failure = done.unwrap_err();
        assert_eq!(
            failure.why,
            "the file is new, but the disk may not have it: no"
        );
        assert!(failure.is_new);
        assert_eq!(fs::read(&file).unwrap(), NEW);
        assert_eq!(folder.names(), ["file"]);
    }

    #[test]
    fn a_name_that_is_taken_is_left() {
        let folder = Folder::new("taken");
        let part = |at: u32| format!(".slavotuk-{}-{at}.part", std::process::id());
        for at in 0..TRIED_NAMES {
            fs::write(folder.0.join(part(at)), OLD).unwrap();
        }
        let file = PathBuf::from(folder.file("file"));
        assert!(replace(&file, NEW).is_err());
        fs::remove_file(folder.0.join(part(TRIED_NAMES - 1))).unwrap();
        assert_eq!(replace(&file, NEW), Ok(()));
        assert_eq!(fs::read(&file).unwrap(), NEW);
        assert_eq!(folder.names().len(), TRIED_NAMES as usize);
        assert_eq!(fs::read(folder.0.join(part(0))).unwrap(), OLD);
    }

    #[test]
    fn a_name_alone_is_of_the_folder_one_is_in() {
        assert_eq!(folder_of(Path::new("file")), Path::new("."));
        assert_eq!(folder_of(Path::new("folder/file")), Path::new("folder"));
        assert_eq!(folder_of(Path::new("/file")), Path::new("/"));
    }
}
