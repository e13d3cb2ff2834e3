//! States saved and loaded, and files that can't be written.

mod common;

use common::*;
use slavotuk::layout::state::*;
use slavotuk::{layout, STATE_LENGTH};
use std::fs;

const SETUP: &str =
    "open 0\nselect 0 0x10\nstart 0 0 P\nstart 0 1 R\nend 0 0 0 yes keep\nelevate 0 1 Q yes\n";

#[test]
fn what_was_saved_is_loaded() {
    let folder = Folder::new("round");
    let file = folder.file("state");
    let before = good(format!("{SETUP}save {file}\nshow names\n"));
    assert_eq!(fs::read(&file).unwrap().len(), STATE_LENGTH);
    let after = good(format!("load {file}\nshow names\n"));
    let shown = |out: &str| out[out.find("sessions").unwrap()..].to_string();
    assert_eq!(shown(&before), shown(&after));
    assert_eq!(folder.names(), ["state"]);

    let again = folder.file("again");
    good(format!("load {file}\nsave {again}\n"));
    assert_eq!(fs::read(&file).unwrap(), fs::read(&again).unwrap());
}

#[test]
fn an_old_file_is_replaced_whole() {
    let folder = Folder::new("replace");
    let file = folder.file("a state");
    fs::write(&file, vec![9; 10_000]).unwrap();
    let told = format!("saved {STATE_LENGTH} bytes\n");
    assert_eq!(good(format!("save \"{file}\"\n")), told);
    assert_eq!(fs::read(&file).unwrap().len(), STATE_LENGTH);
    assert_eq!(folder.names(), ["a state"]);
}

#[test]
fn load_begins_a_new_history() {
    let folder = Folder::new("history");
    let file = folder.file("state");
    let out = good(format!(
        "open 0\nsave {file}\nopen 1\nload {file}\nopen 1\nhistory\n"
    ));
    let told = format!("loaded {STATE_LENGTH} bytes\na new history begins\n0 done\nsince load {file}\n     1  open 1: 0 done\n");
    assert!(out.ends_with(&told), "{out}");
}

/// Loads a file that holds no state: the message, and that the state and the history are as they were.
#[track_caller]
fn not_loaded(file: &str, why: &str) {
    let shown = good(format!("{SETUP}show\nhistory\n"));
    let run = run(format!("{SETUP}load {file}\nshow\nhistory\n"));
    let message = format!("line 7: {file} is not loaded: {why}");
    assert!(run.err.starts_with(&message), "{}", run.err);
    assert_eq!(run.err.lines().count(), 1);
    assert_eq!(run.out, shown);
    assert_eq!(run.code, Some(1));
}

#[test]
fn damaged_files_change_nothing() {
    let folder = Folder::new("damaged");
    let file = folder.file("state");
    good(format!("{SETUP}save {file}\n"));
    let whole = fs::read(&file).unwrap();

    for (at, byte) in [
        (0, 3),
        (0, 0),
        (credential_at(0) + PROVISIONED, 2),
        (credential_at(2) + WORD, 1),
        (credential_at(2) + SECOND, 1),
        (COUNT_AT, 2),
        (COUNT_AT, 13),
        (place_at(0) + OWNER, 2),
        // a saved process that has counted nothing
        (place_at(0) + NEXT, 0),
        (STATE_LENGTH - 1, 1),
    ] {
        let mut damaged = whole.clone();
        assert_ne!(damaged[at], byte);
        damaged[at] = byte;
        fs::write(&file, &damaged).unwrap();
        not_loaded(&file, "its bytes hold no state, 1 argument");
        assert_eq!(fs::read(&file).unwrap(), damaged);
    }
    // a state had 681 bytes before each credential had a second word, and 713 before there was a second port
    for length in [STATE_LENGTH - 1, 713, 681, 0] {
        fs::write(&file, &whole[..length]).unwrap();
        let why = format!("it has {length} bytes, and a state {STATE_LENGTH}");
        not_loaded(&file, &why);
    }
    fs::write(&file, [&whole[..], &[0]].concat()).unwrap();
    let why = format!("it has more than the {STATE_LENGTH} bytes of a state");
    not_loaded(&file, &why);
}

#[test]
fn unreadable_files_change_nothing() {
    let folder = Folder::new("unreadable");
    not_loaded(&folder.file("missing"), "No such file");
    not_loaded(folder.0.to_str().unwrap(), "");
    not_loaded(&folder.file("missing/state"), "No such file");
}

/// Rescues this image, which is a good one, to the file that follows.
const RESCUE: &str = concat!(
    "rescue \"",
    env!("CARGO_MANIFEST_DIR"),
    "/../examples/old-board.image\""
);

/// Saves where nothing can be saved, and writes an image there, the module's and a rescued one: the message, and that nothing is left behind.
#[track_caller]
fn not_saved(folder: &Folder, file: &str) {
    for (command, done) in [("save", "saved"), ("image", "written"), (RESCUE, "written")] {
        let before = folder.names();
        let run = run(format!("{SETUP}{command} {file}\nopen 1\n"));
        let message = format!("line 7: {file} is not {done}: ");
        assert!(run.err.starts_with(&message), "{}", run.err);
        assert_eq!(run.err.lines().count(), 1);
        assert_eq!(run.out, "0 done\n".repeat(7));
        assert_eq!(run.code, Some(1));
        assert_eq!(folder.names(), before);
    }
}

#[test]
fn unwritable_places_get_a_message() {
    let folder = Folder::new("unwritable");
    not_saved(&folder, &folder.file("missing/state"));
    not_saved(&folder, &folder.file(".."));
    not_saved(&folder, &folder.file("no-folder/"));
    fs::create_dir(folder.0.join("folder")).unwrap();
    not_saved(&folder, &folder.file("folder"));
    fs::write(folder.0.join("file"), b"kept").unwrap();
    not_saved(&folder, &folder.file("file/state"));
    not_saved(&folder, &folder.file(&"n".repeat(256)));
    assert_eq!(fs::read(folder.0.join("file")).unwrap(), b"kept");
}

/// The longest name that a file can have leaves no room for a longer one beside it.
#[test]
fn a_long_name_is_written() {
    let folder = Folder::new("long");
    let name = "n".repeat(255);
    let file = folder.file(&name);
    good(format!(
        "save {file}\nimage {file}\nrestore {file}\nrescue {file} {file}\n"
    ));
    assert_eq!(folder.names(), [name]);
}

/// A folder of the kernel's, for whom not even root makes a file, and one of ours without the right, where that stops us.
#[cfg(unix)]
#[test]
fn a_folder_that_is_not_to_be_written_gets_a_message() {
    use std::os::unix::fs::PermissionsExt;
    let folder = Folder::new("forbidden");
    if fs::metadata("/proc/self").is_ok() {
        not_saved(&folder, "/proc/slavotuk-image");
    }
    let file = folder.file("file");
    fs::write(&file, b"kept").unwrap();
    let rights = |mode| fs::set_permissions(&folder.0, fs::Permissions::from_mode(mode)).unwrap();
    rights(0o500);
    let is_root = fs::write(folder.0.join("probe"), b"").is_ok();
    if !is_root {
        not_saved(&folder, &file);
        assert_eq!(fs::read(&file).unwrap(), b"kept");
    }
    rights(0o700);
}

#[cfg(unix)]
#[test]
fn a_symbolic_link_stays_and_its_file_is_replaced() {
    use std::os::unix::fs::symlink;
    let folder = Folder::new("link");
    let (near, far) = (folder.file("near"), folder.file("far"));
    fs::create_dir(&near).unwrap();
    fs::create_dir(&far).unwrap();
    let (link, file) = (format!("{near}/link"), format!("{far}/file"));
    fs::write(&file, b"old").unwrap();
    symlink("../far/file", &link).unwrap();
    for (command, length) in [
        ("save", STATE_LENGTH),
        ("image", layout::image::row_at(1)),
        (RESCUE, layout::image::old_row_at(2)),
    ] {
        good(format!("{SETUP}{command} {link}\n"));
        assert_eq!(fs::read_link(&link).unwrap().to_str(), Some("../far/file"));
        assert!(fs::symlink_metadata(&file).unwrap().is_file());
        assert_eq!(fs::read(&file).unwrap().len(), length);
        assert_eq!(fs::read_dir(&near).unwrap().count(), 1);
        assert_eq!(fs::read_dir(&far).unwrap().count(), 1);
    }
    good(format!("restore {link}\n"));
    good(format!("rescue {link} {link}\nrestore {link}\n"));
    assert!(fs::symlink_metadata(&link).unwrap().is_symlink());

    fs::remove_file(&file).unwrap();
    not_saved(&folder, &link);
    assert!(fs::metadata(&file).is_err());
    fs::create_dir(&file).unwrap();
    not_saved(&folder, &link);
    fs::remove_file(&link).unwrap();
    symlink("link", &link).unwrap();
    not_saved(&folder, &link);
    assert_eq!(fs::read_link(&link).unwrap().to_str(), Some("link"));
}

#[cfg(unix)]
#[test]
fn what_is_no_file_is_not_replaced() {
    let folder = Folder::new("special");
    if fs::metadata("/dev/null").is_ok() {
        not_saved(&folder, "/dev/null");
    }
    let socket = folder.file("socket");
    let _listener = std::os::unix::net::UnixListener::bind(&socket).unwrap();
    not_saved(&folder, &socket);
    assert!(!fs::metadata(&socket).unwrap().is_file());
}

#[test]
fn a_missing_file_name_is_a_bad_line() {
    for command in ["save", "load", "image", "restore"] {
        let run = run(format!("{command}\n{command} a b\n"));
        let lines: Vec<&str> = run.err.lines().collect();
        assert!(lines[0].contains("file is missing"), "{}", run.err);
        assert!(lines[1].contains("'b' is too much"), "{}", run.err);
    }
}

#[test]
fn an_empty_file_name_names_no_file() {
    for command in ["save", "image", RESCUE] {
        let run = run(format!("{command} \"\"\n"));
        assert!(run.err.ends_with(": it names no file\n"), "{}", run.err);
    }
}
