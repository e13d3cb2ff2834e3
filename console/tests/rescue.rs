//! Damaged images rescued from files to files.

mod common;

use common::*;
use slavotuk::layout::image::*;
use slavotuk::NAME_LENGTH;
use std::fs::{self, File};
use std::process::Command;
use std::sync::OnceLock;

const EXAMPLES: &str = concat!(env!("CARGO_MANIFEST_DIR"), "/../examples/");

/// What the image of a board held before it was damaged: P of credential 0 at number 3, and of credential 1 Q at 300 and R at 1.
const BOARD: &str = "fresh 0=15 1=0x34/0x20\nopen 0\nselect 0 0x10\nstart 0 0 P\nlist 0 user 0 0 yes 1\nlist 0 user 0 1 yes 1\nend 0 0 2 yes keep\n\
                     start 0 1 Q\nrecords 0 1 0 298 4\nend 0 1 299 yes keep\nstart 0 1 R\nend 0 1 0 yes keep\n";

/// A module whose sessions and history tell whether a rescue has touched it.
const SETUP: &str = "open 0\nselect 0 0x10\nstart 0 0 P\nopen 1.2\n";

const ADVICE: &str = "what was kept may be damaged too: restore it, set words again, list the processes, kill those in doubt and start anew\n";

/// The image of a board as the module writes it.
fn board() -> Vec<u8> {
    static IMAGE: OnceLock<Vec<u8>> = OnceLock::new();
    IMAGE.get_or_init(written_board).clone()
}

fn written_board() -> Vec<u8> {
    let folder = Folder::new("board");
    let file = folder.file("image");
    good(format!("{BOARD}image {file}\n"));
    let image = fs::read(&file).unwrap();
    assert_eq!(image.len(), row_at(3));
    image
}

/// The same in the old layout.
fn old_board() -> Vec<u8> {
    let image = board();
    let mut old = [&image[..SECONDS_AT], &image[ROWS_AT..]].concat();
    old[ROWS_OFFSET_AT] = OLD_ROWS_AT as u8;
    old
}

/// What a rescue is to answer: the report in the order of its lines.
fn done(read: usize, written: usize, cleared: &str, kept: &str, dropped: &str) -> String {
    format!(
        "0 done\nread {read} bytes, written {written}\ncleared {cleared} of unprovisioned credentials\nkept {kept}\ndropped {dropped}\n"
    )
}

fn refused(read: usize) -> String {
    format!(
        "14 message\nthe header or the words of the {read} bytes that were read can't be used\n"
    )
}

/// Runs a rescue between two looks at the module and its history, which it leaves as they are, and hands out its answer.
#[track_caller]
fn rescued(from: &str, to: &str) -> String {
    let looked = "show names\nhistory\n";
    let shown = good(format!("{SETUP}{looked}"));
    let out = good(format!("{SETUP}rescue \"{from}\" \"{to}\"\n{looked}"));
    let (before, after) = shown.split_at(shown.find("sessions").unwrap());
    let answer = out
        .strip_prefix(before)
        .and_then(|out| out.strip_suffix(after));
    answer.unwrap_or_else(|| panic!("{out}")).into()
}

/// A damaged image in a folder of its own.
struct Damaged {
    folder: Folder,
    from: String,
    to: String,
}

impl Damaged {
    fn new(test: &str, bytes: &[u8]) -> Damaged {
        let folder = Folder::new(test);
        let (from, to) = (folder.file("damaged"), folder.file("rescued"));
        fs::write(&from, bytes).unwrap();
        Damaged { folder, from, to }
    }

    /// Rescues it to a file that is not there, and to one that is, and hands out the answer and the image. What was read stays.
    #[track_caller]
    fn rescued(&self) -> (String, Vec<u8>) {
        let before = fs::read(&self.from).unwrap();
        let answer = rescued(&self.from, &self.to);
        let image = fs::read(&self.to).unwrap();
        fs::write(&self.to, [9; 1000]).unwrap();
        assert_eq!(rescued(&self.from, &self.to), answer);
        assert_eq!(fs::read(&self.to).unwrap(), image);
        assert_eq!(fs::read(&self.from).unwrap(), before);
        assert_eq!(self.folder.names().len(), 2);
        (answer, image)
    }

    /// Is refused, whether the other file is there or not, and both stay as they are.
    #[track_caller]
    fn refused(&self, read: usize) {
        assert_eq!(rescued(&self.from, &self.to), refused(read));
        assert_eq!(self.folder.names(), ["damaged"]);
        fs::write(&self.to, b"kept").unwrap();
        assert_eq!(rescued(&self.from, &self.to), refused(read));
        assert_eq!(fs::read(&self.to).unwrap(), b"kept");
        let before = fs::read(&self.from).unwrap();
        assert_eq!(rescued(&self.from, &self.from), refused(read));
        assert_eq!(fs::read(&self.from).unwrap(), before);
        assert_eq!(self.folder.names().len(), 2);
    }
}

/// A word of a credential that is not provisioned, and a row whose number is lost: the rest is rescued, and restored.
#[test]
fn a_damaged_image_is_rescued() {
    let mut bytes = board();
    let mut good_part = [&bytes[..row_at(1)], &bytes[row_at(2)..]].concat();
    good_part[ROW_COUNT_AT] = 2;
    bytes[second_at(7)] = 1;
    bytes[row_at(1) + NEXT..][..2].fill(0);
    let damaged = Damaged::new("damaged", &bytes);
    let refused = good(format!("restore {}\n", damaged.from));
    assert!(refused.starts_with("14 message\n"), "{refused}");
    let (answer, image) = damaged.rescued();
    let report = done(
        row_at(3),
        row_at(2),
        "1 nonzero word",
        "2 rows",
        "1 row, at place 1",
    );
    assert_eq!(answer, format!("{report}{ADVICE}"));
    assert_eq!(image, good_part);
    let restored = good(format!("restore {}\nshow names\n", damaged.to));
    let rows = "\
processes, 2 of 12
  place  credential  type              session  next number  name
      0           0  saved user              -            3  00*16+11*32  P
      1           1  saved user              -            1  00*16+11*31+12  R
";
    assert!(restored.ends_with(rows), "{restored}");
}

#[test]
fn an_image_stays_as_it_is_in_either_layout() {
    for image in [board(), old_board()] {
        let length = image.len();
        let whole = Damaged::new("whole", &image);
        let report = done(length, length, "0 nonzero words", "3 rows", "0 rows");
        assert_eq!(whole.rescued(), (report, image));
    }
}

/// The second time there is nothing left to report.
#[test]
fn one_file_may_be_both() {
    let mut bytes = old_board();
    bytes[MASK_AT] = 1;
    let damaged = Damaged::new("both", &bytes);
    let report = done(
        old_row_at(3),
        old_row_at(1),
        "1 nonzero word",
        "1 row",
        "2 rows, at places 1, 2",
    );
    let answer = rescued(&damaged.from, &damaged.from);
    assert_eq!(answer, format!("{report}{ADVICE}"));
    let image = fs::read(&damaged.from).unwrap();
    let report = done(
        old_row_at(1),
        old_row_at(1),
        "0 nonzero words",
        "1 row",
        "0 rows",
    );
    assert_eq!(rescued(&damaged.from, &damaged.from), report);
    assert_eq!(fs::read(&damaged.from).unwrap(), image);
    assert_eq!(damaged.folder.names(), ["damaged"]);
}

#[test]
fn a_short_file_keeps_its_whole_rows() {
    for (length, kept, dropped) in [
        (
            row_at(3) - 1,
            "2 rows",
            "1 row, at place 2; missing or cut: 2",
        ),
        (row_at(2), "2 rows", "1 row, at place 2; missing or cut: 2"),
        (
            row_at(2) - 1,
            "1 row",
            "2 rows, at places 1, 2; missing or cut: 1, 2",
        ),
        (
            ROWS_AT,
            "0 rows",
            "3 rows, at places 0 to 2; missing or cut: 0 to 2",
        ),
    ] {
        let short = Damaged::new("short", &board()[..length]);
        let rows: usize = kept[..1].parse().unwrap();
        let (answer, image) = short.rescued();
        let report = done(length, row_at(rows), "0 nonzero words", kept, dropped);
        assert_eq!(answer, format!("{report}{ADVICE}"));
        assert_eq!(image[ROW_COUNT_AT], rows as u8);
        assert_eq!(
            image[ROWS_OFFSET_AT..],
            board()[ROWS_OFFSET_AT..row_at(rows)]
        );
    }
}

#[test]
fn a_file_without_header_and_words_is_refused() {
    for length in [0, 1, WORDS_AT - 1, WORDS_AT, ROWS_AT - 1] {
        Damaged::new("cut", &board()[..length]).refused(length);
    }
    Damaged::new("cut", &old_board()[..OLD_ROWS_AT - 1]).refused(OLD_ROWS_AT - 1);
    for (at, byte) in [
        (MASK_AT + 1, 1),
        (WORD_COUNT_AT, 7),
        (WORDS_OFFSET_AT, 11),
        (ROW_COUNT_AT, 13),
        (ROW_COUNT_AT + 1, 1),
        (ROWS_OFFSET_AT, 43),
    ] {
        let mut bytes = board();
        bytes[at] = byte;
        Damaged::new("header", &bytes).refused(row_at(3));
    }
}

/// An image of twelve rows is read to its last byte, and no byte behind the longest image is.
#[test]
fn a_longer_file_is_read_up_to_the_longest_image() {
    let mut full = board()[..ROWS_AT].to_vec();
    full[ROW_COUNT_AT] = 12;
    for row in 0..12 {
        full.extend([1, 0, 1, 0]);
        full.extend([row; NAME_LENGTH]);
    }
    assert_eq!(full.len(), FULL_LENGTH);
    let report = done(
        FULL_LENGTH,
        FULL_LENGTH,
        "0 nonzero words",
        "12 rows",
        "0 rows",
    );
    for more in [0, 1, 100_000] {
        let longer = Damaged::new("longer", &[&full[..], &vec![0xff; more]].concat());
        assert_eq!(longer.rescued(), (report.clone(), full.clone()));
    }
    let short = [&board()[..], &[0xff; 4096]].concat();
    let report = done(
        FULL_LENGTH,
        row_at(3),
        "0 nonzero words",
        "3 rows",
        "0 rows",
    );
    let answer = format!("{report}{ADVICE}");
    let erased = Damaged::new("erased", &short);
    assert_eq!(erased.rescued(), (answer, board()));
}

/// The blocks of this file are not there, and to read it would take for ever.
#[test]
fn a_huge_file_is_not_read_to_its_end() {
    let huge = Damaged::new("huge", &board());
    let file = File::options().write(true).open(&huge.from).unwrap();
    file.set_len(1 << 40).unwrap();
    let answer = rescued(&huge.from, &huge.to);
    assert!(answer.starts_with("0 done\n"), "{answer}");
    assert_eq!(fs::read(&huge.to).unwrap(), board());
}

/// A message, and neither an answer nor a change.
#[track_caller]
fn not_rescued(from: &str, to: &str, message: &str) {
    let shown = good(format!("{SETUP}show\nhistory\n"));
    let run = run(format!("{SETUP}rescue {from} {to}\nshow\nhistory\n"));
    let line = format!("line 5: {message}");
    assert!(run.err.starts_with(&line), "{}", run.err);
    assert_eq!(run.err.lines().count(), 1);
    assert_eq!((run.out, run.code), (shown, Some(1)));
}

#[test]
fn a_file_that_is_not_read_leaves_the_other() {
    let other = Damaged::new("unreadable", b"kept");
    let file = |name: &str| other.folder.file(name);
    for (from, why) in [
        (file("missing"), "No such file"),
        (file("damaged/image"), "Not a directory"),
        (file(&"n".repeat(256)), "File name too long"),
        (file(""), "Is a directory"),
    ] {
        let message = format!("{from} is not read: {why}");
        for to in [&other.from, &other.to, &from] {
            not_rescued(&from, to, &message);
        }
    }
    assert_eq!(fs::read(&other.from).unwrap(), b"kept");
    assert_eq!(other.folder.names(), ["damaged"]);
}

/// tests/files.rs has more places that can't be written.
#[test]
fn a_place_that_is_not_written_leaves_the_damaged_file() {
    let damaged = Damaged::new("unwritable", &board()[..row_at(2)]);
    let to = damaged.folder.file("folder");
    fs::create_dir(&to).unwrap();
    let message = format!("{to} is not written: there is something else than a file");
    not_rescued(&damaged.from, &to, &message);
    let to = damaged.folder.file("missing/image");
    not_rescued(&damaged.from, &to, &format!("{to} is not written: No such"));
    assert_eq!(fs::read(&damaged.from).unwrap(), board()[..row_at(2)]);
    assert_eq!(damaged.folder.names().len(), 2);
}

#[cfg(unix)]
#[test]
fn devices_are_read_as_files_and_not_written() {
    let damaged = Damaged::new("devices", &board());
    assert_eq!(rescued("/dev/null", &damaged.to), refused(0));
    assert_eq!(rescued("/dev/zero", &damaged.to), refused(FULL_LENGTH));
    assert_eq!(damaged.folder.names(), ["damaged"]);
    for device in ["/dev/null", "/dev/zero"] {
        let message = format!("{device} is not written: there is something else than a file");
        not_rescued(&damaged.from, device, &message);
    }
}

/// Of a link as FROM the file that it leads to is read; of two links to one file that file is both.
#[cfg(unix)]
#[test]
fn links_lead_to_their_files() {
    use std::os::unix::fs::symlink;
    let damaged = Damaged::new("links", &board()[..row_at(2)]);
    let (link, second) = (damaged.folder.file("link"), damaged.folder.file("second"));
    symlink("damaged", &link).unwrap();
    symlink("link", &second).unwrap();
    let answer = rescued(&link, &second);
    assert!(answer.starts_with("0 done\n"), "{answer}");
    assert_eq!(fs::read(&damaged.from).unwrap().len(), row_at(2));
    assert_eq!(fs::read(&damaged.from).unwrap()[ROW_COUNT_AT], 2);
    assert!(fs::symlink_metadata(&link).unwrap().is_symlink());
    assert!(fs::symlink_metadata(&second).unwrap().is_symlink());
    assert_eq!(damaged.folder.names().len(), 3);

    let nowhere = damaged.folder.file("nowhere");
    symlink("nothing", &nowhere).unwrap();
    not_rescued(&nowhere, &damaged.to, &format!("{nowhere} is not read: No"));
    let message = format!("{nowhere} is not written: it is a symbolic link that leads nowhere");
    not_rescued(&damaged.from, &nowhere, &message);
}

/// A shell that lets its child write no byte to a file stands for a disk that is full. The damaged file is not lost, also where it is both.
#[cfg(unix)]
#[test]
fn a_full_disk_leaves_both_files() {
    let damaged = Damaged::new("full", &board()[..row_at(2)]);
    fs::write(&damaged.to, b"kept").unwrap();
    let shell = "trap '' XFSZ; ulimit -f 0; exec \"$0\"";
    for to in [&damaged.to, &damaged.from] {
        let script = damaged.folder.file("script");
        fs::write(&script, format!("rescue {} {to}\nopen 0\n", damaged.from)).unwrap();
        let output = Command::new("sh")
            .args(["-c", shell, env!("CARGO_BIN_EXE_slavotuk-console")])
            .stdin(File::open(&script).unwrap())
            .output()
            .unwrap();
        fs::remove_file(&script).unwrap();
        let message = String::from_utf8(output.stderr).unwrap();
        let wanted = format!("line 1: {to} is not written: ");
        assert!(message.starts_with(&wanted), "{message}");
        assert_eq!(message.lines().count(), 1);
        assert_eq!(output.stdout, b"0 done\n");
        assert_eq!(output.status.code(), Some(1));
        assert_eq!(fs::read(&damaged.to).unwrap(), b"kept");
        assert_eq!(fs::read(&damaged.from).unwrap(), board()[..row_at(2)]);
        assert_eq!(damaged.folder.names().len(), 2);
    }
}

#[test]
fn names_with_blanks_stand_between_quotation_marks() {
    let folder = Folder::new("blanks");
    let (from, to) = (folder.file("a damaged one"), folder.file("a good one"));
    fs::write(&from, board()).unwrap();
    assert!(rescued(&from, &to).starts_with("0 done\n"));
    assert_eq!(fs::read(&to).unwrap(), board());
}

/// The images of the example.
const BOARDS: [&str; 3] = [
    "cut-board.image",
    "doubled-board.image",
    "stray-board.image",
];

/// What is damaged in each of them.
fn damaged_boards() -> [Vec<u8>; 3] {
    let mut cut = board();
    cut.truncate(row_at(2) + ROW_LENGTH / 2);

    let mut doubled = old_board();
    doubled[old_row_at(1) + NEXT..][..2].fill(0);
    doubled.copy_within(old_row_at(0)..old_row_at(1), old_row_at(2));
    doubled[old_row_at(2) + NEXT] += 1;

    let mut stray = board();
    stray[MASK_AT] &= !2;
    stray[word_at(5) + 2] = 1;
    [cut, doubled, stray]
}

/// `RENEW_BOARDS=1 cargo test --release --package slavotuk-console the_boards` writes them.
#[test]
fn the_boards_are_damaged_as_the_example_says() {
    for (file, bytes) in BOARDS.into_iter().zip(damaged_boards()) {
        let path = format!("{EXAMPLES}{file}");
        if std::env::var_os("RENEW_BOARDS").is_some() {
            fs::write(&path, &bytes).unwrap();
        }
        assert_eq!(fs::read(&path).unwrap(), bytes, "{file}");
    }
}

/// Run in a folder of its own, since it writes files there; it reads the boards below it.
#[test]
fn the_example_rescues_three_boards() {
    let folder = Folder::new("boards");
    let examples = folder.0.join("examples");
    fs::create_dir(&examples).unwrap();
    for (board, bytes) in BOARDS.into_iter().zip(damaged_boards()) {
        fs::write(examples.join(board), bytes).unwrap();
    }
    let output = console()
        .current_dir(&folder.0)
        .stdin(File::open(format!("{EXAMPLES}rescue.txt")).unwrap())
        .output()
        .unwrap();
    assert_eq!(String::from_utf8(output.stderr).unwrap(), "");
    assert_eq!(output.status.code(), Some(0));
    let expected = fs::read_to_string(format!("{EXAMPLES}rescue.out")).unwrap();
    assert_eq!(String::from_utf8(output.stdout).unwrap(), expected);
    for (board, bytes) in BOARDS.into_iter().zip(damaged_boards()) {
        assert_eq!(fs::read(examples.join(board)).unwrap(), bytes);
        fs::remove_file(folder.0.join(board)).unwrap();
    }
    assert_eq!(folder.names(), ["examples"]);
}

#[test]
fn the_document_has_the_report_of_the_first_board() {
    let folder = Folder::new("document");
    let answer = rescued(&format!("{EXAMPLES}{}", BOARDS[0]), &folder.file("image"));
    let document = fs::read_to_string(format!("{EXAMPLES}../docs/IMAGE.md")).unwrap();
    let line = format!("    rescue examples/{} board.image\n", BOARDS[0]);
    let (_, shown) = document.split_once(&line).unwrap();
    let indented: String = answer.lines().map(|line| format!("    {line}\n")).collect();
    assert!(shown.starts_with(&format!("{indented}\n")), "{indented}");
}
