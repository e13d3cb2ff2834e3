//! Images written to files, and modules restored from them.

mod common;

use common::*;
use slavotuk::layout::image::*;
use std::fs::{self, File};

/// Document 01's first eleven steps in short: P is saved at number 3, and R active. Credential 1 has class 4 only under elevation.
const SETUP: &str = "open 0\nselect 0 0x10\nstart 0 0 P\nset-word 0 user 0 0 yes 1 16 16\nlist 0 user 0 1 yes 0\nend 0 0 2 yes keep\nstart 0 1 R\n";

/// The bytes of an image with one row, and with none.
const ONE_ROW: usize = row_at(1);
const NO_ROW: usize = row_at(0);

/// What follows the first line that begins so.
fn from<'a>(out: &'a str, start: &str) -> &'a str {
    &out[out.find(start).unwrap_or_else(|| panic!("{out}"))..]
}

/// The image of the module behind `SETUP`, field by field.
fn image() -> Vec<u8> {
    let mut image = vec![3, 0, 8, 0, WORDS_AT as u8, 0, 1, 0, ROWS_AT as u8, 0];
    image.resize(ROWS_AT, 0);
    image[word_at(0)] = 15;
    image[word_at(1)] = 16;
    image[second_at(1)] = 16;
    image.extend([0, 0, 3, 0]);
    image.extend([0; 16]);
    image.extend([0x11; 32]);
    image
}

#[test]
fn the_saved_process_is_restored_and_the_active_one_lost() {
    let folder = Folder::new("cycle");
    let file = folder.file("image");
    let out = good(format!("{SETUP}image {file}\n"));
    let told = format!("0 done\n0 done\nwritten {ONE_ROW} bytes\n");
    assert!(out.ends_with(&told), "{out}");
    assert_eq!(fs::read(&file).unwrap(), image());
    assert_eq!(folder.names(), ["image"]);

    let restored = format!(
        "0 done\nrestored from {ONE_ROW} bytes\na new history begins\nsince restore {file}\n"
    );
    let drawn = "\
sessions of port 0
  0.0  closed
  0.1  closed
  0.2  closed
  0.3  closed
sessions of port 1
  1.0  closed
  1.1  closed
  1.2  closed
  1.3  closed
credentials
  0  word 0x0000000f  0 list others, 1 kill others, 2 save own, 3 set words
  1  word 0x00000010/0x00000010  only elevated: device 4
  2 to 7  not provisioned
processes, 1 of 12
  place  credential  type              session  next number  name
      0           0  saved user              -            3  00*16+11*32  P
";
    let again = folder.file("again");
    let script = format!(
        "fresh none\nopen 3\nopen 1.3\nrestore {file}\nhistory\nshow names\nimage {again}\n"
    );
    let told = format!("{restored}{drawn}0 done\nwritten {ONE_ROW} bytes\n");
    assert_eq!(from(&good(script), "0 done\nrestored"), told);
    assert_eq!(fs::read(&again).unwrap(), image());
}

#[test]
fn a_process_goes_on_with_its_number() {
    let folder = Folder::new("goes-on");
    let file = folder.file("image");
    good(format!("{SETUP}image {file}\n"));
    let script = format!(
        "restore {file}\ncontinue 1 0 P\nopen 1\nselect 1 0x10\nlist 1 user 0 3 yes 0\ncontinue 1 1 R\ncontinue 1 0 P\n\
         end 1 0 0 yes remove\nend 1 0 2 yes remove\nend 1 0 4 yes remove\nend 1 0 3 yes keep\nimage {file}\nrestore {file}\nshow names\n"
    );
    let answers = format!(
        "\
2 session
0 done
0 done
6 no process
6 no process
0 done
9 out of turn
9 out of turn
9 out of turn
0 done
0 done
written {ONE_ROW} bytes
0 done
restored from {ONE_ROW} bytes
a new history begins
"
    );
    let out = good(script);
    let told = from(&out, "2 session");
    assert_eq!(told[..answers.len()], answers);
    assert!(told.ends_with("saved user              -            4  00*16+11*32  P\n"));
}

/// What was saved on port 0 is continued on port 1 after a power cycle, with its number; the image of it is the same.
#[test]
fn a_process_goes_on_on_the_other_port() {
    let folder = Folder::new("other-port");
    let (file, again) = (folder.file("image"), folder.file("again"));
    good(format!("{SETUP}image {file}\n"));
    let script = format!(
        "restore {file}\nopen 1.0\nselect 1.0 0x10\nopen 0\nselect 0 0x10\ncontinue 1.0 0 P\nlist 0 user 0 3 yes 0\n\
         end 1.0 0 2 yes keep\nend 1.0 0 3 yes keep\nimage {again}\n"
    );
    let answers = "\
0 done
0 done
0 done
0 done
0 done
6 no process
9 out of turn
0 done
";
    let written = format!("0 done\nwritten {ONE_ROW} bytes\n");
    let out = good(script);
    assert_eq!(from(&out, "0 done\n0 done"), format!("{answers}{written}"));
    let mut image = image();
    image[row_at(0) + NEXT] += 1;
    assert_eq!(fs::read(&again).unwrap(), image);
}

/// The last image has no row of it, and another process may have its name.
#[test]
fn a_continued_process_is_lost() {
    let folder = Folder::new("lost");
    let file = folder.file("image");
    let script = format!(
        "{SETUP}image {file}\ncontinue 0 0 P\nimage {file}\nrestore {file}\nopen 0\nselect 0 0x10\ncontinue 0 0 P\nstart 0 1 P\nshow\n"
    );
    let told = format!(
        "\
0 done
written {NO_ROW} bytes
0 done
restored from {NO_ROW} bytes
a new history begins
0 done
0 done
6 no process
0 done
"
    );
    assert!(good(script).contains(&told));
    assert_eq!(fs::read(&file).unwrap().len(), NO_ROW);
}

/// What goes wrong where the newest image is not the one that is returned.
#[test]
fn an_older_image_makes_old_numbers_good_again() {
    let folder = Folder::new("older");
    let file = folder.file("image");
    let claimed = "open 0\nselect 0 0x10\ncontinue 0 0 P\nlist 0 user 0 3 yes 1\n";
    let out = good(format!(
        "{SETUP}image {file}\nrestore {file}\n{claimed}list 0 user 0 3 yes 1\nrestore {file}\n{claimed}"
    ));
    let answers: Vec<&str> = out
        .lines()
        .filter(|line| line.contains("AUTH_PROC") || line.contains("out of turn"))
        .collect();
    assert_eq!(
        answers[1..],
        [
            "AUTH_PROCESSES, 0 rows",
            "9 out of turn",
            "AUTH_PROCESSES, 0 rows"
        ]
    );
}

#[test]
fn a_spent_process_stays_spent() {
    let folder = Folder::new("spent");
    let file = folder.file("image");
    let out = good(format!(
        "fresh 0=0x14\nopen 0\nselect 0 0x10\nstart 0 0 P\nrecords 0 0 0 65533 4\nend 0 0 65534 yes keep\nimage {file}\nrestore {file}\n\
         open 0\nselect 0 0x10\ncontinue 0 0 P\nrecord 0 user 0 65535 yes 4\nrecord 0 user 0 0 yes 4\nend 0 0 65535 yes keep\n"
    ));
    assert_eq!(
        fs::read(&file).unwrap()[row_at(0)..][..NAME],
        [0, 0, 0xff, 0xff]
    );
    let told = format!("restored from {ONE_ROW} bytes\na new history begins\n0 done\n0 done\n0 done\n13 spent\n13 spent\n13 spent\n");
    assert!(out.ends_with(&told), "{out}");
}

#[test]
fn twelve_saved_processes_make_the_longest_image() {
    let folder = Folder::new("twelve");
    let file = folder.file("image");
    let mut script = String::from("open 0\nselect 0 0x10\n");
    for at in 0..12 {
        script.push_str(&format!("start 0 0 {at:02x}*48\nend 0 0 0 yes keep\n"));
    }
    let out = good(format!("{script}image {file}\nrestore {file}\nshow\n"));
    let told = format!("written {FULL_LENGTH} bytes\n0 done\nrestored from {FULL_LENGTH} bytes\n");
    assert!(out.contains(&told));
    assert!(out.contains("processes, 12 of 12"));
    let rows = fs::read(&file).unwrap()[ROWS_AT..].to_vec();
    let owners_and_numbers = rows.chunks(ROW_LENGTH).map(|row| row[..=NAME].to_vec());
    let wanted: Vec<Vec<u8>> = (0..12).map(|at| vec![0, 0, 1, 0, at]).collect();
    assert_eq!(owners_and_numbers.collect::<Vec<_>>(), wanted);
}

/// Run in an empty folder, since it writes a file there.
#[test]
fn the_example_goes_through_two_power_cycles() {
    let examples = concat!(env!("CARGO_MANIFEST_DIR"), "/../examples/");
    let folder = Folder::new("example");
    let script = File::open(format!("{examples}power-cycle.txt")).unwrap();
    let output = console()
        .current_dir(&folder.0)
        .stdin(script)
        .output()
        .unwrap();
    assert_eq!(String::from_utf8(output.stderr).unwrap(), "");
    assert_eq!(output.status.code(), Some(0));
    let expected = fs::read_to_string(format!("{examples}power-cycle.out")).unwrap();
    assert_eq!(String::from_utf8(output.stdout).unwrap(), expected);
    assert_eq!(folder.names(), ["board.image"]);
}

/// An image that version 2 has written: words 15 and 20, P saved at number 3 and Q at 300.
const OLD_IMAGE: &str = concat!(env!("CARGO_MANIFEST_DIR"), "/../examples/old-board.image");

#[test]
fn an_image_in_the_old_layout_is_restored_and_written_in_the_new() {
    let folder = Folder::new("old-layout");
    let (file, copy) = (folder.file("image"), folder.file("copy"));
    let old = fs::read(OLD_IMAGE).unwrap();
    assert_eq!(old.len(), old_row_at(2));
    fs::write(&copy, &old).unwrap();
    let out = good(format!("restore {copy}\nshow names\nimage {file}\n"));
    let told = format!("0 done\nrestored from {} bytes\n", old_row_at(2));
    assert!(out.starts_with(&told), "{out}");
    let drawn = "\
credentials
  0  word 0x0000000f  0 list others, 1 kill others, 2 save own, 3 set words
  1  word 0x00000014  2 save own, device 4
  2 to 7  not provisioned
processes, 2 of 12
  place  credential  type              session  next number  name
      0           0  saved user              -            3  00*16+11*32  P
      1           1  saved user              -          300  00*16+22*32  Q
";
    let written = format!("0 done\nwritten {} bytes\n", row_at(2));
    assert_eq!(from(&out, "credentials"), format!("{drawn}{written}"));

    let zeros = [0; ROWS_AT - SECONDS_AT];
    let mut new = [&old[..SECONDS_AT], &zeros, &old[OLD_ROWS_AT..]].concat();
    new[ROWS_OFFSET_AT] = ROWS_AT as u8;
    assert_eq!(fs::read(&file).unwrap(), new);
    assert_eq!(fs::read(&copy).unwrap(), old);
}

/// Each layout has its lengths: the offset of the other one makes no image of it.
#[test]
fn an_old_image_with_a_changed_byte_is_refused() {
    let folder = Folder::new("old-damaged");
    let file = folder.file("image");
    let changes = [
        (ROWS_OFFSET_AT, ROWS_AT as u8),
        (ROWS_OFFSET_AT, OLD_ROWS_AT as u8 - 1),
        (ROW_COUNT_AT, 1),
        (word_at(2), 1),
        (old_row_at(0) + OWNER, 2),
        (old_row_at(0) + NEXT, 0),
    ];
    not_restored_with_any(&file, &fs::read(OLD_IMAGE).unwrap(), &changes);
}

/// With each change of a byte the file is no image, and stays as it is.
fn not_restored_with_any(file: &str, image: &[u8], changes: &[(usize, u8)]) {
    for &(at, byte) in changes {
        let mut damaged = image.to_vec();
        assert_ne!(damaged[at], byte);
        damaged[at] = byte;
        fs::write(file, &damaged).unwrap();
        not_restored(file, &no_image(image.len()));
        assert_eq!(fs::read(file).unwrap(), damaged);
    }
}

/// What is said of a file of so many bytes that are no image.
fn no_image(length: usize) -> String {
    format!("the file's {length} bytes are no image")
}

/// What is said of one that has more than an image can have.
fn longer() -> String {
    format!("the file has more than the {FULL_LENGTH} bytes of the longest image")
}

/// Restores from a file that is no image: 14, and that the module and the calls so far are as they were.
#[track_caller]
fn not_restored(file: &str, why: &str) {
    let refused = format!("14 message\n{why}\n");
    let shown = good(format!("{SETUP}show\nhistory\n"));
    let out = good(format!("{SETUP}restore {file}\nshow\nhistory\n"));
    let history = format!("     8  restore {file}: 14 message\n");
    let (before, after) = shown.split_at(shown.find("sessions").unwrap());
    assert_eq!(out, format!("{before}{refused}{after}{history}"));
}

#[test]
fn a_file_that_is_no_image_is_refused() {
    let folder = Folder::new("refused");
    let file = folder.file("image");
    let changes = [
        (MASK_AT, 0),
        (MASK_AT, 2),
        (MASK_AT + 1, 1),
        (WORD_COUNT_AT, 7),
        (WORDS_OFFSET_AT, 11),
        (ROW_COUNT_AT, 0),
        (ROW_COUNT_AT, 2),
        (ROWS_OFFSET_AT, ROWS_AT as u8 - 1),
        (ROWS_OFFSET_AT, OLD_ROWS_AT as u8),
        (word_at(2), 1),
        (second_at(2), 1),
        (row_at(0) + OWNER, 2),
        (row_at(0) + OWNER + 1, 1),
        (row_at(0) + NEXT, 0),
    ];
    not_restored_with_any(&file, &image(), &changes);
    let mut twice = image();
    twice.extend_from_within(ROWS_AT..);
    twice[ROW_COUNT_AT] = 2;
    fs::write(&file, &twice).unwrap();
    not_restored(&file, &no_image(row_at(2)));
    *twice.last_mut().unwrap() = 0x12;
    fs::write(&file, &twice).unwrap();
    let told = format!("0 done\nrestored from {} bytes\n", row_at(2));
    assert!(good(format!("restore {file}\n")).starts_with(&told));
}

#[test]
fn a_file_of_another_length_is_refused() {
    let folder = Folder::new("length");
    let file = folder.file("image");
    let whole = image();
    for length in [
        0,
        1,
        old_row_at(0),
        old_row_at(1),
        NO_ROW - 1,
        NO_ROW,
        ONE_ROW - 1,
        ONE_ROW + 1,
        row_at(2),
        FULL_LENGTH,
    ] {
        let mut bytes = whole.clone();
        bytes.resize(length, 0);
        fs::write(&file, &bytes).unwrap();
        not_restored(&file, &no_image(length));
    }
    fs::write(&file, [0; FULL_LENGTH + 1]).unwrap();
    not_restored(&file, &longer());
    // more than is ever read: the blocks of this file are not there
    File::create(&file).unwrap().set_len(1 << 40).unwrap();
    not_restored(&file, &longer());
}

#[cfg(unix)]
#[test]
fn devices_are_read_as_files() {
    not_restored("/dev/null", &no_image(0));
    not_restored("/dev/zero", &longer());
}

#[test]
fn unreadable_files_change_nothing() {
    let folder = Folder::new("not-read");
    let shown = good(format!("{SETUP}show\nhistory\n"));
    for (file, why) in [
        (folder.file("missing"), "No such file"),
        (folder.file("missing/image"), "No such file"),
        (folder.file(&"n".repeat(256)), "File name too long"),
        (folder.file(""), "Is a directory"),
    ] {
        let run = run(format!("{SETUP}restore {file}\nshow\nhistory\n"));
        let message = format!("line 8: {file} is not read: {why}");
        assert!(run.err.starts_with(&message), "{}", run.err);
        assert_eq!(run.err.lines().count(), 1);
        assert_eq!((run.out, run.code), (shown.clone(), Some(1)));
    }
}

#[test]
fn an_old_image_is_replaced_whole() {
    let folder = Folder::new("replaced");
    let file = folder.file("an image");
    fs::write(&file, vec![9; 10_000]).unwrap();
    let out = good(format!(
        "image \"{file}\"\n{SETUP}image \"{file}\"\nhistory\n"
    ));
    assert!(out.starts_with(&format!("0 done\nwritten {NO_ROW} bytes\n")));
    assert!(out.ends_with(&format!("     9  image \"{file}\": 0 done\n")));
    assert_eq!(fs::read(&file).unwrap(), image());
    assert_eq!(folder.names(), ["an image"]);
}
