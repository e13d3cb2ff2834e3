//! The computed table of docs/IMAGE.md that has rescued examples.

use crate::draw;
use slavotuk::layout::image::*;
use slavotuk::{entries, rescue, Module};

/// What has happened to an image.
enum Damage {
    /// Only so many bytes of it are left.
    Cut(usize),
    /// It has so many bytes more.
    Longer(usize),
    /// Other bytes stand at this offset.
    Put(usize, &'static [u8]),
}

use Damage::{Cut, Longer, Put};

/// Which image it was: the example's in the old layout, or as it is.
#[derive(Clone, Copy)]
enum Of {
    X,
    Y,
}

use Of::{X, Y};

/// What is said of the bytes, what they are, and the buffer's length.
type Example = (&'static str, Of, &'static [Damage], usize);

const ROOM: usize = FULL_LENGTH;
const NUMBER_0: Damage = Put(old_row_at(0) + NEXT, &[0, 0]);
const NAMED_P: Damage = Put(old_row_at(1) + NAME + 16, &[0x11; 32]);

const EXAMPLES: [Example; 36] = [
    ("X into 146 bytes", X, &[], 146),
    ("X into 145 bytes", X, &[], 145),
    ("X cut to 145 bytes", X, &[Cut(145)], ROOM),
    ("X cut to 94 bytes into 94", X, &[Cut(94)], 94),
    ("X cut to 94 bytes into 93", X, &[Cut(94)], 93),
    ("X cut to 93 bytes", X, &[Cut(93)], ROOM),
    ("X cut to 42 bytes", X, &[Cut(42)], ROOM),
    ("X cut to 41 bytes", X, &[Cut(41)], ROOM),
    ("X cut to 41 bytes into none", X, &[Cut(41)], 0),
    ("Y cut to 177 bytes", Y, &[Cut(177)], ROOM),
    ("Y cut to 74 bytes", Y, &[Cut(74)], ROOM),
    ("Y cut to 73 bytes", Y, &[Cut(73)], ROOM),
    ("X and 52 bytes more", X, &[Longer(52)], ROOM),
    (
        "X with count of rows 0",
        X,
        &[Put(ROW_COUNT_AT, &[0])],
        ROOM,
    ),
    (
        "X with count of rows 1",
        X,
        &[Put(ROW_COUNT_AT, &[1])],
        ROOM,
    ),
    (
        "X with count of rows 3",
        X,
        &[Put(ROW_COUNT_AT, &[3])],
        ROOM,
    ),
    (
        "X with count of rows 12",
        X,
        &[Put(ROW_COUNT_AT, &[12])],
        ROOM,
    ),
    (
        "X with count of rows 13",
        X,
        &[Put(ROW_COUNT_AT, &[13])],
        ROOM,
    ),
    ("X with mask 1", X, &[Put(MASK_AT, &[1])], ROOM),
    ("Y with mask 1", Y, &[Put(MASK_AT, &[1])], ROOM),
    ("Y with mask 2", Y, &[Put(MASK_AT, &[2])], ROOM),
    ("Y with mask 0", Y, &[Put(MASK_AT, &[0])], ROOM),
    ("X with mask 0x83", X, &[Put(MASK_AT, &[0x83])], ROOM),
    ("X with mask 0x103", X, &[Put(MASK_AT + 1, &[1])], ROOM),
    ("X, row 0 at number 0", X, &[NUMBER_0], ROOM),
    ("X, row 1 named P", X, &[NAMED_P], ROOM),
    (
        "X, row 0 at number 0 and row 1 named P",
        X,
        &[NUMBER_0, NAMED_P],
        ROOM,
    ),
    (
        "X, row 0 of credential 8",
        X,
        &[Put(old_row_at(0) + OWNER, &[8])],
        ROOM,
    ),
    (
        "X, row 0 of credential 256",
        X,
        &[Put(old_row_at(0) + OWNER + 1, &[1])],
        ROOM,
    ),
    (
        "X, row 1 at number 65,535",
        X,
        &[Put(old_row_at(1) + NEXT, &[0xff, 0xff])],
        ROOM,
    ),
    (
        "X with word 5 of credential 2",
        X,
        &[Put(word_at(2), &[5])],
        ROOM,
    ),
    (
        "X with count of words 7",
        X,
        &[Put(WORD_COUNT_AT, &[7])],
        ROOM,
    ),
    (
        "X with offset of rows 43",
        X,
        &[Put(ROWS_OFFSET_AT, &[43])],
        ROOM,
    ),
    (
        "X with offset of rows 74",
        X,
        &[Put(ROWS_OFFSET_AT, &[74])],
        ROOM,
    ),
    (
        "Y with offset of rows 42",
        Y,
        &[Put(ROWS_OFFSET_AT, &[42])],
        ROOM,
    ),
    (
        "Y with mask 0, no rows and every byte of the words 1",
        Y,
        &[
            Put(MASK_AT, &[0]),
            Put(ROW_COUNT_AT, &[0]),
            Put(WORDS_AT, &[1; 64]),
        ],
        ROOM,
    ),
];

fn damaged(image: &[u8], damages: &[Damage]) -> Vec<u8> {
    let mut bytes = image.to_vec();
    for damage in damages {
        match *damage {
            Cut(length) => bytes.truncate(length),
            Longer(more) => bytes.resize(bytes.len() + more, 0xff),
            Put(at, new) => bytes[at..at + new.len()].copy_from_slice(new),
        }
    }
    bytes
}

/// A line of the table: what the entry hands out where it answers 0, and its number where not.
fn line(says: &str, bytes: &[u8], room: usize) -> String {
    let (mut image, mut length) = (vec![0; room], 0);
    let (mut cleared, mut kept, mut dropped) = (0, 0, 0);
    let number = entries::rescue(
        bytes,
        &mut image,
        &mut length,
        &mut cleared,
        &mut kept,
        &mut dropped,
    );
    if number != 0 {
        return format!("| {says} | {number} | | | | |\n");
    }
    is_good(&image[..length]);
    let places = (0..16).filter(|place| dropped >> place & 1 == 1);
    let dropped = match draw::ranges(places) {
        none if none.is_empty() => "none".into(),
        places => places,
    };
    format!("| {says} | {number} | {length} | {cleared} | {kept} | {dropped} |\n")
}

/// What was rescued is restored, and rescued again it is the same, with nothing to report.
fn is_good(image: &[u8]) {
    assert!(Module::restore(image).is_ok());
    let again = rescue(image).unwrap();
    assert_eq!(*again.image, *image);
    assert_eq!((again.cleared_words, again.dropped_places().len()), (0, 0));
}

/// The table, of the example's image in both layouts.
pub fn table(old: &[u8], new: &[u8]) -> String {
    let mut text = String::from(
        "| Bytes | Number | Length | Cleared | Kept | Dropped |\n|---|---|---|---|---|---|\n",
    );
    for (says, of, damages, room) in EXAMPLES {
        let image = match of {
            X => old,
            Y => new,
        };
        text.push_str(&line(says, &damaged(image, damages), room));
    }
    text
}
