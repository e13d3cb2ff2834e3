//! Damaged images with what is rescued of each, worked out by hand from document 02's order 8. They are for more than one side: the tests here try them on the
//! model's entry, and the comparison tries them on the archive's too.

use crate::image::LONGEST;
use crate::module::{Name, PLACES};
use crate::port_steps::{P, Q, R};

/// An image in its parts, of which any may be wrong.
#[derive(Clone, Debug, PartialEq, Eq)]
pub struct Parts {
    /// The mask of provisioned credentials.
    pub mask: u16,
    /// The count of words.
    pub word_count: u16,
    /// The offset of words.
    pub words_at: u16,
    /// The count of rows, whatever rows there are.
    pub row_count: u16,
    /// The offset of rows, whatever words there are.
    pub rows_at: u16,
    /// The grant words.
    pub words: [u32; 8],
    /// The second words, where there are any.
    pub seconds: Option<[u32; 8]>,
    /// The rows: owner, next number and name.
    pub rows: Vec<(u16, u16, Name)>,
}

impl Parts {
    /// A good head with these words and no rows, in the layout that has these words.
    pub fn empty(mask: u16, words: [u32; 8], seconds: Option<[u32; 8]>) -> Parts {
        Parts {
            mask,
            word_count: 8,
            words_at: 10,
            row_count: 0,
            rows_at: if seconds.is_some() { 74 } else { 42 },
            words,
            seconds,
            rows: Vec::new(),
        }
    }

    /// With these rows, and their count.
    pub fn with_rows(self, rows: &[(u16, u16, Name)]) -> Parts {
        Parts {
            row_count: rows.len() as u16,
            rows: rows.to_vec(),
            ..self
        }
    }

    /// Their bytes one after another.
    pub fn bytes(&self) -> Vec<u8> {
        let head = [
            self.mask,
            self.word_count,
            self.words_at,
            self.row_count,
            self.rows_at,
        ];
        let mut bytes: Vec<u8> = head.into_iter().flat_map(u16::to_le_bytes).collect();
        for word in self
            .words
            .into_iter()
            .chain(self.seconds.into_iter().flatten())
        {
            bytes.extend(word.to_le_bytes());
        }
        for (owner, next, name) in &self.rows {
            bytes.extend(owner.to_le_bytes());
            bytes.extend(next.to_le_bytes());
            bytes.extend(name);
        }
        bytes
    }
}

/// The rows of both images.
const ROWS: [(u16, u16, Name); 2] = [(0, 3, P), (1, 300, Q)];

/// An image of the old layout: credentials 0 and 1 with words 15 and 16, P of 0 at number 3 and Q of 1 at 300.
pub fn x() -> Parts {
    Parts::empty(3, [15, 16, 0, 0, 0, 0, 0, 0], None).with_rows(&ROWS)
}

/// The same in the new layout, where the second word of 1 is 16.
pub fn y() -> Parts {
    let (words, seconds) = ([15, 16, 0, 0, 0, 0, 0, 0], [0, 16, 0, 0, 0, 0, 0, 0]);
    Parts::empty(3, words, Some(seconds)).with_rows(&ROWS)
}

/// Bytes to be rescued.
#[derive(Clone, Debug)]
pub struct Example {
    /// What they are.
    pub name: String,
    /// The bytes.
    pub bytes: Vec<u8>,
    /// The length of the buffer.
    pub room: usize,
    /// What is rescued of them; a refusal's number where nothing is.
    pub right: Result<Right, u32>,
}

/// What is written, and the report.
#[derive(Clone, Debug, PartialEq, Eq)]
pub struct Right {
    /// What stands in front of the buffer.
    pub image: Vec<u8>,
    /// How many nonzero words were cleared, of both kinds.
    pub cleared: u16,
    /// How many rows were kept.
    pub kept: u16,
    /// The places of the rows that were dropped, from 0.
    pub dropped: Vec<usize>,
}

impl Right {
    /// The report as it is handed out: cleared, kept, and the places as bits.
    pub fn report(&self) -> (u16, u16, u16) {
        let places = self.dropped.iter().map(|place| 1 << place);
        (self.cleared, self.kept, places.sum())
    }
}

/// All of them.
pub fn examples() -> Vec<Example> {
    [
        with_other_lengths(),
        with_another_count(),
        with_another_mask(),
        with_another_row(),
        with_another_head(),
        without_good_words(),
        with_equal_names(),
    ]
    .concat()
}

/// Into a buffer of any image's length.
fn example(name: &str, bytes: Vec<u8>, right: Result<Right, u32>) -> Example {
    Example {
        name: name.to_string(),
        bytes,
        room: LONGEST,
        right,
    }
}

fn rescued(image: &Parts, cleared: u16, dropped: &[usize]) -> Result<Right, u32> {
    Ok(Right {
        image: image.bytes(),
        cleared,
        kept: image.rows.len() as u16,
        dropped: dropped.to_vec(),
    })
}

/// The image without its rows, with row 0 alone and with row 1 alone.
fn none(image: Parts) -> Parts {
    image.with_rows(&[])
}

fn first(image: Parts) -> Parts {
    image.with_rows(&ROWS[..1])
}

fn last(image: Parts) -> Parts {
    image.with_rows(&ROWS[1..])
}

fn with_other_lengths() -> Vec<Example> {
    let cut = |image: Parts, length| image.bytes()[..length].to_vec();
    let longer = |more| [x().bytes(), vec![0x5a; more]].concat();
    let into = |room, example: Example| Example {
        name: format!("{}, into {room} bytes", example.name),
        room,
        ..example
    };
    let one_left = || example("X cut to 94", cut(x(), 94), rescued(&first(x()), 0, &[1]));
    vec![
        into(145, example("X", x().bytes(), Err(15))),
        into(146, example("X", x().bytes(), rescued(&x(), 0, &[]))),
        example("X cut to 145", cut(x(), 145), rescued(&first(x()), 0, &[1])),
        one_left(),
        into(94, one_left()),
        into(93, example("X cut to 94", cut(x(), 94), Err(15))),
        into(93, example("X cut to 145", cut(x(), 145), Err(15))),
        example("X cut to 93", cut(x(), 93), rescued(&none(x()), 0, &[0, 1])),
        example("X cut to 42", cut(x(), 42), rescued(&none(x()), 0, &[0, 1])),
        example("X cut to 41", cut(x(), 41), Err(14)),
        example("X cut to 10", cut(x(), 10), Err(14)),
        example("X cut to 9", cut(x(), 9), Err(14)),
        example("no bytes", Vec::new(), Err(14)),
        into(0, example("X cut to 41", cut(x(), 41), Err(14))),
        example("Y cut to 177", cut(y(), 177), rescued(&first(y()), 0, &[1])),
        example(
            "Y cut to 125",
            cut(y(), 125),
            rescued(&none(y()), 0, &[0, 1]),
        ),
        example("Y cut to 74", cut(y(), 74), rescued(&none(y()), 0, &[0, 1])),
        example("Y cut to 73", cut(y(), 73), Err(14)),
        example("X and one byte more", longer(1), rescued(&x(), 0, &[])),
        example("X and 52 bytes more", longer(52), rescued(&x(), 0, &[])),
    ]
}

fn with_another_count() -> Vec<Example> {
    let counted = |row_count, right| {
        let bytes = Parts { row_count, ..x() }.bytes();
        example(&format!("X with count {row_count}"), bytes, right)
    };
    let missing: Vec<usize> = (2..PLACES).collect();
    vec![
        counted(0, rescued(&none(x()), 0, &[])),
        counted(1, rescued(&first(x()), 0, &[])),
        counted(3, rescued(&x(), 0, &[2])),
        counted(12, rescued(&x(), 0, &missing)),
        counted(13, Err(14)),
    ]
}

/// Credentials that were provisioned are not, or one more is: a mask, with what it leaves of the words.
fn with_another_mask() -> Vec<Example> {
    let masked = |image: Parts, mask| Parts { mask, ..image };
    let worded = |image: Parts, words: [u32; 2], seconds: [u32; 2]| Parts {
        words: of_two(words),
        seconds: image.seconds.map(|_| of_two(seconds)),
        ..image
    };
    let of_0 = |image| first(worded(masked(image, 1), [15, 0], [0, 0]));
    let of_1 = |image| last(worded(masked(image, 2), [0, 16], [0, 16]));
    let of_none = |image| none(worded(masked(image, 0), [0, 0], [0, 0]));
    let tried = |name: &str, image: Parts, mask, right| {
        let name = format!("{name} with mask {mask:#x}");
        example(&name, masked(image, mask).bytes(), right)
    };
    vec![
        tried("X", x(), 1, rescued(&of_0(x()), 1, &[1])),
        tried("X", x(), 2, rescued(&of_1(x()), 1, &[0])),
        tried("X", x(), 0, rescued(&of_none(x()), 2, &[0, 1])),
        tried("Y", y(), 1, rescued(&of_0(y()), 2, &[1])),
        tried("Y", y(), 2, rescued(&of_1(y()), 1, &[0])),
        tried("Y", y(), 0, rescued(&of_none(y()), 3, &[0, 1])),
        tried("X", x(), 0x83, rescued(&masked(x(), 0x83), 0, &[])),
        tried("X", x(), 0x103, Err(14)),
    ]
}

/// Words of credentials 0 and 1.
fn of_two([zero, one]: [u32; 2]) -> [u32; 8] {
    [zero, one, 0, 0, 0, 0, 0, 0]
}

fn with_another_row() -> Vec<Example> {
    let rows = |first, last| x().with_rows(&[first, last]);
    let [p, q] = ROWS;
    let at_0 = (0, 0, P);
    let named_p = (1, 300, P);
    vec![
        example(
            "X, row 0 at number 0",
            rows(at_0, q).bytes(),
            rescued(&last(x()), 0, &[0]),
        ),
        example(
            "X, row 1 named P",
            rows(p, named_p).bytes(),
            rescued(&first(x()), 0, &[1]),
        ),
        same("X, row 1 named R", &rows(p, (1, 300, R))),
        example(
            "X, row 0 at number 0 and row 1 named P",
            rows(at_0, named_p).bytes(),
            rescued(&x().with_rows(&[named_p]), 0, &[0]),
        ),
        example(
            "X, row 0 of owner 8",
            rows((8, 3, P), q).bytes(),
            rescued(&last(x()), 0, &[0]),
        ),
        example(
            "X, row 0 of owner 256",
            rows((256, 3, P), q).bytes(),
            rescued(&last(x()), 0, &[0]),
        ),
        same("X, row 1 at 65,535", &rows(p, (1, 65_535, Q))),
    ]
}

/// A good image, of which everything is left.
fn same(name: &str, image: &Parts) -> Example {
    example(name, image.bytes(), rescued(image, 0, &[]))
}

fn with_another_head() -> Vec<Example> {
    let bad = |name, image: Parts| example(name, image.bytes(), Err(14));
    // row 0's first 32 bytes are the second words then: its number is a part of that of 0, which stays, and the name's bytes that are not zero begin at that of 5
    let second_of_0 = [0x30000, 0, 0, 0, 0, 0, 0, 0];
    let read_as_new = Parts::empty(3, x().words, Some(second_of_0));
    vec![
        bad(
            "X with count of words 7",
            Parts {
                word_count: 7,
                ..x()
            },
        ),
        bad(
            "X with offset of words 11",
            Parts {
                words_at: 11,
                ..x()
            },
        ),
        bad("X with offset of rows 43", Parts { rows_at: 43, ..x() }),
        example(
            "X with offset of rows 74",
            Parts { rows_at: 74, ..x() }.bytes(),
            rescued(&read_as_new, 3, &[0, 1]),
        ),
    ]
}

fn without_good_words() -> Vec<Example> {
    let words = [15, 16, 5, 0, 0, 0, 0, 0];
    let (ones, zeros) = ([1; 8], [0; 8]);
    vec![
        example(
            "X, word of 2 set to 5",
            Parts { words, ..x() }.bytes(),
            rescued(&x(), 1, &[]),
        ),
        example(
            "mask 0, all words 1, no rows: old",
            Parts::empty(0, ones, None).bytes(),
            rescued(&Parts::empty(0, zeros, None), 8, &[]),
        ),
        example(
            "mask 0, all words 1, no rows: new",
            Parts::empty(0, ones, Some(ones)).bytes(),
            rescued(&Parts::empty(0, zeros, Some(zeros)), 16, &[]),
        ),
    ]
}

fn with_equal_names() -> Vec<Example> {
    let rows: Vec<(u16, u16, Name)> = [P, Q, R]
        .into_iter()
        .cycle()
        .zip(1..=12)
        .map(|(name, next)| (0, next, name))
        .collect();
    let head = || Parts::empty(1, [15, 0, 0, 0, 0, 0, 0, 0], None);
    let dropped: Vec<usize> = (3..PLACES).collect();
    vec![example(
        "mask 1, twelve rows of 0 with three names in turn",
        head().with_rows(&rows).bytes(),
        rescued(&head().with_rows(&rows[..3]), 0, &dropped),
    )]
}
