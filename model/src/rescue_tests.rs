//! The rescue: the examples, what a refusal leaves, and the laws of document 02's order 8 on damaged images.

use crate::entries;
use crate::image::{self, LONGEST, ROW_LENGTH};
use crate::module::{Name, NAME_LENGTH, PLACES};
use crate::rescue::{rescue, Dropped, Reason, Rescued};
use crate::rescue_examples::{examples, x, y, Parts};
use crate::Number;

/// What an entry leaves: the number, the buffer, the length and the report.
type Left = (u32, Vec<u8>, usize, (u16, u16, u16));

/// The report as it stands before the entry.
const BEFORE: (u16, u16, u16) = (0x1111, 0x2222, 0x3333);

fn entered(bytes: &[u8], room: usize) -> Left {
    let (mut image, mut length) = (vec![0xee; room], 9);
    let (mut cleared, mut kept, mut dropped) = BEFORE;
    let number = entries::rescue(
        bytes,
        &mut image,
        &mut length,
        &mut cleared,
        &mut kept,
        &mut dropped,
    );
    (number, image, length, (cleared, kept, dropped))
}

fn refused(number: u32, room: usize) -> Left {
    (number, vec![0xee; room], 0, BEFORE)
}

#[test]
fn the_examples() {
    for example in examples() {
        let room = example.room;
        let right = match &example.right {
            Err(number) => refused(*number, room),
            Ok(right) => {
                let mut image = right.image.clone();
                image.resize(room, 0xee);
                (0, image, right.image.len(), right.report())
            }
        };
        assert_eq!(entered(&example.bytes, room), right, "{}", example.name);
    }
}

#[test]
fn two_images_that_the_examples_damage() {
    for (image, length) in [(x(), 146), (y(), 178)] {
        assert_eq!(image.bytes().len(), length);
        assert!(image::read(&image.bytes()).is_ok());
    }
}

#[test]
fn every_room_of_an_image_that_gets_shorter() {
    let damaged = Parts { mask: 1, ..y() }.bytes();
    let written = rescue(&damaged).expect("it is usable").image;
    assert_eq!(written.len(), 126);
    for room in 0..126 {
        assert_eq!(entered(&damaged, room), refused(15, room));
        assert_eq!(entered(&damaged[..73], room), refused(14, room));
    }
    for room in 126..=LONGEST {
        let mut image = written.clone();
        image.resize(room, 0xee);
        assert_eq!(entered(&damaged, room), (0, image, 126, (2, 1, 2)));
    }
}

#[test]
fn the_first_thing_that_is_wrong_is_told() {
    let name = |byte| [byte; NAME_LENGTH];
    let rows = [
        (1, 1, name(1)),
        (2, 0, name(1)),
        (1, 0, name(1)),
        (0, 9, name(1)),
        (0, 9, name(2)),
        (0x101, 9, name(3)),
    ];
    let mut image = y().with_rows(&rows);
    image.row_count = 8;
    let mut bytes = image.bytes();
    bytes.extend([0; ROW_LENGTH - 1]);
    let Rescued { kept, dropped, .. } = rescue(&bytes).expect("it is usable");
    let dropped: Vec<_> = dropped.iter().map(|row| (row.place, row.reason)).collect();
    let right = [
        (1, Reason::Owner),
        (2, Reason::Number),
        (3, Reason::Name),
        (5, Reason::Owner),
        (6, Reason::Missing),
        (7, Reason::Missing),
    ];
    assert_eq!((kept, dropped), (2, right.to_vec()));
}

#[test]
fn every_number_of_the_head() {
    for image in [x(), y()] {
        for value in 0..=u16::MAX {
            let tried = [
                (
                    Parts {
                        mask: value,
                        ..image.clone()
                    },
                    value < 256,
                ),
                (
                    Parts {
                        word_count: value,
                        ..image.clone()
                    },
                    value == 8,
                ),
                (
                    Parts {
                        words_at: value,
                        ..image.clone()
                    },
                    value == 10,
                ),
                (
                    Parts {
                        row_count: value,
                        ..image.clone()
                    },
                    value <= 12,
                ),
                (
                    Parts {
                        rows_at: value,
                        ..image.clone()
                    },
                    value == 42 || value == 74,
                ),
            ];
            for (tried, usable) in tried {
                let answered = rescue(&tried.bytes()).map(|_| ());
                let right = if usable { Ok(()) } else { Err(Number::Message) };
                assert_eq!(answered, right, "{tried:?}");
            }
        }
    }
}

/// What is counted over the damaged images, so that each law is known to have met what it speaks of.
#[derive(Default)]
struct Met {
    refused: u32,
    rescued: u32,
    accepted: u32,
    cleared: u32,
    cleared_seconds: u32,
    /// Missing, owner, number, name.
    dropped: [u32; 4],
    /// Kept, though a row that was dropped before has its name.
    freed: u32,
}

#[test]
fn the_laws_on_damaged_images() {
    let mut drawn = Drawn(8);
    let mut met = Met::default();
    for _ in 0..100_000 {
        let parts = drawn.parts();
        let mut bytes = parts.bytes();
        if drawn.below(3) == 0 {
            bytes.truncate(drawn.below(bytes.len() + 1));
        }
        if drawn.below(3) == 0 {
            bytes.resize(bytes.len() + drawn.below(2 * ROW_LENGTH), 0x5a);
        }
        holds(&parts, &bytes, &mut met);
    }
    let counts = [
        met.refused,
        met.rescued,
        met.accepted,
        met.cleared,
        met.cleared_seconds,
        met.freed,
    ];
    assert!(
        counts
            .iter()
            .chain(&met.dropped)
            .all(|count| *count > 1_000),
        "{counts:?} {:?}",
        met.dropped
    );
}

/// The laws of one input.
fn holds(parts: &Parts, bytes: &[u8], met: &mut Met) {
    let accepted = image::read(bytes).is_ok();
    let Ok(rescued) = rescue(bytes) else {
        met.refused += 1;
        return assert!(!accepted, "an image that is accepted can be rescued");
    };
    met.rescued += 1;
    assert!(image::read(&rescued.image).is_ok(), "{parts:?}");
    assert_eq!(rescued.image[8..10], bytes[8..10], "the layout stays");
    assert_eq!(
        rescued.kept + rescued.dropped.len(),
        usize::from(parts.row_count)
    );
    let unchanged = Rescued {
        image: rescued.image.clone(),
        cleared: 0,
        cleared_seconds: 0,
        kept: rescued.kept,
        dropped: Vec::new(),
    };
    assert_eq!(
        rescue(&rescued.image),
        Ok(unchanged.clone()),
        "twice is once"
    );
    assert_eq!(accepted, rescued.image == bytes, "{parts:?}");
    if accepted {
        met.accepted += 1;
        assert_eq!(rescued, unchanged);
    }
    met.cleared += u32::from(rescued.cleared > 0);
    met.cleared_seconds += u32::from(rescued.cleared_seconds > 0);
    for Dropped { reason, .. } in &rescued.dropped {
        met.dropped[*reason as usize] += 1;
    }
    met.freed += u32::from(keeps_a_freed_name(parts, &rescued));
}

fn keeps_a_freed_name(parts: &Parts, rescued: &Rescued) -> bool {
    let is_dropped = |place: &usize| rescued.dropped.iter().any(|row| row.place == *place);
    let in_both = usize::from(parts.row_count).min(parts.rows.len());
    let (dropped, kept): (Vec<usize>, Vec<usize>) = (0..in_both).partition(is_dropped);
    let name = |place: usize| parts.rows[place].2;
    let follows = |later: &usize| {
        dropped
            .iter()
            .any(|place| place < later && name(*place) == name(*later))
    };
    kept.iter().any(follows)
}

/// A source of numbers that look random and are the same for the same seed.
struct Drawn(u64);

impl Drawn {
    fn below(&mut self, bound: usize) -> usize {
        self.0 = self
            .0
            .wrapping_mul(6_364_136_223_846_793_005)
            .wrapping_add(1_442_695_040_888_963_407);
        (self.0 >> 33) as usize % bound
    }

    fn pick<T: Copy>(&mut self, values: &[T]) -> T {
        values[self.below(values.len())]
    }

    /// Mostly the usual value, and now and then another.
    fn mostly(&mut self, usual: u16, others: &[u16]) -> u16 {
        match self.below(30) {
            0 => self.pick(others),
            _ => usual,
        }
    }

    /// Words of which few are wrong.
    fn words(&mut self, mask: u16) -> [u32; 8] {
        [0, 1, 2, 3, 4, 5, 6, 7].map(|credential| match mask >> credential & 1 {
            1 => self.below(1 << 31) as u32,
            _ => self.pick(&[0, 0, 0, 0, 0, 0, 0, 1, 0x8000_0000]),
        })
    }

    /// Names are few, so that they meet.
    fn row(&mut self) -> (u16, u16, Name) {
        let owner = self.pick(&[0, 0, 0, 1, 1, 1, 2, 8, 0x100]);
        let next = self.pick(&[0, 1, 1, 2, 300, 65_535]);
        let mut name = [0x11; NAME_LENGTH];
        name[self.pick(&[0, 15, 16, 47])] = self.pick(&[0x11, 0x12, 0x13, 0x14]);
        (owner, next, name)
    }

    fn parts(&mut self) -> Parts {
        let mask = self.pick(&[0, 1, 2, 3, 3, 3, 3, 0x83, 0xff]);
        let seconds = self.below(2) == 0;
        let (words, seconds) = (self.words(mask), seconds.then(|| self.words(mask)));
        let image = Parts::empty(self.mostly(mask, &[0x100, 0x8003]), words, seconds);
        let rows: Vec<_> = (0..self.below(PLACES + 1)).map(|_| self.row()).collect();
        let (count, rows_at) = (rows.len() as u16, image.rows_at);
        Parts {
            word_count: self.mostly(8, &[7, 9, 0x108]),
            words_at: self.mostly(10, &[9, 11, 0x10a]),
            row_count: self.mostly(count, &[0, 1, 12, 13, count + 1, 0x100]),
            rows_at: self.mostly(rows_at, &[41, 42, 43, 74]),
            ..image.with_rows(&rows)
        }
    }
}
