//! The rescue of damaged images: what is kept and what is reported, through the wrapper and through the entry as it is.

mod common;

use common::*;
use slavotuk::layout::image::*;
use slavotuk::{
    entries, rescue, Call, Lookup, Module, Name, Refusal, FULL_IMAGE_LENGTH, NAME_LENGTH, PLACES,
    STATE_LENGTH, VERSION_1_0,
};

/// The parts of an image, to be drawn in either layout.
#[derive(Clone)]
struct Parts {
    mask: u16,
    words: [u32; 8],
    /// None in the old layout.
    seconds: Option<[u32; 8]>,
    rows: Vec<Row>,
}

/// Owner, next number and name.
type Row = (u16, u16, Name);

impl Parts {
    fn drawn(&self) -> Vec<u8> {
        let rows_at = self.seconds.map_or(OLD_ROWS_AT, |_| ROWS_AT);
        let head = [self.mask.into(), 8, WORDS_AT, self.rows.len(), rows_at];
        let head = head.map(|number| (number as u16).to_le_bytes());
        let mut bytes = head.concat();
        for word in self.words.iter().chain(self.seconds.iter().flatten()) {
            bytes.extend(word.to_le_bytes());
        }
        for (owner, next, name) in &self.rows {
            bytes.extend(owner.to_le_bytes());
            bytes.extend(next.to_le_bytes());
            bytes.extend(name.as_ref());
        }
        bytes
    }

    fn with_mask(mut self, mask: u16) -> Parts {
        self.mask = mask;
        self
    }

    fn with_words(mut self, words: [u32; 8]) -> Parts {
        self.words = words;
        self
    }

    fn with_seconds(mut self, seconds: [u32; 8]) -> Parts {
        self.seconds = Some(seconds);
        self
    }

    fn with_rows(mut self, rows: &[Row]) -> Parts {
        self.rows = rows.to_vec();
        self
    }
}

/// The words of credentials 0 and 1; the others are zero.
fn of_two(word: u32, other: u32) -> [u32; 8] {
    [word, other, 0, 0, 0, 0, 0, 0]
}

fn row_of_p() -> Row {
    (0, 3, p())
}

fn row_of_q() -> Row {
    (1, 300, q())
}

/// An old image, of 146 bytes.
fn x() -> Parts {
    Parts {
        mask: 3,
        words: of_two(15, 16),
        seconds: None,
        rows: vec![row_of_p(), row_of_q()],
    }
}

/// The same in the new layout, with a second word: 178 bytes.
fn y() -> Parts {
    x().with_seconds(of_two(0, 16))
}

/// The bytes with this number of two bytes at an offset.
fn with(bytes: &[u8], at: usize, number: u16) -> Vec<u8> {
    let mut bytes = bytes.to_vec();
    bytes[at..][..2].copy_from_slice(&number.to_le_bytes());
    bytes
}

// ---- what is asked of every rescue

/// What stands in the report before a call.
const MARK: u16 = 0x5a5a;
/// What stands in a buffer before a call, and in these bytes behind it.
const PAINT: u8 = 0xaa;
const GUARD: usize = 64;

/// What the entry answers and leaves.
#[derive(Debug, PartialEq)]
struct Answer {
    number: u32,
    length: usize,
    report: [u16; 3],
    /// The buffer with its guard.
    memory: Vec<u8>,
}

/// Hands the bytes to the entry, with a buffer of so many.
fn answer(bytes: &[u8], room: usize) -> Answer {
    let mut memory = vec![PAINT; room + GUARD];
    let (mut length, [mut cleared, mut kept, mut dropped]) = (7, [MARK; 3]);
    let number = entries::rescue(
        bytes,
        &mut memory[..room],
        &mut length,
        &mut cleared,
        &mut kept,
        &mut dropped,
    );
    Answer {
        number,
        length,
        report: [cleared, kept, dropped],
        memory,
    }
}

/// A refusal sets the length to 0, and leaves all else.
fn refused(number: u32, room: usize) -> Answer {
    Answer {
        number,
        length: 0,
        report: [MARK; 3],
        memory: vec![PAINT; room + GUARD],
    }
}

/// How many words are cleared, how many rows kept, and the places of those dropped.
type Report<'a> = (u16, u16, &'a [usize]);

/// The entry's answer where this is rescued: the image in front, and nothing behind it touched.
fn done(image: &[u8], (cleared, kept, dropped): Report, room: usize) -> Answer {
    let mut memory = vec![PAINT; room + GUARD];
    memory[..image.len()].copy_from_slice(image);
    let dropped = dropped.iter().map(|place| 1 << place).sum();
    Answer {
        number: 0,
        length: image.len(),
        report: [cleared, kept, dropped],
        memory,
    }
}

#[track_caller]
fn wrapper_rescues(bytes: &[u8], image: &[u8], (cleared, kept, dropped): Report) {
    let rescued = rescue(bytes).unwrap();
    assert_eq!(*rescued.image, *image);
    let counts = (rescued.cleared_words, rescued.kept_rows);
    assert_eq!(counts, (cleared.into(), kept.into()));
    assert!(rescued.dropped_places().eq(dropped.iter().copied()));
}

/// This image of that length is rescued of the bytes, by the wrapper and in every room, and all stated rows are reported. It can be restored, and to rescue it again
/// changes nothing.
#[track_caller]
fn is_rescued(bytes: &[u8], length: usize, report: Report, image: &Parts) {
    let image = image.drawn();
    assert_eq!(image.len(), length);
    wrapper_rescues(bytes, &image, report);
    for room in 0..length {
        assert_eq!(answer(bytes, room), refused(15, room));
    }
    for room in [length, length + 1, FULL_IMAGE_LENGTH, 1000] {
        assert_eq!(answer(bytes, room), done(&image, report, room));
    }
    let (_, kept, dropped) = report;
    let stated = u16::from_le_bytes([bytes[ROW_COUNT_AT], bytes[ROW_COUNT_AT + 1]]);
    assert_eq!(usize::from(kept) + dropped.len(), stated.into());
    assert!(Module::restore(&image).is_ok());
    wrapper_rescues(&image, &image, (0, kept, &[]));
}

/// Nothing can be rescued of the bytes, whatever the room.
#[track_caller]
fn is_lost(bytes: &[u8]) {
    assert_eq!(rescue(bytes), Err(Refusal::Message));
    for room in [0, 1, OLD_ROWS_AT, FULL_IMAGE_LENGTH, 1000] {
        assert_eq!(answer(bytes, room), refused(14, room));
    }
}

// ---- images, and what is cut or added

#[test]
fn an_image_stays_as_it_is() {
    is_rescued(&x().drawn(), 146, (0, 2, &[]), &x());
    is_rescued(&y().drawn(), 178, (0, 2, &[]), &y());
    for other in [
        x().with_rows(&[row_of_p(), (1, 65535, q())]),
        x().with_rows(&[row_of_p(), (1, 256, q())]),
        x().with_rows(&[row_of_p(), (1, 300, r())]),
        // credential 7 is provisioned, and its word is zero
        x().with_mask(0x83),
    ] {
        is_rescued(&other.drawn(), 146, (0, 2, &[]), &other);
    }
}

#[test]
fn what_a_module_wrote_stays_as_it_is() {
    let mut all_saved = full();
    all_saved.end(session(0), by(0, 0), true).unwrap();
    for (module, rows) in [
        (Module::fresh(&grants()).unwrap(), 0),
        (full(), 11),
        (all_saved, 12),
    ] {
        let image = module.image().unwrap();
        wrapper_rescues(&image, &image, (0, rows, &[]));
        let room = image.len();
        assert_eq!(answer(&image, room - 1), refused(15, room - 1));
        assert_eq!(answer(&image, room), done(&image, (0, rows, &[]), room));
    }
}

#[test]
fn a_row_that_is_cut_or_missing_is_dropped() {
    let (old, new) = (x().drawn(), y().drawn());
    let first = [row_of_p()];
    for length in 94..146 {
        let rescued = x().with_rows(&first);
        is_rescued(&old[..length], 94, (0, 1, &[1]), &rescued);
    }
    for length in 42..94 {
        let rescued = x().with_rows(&[]);
        is_rescued(&old[..length], 42, (0, 0, &[0, 1]), &rescued);
    }
    for length in 126..178 {
        let rescued = y().with_rows(&first);
        is_rescued(&new[..length], 126, (0, 1, &[1]), &rescued);
    }
    for length in 74..126 {
        let rescued = y().with_rows(&[]);
        is_rescued(&new[..length], 74, (0, 0, &[0, 1]), &rescued);
    }
}

#[test]
fn without_the_whole_head_and_all_words_nothing_is_rescued() {
    for length in 0..42 {
        is_lost(&x().drawn()[..length]);
    }
    for length in 0..74 {
        is_lost(&y().drawn()[..length]);
    }
}

#[test]
fn what_lies_behind_the_stated_rows_is_ignored() {
    let longer = x().with_rows(&[row_of_p(), row_of_q(), (0, 1, r())]);
    let row = &longer.drawn()[146..];
    assert_eq!(row.len(), ROW_LENGTH);
    for more in [&[0], &[0xff], row] {
        let behind = |parts: Parts| [&parts.drawn(), more].concat();
        is_rescued(&behind(x()), 146, (0, 2, &[]), &x());
        is_rescued(&behind(y()), 178, (0, 2, &[]), &y());
    }
}

#[test]
fn the_stated_count_bounds_the_rows() {
    let stating = |count| with(&x().drawn(), ROW_COUNT_AT, count);
    is_rescued(&stating(0), 42, (0, 0, &[]), &x().with_rows(&[]));
    is_rescued(&stating(1), 94, (0, 1, &[]), &x().with_rows(&[row_of_p()]));
    is_rescued(&stating(3), 146, (0, 2, &[2]), &x());
    let missing: Vec<usize> = (2..12).collect();
    is_rescued(&stating(12), 146, (0, 2, &missing), &x());
    for count in [13, 14, 0x102, 65535] {
        is_lost(&stating(count));
    }
}

#[test]
fn long_bytes_are_taken() {
    let length = 65_536;
    let missing: Vec<usize> = (2..12).collect();
    for fill in [0, 1, 0xff] {
        is_lost(&vec![fill; length]);
        let mut bytes = y().drawn();
        bytes.resize(length, fill);
        is_rescued(&bytes, 178, (0, 2, &[]), &y());
        // ten rows of that fill: of next number 0, of owner 257, of owner 65,535
        let stating = with(&bytes, ROW_COUNT_AT, 12);
        is_rescued(&stating, 178, (0, 2, &missing), &y());
    }
}

// ---- the words

#[test]
fn without_its_mask_bit_a_credential_has_no_word_and_no_row() {
    let old = |mask| x().with_mask(mask).drawn();
    let first = x().with_mask(1).with_words(of_two(15, 0));
    let first = first.with_rows(&[row_of_p()]);
    let second = x().with_mask(2).with_words(of_two(0, 16));
    let second = second.with_rows(&[row_of_q()]);
    let neither = x().with_mask(0).with_words([0; 8]).with_rows(&[]);
    is_rescued(&old(1), 94, (1, 1, &[1]), &first);
    is_rescued(&old(2), 94, (1, 1, &[0]), &second);
    is_rescued(&old(0), 42, (2, 0, &[0, 1]), &neither);

    let new = |mask| y().with_mask(mask).drawn();
    let first = first.with_seconds([0; 8]);
    let second = second.with_seconds(of_two(0, 16));
    let neither = neither.with_seconds([0; 8]);
    is_rescued(&new(1), 126, (2, 1, &[1]), &first);
    is_rescued(&new(2), 126, (1, 1, &[0]), &second);
    is_rescued(&new(0), 74, (3, 0, &[0, 1]), &neither);
}

#[test]
fn a_cleared_word_is_counted_where_it_was_not_zero() {
    let mut stray = x();
    stray.words[2] = 5;
    is_rescued(&stray.drawn(), 146, (1, 2, &[]), &x());
    let stray = y().with_seconds([0, 16, 0, 0, 0, 0, 0, 0x8000_0000]);
    is_rescued(&stray.drawn(), 178, (1, 2, &[]), &y());

    let bare = x().with_mask(0).with_rows(&[]);
    let zeros = bare.clone().with_words([0; 8]);
    let ones = bare.with_words([1; 8]);
    is_rescued(&ones.drawn(), 42, (8, 0, &[]), &zeros);
    let zeros = zeros.with_seconds([0; 8]);
    let ones = ones.with_seconds([1; 8]);
    is_rescued(&ones.drawn(), 74, (16, 0, &[]), &zeros);
}

// ---- the rows

#[test]
fn a_row_that_no_image_has_is_dropped() {
    for first in [(0, 0, p()), (2, 3, p()), (8, 3, p()), (256, 3, p())] {
        let damaged = x().with_rows(&[first, row_of_q()]);
        let rescued = x().with_rows(&[row_of_q()]);
        is_rescued(&damaged.drawn(), 94, (0, 1, &[0]), &rescued);
    }
    for second in [(1, 0, q()), (7, 300, q()), (65535, 300, q())] {
        let damaged = y().with_rows(&[row_of_p(), second]);
        let rescued = y().with_rows(&[row_of_p()]);
        is_rescued(&damaged.drawn(), 126, (0, 1, &[1]), &rescued);
    }
}

#[test]
fn of_rows_with_one_name_the_first_is_kept() {
    let damaged = x().with_rows(&[row_of_p(), (1, 300, p())]);
    let rescued = x().with_rows(&[row_of_p()]);
    is_rescued(&damaged.drawn(), 94, (0, 1, &[1]), &rescued);

    let names = [p(), q(), r()].into_iter().cycle();
    let twelve: Vec<Row> = names.take(PLACES).map(|name| (0, 1, name)).collect();
    let of_one = x().with_mask(1).with_words(of_two(15, 0));
    let damaged = of_one.clone().with_rows(&twelve);
    let dropped: Vec<usize> = (3..12).collect();
    let rescued = of_one.with_rows(&twelve[..3]);
    is_rescued(&damaged.drawn(), 198, (0, 3, &dropped), &rescued);
}

#[test]
fn a_name_that_only_dropped_rows_have_is_free() {
    let damaged = x().with_rows(&[(0, 0, p()), (1, 300, p())]);
    let rescued = x().with_rows(&[(1, 300, p())]);
    is_rescued(&damaged.drawn(), 94, (0, 1, &[0]), &rescued);
}

#[test]
fn names_that_differ_in_one_byte_are_two() {
    for at in 0..NAME_LENGTH {
        let mut name = p();
        name.0[at] ^= 0x80;
        let both = y().with_rows(&[row_of_p(), (1, 300, name)]);
        is_rescued(&both.drawn(), 178, (0, 2, &[]), &both);
    }
}

// ---- the head

#[test]
fn a_head_that_cannot_be_used_is_refused() {
    for image in [x().drawn(), y().drawn()] {
        let rows_at = u16::from(image[ROWS_OFFSET_AT]);
        for (at, number) in [
            (MASK_AT, 0x103),
            (MASK_AT, 0x8003),
            (WORD_COUNT_AT, 7),
            (WORD_COUNT_AT, 16),
            (WORD_COUNT_AT, 0x108),
            (WORDS_OFFSET_AT, 11),
            (WORDS_OFFSET_AT, 0x10a),
            (ROWS_OFFSET_AT, 0),
            (ROWS_OFFSET_AT, rows_at + 1),
            (ROWS_OFFSET_AT, rows_at + 0x100),
        ] {
            is_lost(&with(&image, at, number));
        }
    }
}

/// Where the rows of an old image are read as second words, the report shows it.
#[test]
fn the_other_layouts_offset_is_taken_for_what_it_says() {
    let damaged = with(&x().drawn(), ROWS_OFFSET_AT, ROWS_AT as u16);
    let rescued = x().with_seconds(of_two(0x30000, 0)).with_rows(&[]);
    is_rescued(&damaged, 74, (3, 0, &[0, 1]), &rescued);
}

#[test]
fn bytes_that_cannot_be_used_are_refused_before_the_room() {
    assert_eq!(answer(&[], 0), refused(14, 0));
    assert_eq!(answer(&x().drawn()[..41], 0), refused(14, 0));
    assert_eq!(answer(&x().drawn()[..42], 0), refused(15, 0));
}

// ---- the report, and the call as a value

#[test]
fn the_places_are_had_from_both_ends() {
    let damaged = with(&x().drawn(), ROW_COUNT_AT, 12);
    let rescued = rescue(&damaged).unwrap();
    let mut places = rescued.dropped_places();
    assert_eq!(places.len(), 10);
    assert_eq!((places.next(), places.next_back()), (Some(2), Some(11)));
    assert_eq!(places.len(), 8);
    assert!(places.clone().rev().eq((3..11).rev()));
    assert!(places.by_ref().eq(3..11));
    assert_eq!(
        (places.next(), places.next_back(), places.len()),
        (None, None, 0)
    );
    // and again from the beginning
    assert!(rescued.dropped_places().eq(2..12));
}

#[test]
fn a_call_leaves_the_state_and_prints_what_is_handed_out() {
    let mut state = [0xee; STATE_LENGTH];
    let mut call: Call = Call::Rescue {
        bytes: x().with_mask(2).drawn(),
        image: vec![PAINT; 96],
        length: 7,
        cleared: MARK,
        kept: MARK,
        dropped: MARK,
    };
    assert_eq!(call.make(&mut state), 0);
    assert_eq!(state, [0xee; STATE_LENGTH]);
    assert_eq!(Call::<Vec<u8>>::ENTRIES[call.entry()], "rescue");
    assert_eq!(
        call.handed_out(),
        " image (96 bytes 02 00 08 00 0a 00 01 00 2a 00*5 10 00*27 01 00 2c 01 00*16 22*32 aa*2) length 0x5e cleared 0x1 kept 0x1 dropped 0x1"
    );
}

// ---- what it can't know

/// The module of what is rescued, with session 0 open.
fn reseated(damaged: &[u8]) -> Module {
    let mut module = Module::restore(&rescue(damaged).unwrap().image).unwrap();
    module.open(session(0)).unwrap();
    module.select(session(0), VERSION_1_0).unwrap();
    module
}

/// Q has counted to 300, and a bit of its number is lost.
#[test]
fn numbers_that_were_spent_may_be_good_again() {
    let damaged = x().with_rows(&[(1, 44, q())]).drawn();
    let mut module = reseated(&damaged);
    let s = session(0);
    module.continue_saved(s, credential(1), &q()).unwrap();
    module.record(s, by(1, 44), class(4)).unwrap();

    // of two rows with one name the first is kept, whatever the second's number is
    let damaged = x().with_rows(&[(1, 44, q()), row_of_q()]).drawn();
    let mut module = reseated(&damaged);
    module.continue_saved(s, credential(1), &q()).unwrap();
    module.record(s, by(1, 44), class(4)).unwrap();
}

#[test]
fn a_damaged_word_may_grant_what_nobody_granted() {
    let damaged = x().with_words(of_two(15, 16 | 1 << 31)).drawn();
    let granted = reseated(&damaged).grants(credential(1));
    assert_eq!(granted.lookup(class(31)), Lookup::Yes);
}
