//! The image: what is written, which bytes are one, and the module that one makes.

mod common;

use common::*;
use slavotuk::layout::image::*;
use slavotuk::{
    entries, Claim, Grants, Image, Module, Name, Phase, Refusal, Session, Standing, Words,
    FULL_IMAGE_LENGTH, STATE_LENGTH, VERSION_1_0,
};

/// Document 01's module in which credential 0 has saved P at next number 3 and credential 1 has saved R at 1. Session 0 is open, and in it each has an active
/// process: P2 is credential 0's, and Q is an elevation for credential 1.
fn with_saved() -> Module {
    let mut module = opened(&[0]);
    let s = session(0);
    module.start(s, credential(0), &p()).unwrap();
    // credential 1 may save from here on, and has class 5 under elevation
    let words = Words {
        word: 0x34,
        second: 0x20,
    };
    module.set_word(s, by(0, 0), credential(1), words).unwrap();
    module.start(s, credential(1), &r()).unwrap();
    module.end(s, by(1, 0), true).unwrap();
    module.kill(s, by(0, 1), &r()).unwrap();
    module.end(s, by(0, 2), true).unwrap();
    module.start(s, credential(0), &p2()).unwrap();
    module.start(s, credential(1), &r()).unwrap();
    module.end(s, by(1, 0), true).unwrap();
    module.elevate(s, credential(1), &q(), true).unwrap();
    module
}

fn p2() -> Name {
    named(0x33, 0x33)
}

fn row(owner: u8, next: u16, name: Name) -> Vec<u8> {
    let mut bytes = vec![owner, 0];
    bytes.extend(next.to_le_bytes());
    bytes.extend(name.as_ref());
    bytes
}

/// The numbers in front of the words.
fn head(mask: u8, rows: u8) -> Vec<u8> {
    vec![mask, 0, 8, 0, WORDS_AT as u8, 0, rows, 0, ROWS_AT as u8, 0]
}

/// The image of that module, byte by byte.
fn drawn() -> Vec<u8> {
    let mut bytes = head(3, 2);
    bytes.resize(ROWS_AT, 0);
    bytes[word_at(0)] = 15;
    bytes[word_at(1)] = 0x34;
    bytes[second_at(1)] = 0x20;
    bytes.extend(row(0, 3, p()));
    bytes.extend(row(1, 1, r()));
    bytes
}

/// A module with twelve saved processes.
fn all_saved() -> Module {
    let mut module = full();
    module.end(session(0), by(0, 0), true).unwrap();
    module
}

// ---- the writer

#[test]
fn the_image_is_as_drawn() {
    let image = with_saved().image().unwrap();
    assert_eq!(*image, drawn());
    assert_eq!(image.as_ref(), drawn());
    assert_eq!(image, image.clone());
    assert_eq!(
        format!("{image:?}"),
        "Image(178 bytes 03 00 08 00 0a 00 02 00 4a 00 0f 00*3 34 00*31 20 00*29 03 00*17 11*32 01 00 01 00*17 11*31 12)"
    );
}

#[test]
fn every_saved_process_is_in_it_and_no_other() {
    let lengths = |module: &Module| module.image().unwrap().len();
    assert_eq!(lengths(&Module::fresh(&grants()).unwrap()), ROWS_AT);
    assert_eq!(lengths(&opened(&[0, 1, 2, 3])), ROWS_AT);
    assert_eq!(lengths(&full()), row_at(11));
    assert_eq!(lengths(&all_saved()), FULL_IMAGE_LENGTH);
    let names: Vec<u8> = all_saved().image().unwrap()[ROWS_AT..]
        .chunks(ROW_LENGTH)
        .map(|row| row[NAME])
        .collect();
    assert_eq!(names, (0..12).collect::<Vec<u8>>());
}

#[test]
fn a_buffer_too_short_is_left() {
    for module in [Module::fresh(&grants()).unwrap(), with_saved(), all_saved()] {
        let image = module.image().unwrap();
        for room in 0..image.len() {
            let mut buffer = vec![0xaa; room];
            assert_eq!(module.write_image(&mut buffer), Err(Refusal::Room));
            let mut length = 7;
            let number = entries::image(module.bytes(), &mut buffer, &mut length);
            assert_eq!((number, length), (15, 0));
            assert_eq!(buffer, vec![0xaa; room]);
        }
        for room in [image.len(), image.len() + 1, 1000] {
            let mut buffer = vec![0xaa; room];
            assert_eq!(module.write_image(&mut buffer), Ok(image.len()));
            assert_eq!(buffer[..image.len()], *image);
            assert_eq!(buffer[image.len()..], vec![0xaa; room - image.len()]);
        }
    }
}

#[test]
fn a_slice_without_a_state_has_no_image() {
    let mut damaged = with_saved().into_bytes();
    damaged[0] = 3;
    let slices = [
        &damaged[..],
        &[],
        &[0; STATE_LENGTH - 1],
        &[0; STATE_LENGTH + 1],
    ];
    for (state, room) in slices
        .into_iter()
        .flat_map(|state| [(state, 0), (state, 700)])
    {
        let (mut buffer, mut length) = (vec![0xaa; room], 7);
        assert_eq!(entries::image(state, &mut buffer, &mut length), 1);
        assert_eq!(length, 0);
        assert_eq!(buffer, vec![0xaa; room]);
    }
}

#[test]
fn the_state_is_only_read() {
    static FLASH: [u8; STATE_LENGTH] = [0; STATE_LENGTH];
    let image = Module::read_only(&FLASH).unwrap().image().unwrap();
    assert_eq!(image[..WORDS_AT], head(0, 0));
    assert_eq!(image[WORDS_AT..], [0; ROWS_AT - WORDS_AT]);
}

// ---- the restorer

#[test]
fn a_restored_module_is_what_the_image_says() {
    let module = Module::restore(&drawn()).unwrap();
    assert!(Session::all().all(|s| module.phase(s) == Phase::Closed));
    let grants: Vec<Grants> = (0..8).map(|n| module.grants(credential(n))).collect();
    let granted = [Grants::of_word(15), Grants::of_words(0x34, 0x20)];
    assert_eq!(grants[..2], granted);
    assert_eq!(grants[2..], [Grants::UNPROVISIONED; 6]);
    let standing: Vec<_> = module
        .processes()
        .map(|process| (process.credential, process.standing, process.name))
        .collect();
    let saved = |next_number| Standing::SavedUser { next_number };
    assert_eq!(
        standing,
        [
            (credential(0), saved(3), p()),
            (credential(1), saved(1), r())
        ]
    );
    // and no byte of it is of another form
    let bytes = module.clone().into_bytes();
    assert_eq!(Module::from_bytes(bytes), Ok(module));
}

#[test]
fn an_image_without_rows_makes_a_fresh_module() {
    for grants in [
        grants(),
        [Grants::UNPROVISIONED; 8],
        [Grants::of_word(!0); 8],
        [Grants::of_words(0, !0); 8],
        [Grants::of_words(!0, !0); 8],
    ] {
        let fresh = Module::fresh(&grants).unwrap();
        assert_eq!(Module::restore(&fresh.image().unwrap()), Ok(fresh));
    }
}

#[test]
fn what_was_written_is_restored_and_written_again() {
    for module in [opened(&[0, 1]), with_saved(), full(), all_saved()] {
        let image = module.image().unwrap();
        let restored = Module::restore(&image).unwrap();
        assert_eq!(restored.image().unwrap(), image);
        let mut slice = [0xff; STATE_LENGTH];
        let lent = Module::restore_in(&mut slice, &image).unwrap();
        assert_eq!(lent.bytes(), restored.bytes());
    }
}

/// A change of an image: the offset, the new byte, and why that makes no image.
type Change = (usize, u8, &'static str);

/// Changes of the drawn image, each of which makes bytes that are no image.
const DAMAGE: [Change; 21] = [
    (MASK_AT, 2, "credential 0 has a word and a row"),
    (MASK_AT, 1, "credential 1 has a word and a row"),
    (MASK_AT + 1, 1, "a bit of the mask over 7"),
    (MASK_AT + 1, 0x80, "the mask's last bit"),
    (WORD_COUNT_AT, 7, "the count of words"),
    (WORD_COUNT_AT + 1, 1, "the count of words"),
    (WORDS_OFFSET_AT, 11, "the offset of the words"),
    (WORDS_OFFSET_AT + 1, 1, "the offset of the words"),
    (ROW_COUNT_AT, 1, "a row less than there are"),
    (ROW_COUNT_AT, 3, "a row more than there are"),
    (ROW_COUNT_AT + 1, 1, "the count of rows"),
    (ROWS_OFFSET_AT, ROWS_AT as u8 + 1, "the offset of the rows"),
    (ROWS_OFFSET_AT, OLD_ROWS_AT as u8, "the old layout's offset"),
    (ROWS_OFFSET_AT + 1, 1, "the offset of the rows"),
    (word_at(2), 1, "a word of credential 2"),
    (word_at(7) + 3, 0x80, "a word of credential 7"),
    (second_at(2), 1, "a second word of credential 2"),
    (second_at(7) + 3, 0x80, "a second word of credential 7"),
    (row_at(0) + OWNER, 2, "credential 2 is not provisioned"),
    (row_at(0) + OWNER + 1, 1, "there is no such credential"),
    (row_at(1) + NEXT, 0, "next number 0"),
];

/// Hands the bytes to the restorer, in slices that hold a state and others, and looks that each holds what it held.
#[track_caller]
fn is_no_image(bytes: &[u8]) {
    assert_eq!(Module::restore(bytes), Err(Refusal::Message));
    for held in [full().into_bytes(), [0xee; STATE_LENGTH]] {
        let mut slice = held;
        assert_eq!(entries::restore(&mut slice, bytes), 14);
        assert_eq!(slice, held);
    }
}

/// Each change of a byte makes bytes that are no image.
#[track_caller]
fn is_no_image_with_any(image: &[u8], changes: &[Change]) {
    for &(at, byte, why) in changes {
        let mut bytes = image.to_vec();
        assert_ne!(bytes[at], byte, "{why}");
        bytes[at] = byte;
        is_no_image(&bytes);
    }
}

#[test]
fn damaged_images_are_refused() {
    is_no_image_with_any(&drawn(), &DAMAGE);
    // equal names, of one credential and of two
    for owner in [0, 1] {
        let mut bytes = drawn();
        bytes.truncate(row_at(1));
        bytes.extend(row(owner, 1, p()));
        is_no_image(&bytes);
    }
}

#[test]
fn other_lengths_are_refused() {
    let image = all_saved().image().unwrap();
    for length in 0..image.len() {
        is_no_image(&image[..length]);
    }
    for byte in [0, 1] {
        for more in 1..=ROW_LENGTH {
            is_no_image(&[&drawn(), &vec![byte; more][..]].concat());
        }
    }
    // thirteen rows, each as it may stand
    let mut bytes = image.to_vec();
    bytes[ROW_COUNT_AT] = 13;
    bytes.extend(row(0, 1, q()));
    is_no_image(&bytes);
}

#[test]
fn a_slice_of_another_length_is_refused_first() {
    for length in [0, 1, STATE_LENGTH - 1, STATE_LENGTH + 1] {
        for image in [drawn(), vec![]] {
            let mut slice = vec![0xee; length];
            assert_eq!(entries::restore(&mut slice, &image), 1);
            let refused = Module::restore_in(&mut slice, &image).unwrap_err();
            assert_eq!(refused, Refusal::Argument);
            assert_eq!(slice, vec![0xee; length]);
        }
    }
}

// ---- the old layout

/// The numbers in front of the words of an old image.
fn old_head(mask: u8, rows: u8) -> Vec<u8> {
    let mut bytes = head(mask, rows);
    bytes[ROWS_OFFSET_AT] = OLD_ROWS_AT as u8;
    bytes
}

/// The image that version 2 wrote of a module: words 15 and 20, and two rows.
fn drawn_old() -> Vec<u8> {
    let mut bytes = old_head(3, 2);
    bytes.resize(OLD_ROWS_AT, 0);
    bytes[word_at(0)] = 15;
    bytes[word_at(1)] = 20;
    bytes.extend(row(0, 3, p()));
    bytes.extend(row(1, 1, r()));
    bytes
}

/// An old image in the new layout: second words zero, all else the same.
fn renewed(old: &[u8]) -> Vec<u8> {
    let (words, rows) = old.split_at(OLD_ROWS_AT);
    let mut bytes = [words, &[0; ROWS_AT - OLD_ROWS_AT], rows].concat();
    bytes[ROWS_OFFSET_AT] = ROWS_AT as u8;
    bytes
}

/// An image whose second words are zero, in the old layout.
fn aged(new: &[u8]) -> Vec<u8> {
    assert_eq!(new[SECONDS_AT..ROWS_AT], [0; ROWS_AT - SECONDS_AT]);
    let mut bytes = [&new[..SECONDS_AT], &new[ROWS_AT..]].concat();
    bytes[ROWS_OFFSET_AT] = OLD_ROWS_AT as u8;
    bytes
}

#[test]
fn an_old_image_makes_second_words_zero() {
    let module = Module::restore(&drawn_old()).unwrap();
    let grants: Vec<Grants> = (0..8).map(|n| module.grants(credential(n))).collect();
    assert_eq!(grants[..2], [Grants::of_word(15), Grants::of_word(20)]);
    assert_eq!(grants[2..], [Grants::UNPROVISIONED; 6]);
    let standing: Vec<_> = module
        .processes()
        .map(|process| (process.credential, process.next_number(), process.name))
        .collect();
    assert_eq!(
        standing,
        [(credential(0), Some(3), p()), (credential(1), Some(1), r())]
    );
}

#[test]
fn an_old_image_is_written_in_the_new_layout() {
    let modules = [
        Module::fresh(&grants()).unwrap(),
        Module::restore(&drawn_old()).unwrap(),
        full(),
        all_saved(),
    ];
    for module in modules {
        let new = module.image().unwrap();
        let old = aged(&new);
        assert_eq!(renewed(&old), *new);
        let restored = Module::restore(&old).unwrap();
        assert_eq!(restored.image().unwrap(), new);
        assert_eq!(Module::restore(&new), Ok(restored));
    }
}

/// An image with a mark has no old one: without its second words it makes another module.
#[test]
fn the_layouts_make_one_module_where_no_class_is_marked() {
    let mut unmarked = drawn();
    unmarked[second_at(1)] = 0;
    let old = aged(&unmarked);
    assert_eq!(Module::restore(&old), Module::restore(&unmarked));
    assert_ne!(Module::restore(&old), Module::restore(&drawn()));
}

/// Changes of the old image, each of which makes bytes that are no image.
const OLD_DAMAGE: [Change; 10] = [
    (MASK_AT, 1, "credential 1 has a word and a row"),
    (WORD_COUNT_AT, 16, "the count of words"),
    (ROW_COUNT_AT, 1, "a row less than there are"),
    (ROW_COUNT_AT, 3, "a row more than there are"),
    (ROWS_OFFSET_AT, OLD_ROWS_AT as u8 - 1, "the offset of rows"),
    (ROWS_OFFSET_AT, OLD_ROWS_AT as u8 + 1, "the offset of rows"),
    (ROWS_OFFSET_AT, ROWS_AT as u8, "the new layout's offset"),
    (word_at(7) + 3, 0x80, "a word of credential 7"),
    (old_row_at(0) + OWNER, 2, "credential 2 is not provisioned"),
    (old_row_at(1) + NEXT, 0, "next number 0"),
];

#[test]
fn damaged_old_images_are_refused() {
    is_no_image_with_any(&drawn_old(), &OLD_DAMAGE);
    let mut bytes = drawn_old();
    bytes.truncate(old_row_at(1));
    bytes.extend(row(1, 1, p()));
    is_no_image(&bytes);
}

/// The offset alone tells the layouts apart, and then each has its lengths.
#[test]
fn old_images_of_other_lengths_are_refused() {
    let old = aged(&all_saved().image().unwrap());
    assert_eq!(old.len(), old_row_at(12));
    for length in 0..old.len() {
        is_no_image(&old[..length]);
    }
    for more in 1..=ROW_LENGTH {
        is_no_image(&[&drawn_old(), &vec![0; more][..]].concat());
    }
    let mut bytes = old.clone();
    bytes[ROW_COUNT_AT] = 13;
    bytes.extend(row(0, 1, q()));
    is_no_image(&bytes);
    for rows in 0..=12 {
        let mut new = renewed(&old)[..row_at(rows)].to_vec();
        new[ROW_COUNT_AT] = rows as u8;
        assert!(Module::restore(&new).is_ok());
        new[ROWS_OFFSET_AT] = OLD_ROWS_AT as u8;
        is_no_image(&new);
        let mut old = old[..old_row_at(rows)].to_vec();
        old[ROW_COUNT_AT] = rows as u8;
        assert!(Module::restore(&old).is_ok());
        old[ROWS_OFFSET_AT] = ROWS_AT as u8;
        is_no_image(&old);
    }
}

// ---- a power cycle

/// The module after a power cycle, with session 1 open.
fn reseated(image: &Image) -> Module {
    let mut module = Module::restore(image).unwrap();
    module.open(session(1)).unwrap();
    module.select(session(1), VERSION_1_0).unwrap();
    module
}

#[test]
fn no_number_below_the_images_is_accepted() {
    let mut module = reseated(&with_saved().image().unwrap());
    let s = session(1);
    module.continue_saved(s, credential(0), &p()).unwrap();
    for number in [0, 1, 2, 4, 65535] {
        let again = module.set_word(s, by(0, number), credential(0), plain(15));
        assert_eq!(again, Err(Refusal::OutOfTurn));
    }
    module
        .set_word(s, by(0, 3), credential(0), plain(15))
        .unwrap();
    let again = module.set_word(s, by(0, 3), credential(0), plain(15));
    assert_eq!(again, Err(Refusal::OutOfTurn));
}

#[test]
fn active_processes_are_lost_and_their_names_free() {
    let mut before = with_saved();
    before
        .continue_saved(session(0), credential(1), &r())
        .unwrap();
    let mut module = reseated(&before.image().unwrap());
    let s = session(1);
    assert_eq!(module.processes().len(), 1);
    for name in [p2(), q(), r()] {
        let lost = module.continue_saved(s, credential(1), &name);
        assert_eq!(lost, Err(Refusal::NoProcess));
        module.start(s, credential(1), &name).unwrap();
        module.end(s, by(1, 0), false).unwrap();
    }
    let elevated = module.record(s, Claim::Elevated, class(4));
    assert_eq!(elevated, Err(Refusal::NoProcess));
}

#[test]
fn a_spent_process_stays_spent() {
    let mut bytes = drawn();
    bytes[row_at(0) + NEXT..][..2].fill(0xff);
    let mut module = Module::restore(&bytes).unwrap();
    module.open(session(0)).unwrap();
    module.select(session(0), VERSION_1_0).unwrap();
    module
        .continue_saved(session(0), credential(0), &p())
        .unwrap();
    for number in [0, 65534, 65535] {
        let spent = module.end(session(0), by(0, number), true);
        assert_eq!(spent, Err(Refusal::Spent));
    }
}

/// Why the image is to be written after each call that changes it, and the flash has to return the newest.
#[test]
fn an_older_image_brings_numbers_back() {
    let s = session(1);
    let goes_on = |image: &Image| -> Result<Image, Refusal> {
        let mut module = reseated(image);
        module.continue_saved(s, credential(0), &p())?;
        let newest = module.image()?;
        module.set_word(s, by(0, 3), credential(0), plain(15))?;
        Ok(newest)
    };
    let older = with_saved().image().unwrap();
    let newest = goes_on(&older).unwrap();
    assert_eq!(goes_on(&older), Ok(newest.clone()));
    assert_eq!(goes_on(&newest), Err(Refusal::NoProcess));
}

#[test]
fn the_image_changes_with_four_calls() {
    let mut module = with_saved();
    let s = session(0);
    let mut image = module.image().unwrap();
    let mut changes = |module: &Module| {
        let before = std::mem::replace(&mut image, module.image().unwrap());
        image != before
    };
    module.open(session(1)).unwrap();
    module.select(session(1), VERSION_1_0).unwrap();
    module.start(s, credential(1), &named(0x44, 0x44)).unwrap();
    module.record(s, by(1, 0), class(4)).unwrap();
    module.record(s, Claim::Elevated, class(4)).unwrap();
    module.kill(s, by(0, 0), &named(0x44, 0x44)).unwrap();
    module.drop_elevation(s).unwrap();
    module.close(session(1)).unwrap();
    assert!(!changes(&module));

    module
        .set_word(s, by(0, 1), credential(1), plain(0x34))
        .unwrap();
    assert!(changes(&module));
    module.continue_saved(s, credential(1), &r()).unwrap();
    assert!(changes(&module));
    module.kill(s, by(0, 2), &p()).unwrap();
    assert!(changes(&module));
    module.end(s, by(1, 1), false).unwrap();
    assert!(!changes(&module));
    module.end(s, by(0, 3), true).unwrap();
    assert!(changes(&module));
}
