//! Images with several fields damaged at once. Their names are few, so that rows of one name meet while their owners and numbers are damaged.

use crate::random::Random;
use slavotuk_model::module::{Name, CREDENTIALS, NAME_LENGTH, PLACES};
use slavotuk_model::rescue_examples::Parts;

/// How many names there are.
const NAMES: usize = 6;

/// The bytes of one.
pub fn draw(random: &mut Random) -> Vec<u8> {
    let mut image = draw_parts(random);
    damage_head(&mut image, random);
    let mut bytes = image.bytes();
    if random.percent(25) {
        change_length(&mut bytes, random);
    }
    if random.percent(10) {
        flip_bits(&mut bytes, random);
    }
    bytes
}

/// Its head is good; words and rows may be damaged.
fn draw_parts(random: &mut Random) -> Parts {
    let mask = match random.percent(10) {
        true => random.pick(&[0, 1, 0x80, 0xff]),
        false => (random.word() | random.word()) as u8,
    };
    let words = draw_words(mask, random);
    let seconds = random.percent(50).then(|| draw_words(mask, random));
    let names = draw_names(random);
    let rows: Vec<_> = (0..random.below(PLACES + 1))
        .map(|_| draw_row(mask, &names, random))
        .collect();
    Parts::empty(mask.into(), words, seconds).with_rows(&rows)
}

/// Words of which few are damaged: not zero though their credential is not provisioned.
fn draw_words(mask: u8, random: &mut Random) -> [u32; CREDENTIALS] {
    [0, 1, 2, 3, 4, 5, 6, 7].map(|credential| {
        let provisioned = mask >> credential & 1 == 1;
        match provisioned || random.percent(10) {
            true => random.word() & random.pick(&[u32::MAX, 0xff, 0xff00_0000, 1 << 31]),
            false => 0,
        }
    })
}

/// Names that differ from the first in one byte each.
fn draw_names(random: &mut Random) -> [Name; NAMES] {
    let mut first = [0; NAME_LENGTH];
    random.fill(&mut first[16..]);
    let mut names = [first; NAMES];
    for (name, at) in names[1..].iter_mut().zip([0, 15, 16, 46, 47]) {
        name[at] ^= 1 << random.below(8);
    }
    names
}

fn draw_row(mask: u8, names: &[Name; NAMES], random: &mut Random) -> (u16, u16, Name) {
    let owner = random.below(CREDENTIALS) as u16;
    let owner = match mask >> owner & 1 == 1 || random.percent(10) {
        true => owner,
        false => mask.trailing_zeros() as u16,
    };
    let others = [8, owner + 256, owner + 0x8000, u16::MAX];
    let drawn = random.word() as u16;
    (
        damaged(owner, 8, &others, random),
        damaged(drawn.max(1), 12, &[0, 0, 1, 256, u16::MAX], random),
        random.pick(names),
    )
}

/// The number, and so many times in a hundred one of the others.
fn damaged(number: u16, times: usize, others: &[u16], random: &mut Random) -> u16 {
    match random.percent(times) {
        true => random.pick(others),
        false => number,
    }
}

fn damage_head(image: &mut Parts, random: &mut Random) {
    let (mask, rows) = (image.mask, image.row_count);
    let bit = 1 << random.below(CREDENTIALS);
    let lost = [
        mask & !bit,
        mask & !bit,
        mask | bit,
        mask | 0x100 << random.below(8),
    ];
    image.mask = damaged(mask, 20, &lost, random);
    image.word_count = damaged(8, 1, &[0, 7, 9, 0x108], random);
    image.words_at = damaged(10, 1, &[0, 9, 11, 42, 0x10a], random);
    let others = [
        rows.saturating_sub(1),
        rows + 1,
        rows + 2,
        0,
        12,
        13,
        rows + 256,
    ];
    image.row_count = damaged(rows, 20, &others, random);
    let others = [42, 74, 42, 74, 41, 43, 73, 75, 42 + 256, 94];
    image.rows_at = damaged(image.rows_at, 6, &others, random);
}

fn change_length(bytes: &mut Vec<u8>, random: &mut Random) {
    let length = bytes.len();
    match random.below(5) {
        0 => bytes.truncate(length - 1),
        1 => bytes.truncate(random.below(length)),
        2 => bytes.truncate(length - length.min(52)),
        3 => {
            // what follows is a row that was there before
            let more = random.pick(&[1, 51, 52, 53, 104]).min(length - 42);
            bytes.extend_from_within(length - more..);
        }
        _ => {
            let more = random.below(120);
            bytes.extend(random.bytes(more));
        }
    }
}

fn flip_bits(bytes: &mut [u8], random: &mut Random) {
    for _ in 0..1 + random.below(3) {
        if let Some(at) = bytes.len().checked_sub(1) {
            bytes[random.below(at + 1)] ^= 1 << random.below(8);
        }
    }
}
