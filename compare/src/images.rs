//! Images of both layouts: drawn, and damaged in their fields.

use crate::random::Random;
use slavotuk::layout::image::*;
use slavotuk_model::image;
use slavotuk_model::module::{Credential, Module, Name, Process, CREDENTIALS, NAME_LENGTH, SPENT};

/// An image with these credentials provisioned, and a row for each of the names.
pub fn draw(mask: u8, names: &[Name], random: &mut Random) -> Vec<u8> {
    let credentials = [0, 1, 2, 3, 4, 5, 6, 7].map(|number| Credential {
        provisioned: mask & (1 << number) != 0,
        word: random.word(),
        second: random.word(),
    });
    let mut module = Module::fresh(credentials);
    let owners: Vec<usize> = (0..CREDENTIALS)
        .filter(|number| credentials[*number].provisioned)
        .collect();
    for name in names {
        let drawn = (random.word() as u16).max(1);
        let next = random.pick(&[1, 1, 2, 255, 256, SPENT - 1, SPENT, drawn]);
        let owner = random.pick(&owners);
        module.processes.push(Process::saved(owner, next, *name));
    }
    image::write(&module)
}

/// Names of which some differ in one byte only.
pub fn names(count: usize, random: &mut Random) -> Vec<Name> {
    let mut base: Name = [0; NAME_LENGTH];
    random.fill(&mut base[16..]);
    let place = |at: usize| [47, 0, 15, 16, 46, 31][at % 6];
    let name = |at: usize| {
        let mut name = base;
        name[place(at)] ^= at as u8;
        name
    };
    (0..count).map(name).collect()
}

/// The image's own offset of rows; 0 where it ends before.
pub fn offset(image: &[u8]) -> usize {
    match image.get(ROWS_OFFSET_AT..WORDS_AT) {
        Some([low, high]) => u16::from_le_bytes([*low, *high]).into(),
        _ => 0,
    }
}

/// The image's own count of rows; 0 where it ends before.
pub fn stated(image: &[u8]) -> usize {
    match image.get(ROW_COUNT_AT..ROWS_OFFSET_AT) {
        Some([low, high]) => u16::from_le_bytes([*low, *high]).into(),
        _ => 0,
    }
}

/// Whether its offset of rows is that of the old layout.
pub fn is_old(image: &[u8]) -> bool {
    offset(image) == OLD_ROWS_AT
}

/// An image in the old layout: its second words are gone.
pub fn old(image: &[u8]) -> Vec<u8> {
    if is_old(image) {
        return image.to_vec();
    }
    let mut old = [&image[..SECONDS_AT], &image[ROWS_AT..]].concat();
    put(&mut old, ROWS_OFFSET_AT, OLD_ROWS_AT as u16);
    old
}

/// What is written of the module that an image makes: of one in the old layout, the same with second words of zero, and otherwise itself.
pub fn renewed(image: &[u8]) -> Vec<u8> {
    if !is_old(image) {
        return image.to_vec();
    }
    let (head, rows) = image.split_at(OLD_ROWS_AT);
    let mut new = [head, &[0; ROWS_AT - SECONDS_AT], rows].concat();
    put(&mut new, ROWS_OFFSET_AT, ROWS_AT as u16);
    new
}

/// How many whole rows the bytes have room for.
pub fn rows(image: &[u8]) -> usize {
    image.len().saturating_sub(row_in(image, 0)) / ROW_LENGTH
}

/// Where a row begins, by the image's own layout.
pub fn row_in(image: &[u8], row: usize) -> usize {
    match is_old(image) {
        true => old_row_at(row),
        false => row_at(row),
    }
}

/// Puts a number of two bytes there.
pub fn put(image: &mut [u8], at: usize, number: u16) {
    image[at..at + 2].copy_from_slice(&number.to_le_bytes());
}

/// Puts a word there.
pub fn put_word(image: &mut [u8], at: usize, word: u32) {
    image[at..at + 4].copy_from_slice(&word.to_le_bytes());
}

fn get(image: &[u8], at: usize) -> u16 {
    u16::from_le_bytes([image[at], image[at + 1]])
}

/// Changes up to so many of the fields, and now and then the length. There is an image still in some cases.
pub fn damage(image: &mut Vec<u8>, fields: usize, random: &mut Random) {
    for _ in 0..fields {
        match (random.below(14), rows(image)) {
            (0, _) => change_mask(image, random),
            (1, _) => change_head(image, random),
            (2, rows) => change_count(image, rows as u16, random),
            (3, _) => change_layout(image),
            (4..=7, _) | (_, 0) => change_word(image, random),
            (8..=9, rows) => change_owner(image, random.below(rows), random),
            (10..=11, rows) => change_number(image, random.below(rows), random),
            (_, rows) => change_name(image, random.below(rows), random.below(rows), random),
        }
    }
    if random.percent(8) {
        change_length(image, random);
    }
}

fn change_mask(image: &mut [u8], random: &mut Random) {
    let mask = get(image, MASK_AT);
    let changed = match random.percent(80) {
        true => mask ^ (1 << random.below(16)),
        false => random.word() as u16,
    };
    put(image, MASK_AT, changed);
}

/// To the other layout, where there are bytes enough for it.
fn change_layout(image: &mut Vec<u8>) {
    if is_old(image) {
        *image = renewed(image);
    } else if image.len() >= ROWS_AT {
        *image = old(image);
    }
}

/// The numbers that have one value each, or one in each layout.
fn change_head(image: &mut [u8], random: &mut Random) {
    let at = random.pick(&[WORD_COUNT_AT, WORDS_OFFSET_AT, ROWS_OFFSET_AT]);
    let held = get(image, at);
    let (less, more) = (held.wrapping_sub(1), held.wrapping_add(1));
    let others = [less, more, held ^ 0x100, held ^ 0x8000, 0, 42, 74, held];
    put(image, at, random.pick(&others));
}

fn change_count(image: &mut [u8], rows: u16, random: &mut Random) {
    let others = [rows.wrapping_sub(1), rows + 1, 0, 12, 13, rows ^ 0x100];
    put(image, ROW_COUNT_AT, random.pick(&others));
}

fn change_word(image: &mut [u8], random: &mut Random) {
    let credential = random.below(CREDENTIALS);
    let word = match random.below(3) {
        0 => 0,
        1 => 1 << random.below(32),
        _ => random.word(),
    };
    let has_seconds = !is_old(image) && image.len() >= ROWS_AT;
    let at = match has_seconds && random.percent(50) {
        true => second_at(credential),
        false => word_at(credential),
    };
    put_word(image, at, word);
}

fn change_owner(image: &mut [u8], row: usize, random: &mut Random) {
    let owner = random.below(CREDENTIALS) as u16;
    let others = [owner, owner, owner, 8, owner + 256, u16::MAX];
    put(image, row_in(image, row) + OWNER, random.pick(&others));
}

fn change_number(image: &mut [u8], row: usize, random: &mut Random) {
    let drawn = random.word() as u16;
    let number = random.pick(&[0, 0, 1, 256, SPENT - 1, SPENT, drawn]);
    put(image, row_in(image, row) + NEXT, number);
}

/// Another row's name; half of them with a byte changed again.
fn change_name(image: &mut [u8], row: usize, other: usize, random: &mut Random) {
    let [to, from] = [row, other].map(|row| row_in(image, row) + NAME);
    image.copy_within(from..from + NAME_LENGTH, to);
    if random.percent(50) {
        let at = random.pick(&[0, 15, 16, 31, 32, 46, 47]);
        image[to + at] ^= 1 << random.below(8);
    }
}

fn change_length(image: &mut Vec<u8>, random: &mut Random) {
    let length = image.len();
    match random.below(6) {
        0 => image.push(0),
        1 => image.push(random.word() as u8),
        2 => image.truncate(length - 1),
        3 => image.truncate(random.below(length)),
        4 => image.truncate(length - ROW_LENGTH.min(length)),
        _ => image.extend(random.bytes(ROW_LENGTH)),
    }
}

/// The image without one of its rows, where it is an image and has that row.
pub fn without_row(bytes: &[u8], row: usize) -> Option<Vec<u8>> {
    let mut module = image::read(bytes).ok()?;
    (row < module.processes.len()).then(|| {
        module.processes.remove(row);
        let shorter = image::write(&module);
        match is_old(bytes) {
            true => old(&shorter),
            false => shorter,
        }
    })
}

/// Bytes a little plainer than these, which may be damaged: with a row less, shorter, with a plainer name, or a number of 0 or 1. None of these is taken back by
/// another.
pub fn plainer(bytes: &[u8]) -> Vec<Vec<u8>> {
    let length = bytes.len();
    let mut plainer = vec![
        bytes[..length / 2].to_vec(),
        bytes[..length.saturating_sub(1)].to_vec(),
    ];
    if length >= WORDS_AT {
        plainer.push(with_one_row_less_stated(bytes.to_vec()));
    }
    let mut numbers: Vec<usize> = (WORDS_AT..row_in(bytes, 0)).step_by(2).collect();
    for (place, row) in (0..rows(bytes)).map(|row| row_in(bytes, row)).enumerate() {
        let without = [&bytes[..row], &bytes[row + ROW_LENGTH..]].concat();
        plainer.push(with_one_row_less_stated(without.clone()));
        plainer.push(without);
        let name = &bytes[row + NAME..row + ROW_LENGTH];
        if runs(name) > 1 {
            let mut renamed = bytes.to_vec();
            rename(&mut renamed, name, &[place as u8 + 1; NAME_LENGTH]);
            plainer.push(renamed);
        }
        numbers.extend([row + OWNER, row + NEXT]);
    }
    for at in numbers.into_iter().filter(|at| at + 2 <= length) {
        for number in (0..2).take_while(|number| *number < get(bytes, at)) {
            let mut lower = bytes.to_vec();
            put(&mut lower, at, number);
            plainer.push(lower);
        }
    }
    plainer.retain(|tried| tried != bytes);
    plainer
}

fn with_one_row_less_stated(mut bytes: Vec<u8>) -> Vec<u8> {
    let stated = get(&bytes, ROW_COUNT_AT).saturating_sub(1);
    put(&mut bytes, ROW_COUNT_AT, stated);
    bytes
}

/// How many runs of equal bytes there are.
pub fn runs(bytes: &[u8]) -> usize {
    1 + bytes.windows(2).filter(|pair| pair[0] != pair[1]).count()
}

/// Gives the rows of one name another.
pub fn rename(image: &mut [u8], from: &[u8], to: &[u8]) {
    for row in 0..rows(image) {
        let at = row_in(image, row) + NAME;
        let name = &mut image[at..at + NAME_LENGTH];
        if name == from {
            name.copy_from_slice(to);
        }
    }
}

#[cfg(test)]
mod tests {
    use super::*;
    use slavotuk_model::module::PLACES;

    fn names() -> Vec<Name> {
        (0..PLACES as u8).map(|row| [row; NAME_LENGTH]).collect()
    }

    #[test]
    fn what_is_drawn_is_an_image() {
        let mut random = Random::new(1);
        for rows in 0..=12 {
            let drawn = draw(0x81, &names()[..rows], &mut random);
            for (image, at) in [(old(&drawn), OLD_ROWS_AT), (drawn, ROWS_AT)] {
                assert_eq!(super::rows(&image), rows);
                assert!(image::read(&image).is_ok());
                let shorter = rows.checked_sub(1).map(|rows| at + ROW_LENGTH * rows);
                assert_eq!(without_row(&image, 0).map(|image| image.len()), shorter);
            }
        }
    }

    #[test]
    fn an_old_image_makes_the_module_of_its_new_one() {
        let drawn = draw(0x81, &names(), &mut Random::new(1));
        let mut renewed = renewed(&old(&drawn));
        assert_eq!(image::read(&old(&drawn)), image::read(&renewed));
        assert_ne!(renewed, drawn);
        renewed[SECONDS_AT..ROWS_AT].copy_from_slice(&drawn[SECONDS_AT..ROWS_AT]);
        assert_eq!(renewed, drawn);
    }

    #[test]
    fn damage_makes_images_and_others() {
        let mut random = Random::new(1);
        let mut accepted = [0, 0];
        for _ in 0..2_000 {
            let mut image = draw(0x0f, &names()[..3], &mut random);
            if random.percent(50) {
                image = old(&image);
            }
            damage(&mut image, 1, &mut random);
            if image::read(&image).is_ok() {
                accepted[usize::from(is_old(&image))] += 1;
            }
        }
        let in_both = accepted.iter().all(|times| (200..800).contains(times));
        assert!(in_both, "{accepted:?}");
    }
}
