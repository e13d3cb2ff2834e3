//! What drawers are made of.

use crate::images;
use slavotuk_model::image;
use slavotuk_model::module::{Credential, Kind, Module, Process, CREDENTIALS, NAME_LENGTH, PLACES};

/// This many images are told of: document 02's number, and not the model's.
pub const MOST_IMAGES: usize = 4_096;

/// The longest that a length can say.
pub const LONGEST_PIECE: usize = 65_535;

/// An image after its length.
pub fn piece(image: &[u8]) -> Vec<u8> {
    with_length(image.len(), image)
}

/// Bytes after a length, which need not be theirs.
pub fn with_length(length: usize, bytes: &[u8]) -> Vec<u8> {
    let length = u16::try_from(length).expect("a length has two bytes");
    [&length.to_le_bytes(), bytes].concat()
}

/// An image in which the credentials from 0 on are provisioned with these words, with a row for each of the numbers. Its second words have other classes: they
/// are not counted.
pub fn image_of(words: &[u32], numbers: &[u16]) -> Vec<u8> {
    let mut credentials = [Credential::UNPROVISIONED; CREDENTIALS];
    for (credential, word) in credentials.iter_mut().zip(words) {
        *credential = Credential::with(*word, 0x0700_0011);
    }
    image_with(credentials, numbers)
}

/// An image with these credentials, of which the first is provisioned where there are rows, and a row for each of the numbers.
pub fn image_with(credentials: [Credential; CREDENTIALS], numbers: &[u16]) -> Vec<u8> {
    let mut module = Module::fresh(credentials);
    for (row, next) in numbers.iter().enumerate() {
        module.processes.push(Process {
            credential: 0,
            kind: Kind::SavedUser { next: *next },
            name: [row as u8; NAME_LENGTH],
        });
    }
    image::write(&module)
}

/// The good image of document 02: no rows, words 15 and 16.
pub fn example() -> Vec<u8> {
    image_of(&[15, 16], &[])
}

/// An image in the old layout, and as it is.
pub fn in_both_layouts(image: &[u8]) -> [Vec<u8>; 2] {
    [images::old(image), image.to_vec()]
}

/// A good image of so many rows.
pub fn with_rows(rows: usize) -> Vec<u8> {
    let numbers: Vec<u16> = (1..=rows as u16).collect();
    image_of(&[0x8000_0001, 7], &numbers)
}

/// A drawer with the images of 0 to 12 rows, the layouts by turns.
pub fn every_row_count() -> Vec<u8> {
    let images = (0..=PLACES).flat_map(|rows| in_both_layouts(&with_rows(rows)));
    images.flat_map(|image| piece(&image)).collect()
}

#[cfg(test)]
mod tests {
    use super::*;
    use slavotuk_model::figures::figures;

    #[test]
    fn they_are_what_they_say() {
        for image in in_both_layouts(&example()) {
            assert_eq!(figures(&piece(&image)), "0 5 0\ntotal 1 0 5\n");
        }
        for rows in 0..=12 {
            for image in in_both_layouts(&with_rows(rows)) {
                let total = format!("{rows} 5 {rows}\ntotal 1 {rows} 5\n");
                assert_eq!(figures(&piece(&image)), total);
            }
        }
        let all = figures(&every_row_count());
        assert!(all.ends_with("12 5 12\n12 5 12\ntotal 26 156 130\n"));
        let cut_off = with_length(example().len() + 1, &example());
        assert_eq!(figures(&cut_off), "bad\ntotal 0 0 0\n");
    }
}
