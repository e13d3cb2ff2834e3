//! Drawers on both sides of each bound.

use crate::figures_drawers::{
    every_row_count, example, image_of, image_with, in_both_layouts, piece, with_length, with_rows,
    LONGEST_PIECE, MOST_IMAGES,
};
use crate::figures_trial::{Setting, Trial};
use crate::images::{self, put, row_in};
use slavotuk::layout::image::NEXT;
use slavotuk_model::figures::figures;
use slavotuk_model::image::{HEAD_LENGTH, LONGEST, OLD_HEAD_LENGTH, ROW_LENGTH};
use slavotuk_model::module::{Credential, CREDENTIALS, PLACES, SPENT};

/// What document 02 says itself: the model has to print that too.
pub fn known(setting: &Setting) -> Result<String, String> {
    let mut trial = Trial::new(setting, "known");
    let [old, new] = in_both_layouts(&example()).map(|image| piece(&image));
    for (which, drawer, text) in [
        ("the document's example", new, "0 5 0\ntotal 1 0 5\n"),
        ("the same in the old layout", old, "0 5 0\ntotal 1 0 5\n"),
        ("an empty drawer", vec![], "total 0 0 0\n"),
    ] {
        let model = figures(&drawer);
        if model != text {
            return Err(format!("{which}: the model prints {model:?}, not {text:?}"));
        }
        trial.drawer(which, &drawer)?;
    }
    Ok(trial.counted("the document's example in both layouts, and an empty drawer"))
}

pub fn lone_bytes(setting: &Setting) -> Result<String, String> {
    let mut trial = Trial::new(setting, "lone");
    for before in [vec![], piece(&example()), every_row_count(), piece(&[])] {
        for byte in [0, 1, 42, 74, 255] {
            let which = format!("a lone {byte} after {} bytes", before.len());
            trial.drawer(which, &[&before[..], &[byte]].concat())?;
        }
    }
    Ok(trial.counted("a lone last byte, alone and after images"))
}

/// Each with an image after it, and cut off in front of its last byte, behind its length, and in its length.
pub fn lengths(setting: &Setting) -> Result<String, String> {
    let mut lengths = vec![0, 1, LONGEST + 2, LONGEST_PIECE];
    for head in [OLD_HEAD_LENGTH, HEAD_LENGTH] {
        for rows in [0, 1, PLACES] {
            let bound = head + ROW_LENGTH * rows;
            lengths.extend([bound - 1, bound, bound + 1]);
        }
    }
    let mut trial = Trial::new(setting, "lengths");
    for length in lengths {
        for image in nearest(length) {
            let piece = piece(&fitted(&image, length));
            let which = format!("length {length}, an image of {} fitted to it", image.len());
            let whole = [every_row_count(), piece.clone(), every_row_count()].concat();
            trial.drawer(&which, &whole)?;
            let lefts = [1, 2, 3, piece.len() - 1];
            for left in lefts.into_iter().filter(|left| *left < piece.len()) {
                let cut_off = [every_row_count(), piece[..left].to_vec()];
                let which = format!("{which}, after {left} bytes of it the end");
                trial.drawer(which, &cut_off.concat())?;
            }
        }
    }
    Ok(trial.counted("lengths of no row, one row and twelve in both layouts and their neighbours, 0, 1 and 65,535, whole and cut off"))
}

/// The images that are just not longer than this and just longer, of both layouts.
fn nearest(length: usize) -> Vec<Vec<u8>> {
    let rows = length.saturating_sub(HEAD_LENGTH) / ROW_LENGTH;
    let counts = [rows, rows + 1].map(|rows| rows.min(PLACES));
    let images = counts.map(|rows| in_both_layouts(&with_rows(rows)));
    images.concat()
}

/// The image cut to this length, or made longer.
fn fitted(image: &[u8], length: usize) -> Vec<u8> {
    let mut fitted = image.to_vec();
    fitted.resize(length, 0);
    fitted
}

/// An image cut off at each of its bytes, and bytes that are an image where more are said.
pub fn cut_off(setting: &Setting) -> Result<String, String> {
    let mut trial = Trial::new(setting, "cut-off");
    for image in [0, 2]
        .map(|rows| in_both_layouts(&with_rows(rows)))
        .concat()
    {
        let image = piece(&image);
        for left in 1..image.len() {
            let drawer = [piece(&example()), image[..left].to_vec()].concat();
            trial.drawer(format!("{left} bytes of {}", image.len()), &drawer)?;
        }
    }
    for image in (0..=PLACES).flat_map(|rows| in_both_layouts(&with_rows(rows))) {
        let next_row = image.len() + ROW_LENGTH;
        for length in [image.len() + 1, next_row, LONGEST + 1, LONGEST_PIECE] {
            let drawer = [piece(&example()), with_length(length, &image)].concat();
            trial.drawer(format!("{} after length {length}", image.len()), &drawer)?;
        }
    }
    Ok(trial
        .counted("images cut off at each byte, and where more bytes are said than a good one has"))
}

/// What is skipped is full of images: none of them is told of.
pub fn skipped(setting: &Setting) -> Result<String, String> {
    let mut trial = Trial::new(setting, "skipped");
    let both = in_both_layouts(&example()).map(|image| piece(&image));
    let images = both.concat().repeat(LONGEST_PIECE / HEAD_LENGTH);
    let lengths = [
        LONGEST + 1,
        LONGEST + 2,
        LONGEST + 1 + ROW_LENGTH,
        4_095,
        4_096,
        4_097,
        65_534,
        LONGEST_PIECE,
    ];
    for length in lengths {
        // what is skipped begins with an image, or somewhere in one
        for from in [0, 1, 2, 10, 43] {
            let long = piece(&images[from..from + length]);
            let drawer = [
                &long,
                &piece(&with_rows(3))[..],
                &long,
                &piece(&with_rows(12)),
            ]
            .concat();
            trial.drawer(format!("length {length}"), &drawer)?;
        }
    }
    Ok(trial.counted("good images after lengths of one more than the longest to 65,535"))
}

/// Exactly as many images as are told of, the last one of every kind.
pub fn up_to_the_limit(setting: &Setting) -> Result<String, String> {
    let mut trial = Trial::new(setting, "limit");
    let good = piece(&with_rows(1));
    let lasts = [
        ("a good one", &good[..]),
        ("one without a byte", &[0, 0]),
        ("one cut off", &good[..50]),
        ("a length", &good[..2]),
        ("a lone byte", &good[..1]),
    ];
    for (kind, images) in many_images(MOST_IMAGES - 1) {
        for (last, bytes) in lasts {
            let which = format!("4095 {kind} and {last}");
            trial.drawer(which, &[&images[..], bytes].concat())?;
        }
    }
    for (kind, images) in many_images(MOST_IMAGES) {
        trial.drawer(format!("4096 {kind}"), &images)?;
    }
    Ok(trial.counted("4,096 images, good, bad, mixed and with the largest figures, and the last one cut off or a lone byte"))
}

/// One image more, of every kind, and many more. Nothing is read past the one, so where it is whole the end is not waited for.
pub fn past_the_limit(setting: &Setting) -> Result<String, String> {
    let mut trial = Trial::new(setting, "past-limit");
    let good = piece(&with_rows(1));
    let whole = [
        ("a good one", good.clone()),
        ("a damaged one", piece(&[7; HEAD_LENGTH])),
        ("one without a byte", piece(&[])),
        ("904 good ones", good.repeat(904)),
    ];
    let short = [
        ("one cut off", good[..50].to_vec()),
        ("a length", good[..2].to_vec()),
        ("a long length", with_length(LONGEST_PIECE, &[])),
        ("a lone byte", good[..1].to_vec()),
    ];
    for (kind, images) in many_images(MOST_IMAGES) {
        for (more, bytes) in whole.iter().chain(&short) {
            let drawer = [&images[..], bytes].concat();
            trial.drawer(format!("4096 {kind} and {more}"), &drawer)?;
        }
        for (more, bytes) in &whole {
            let drawer = [&images[..], bytes].concat();
            trial.held_open(format!("4096 {kind} and {more}"), &drawer)?;
        }
    }
    Ok(trial.counted("4,096 images and more: a whole one, a bad one, one cut off, a lone byte, 904 others; the end is not waited for"))
}

/// So many images of each kind.
fn many_images(count: usize) -> [(&'static str, Vec<u8>); 5] {
    let good = piece(&with_rows(1));
    let (empty, damaged) = (piece(&[]), piece(&[7; HEAD_LENGTH]));
    let full = piece(&image_of(&[u32::MAX; CREDENTIALS], &[SPENT; PLACES]));
    let old = piece(&images::old(&with_rows(1)));
    let by_turns = [&good, &empty, &old, &damaged].into_iter().cycle();
    let mixed: Vec<&[u8]> = by_turns.take(count).map(Vec::as_slice).collect();
    [
        ("mixed", mixed.concat()),
        ("good", good.repeat(count)),
        ("without a byte", empty.repeat(count)),
        ("damaged", damaged.repeat(count)),
        ("with the largest figures", full.repeat(count)),
    ]
}

/// Every class by itself, of every credential, beside words that are zero, not provisioned or full, under second words that have it, have the others, or are zero.
pub fn classes(setting: &Setting) -> Result<String, String> {
    let mut trial = Trial::new(setting, "classes");
    for (which, others) in [
        ("none provisioned", Credential::UNPROVISIONED),
        ("zero", Credential::with(0, 0)),
        ("zero, second words full", Credential::with(0, u32::MAX)),
        ("full", Credential::with(u32::MAX, 0)),
        (
            "full, second words too",
            Credential::with(u32::MAX, u32::MAX),
        ),
    ] {
        let mut drawer = Vec::new();
        for (credential, class) in every_class() {
            for second in [0, 1 << class, !(1 << class)] {
                let mut credentials = [others; CREDENTIALS];
                credentials[credential] = Credential::with(1 << class, second);
                let image = image_with(credentials, &[]);
                drawer.extend(in_both_layouts(&image).map(|image| piece(&image)).concat());
            }
        }
        let which = format!("every class alone, the other words {which}");
        trial.drawer(which, &drawer)?;
    }
    let full = (0..=CREDENTIALS).map(|count| image_of(&[u32::MAX; CREDENTIALS][..count], &[]));
    let full: Vec<u8> = full.flat_map(|image| piece(&image)).collect();
    trial.drawer("words that are full", &full)?;
    Ok(trial.counted("each of 32 classes of each of 8 credentials alone, with second words and in the old layout, and up to 256 classes"))
}

/// Every class of every credential.
fn every_class() -> impl Iterator<Item = (usize, u32)> {
    (0..CREDENTIALS).flat_map(|credential| (0..32).map(move |class| (credential, class)))
}

/// The largest number at each row of images of each row count.
pub fn largest(setting: &Setting) -> Result<String, String> {
    let mut trial = Trial::new(setting, "largest");
    for (most, others) in [
        (1, 1),
        (2, 1),
        (256, 255),
        (SPENT, SPENT - 1),
        (SPENT, 1),
        (SPENT, SPENT),
    ] {
        let mut drawer = Vec::new();
        for rows in 1..=PLACES {
            for row in 0..rows {
                let mut numbers = vec![others; rows];
                numbers[row] = most;
                let both = in_both_layouts(&image_of(&[0], &numbers));
                drawer.extend(both.map(|image| piece(&image)).concat());
            }
        }
        trial.drawer(format!("number {most} among {others}"), &drawer)?;
    }
    Ok(trial.counted("the largest number at each row of 1 to 12, from 1 to 65,535"))
}

/// Every next number there is, 0 too.
pub fn every_number(setting: &Setting) -> Result<String, String> {
    let mut trial = Trial::new(setting, "numbers");
    for image in in_both_layouts(&with_rows(1)) {
        let numbered = |number| {
            let mut image = image.clone();
            let at = row_in(&image, 0) + NEXT;
            put(&mut image, at, number);
            image
        };
        let images: Vec<Vec<u8>> = (0..=u16::MAX).map(numbered).collect();
        all(&mut trial, "next numbers", &images)?;
    }
    Ok(trial.counted("every next number from 0 to 65,535, in both layouts"))
}

/// Every byte of an image of two rows at every value.
pub fn every_byte(setting: &Setting) -> Result<String, String> {
    let mut trial = Trial::new(setting, "bytes");
    let mut images = Vec::new();
    for image in in_both_layouts(&with_rows(2)) {
        for at in 0..image.len() {
            for value in 0..=255 {
                let mut changed = image.clone();
                changed[at] = value;
                images.push(changed);
            }
        }
    }
    all(&mut trial, "a byte of an image changed", &images)?;
    Ok(trial.counted("every byte of an image of two rows at every value, in both layouts"))
}

/// Images cut, and made longer.
pub fn every_length(setting: &Setting) -> Result<String, String> {
    let mut trial = Trial::new(setting, "every-length");
    for rows in [0, 1, 2, PLACES] {
        for image in in_both_layouts(&with_rows(rows)) {
            let fitted = |length| fitted(&image, length);
            let images: Vec<Vec<u8>> = (0..=LONGEST + ROW_LENGTH).map(fitted).collect();
            all(&mut trial, &format!("an image of {rows} rows"), &images)?;
        }
    }
    Ok(
        trial
            .counted("images of 0, 1, 2 and 12 rows in both layouts at every length from 0 to 750"),
    )
}

/// Drawers with all of these images.
fn all(trial: &mut Trial, which: &str, images: &[Vec<u8>]) -> Result<(), String> {
    for (at, images) in images.chunks(MOST_IMAGES).enumerate() {
        let pieces: Vec<Vec<u8>> = images.iter().map(|image| piece(image)).collect();
        trial.drawer(format!("{which}, drawer {at}"), &pieces.concat())?;
    }
    Ok(())
}
