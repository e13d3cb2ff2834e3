//! Images of both layouts on both sides of each bound. An accepted one is written again and has to be the same bytes, those of the new layout where it has the old
//! one; after a refusal the slice has to hold what it held.

use crate::call::{Bytes, Call};
use crate::images::{self, names, put, row_in};
use crate::random::Random;
use crate::report::Report;
use crate::sides::Pair;
use slavotuk::layout::image::{
    row_at, MASK_AT, NEXT, OLD_ROWS_AT, ROWS_AT, ROWS_OFFSET_AT, ROW_COUNT_AT, WORDS_OFFSET_AT,
    WORD_COUNT_AT,
};
use slavotuk_model::image::{self, LONGEST, ROW_LENGTH};
use slavotuk_model::layout::{self, STATE_LENGTH};
use slavotuk_model::module::{Module, PLACES};
use std::thread;

/// An image of one row more than there are places.
const LENGTHS: usize = LONGEST + ROW_LENGTH;

/// How often an image's fields are damaged.
const DAMAGED: usize = 200_000;

/// Offsets of rows: those of the layouts, and others that are not far.
const OFFSETS: [u16; 12] = [0, 10, 41, 42, 43, 73, 74, 75, 94, 126, 0x2a00, u16::MAX];

type Part = fn(&mut Tried, &[Image]) -> Result<String, String>;

const PARTS: [Part; 7] = [
    every_byte,
    every_number,
    every_length,
    every_offset,
    damaged_fields,
    every_room,
    every_slice,
];

/// An image with its name.
struct Image {
    name: String,
    bytes: Vec<u8>,
}

/// All of it, the parts beside each other.
pub fn test(seed: u64, report: &mut Report) {
    let images = images(&mut Random::new(seed));
    let images = images.as_slice();
    let outcomes = thread::scope(|scope| {
        let begun = PARTS.map(|part| scope.spawn(move || part(&mut Tried::new(seed), images)));
        begun.map(|part| part.join().expect("a part ends"))
    });
    for outcome in outcomes {
        report.judge(outcome);
    }
}

/// Some damage to the module's image.
pub fn soak(module: &Module, seed: u64) -> Result<u64, String> {
    let mut tried = Tried::new(seed);
    let image = image::write(module);
    for _ in 0..500 {
        tried.damaged(&image)?;
    }
    Ok(tried.accepted + tried.refused)
}

/// Each in both layouts.
fn images(random: &mut Random) -> Vec<Image> {
    let names = names(PLACES, random);
    let mut images = Vec::new();
    for (name, mask, rows) in [
        ("no credential, no row", 0, 0),
        ("all credentials, no row", 0xff, 0),
        ("one row", 0x03, 1),
        ("three rows", 0x94, 3),
        ("twelve rows", 0x6b, 12),
        ("all credentials, twelve rows", 0xff, 12),
    ] {
        let bytes = images::draw(mask, &names[..rows], random);
        images.push(Image {
            name: format!("{name}, old layout"),
            bytes: images::old(&bytes),
        });
        let name = name.to_string();
        images.push(Image { name, bytes });
    }
    images
}

/// Those of one layout.
fn of_layout(images: &[Image], old: bool) -> Vec<&Image> {
    let of_it = |image: &&Image| images::is_old(&image.bytes) == old;
    images.iter().filter(of_it).collect()
}

/// The trial of images.
struct Tried {
    random: Random,
    /// What they are restored into: states, and slices that hold none.
    slices: Vec<Vec<u8>>,
    accepted: u64,
    refused: u64,
}

impl Tried {
    fn new(seed: u64) -> Tried {
        let mut random = Random::new(!seed);
        let slices = vec![
            layout::example(),
            vec![0; STATE_LENGTH],
            random.bytes(STATE_LENGTH),
        ];
        Tried {
            random,
            slices,
            accepted: 0,
            refused: 0,
        }
    }

    /// Restores the image on both sides and writes it again. Tells whether it was accepted.
    fn image(&mut self, image: &[u8]) -> Result<bool, String> {
        let at = self.random.below(self.slices.len());
        let lent = &self.slices[at];
        let mut pair = Pair::of(lent);
        let restore = Call::Restore {
            image: image.to_vec(),
        };
        let outcome = pair.call(&restore);
        let number = outcome.map_err(|what| format!("{restore}: {what}"))?.number;
        match number {
            0 => self.accepted += 1,
            _ => self.refused += 1,
        }
        if number == 0 {
            self.written_again(&mut pair, image)?;
        } else if pair.archive.state() != lent {
            return Err(format!("{restore}: {number}, but the slice changed"));
        }
        Ok(number == 0)
    }

    fn written_again(&mut self, pair: &mut Pair, image: &[u8]) -> Result<(), String> {
        let renewed = images::renewed(image);
        let room = renewed.len() + self.random.below(3);
        match self.written(pair, room)? {
            (0, written) if written == renewed => Ok(()),
            (number, written) => Err(format!(
                "{} is accepted, and written again {number} with {}",
                Bytes(image),
                Bytes(&written)
            )),
        }
    }

    /// Writes an image into a buffer of so many bytes: the number, and as many bytes as were told.
    fn written(&mut self, pair: &mut Pair, room: usize) -> Result<(u32, Vec<u8>), String> {
        let call = Call::Image {
            image: self.random.bytes(room).into(),
            length: self.random.next() as usize,
        };
        let answer = pair.call(&call).map_err(|what| format!("{call}: {what}"))?;
        match &answer.made {
            Call::Image { image, length } if *length <= room => {
                Ok((answer.number, image.as_ref()[..*length].to_vec()))
            }
            _ => Err(format!("{call}: both answer {answer}")),
        }
    }

    /// The same, and whether it is accepted has to be as expected.
    fn expect(&mut self, image: &[u8], good: bool) -> Result<(), String> {
        match self.image(image)? == good {
            true => Ok(()),
            false => Err(format!("accepted: {}, right: {good}", !good)),
        }
    }

    /// The number that stands there at every value, of which so many are good.
    fn every_value(&mut self, image: &[u8], at: usize, good: u64) -> Result<(), String> {
        let before = self.accepted;
        let mut changed = image.to_vec();
        for value in 0..=u16::MAX {
            put(&mut changed, at, value);
            let outcome = self.image(&changed);
            outcome.map_err(|what| format!("at {value}: {what}"))?;
        }
        match self.accepted - before {
            accepted if accepted == good => Ok(()),
            accepted => Err(format!("{accepted} accepted, {good} are good")),
        }
    }

    /// With each count of its rows, which stand there, and cut to every length.
    fn every_count(&mut self, rows: &mut [u8], rows_at: usize) -> Result<(), String> {
        for count in 0..=PLACES + 1 {
            put(rows, ROW_COUNT_AT, count as u16);
            let whole = rows_at + ROW_LENGTH * count;
            for length in 0..=rows.len() {
                let image = &rows[..length];
                let outcome = match images::offset(rows) {
                    offset if offset == rows_at => {
                        self.expect(image, count <= PLACES && length == whole)
                    }
                    // the other layout: it finds words and rows in these bytes, or not
                    OLD_ROWS_AT | ROWS_AT => self.image(image).map(|_| ()),
                    _ => self.expect(image, false),
                };
                outcome.map_err(|what| format!("{count} rows at length {length}: {what}"))?;
            }
        }
        Ok(())
    }

    fn damaged(&mut self, image: &[u8]) -> Result<bool, String> {
        let fields = 1 + self.random.below(4);
        let mut damaged = image.to_vec();
        images::damage(&mut damaged, fields, &mut self.random);
        self.image(&damaged)
    }

    /// The line of a part.
    fn counted(&self, what: &str) -> Result<String, String> {
        let (accepted, refused) = (self.accepted, self.refused);
        let drawn = accepted + refused;
        let line = format!("{what}: {drawn} images, {accepted} accepted, {refused} refused");
        match accepted.min(refused) {
            0 => Err(line),
            _ => Ok(line),
        }
    }
}

fn every_byte(tried: &mut Tried, images: &[Image]) -> Result<String, String> {
    for Image { name, bytes } in images {
        for at in 0..bytes.len() {
            let mut changed = bytes.clone();
            for value in 0..=255 {
                changed[at] = value;
                let outcome = tried.image(&changed);
                outcome.map_err(|what| format!("byte {at} of '{name}' at {value:#04x}: {what}"))?;
            }
        }
    }
    let count = images.len();
    tried.counted(&format!("every byte of {count} images at every value"))
}

/// The numbers of two bytes at every value, each with how many are good by document 02.
fn every_number(tried: &mut Tried, images: &[Image]) -> Result<String, String> {
    let mut count = 0;
    for old in [true, false] {
        let [none, _, _, three, ..] = of_layout(images, old)[..] else {
            return Err("an image is missing".to_string());
        };
        let last = row_in(&three.bytes, images::rows(&three.bytes) - 1);
        let owners = three.bytes[MASK_AT].count_ones().into();
        for (number, image, at, good) in [
            ("mask", none, MASK_AT, 256),
            ("count of words", three, WORD_COUNT_AT, 1),
            ("offset of words", three, WORDS_OFFSET_AT, 1),
            ("count of rows", three, ROW_COUNT_AT, 1),
            ("offset of rows", three, ROWS_OFFSET_AT, 1),
            ("credential", three, last, owners),
            ("next number", three, last + NEXT, 65_535),
        ] {
            let outcome = tried.every_value(&image.bytes, at, good);
            outcome.map_err(|what| format!("{number} of '{}': {what}", image.name))?;
            count += 1;
        }
    }
    tried.counted(&format!("{count} numbers of an image at every value"))
}

/// Cut, and made longer with zeros and with random bytes.
fn every_length(tried: &mut Tried, images: &[Image]) -> Result<String, String> {
    for Image { name, bytes } in images {
        for length in 0..=LENGTHS {
            let mut zeros = bytes.clone();
            zeros.resize(length, 0);
            let mut drawn = [bytes.clone(), tried.random.bytes(LENGTHS)].concat();
            drawn.truncate(length);
            for image in [zeros, drawn] {
                let outcome = tried.expect(&image, length == bytes.len());
                outcome.map_err(|what| format!("'{name}' at length {length}: {what}"))?;
            }
        }
    }
    tried.counted(&format!("images of every length from 0 to {LENGTHS}"))
}

/// Thirteen good rows at the place that each layout has for them, under each offset.
fn every_offset(tried: &mut Tried, _: &[Image]) -> Result<String, String> {
    let names = names(PLACES + 1, &mut tried.random);
    let new = images::draw(0x5a, &names, &mut tried.random);
    for (mut rows, rows_at) in [(images::old(&new), OLD_ROWS_AT), (new, ROWS_AT)] {
        for offset in OFFSETS {
            put(&mut rows, ROWS_OFFSET_AT, offset);
            let outcome = tried.every_count(&mut rows, rows_at);
            outcome.map_err(|what| format!("rows at {rows_at}, offset {offset}: {what}"))?;
        }
    }
    let offsets = OFFSETS.len();
    tried.counted(&format!(
        "{offsets} offsets of rows, with rows of both layouts, counts of 0 to 13 and every length"
    ))
}

fn damaged_fields(tried: &mut Tried, images: &[Image]) -> Result<String, String> {
    for at in 0..DAMAGED {
        let Image { name, bytes } = &images[at % images.len()];
        let outcome = tried.damaged(bytes);
        outcome.map_err(|what| format!("damage to '{name}': {what}"))?;
    }
    tried.counted("damage to one to four fields of an image")
}

/// The writer with every length of the buffer, on states and on slices that hold none.
fn every_room(tried: &mut Tried, images: &[Image]) -> Result<String, String> {
    let mut slices = vec![
        (layout::example(), Some(row_at(1))),
        (vec![0xa5; STATE_LENGTH], None),
        (vec![0; STATE_LENGTH - 1], None),
    ];
    for Image { name, bytes } in images {
        let module = image::read(bytes).map_err(|number| format!("'{name}': {number:?}"))?;
        slices.push((layout::write(&module), Some(images::renewed(bytes).len())));
    }
    for (slice, length) in &slices {
        for room in 0..=LENGTHS {
            let (number, written) = tried.written(&mut Pair::of(slice), room)?;
            let told = (number, written.len());
            let right = match *length {
                None => (1, 0),
                Some(length) if room < length => (15, 0),
                Some(length) => (0, length),
            };
            if told != right {
                let slice = Bytes(slice);
                return Err(format!(
                    "a buffer of {room}: {told:?}, {right:?} is right; lent {slice}"
                ));
            }
        }
    }
    let (count, calls) = (slices.len(), slices.len() * (LENGTHS + 1));
    Ok(format!(
        "the image's writer with buffers of 0 to {LENGTHS}, {count} slices: {calls} calls"
    ))
}

/// The restorer with every length of the slice: 1 comes before 14.
fn every_slice(tried: &mut Tried, images: &[Image]) -> Result<String, String> {
    let (mut calls, mut accepted) = (0, 0);
    for length in 0..=2 * STATE_LENGTH {
        let lent = tried.random.bytes(length);
        let good = &images[length % images.len()].bytes;
        for (image, number) in [(good.clone(), 0), (good[1..].to_vec(), 14)] {
            let right = if length == STATE_LENGTH { number } else { 1 };
            let call = Call::Restore { image };
            let outcome = Pair::of(&lent).call(&call);
            let answer = outcome.map_err(|what| format!("{call} into {length}: {what}"))?;
            calls += 1;
            accepted += u64::from(answer.number == 0);
            if answer.number != right {
                return Err(format!("{call} into {length}: {answer}, {right} is right"));
            }
        }
    }
    Ok(format!(
        "the image's reader with slices of 0 to {}: {calls} calls, {accepted} accepted",
        2 * STATE_LENGTH
    ))
}
