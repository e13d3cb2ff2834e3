//! Damaged images on both sides of each bound, rescued.

use crate::call::{Answer, Call};
use crate::images::{self, names, put, row_in};
use crate::random::Random;
use crate::report::Report;
use crate::rescue_draw::draw;
use crate::rescue_tried::{Lost, Met, Tried};
use slavotuk::layout::image::{
    MASK_AT, NEXT, OLD_ROWS_AT, OWNER, ROWS_AT, ROWS_OFFSET_AT, ROW_COUNT_AT, ROW_LENGTH,
    WORDS_OFFSET_AT, WORD_COUNT_AT,
};
use slavotuk_model::image::{self, LONGEST};
use slavotuk_model::module::{Module, Name, PLACES};
use slavotuk_model::rescue_examples::{examples, x, y, Example, Parts};
use std::thread;

/// An image of one row more than there are places.
const LENGTHS: usize = LONGEST + ROW_LENGTH;

/// How many images with several damaged fields are drawn.
const DRAWN: usize = 200_000;

/// Where a length of 16 bits begins again.
const WRAP: usize = 65_536;

/// Offsets of rows: those of the layouts, and others that are not far.
const OFFSETS: [u16; 14] = [
    0, 10, 32, 41, 42, 43, 73, 74, 75, 94, 106, 126, 0x2a00, 0x4a00,
];

type Part = fn(&mut Tried, &[Image]) -> Result<String, String>;

const PARTS: [Part; 8] = [
    every_example,
    every_byte,
    every_number,
    every_length,
    every_count,
    every_offset,
    every_room,
    long_bytes,
];

/// An image with its name.
struct Image {
    name: &'static str,
    bytes: Vec<u8>,
}

/// All of it, the parts beside each other.
pub fn test(seed: u64, report: &mut Report) {
    let images = images(&mut Random::new(seed));
    let images = images.as_slice();
    let (outcomes, drawn) = thread::scope(|scope| {
        let begun = PARTS.map(|part| scope.spawn(move || part(&mut Tried::new(seed), images)));
        let drawn = scope.spawn(move || damaged_fields(seed));
        let outcomes = begun.map(|part| part.join().expect("a part ends"));
        (outcomes, drawn.join().expect("a part ends"))
    });
    for outcome in outcomes.into_iter().chain(drawn) {
        report.judge(outcome);
    }
}

/// Some damage to the module's image, in both layouts.
pub fn soak(module: &Module, seed: u64) -> Result<u64, String> {
    let mut tried = Tried::new(seed);
    let image = image::write(module);
    for at in 0..500 {
        let mut damaged = match at % 2 {
            0 => image.clone(),
            _ => images::old(&image),
        };
        let fields = 1 + tried.random.below(4);
        images::damage(&mut damaged, fields, &mut tried.random);
        tried.rescue(&damaged, LONGEST)?;
    }
    let Met {
        rescued, unusable, ..
    } = tried.met;
    Ok(rescued + unusable)
}

/// Without rows, with two and with twelve, each in both layouts.
fn images(random: &mut Random) -> Vec<Image> {
    let empty = images::draw(0x94, &[], random);
    let twelve = images::draw(0x6b, &names(PLACES, random), random);
    let image = |name, bytes| Image { name, bytes };
    vec![
        image("X", x().bytes()),
        image("Y", y().bytes()),
        image("no rows, old layout", images::old(&empty)),
        image("no rows", empty),
        image("twelve rows, old layout", images::old(&twelve)),
        image("twelve rows", twelve),
    ]
}

/// Those of the table that was worked out by hand.
fn every_example(tried: &mut Tried, _: &[Image]) -> Result<String, String> {
    let examples = examples();
    for example in &examples {
        let outcome = tried.rescue(&example.bytes, example.room);
        let outcome = outcome.and_then(|answer| is_right(example, &answer));
        outcome.map_err(|what| format!("{}: {what}", example.name))?;
    }
    tried.counted(&format!("{} known images", examples.len()))
}

fn is_right(example: &Example, answer: &Answer) -> Result<(), String> {
    let Call::Rescue {
        image,
        length,
        cleared,
        kept,
        dropped,
        ..
    } = &answer.made
    else {
        return Err("another call was answered".to_string());
    };
    let right = match &example.right {
        Err(number) => answer.number == *number && *length == 0,
        Ok(right) => {
            (answer.number, &image.as_ref()[..*length]) == (0, &right.image)
                && (*cleared, *kept, *dropped) == right.report()
        }
    };
    match right {
        true => Ok(()),
        false => Err(format!("both answer {answer}, right: {:?}", example.right)),
    }
}

fn every_byte(tried: &mut Tried, images: &[Image]) -> Result<String, String> {
    for Image { name, bytes } in images {
        for at in 0..bytes.len() {
            let mut changed = bytes.clone();
            for value in 0..=255 {
                changed[at] = value;
                let outcome = tried.rescue(&changed, LONGEST);
                outcome.map_err(|what| format!("byte {at} of '{name}' at {value:#04x}: {what}"))?;
            }
        }
    }
    tried.counted(&format!(
        "every byte of {} images at every value",
        images.len()
    ))
}

/// The numbers of two bytes at every value. By document 02 so many of these are answered 0, and so many rows are kept.
fn every_number(tried: &mut Tried, images: &[Image]) -> Result<String, String> {
    let mut count = 0;
    for Image { name, bytes } in &images[..2] {
        let row = row_in(bytes, 1);
        // masks keep a row for each of credentials 0 and 1 in half of all; the other layout finds no row in these bytes
        for (number, at, rescued, kept) in [
            ("mask", MASK_AT, 256, 256),
            ("count of words", WORD_COUNT_AT, 1, 2),
            ("offset of words", WORDS_OFFSET_AT, 1, 2),
            ("offset of rows", ROWS_OFFSET_AT, 2, 2),
            ("credential", row + OWNER, 65_536, 65_536 + 2),
            ("next number", row + NEXT, 65_536, 65_536 + 65_535),
        ] {
            let outcome = every_value(tried, bytes, at, [rescued, kept]);
            outcome.map_err(|what| format!("{number} of '{name}': {what}"))?;
            count += 1;
        }
    }
    tried.counted(&format!("{count} numbers of two images at every value"))
}

fn every_value(tried: &mut Tried, bytes: &[u8], at: usize, right: [u64; 2]) -> Result<(), String> {
    let before = tried.met;
    let mut changed = bytes.to_vec();
    for value in 0..=u16::MAX {
        put(&mut changed, at, value);
        let outcome = tried.rescue(&changed, LONGEST);
        outcome.map_err(|what| format!("at {value}: {what}"))?;
    }
    let told = [
        tried.met.rescued - before.rescued,
        tried.met.kept - before.kept,
    ];
    match told == right {
        true => Ok(()),
        false => Err(format!(
            "answered 0 and rows kept: {told:?}, right: {right:?}"
        )),
    }
}

/// Cut, and made longer with zeros, with random bytes and with rows that would be good ones.
fn every_length(tried: &mut Tried, images: &[Image]) -> Result<String, String> {
    let names = names(LENGTHS / ROW_LENGTH + 1, &mut tried.random);
    for Image { name, bytes } in images {
        let tails = [
            vec![0; LENGTHS],
            tried.random.bytes(LENGTHS),
            other_rows(&names, bytes),
        ];
        for tail in tails {
            let longer = [bytes.as_slice(), &tail].concat();
            for length in 0..=LENGTHS {
                let outcome = good_rows_at(tried, &longer[..length], images::offset(bytes));
                outcome.map_err(|what| format!("'{name}' at length {length}: {what}"))?;
            }
        }
    }
    tried.counted(&format!(
        "{} images at every length from 0 to {LENGTHS}",
        images.len()
    ))
}

/// Rows with these names that would be good ones in the image.
fn other_rows(names: &[Name], image: &[u8]) -> Vec<u8> {
    let owner = image[MASK_AT].trailing_zeros() as u16;
    let rows: Vec<_> = names.iter().map(|name| (owner, 1, *name)).collect();
    let image = Parts::empty(0, [0; 8], None).with_rows(&rows);
    image.bytes()[OLD_ROWS_AT..].to_vec()
}

fn every_count(tried: &mut Tried, images: &[Image]) -> Result<String, String> {
    for Image { name, bytes } in images {
        let mut counted = bytes.clone();
        for count in 0..=u16::MAX {
            put(&mut counted, ROW_COUNT_AT, count);
            let outcome = good_rows_at(tried, &counted, images::offset(bytes));
            outcome.map_err(|what| format!("'{name}' with count {count}: {what}"))?;
        }
    }
    tried.counted(&format!("{} images with every count of rows", images.len()))
}

/// Thirteen good rows at the place that each layout has for them, under each offset, with counts about the twelve and lengths about each row.
fn every_offset(tried: &mut Tried, _: &[Image]) -> Result<String, String> {
    let names = names(PLACES + 1, &mut tried.random);
    let new = images::draw(0x5a, &names, &mut tried.random);
    for (mut rows, rows_at) in [(images::old(&new), OLD_ROWS_AT), (new, ROWS_AT)] {
        for offset in OFFSETS {
            put(&mut rows, ROWS_OFFSET_AT, offset);
            for count in (0..=PLACES as u16 + 2).chain([255, 256, 256 + 12, u16::MAX]) {
                put(&mut rows, ROW_COUNT_AT, count);
                for place in 0..=PLACES + 1 {
                    let end = rows_at + ROW_LENGTH * place;
                    for length in (end - 1..end + 2).filter(|length| *length <= rows.len()) {
                        let outcome = good_rows_at(tried, &rows[..length], rows_at);
                        outcome.map_err(|what| {
                            format!("rows at {rows_at}, offset {offset}, count {count}, length {length}: {what}")
                        })?;
                    }
                }
            }
        }
    }
    let offsets = OFFSETS.len();
    tried.counted(&format!(
        "{offsets} offsets of rows, with rows of both layouts, 19 counts and lengths about each row"
    ))
}

/// A good image but for its count of rows, its offset of rows and its length, whose rows begin there: as many are kept as are whole and stated.
fn good_rows_at(tried: &mut Tried, bytes: &[u8], rows_at: usize) -> Result<(), String> {
    let (offset, stated) = (images::offset(bytes), images::stated(bytes));
    let is_layout = offset == OLD_ROWS_AT || offset == ROWS_AT;
    let usable = is_layout && bytes.len() >= offset && stated <= PLACES;
    let before = tried.met.kept;
    tried.expect(bytes, LONGEST, if usable { 0 } else { 14 })?;
    let kept = tried.met.kept - before;
    let right = stated.min(images::rows(bytes)) as u64;
    match usable && offset == rows_at && kept != right {
        true => Err(format!("{kept} rows kept, right: {right}")),
        false => Ok(()),
    }
}

/// Several damaged fields at once. A difference is told with the seed that draws the image, and shrunk.
fn damaged_fields(seed: u64) -> Vec<Result<String, String>> {
    let (mut tried, mut lost) = (Tried::new(seed), Lost::default());
    for _ in 0..DRAWN {
        let seed = tried.random.next();
        let mut random = Random::new(seed);
        let bytes = draw(&mut random);
        let room = match random.percent(90) {
            true => LONGEST,
            false => random.below(bytes.len() + 1),
        };
        lost.note(&bytes);
        if let Err(what) = tried.rescue(&bytes, room) {
            let shrunk = shrunk(bytes, room, &what);
            return vec![Err(format!(
                "several damaged fields, seed {seed}: {what}\n  shrunk: {shrunk}"
            ))];
        }
    }
    vec![
        tried.counted("several damaged fields of an image"),
        lost.judge(&tried.met),
    ]
}

/// What is wrong with bytes that are as plain as they get while something is.
fn shrunk(bytes: Vec<u8>, room: usize, what: &str) -> String {
    let (mut bytes, mut what) = (bytes, what.to_string());
    let still_wrong = |tried: Vec<u8>| {
        let wrong = Tried::new(0).rescue(&tried, room).err()?;
        Some((tried, wrong))
    };
    while let Some(found) = images::plainer(&bytes).into_iter().find_map(still_wrong) {
        (bytes, what) = found;
    }
    what
}

/// Every length of the buffer: of good images, of others that get shorter, and of some of which nothing is rescued.
fn every_room(tried: &mut Tried, images: &[Image]) -> Result<String, String> {
    let mut inputs: Vec<(Vec<u8>, Option<usize>)> = Vec::new();
    for Image { bytes, .. } in images {
        let rows_at = images::offset(bytes);
        let mut unprovisioned = bytes.clone();
        put(&mut unprovisioned, MASK_AT, 0);
        let mut stated = bytes.clone();
        put(&mut stated, ROW_COUNT_AT, PLACES as u16);
        let mut none = bytes.clone();
        put(&mut none, ROW_COUNT_AT, 0);
        let mut too_many = bytes.clone();
        put(&mut too_many, ROW_COUNT_AT, PLACES as u16 + 1);
        inputs.extend([
            (bytes.clone(), Some(bytes.len())),
            (
                [bytes.as_slice(), &[0; ROW_LENGTH]].concat(),
                Some(bytes.len()),
            ),
            (unprovisioned, Some(rows_at)),
            (stated, Some(bytes.len())),
            (none, Some(rows_at)),
            (too_many, None),
        ]);
    }
    for (bytes, length) in &inputs {
        for room in 0..=LENGTHS {
            let right = match length {
                None => 14,
                Some(length) if room < *length => 15,
                Some(_) => 0,
            };
            tried.expect(bytes, room, right)?;
        }
    }
    tried.counted(&format!(
        "{} inputs into buffers of 0 to {LENGTHS}",
        inputs.len()
    ))
}

/// Lengths about 65,536, and those that would be an image's, or too short, in 16 bits.
fn long_bytes(tried: &mut Tried, images: &[Image]) -> Result<String, String> {
    let bounds = [9, 10, 41, 42, 73, 74, 93, 94, 145, 146, 177, 178, 666, 698];
    let lengths = [WRAP - 1, WRAP, WRAP + 1].into_iter();
    let lengths: Vec<usize> = lengths.chain(bounds.map(|more| WRAP + more)).collect();
    let names = names(PLACES, &mut tried.random);
    for Image { name, bytes } in images {
        let rows = other_rows(&names, bytes).repeat(WRAP / ROW_LENGTH / PLACES + 3);
        for tail in [vec![0; WRAP + LONGEST], rows] {
            let mut longer = [bytes.as_slice(), &tail].concat();
            for count in [0, 1, 2, 12, 13, u16::MAX] {
                put(&mut longer, ROW_COUNT_AT, count);
                for length in &lengths {
                    let right = if count > 12 { 14 } else { 0 };
                    let outcome = tried.expect(&longer[..*length], LONGEST, right);
                    outcome.map_err(|what| format!("'{name}' at length {length}: {what}"))?;
                }
            }
        }
    }
    tried.counted(&format!(
        "{} images with 6 counts at {} lengths about {WRAP} bytes",
        images.len(),
        lengths.len()
    ))
}
