//! Random drawers: mostly good images, with bad ones of every kind between them and ends of every kind.

use crate::figures_drawers::{piece, with_length, LONGEST_PIECE, MOST_IMAGES};
use crate::figures_trial::{Setting, Trial};
use crate::images;
use crate::random::Random;
use slavotuk::layout::image::{second_at, word_at};
use slavotuk_model::image::{self, LONGEST};
use slavotuk_model::module::{CREDENTIALS, PLACES};
use std::fmt::{self, Display};

/// A drawer has from so many pieces to as many more; some have more than are told of.
const FEWEST: usize = 3_900;
const MORE: usize = 250;

/// How a drawer ends.
const ENDS: [&str; 3] = ["in a lone byte", "cut off", "whole"];

/// How often what came up.
#[derive(Default)]
struct Depth {
    /// Good images by their count of rows.
    rows: [usize; PLACES + 1],
    /// Those of the old layout.
    old: usize,
    bad: usize,
    ends: [usize; ENDS.len()],
    too_many: usize,
}

/// As many drawers as the setting says, and that everything came up in them.
pub fn drawers(setting: &Setting) -> Result<String, String> {
    let mut trial = Trial::new(setting, "random");
    let mut random = Random::new(setting.seed);
    let mut depth = Depth::default();
    for at in 0..setting.drawers {
        let drawer = drawer(at % ENDS.len(), &mut random, &mut depth);
        trial.drawer(format!("random drawer {at}"), &drawer)?;
    }
    let line = trial.counted(&format!("random drawers ({depth})"));
    match depth.is_enough() {
        true => Ok(line),
        false => Err(format!("{line}: something never came up")),
    }
}

fn drawer(end: usize, random: &mut Random, depth: &mut Depth) -> Vec<u8> {
    let pieces = FEWEST + random.below(MORE);
    let mut drawer = Vec::new();
    for _ in 0..pieces {
        let image = draw(random);
        depth.count(&image);
        drawer.extend(piece(&image));
    }
    match end {
        0 => drawer.push(random.word() as u8),
        1 => drawer.extend(cut_off(random)),
        _ => {}
    }
    depth.ends[end] += 1;
    depth.too_many += usize::from(pieces > MOST_IMAGES);
    drawer
}

/// The bytes of a piece.
fn draw(random: &mut Random) -> Vec<u8> {
    let mut image = good(random);
    match random.weighted(&[80, 10, 5, 3, 2]) {
        0 => {}
        1 => {
            let fields = 1 + random.below(3);
            images::damage(&mut image, fields, random);
        }
        2 => {
            let length = random.below(LONGEST + 10);
            image = random.bytes(length);
        }
        3 => image.resize(random.below(LONGEST + 60), 0),
        _ => image.resize(long_length(random), 0x2a),
    }
    image
}

/// Lengths that no image has, longer ones more rarely.
fn long_length(random: &mut Random) -> usize {
    let most = random.pick(&[700, 1_000, 5_000, LONGEST_PIECE]);
    LONGEST + 1 + random.below(most - LONGEST)
}

fn good(random: &mut Random) -> Vec<u8> {
    let rows = random.below(PLACES + 1);
    let mut mask = random.word() as u8;
    if rows > 0 {
        mask |= 1 << random.below(CREDENTIALS);
    }
    let names = images::names(rows, random);
    let mut image = images::draw(mask, &names, random);
    for credential in (0..CREDENTIALS).filter(|credential| mask & (1 << credential) != 0) {
        images::put_word(&mut image, word_at(credential), word(random));
        images::put_word(&mut image, second_at(credential), word(random));
    }
    match random.percent(50) {
        true => images::old(&image),
        false => image,
    }
}

/// Words with few classes, and with many.
fn word(random: &mut Random) -> u32 {
    let (one, other) = (random.word(), random.word());
    random.pick(&[0, u32::MAX, 1 << (one % 32), one & other, one | other, one])
}

/// A piece that lacks some of its bytes.
fn cut_off(random: &mut Random) -> Vec<u8> {
    let image = good(random);
    let mut piece = match random.percent(50) {
        true => piece(&image),
        // all of an image is there, and more was said
        false => return with_length(image.len() + 1 + random.below(1_000), &image),
    };
    piece.truncate(2 + random.below(image.len()));
    piece
}

impl Depth {
    fn count(&mut self, bytes: &[u8]) {
        match image::read(bytes) {
            Ok(module) => {
                self.rows[module.processes.len()] += 1;
                self.old += usize::from(images::is_old(bytes));
            }
            Err(_) => self.bad += 1,
        }
    }

    /// Two drawers are enough for the ends that are bad.
    fn is_enough(&self) -> bool {
        let new = self.rows.iter().sum::<usize>() - self.old;
        let counts = [&self.rows[..], &[self.old, new, self.bad], &self.ends[..2]].concat();
        counts.iter().all(|count| *count > 0)
    }
}

impl Display for Depth {
    fn fmt(&self, to: &mut fmt::Formatter) -> fmt::Result {
        let joined = |counts: &[usize]| {
            let words: Vec<String> = counts.iter().map(usize::to_string).collect();
            words.join(", ")
        };
        let ends = self.ends.iter().zip(ENDS);
        let ends: Vec<String> = ends.map(|(count, end)| format!("{count} {end}")).collect();
        write!(
            to,
            "images of 0 to 12 rows {}; old layout {}; bad {}; drawers that end {}; {} past 4,096",
            joined(&self.rows),
            self.old,
            self.bad,
            ends.join(", "),
            self.too_many
        )
    }
}
