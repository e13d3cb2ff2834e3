//! The program that prints figures of a drawer of images, beside `cksum` of the same file.

use crate::timing::{median, WARM_UP_ROUNDS};
use slavotuk::layout::image::{ROWS_AT, WORDS_AT};
use slavotuk::{Credential, NAME_LENGTH, PLACES};
use std::fs::{self, File};
use std::path::{Path, PathBuf};
use std::process::{Command, Stdio};
use std::time::Instant;

/// As many images as the program tells of.
const IMAGES: usize = 4_096;
const CREDENTIALS: usize = Credential::COUNT;
const ROWS: usize = PLACES;
/// The grant word of each credential: every second class.
const WORD: u32 = 0x5555_5555;
/// The second word of each credential, which is counted nowhere: every fourth class.
const SECOND: u32 = 0x1111_1111;

/// Medians over the rounds: milliseconds from a process's start to its end, and the ratio of each round.
pub struct Measured {
    pub figures: f64,
    pub cksum: f64,
    pub ratio: f64,
}

/// The program, and a file with the drawer that it is handed; the file is removed at the end.
pub struct Bench {
    program: PathBuf,
    drawer: PathBuf,
}

impl Bench {
    /// Writes the drawer, and asks that the program prints its figures.
    pub fn prepare() -> Result<Bench, String> {
        let program = Path::new(env!("CARGO_MANIFEST_DIR")).with_file_name("build/figures");
        if !program.is_file() {
            return Err("there is no build/figures: 'make figures' builds it".to_string());
        }
        let name = format!("slavotuk-bench-{}.drawer", std::process::id());
        let drawer = std::env::temp_dir().join(name);
        fs::write(&drawer, drawer_of(&image())).map_err(|error| told(&drawer, &error))?;
        let bench = Bench { program, drawer };
        bench.check()?;
        Ok(bench)
    }

    fn check(&self) -> Result<(), String> {
        let output = Command::new(&self.program).stdin(self.open()?).output();
        let output = output.map_err(|error| told(&self.program, &error))?;
        let printed = String::from_utf8_lossy(&output.stdout);
        let classes = CREDENTIALS * WORD.count_ones() as usize;
        let line = format!("{ROWS} {classes} {ROWS}\n").repeat(IMAGES);
        let (rows, classes) = (IMAGES * ROWS, IMAGES * classes);
        let total = format!("total {IMAGES} {rows} {classes}\n");
        match printed == line + &total {
            true => Ok(()),
            false => Err(format!("build/figures prints other lines, and not {total:?} at the end of the drawer of the benchmark")),
        }
    }

    /// Times both by turns.
    pub fn measure(&self, rounds: usize) -> Result<Measured, String> {
        for _ in 0..WARM_UP_ROUNDS {
            self.round()?;
        }
        let rounds = (0..rounds).map(|_| self.round());
        let rounds = rounds.collect::<Result<Vec<_>, _>>()?;
        let median_of =
            |figure: fn(&(f64, f64)) -> f64| median(rounds.iter().map(figure).collect());
        Ok(Measured {
            figures: median_of(|round| round.0),
            cksum: median_of(|round| round.1),
            ratio: median_of(|round| round.0 / round.1),
        })
    }

    fn round(&self) -> Result<(f64, f64), String> {
        let figures = self.milliseconds(&self.program)?;
        Ok((figures, self.milliseconds(Path::new("cksum"))?))
    }

    /// From a process's start to its end, with the drawer as its standard input.
    fn milliseconds(&self, program: &Path) -> Result<f64, String> {
        let mut command = Command::new(program);
        command.stdin(self.open()?).stdout(Stdio::null());
        let start = Instant::now();
        let ended = command.status().map_err(|error| told(program, &error))?;
        let time = start.elapsed().as_secs_f64() * 1_000.0;
        match ended.success() {
            true => Ok(time),
            false => Err(format!("{}: {ended}", program.display())),
        }
    }

    fn open(&self) -> Result<File, String> {
        File::open(&self.drawer).map_err(|error| told(&self.drawer, &error))
    }
}

impl Drop for Bench {
    fn drop(&mut self) {
        // nothing is lost where it stays
        let _ = fs::remove_file(&self.drawer);
    }
}

fn told(file: &Path, error: &std::io::Error) -> String {
    format!("{}: {error}", file.display())
}

/// What the program is handed, for the reader of its times.
pub fn describe() -> String {
    let (image, bytes) = (image().len(), drawer_of(&image()).len());
    format!("a drawer of {IMAGES} images of {image} bytes, each with {ROWS} rows, every second class in its {CREDENTIALS} grant words and every fourth in its second words: {bytes} bytes in a file on standard input, and /dev/null as standard output")
}

/// The image so many times, each after its length.
fn drawer_of(image: &[u8]) -> Vec<u8> {
    let length = (image.len() as u16).to_le_bytes();
    [&length, image].concat().repeat(IMAGES)
}

/// Rows of credential 0, at next numbers from 1 on, whose names differ in their last byte.
fn image() -> Vec<u8> {
    let head = [
        0xff,
        CREDENTIALS as u16,
        WORDS_AT as u16,
        ROWS as u16,
        ROWS_AT as u16,
    ];
    let mut image: Vec<u8> = head.into_iter().flat_map(u16::to_le_bytes).collect();
    image.extend(WORD.to_le_bytes().repeat(CREDENTIALS));
    image.extend(SECOND.to_le_bytes().repeat(CREDENTIALS));
    for row in 1..=ROWS as u8 {
        image.extend([0, 0, row, 0]);
        image.extend([0; NAME_LENGTH - 1]);
        image.push(row);
    }
    image
}
