//! A state and an image in files.

use crate::line::visible;
use crate::replace::{replace, Failure};
use slavotuk::{Module, FULL_IMAGE_LENGTH, STATE_LENGTH};
use std::fs::File;
use std::io::{self, Read};
use std::path::Path;

/// Writes a state to a file.
pub fn save(file: &Path, state: &[u8; STATE_LENGTH]) -> Result<(), Failure> {
    replace(file, state).map_err(|failure| about(file, "saved", failure))
}

/// Writes an image to a file.
pub fn write_image(file: &Path, image: &[u8]) -> Result<(), Failure> {
    replace(file, image).map_err(|failure| about(file, "written", failure))
}

fn about(file: &Path, done: &str, failure: Failure) -> Failure {
    Failure {
        why: wrong(file, done, &failure.why),
        ..failure
    }
}

fn wrong(file: &Path, done: &str, why: &str) -> String {
    format!(
        "{} is not {done}: {why}",
        visible(&file.display().to_string())
    )
}

/// The state that a file holds.
pub fn load(file: &Path) -> Result<[u8; STATE_LENGTH], String> {
    let wrong = |why: String| wrong(file, "loaded", &why);
    let bytes = read_start(file, STATE_LENGTH).map_err(|error| wrong(error.to_string()))?;
    let state: [u8; STATE_LENGTH] = bytes
        .as_slice()
        .try_into()
        .map_err(|_| wrong(state_length(bytes.len())))?;
    match Module::from_bytes(state) {
        Ok(module) => Ok(module.into_bytes()),
        Err(refusal) => Err(wrong(format!(
            "its bytes hold no state, {} {refusal}",
            refusal.number()
        ))),
    }
}

/// The bytes of a file that may be an image: all of them, or of a longer file one more than an image has.
pub fn read_image(file: &Path) -> Result<Vec<u8>, String> {
    read_start(file, FULL_IMAGE_LENGTH).map_err(|error| wrong(file, "read", &error.to_string()))
}

/// The bytes of a file that may be a damaged image: nothing behind the longest image is looked at.
pub fn read_damaged(file: &Path) -> Result<Vec<u8>, String> {
    read_at_most(file, FULL_IMAGE_LENGTH).map_err(|error| wrong(file, "read", &error.to_string()))
}

/// As many bytes as tell a file of this length from a longer one: it may be of any size.
fn read_start(file: &Path, length: usize) -> io::Result<Vec<u8>> {
    read_at_most(file, length + 1)
}

fn read_at_most(file: &Path, length: usize) -> io::Result<Vec<u8>> {
    let mut bytes = Vec::new();
    File::open(file)?
        .take(length as u64)
        .read_to_end(&mut bytes)?;
    Ok(bytes)
}

fn state_length(found: usize) -> String {
    if found > STATE_LENGTH {
        return format!("it has more than the {STATE_LENGTH} bytes of a state");
    }
    format!("it has {found} bytes, and a state {STATE_LENGTH}")
}

/// What is said of a file that is no image, by how many of its bytes were read.
pub fn no_image(read: usize) -> String {
    if read > FULL_IMAGE_LENGTH {
        return format!(
            "the file has more than the {FULL_IMAGE_LENGTH} bytes of the longest image"
        );
    }
    format!("the file's {read} bytes are no image")
}
