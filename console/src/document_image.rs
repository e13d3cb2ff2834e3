//! The part of docs/IMAGE.md that is computed: the lines of an example with their answers, the image that it writes, field by field, changes of that
//! image that are refused, in both layouts, and what is rescued of damaged ones.

use crate::bytes;
use crate::console::Console;
use crate::document::{is_computed, path};
use crate::document_rescue;
use crate::folder::Folder;
use crate::line::{self, Command};
use slavotuk::layout::image::*;
use slavotuk::{Credential, Module, Refusal, NAME_LENGTH};
use std::fs;

/// The line of docs/IMAGE.md behind which everything is computed.
const MARK: &str =
    "<!-- Computed from here on: RENEW_IMAGE=1 cargo test --release --package slavotuk-console the_document -->\n";

/// Set where the document is to be written anew.
const RENEW: &str = "RENEW_IMAGE";

const EXAMPLE: &str = "examples/power-cycle.txt";

/// A change of an image: the offset, the new bytes, and why it is an image no more.
type Change = (usize, &'static [u8], &'static str);

/// Changes of the example's first image.
const CHANGES: [Change; 17] = [
    (
        MASK_AT,
        &[1],
        "credential 1 is then not provisioned, and its words not zero",
    ),
    (MASK_AT + 1, &[1], "there is no credential 8"),
    (WORD_COUNT_AT, &[7], "there are 8 words"),
    (WORDS_OFFSET_AT, &[11], "the words begin at 10"),
    (ROW_COUNT_AT, &[1], "an image with one row has 126 bytes"),
    (ROW_COUNT_AT, &[3], "an image with three rows has 230 bytes"),
    (ROWS_OFFSET_AT, &[ROWS_AT as u8 + 1], "the rows begin at 74"),
    (
        ROWS_OFFSET_AT,
        &[OLD_ROWS_AT as u8],
        "an old image with two rows has 146 bytes",
    ),
    (
        word_at(2),
        &[1],
        "a word of a credential that is not provisioned",
    ),
    (word_at(7) + 3, &[128], "the same"),
    (second_at(2), &[1], "the same"),
    (second_at(7) + 3, &[128], "the same"),
    (row_at(0) + OWNER, &[2], "credential 2 is not provisioned"),
    (row_at(0) + OWNER + 1, &[1], "there is no credential 256"),
    (row_at(0) + NEXT, &[0], "a save has counted one"),
    (row_at(1) + NEXT, &[0, 0], "the same"),
    (row_at(1) + NAME + 16, &[0x11; 32], "Q is then P"),
];

/// Changes of the same in the old layout.
const OLD_CHANGES: [Change; 7] = [
    (WORD_COUNT_AT, &[16], "there are 8 words"),
    (ROW_COUNT_AT, &[1], "an old image with one row has 94 bytes"),
    (
        ROWS_OFFSET_AT,
        &[OLD_ROWS_AT as u8 + 1],
        "the rows begin at 42",
    ),
    (
        ROWS_OFFSET_AT,
        &[ROWS_AT as u8],
        "an image with two rows has 178 bytes",
    ),
    (
        word_at(7) + 3,
        &[128],
        "a word of a credential that is not provisioned",
    ),
    (
        old_row_at(0) + OWNER,
        &[2],
        "credential 2 is not provisioned",
    ),
    (old_row_at(1) + NEXT, &[0, 0], "a save has counted one"),
];

/// What the example's lines are answered, and the images that they write.
struct Played {
    text: String,
    images: Vec<Vec<u8>>,
}

/// Carries out the example. Its comments are kept, but for those at its head, and what `show` draws is left out.
fn played() -> Played {
    let folder = Folder::new("document");
    let mut console = Console::new();
    let mut images = Vec::new();
    let mut text = String::new();
    let script = fs::read_to_string(path(EXAMPLE)).unwrap();
    let (_, script) = script.split_once("\n\n").unwrap();
    for line in script.lines() {
        let Some(command) = line::read(line).unwrap() else {
            text.push_str(format!("    {line}").trim_end());
            text.push('\n');
            continue;
        };
        let (command, lines) = match command {
            Command::Show { .. } => continue,
            Command::Call(call) => (Command::Call(call), 1),
            Command::Image(file) => (Command::Image(folder.0.join(file)), 2),
            Command::Restore(file) => (Command::Restore(folder.0.join(file)), 2),
            command => (command, 2),
        };
        let written = match &command {
            Command::Image(file) => Some(file.clone()),
            _ => None,
        };
        let mut out = Vec::new();
        assert!(console.run(command, line, &mut out).is_ok(), "{line}");
        let out = String::from_utf8(out).unwrap();
        let answer: Vec<&str> = out.lines().take(lines).collect();
        text.push_str(&format!("    {line}: {}\n", answer.join(", ")));
        images.extend(written.map(|file| fs::read(file).unwrap()));
    }
    Played { text, images }
}

/// The fields of an image, drawn one after another.
struct Fields<'a> {
    image: &'a [u8],
    at: usize,
    text: String,
}

impl Fields<'_> {
    /// The number in the next bytes.
    fn number(&self, length: usize) -> u64 {
        let mut number = [0; 8];
        number[..length].copy_from_slice(&self.image[self.at..self.at + length]);
        u64::from_le_bytes(number)
    }

    /// Draws the next bytes, with what they say.
    fn draw(&mut self, length: usize, says: &str) {
        let field = &self.image[self.at..self.at + length];
        let digits: Vec<String> = field.iter().map(|byte| format!("{byte:02x}")).collect();
        let drawn = match length {
            0..=4 => digits.join(" "),
            _ => bytes::written(field),
        };
        let line = format!("    {:>4}  {drawn:<13}  {says}", self.at);
        self.text.push_str(line.trim_end());
        self.text.push('\n');
        self.at += length;
    }
}

fn drawn(image: &[u8]) -> String {
    let mut fields = Fields {
        image,
        at: 0,
        text: String::new(),
    };
    let mask = fields.number(2);
    let is_provisioned = |credential: usize| mask >> credential & 1 == 1;
    let provisioned = (0..Credential::COUNT).filter(|&credential| is_provisioned(credential));
    let provisioned: Vec<String> = provisioned
        .map(|credential| credential.to_string())
        .collect();
    fields.draw(
        2,
        &format!(
            "the mask: of provisioned credentials {}",
            provisioned.join(", ")
        ),
    );
    for what in ["count of words", "offset of words"] {
        fields.draw(2, &format!("{what}: {}", fields.number(2)));
    }
    let rows = fields.number(2);
    fields.draw(2, &format!("count of rows: {rows}"));
    fields.draw(2, &format!("offset of rows: {}", fields.number(2)));
    for what in ["word", "second word"] {
        for credential in 0..Credential::COUNT {
            let says = match is_provisioned(credential) {
                true => format!("{what} of credential {credential}: {}", fields.number(4)),
                false => format!("credential {credential} is not provisioned"),
            };
            fields.draw(4, &says);
        }
    }
    for row in 0..rows {
        fields.draw(2, &format!("row {row}: credential {}", fields.number(2)));
        fields.draw(2, &format!("row {row}: next number {}", fields.number(2)));
        let name = image[fields.at..][..NAME_LENGTH].try_into().unwrap();
        let letter = bytes::letter_of(name).unwrap_or("without a letter");
        fields.draw(NAME_LENGTH, &format!("row {row}: name {letter}"));
    }
    fields.draw(0, "the end");
    assert_eq!(fields.at, image.len());
    fields.text
}

fn hexadecimal(bytes: &[u8]) -> String {
    match bytes.len() {
        1 | 2 => bytes
            .iter()
            .map(|byte| format!("{byte:02x} "))
            .collect::<String>()
            .trim_end()
            .into(),
        _ => bytes::written(bytes),
    }
}

/// The same without second words. It is restored, and written again as the image with second words zero.
fn in_old_layout(image: &[u8]) -> Vec<u8> {
    let mut old = [&image[..SECONDS_AT], &image[ROWS_AT..]].concat();
    old[ROWS_OFFSET_AT] = OLD_ROWS_AT as u8;
    let mut unmarked = image.to_vec();
    unmarked[SECONDS_AT..ROWS_AT].fill(0);
    let restored = Module::restore(&old).unwrap();
    assert_eq!(*restored.image().unwrap(), unmarked);
    old
}

fn changes(image: &[u8], changes: &[Change]) -> String {
    let mut text = String::from("| At | From | To | Because |\n|---|---|---|---|\n");
    for &(at, to, why) in changes {
        let mut changed = image.to_vec();
        let field = &mut changed[at..at + to.len()];
        let from = hexadecimal(field);
        field.copy_from_slice(to);
        assert_eq!(
            Module::restore(&changed),
            Err(Refusal::Message),
            "{at} {why}"
        );
        text.push_str(&format!(
            "| {at} | `{from}` | `{}` | {why} |\n",
            hexadecimal(to)
        ));
    }
    text
}

fn computed() -> String {
    let Played { text, images } = played();
    let image = &images[0];
    let length = image.len();
    let drawn = drawn(image);
    let refused = changes(image, &CHANGES);
    let old = in_old_layout(image);
    let old_length = old.len();
    let old_refused = changes(&old, &OLD_CHANGES);
    let rescued = document_rescue::table(&old, image);
    format!(
        "\n## An example\n\n\
         The lines of `{EXAMPLE}`, each with its answer:\n\n{text}\n\
         The first image of these, {length} bytes. In a name `00*16` is 16 bytes of `00`.\n\n{drawn}\n\
         Each of these changes of it makes bytes that are no image:\n\n{refused}\n\
         In the old layout it has {old_length} bytes: `2a` at 8, no second words, and row 0 at 42. That is restored with second words zero, so that no\n\
         class is marked, and written again in the new layout. Each of these changes of it makes bytes that are no image:\n\n{old_refused}\n\
         ## What is rescued\n\n\
         X is the example's image in the old layout, {old_length} bytes, and Y as it is, {length} bytes. The buffer has {FULL_LENGTH} bytes where nothing else is said. Each image that is written\n\
         here is restored, and rescued again it stays as it is.\n\n{rescued}"
    )
}

#[test]
fn the_document_of_images_is_what_is_computed() {
    is_computed("docs/IMAGE.md", MARK, RENEW, &computed());
}
