//! The part of docs/WIRE.md that is computed: a table for each message and each part of a list, and examples with the bytes that the module writes.

use crate::formats::{
    Drawn, Field, Format, Layout, Part, Rest, AUTH_PROC_INFO, FORMATS, POLICY, POLICY_OWNER,
    RESET_ELEMENT, VERSION_NUMBER_ENTRY,
};
use crate::line::{self, Command};
use crate::tables::{self, Row};
use crate::{bytes, draw, formats};
use std::path::{Path, PathBuf};

/// The line of docs/WIRE.md behind which everything is computed.
const MARK: &str =
    "<!-- Computed from here on: RENEW_WIRE=1 cargo test --release --package slavotuk-console the_document -->\n";

/// Set where the document is to be written anew.
const RENEW: &str = "RENEW_WIRE";

static PARTS: [&Part; 5] = [
    &VERSION_NUMBER_ENTRY,
    &AUTH_PROC_INFO,
    &POLICY_OWNER,
    &POLICY,
    &RESET_ELEMENT,
];

/// A file of the repository.
pub fn path(name: &str) -> PathBuf {
    Path::new(env!("CARGO_MANIFEST_DIR")).join("..").join(name)
}

/// Asks that a document has this text behind its mark; where the variable `renew` is set, writes it there instead.
pub fn is_computed(name: &str, mark: &str, renew: &str, computed: &str) {
    let file = path(name);
    let found = std::fs::read_to_string(&file).unwrap();
    let (by_hand, _) = found.split_once(mark).expect("the document has the mark");
    let wanted = format!("{by_hand}{mark}{computed}");
    if std::env::var_os(renew).is_some() {
        std::fs::write(&file, wanted).unwrap();
        return;
    }
    for (at, (line, wanted)) in found.lines().zip(wanted.lines()).enumerate() {
        assert_eq!(line, wanted, "{name}, line {}; {renew}=1 renews it", at + 1);
    }
    assert_eq!(found.len(), wanted.len(), "{name}; {renew}=1 renews it");
}

/// The lines of the example that write a message, each with its bytes.
fn examples() -> Vec<(&'static Format, String, Vec<u8>)> {
    let script = std::fs::read_to_string(path("examples/messages.txt")).unwrap();
    let mut examples = Vec::new();
    for text in script.lines() {
        if let Some(Command::Write(written)) = line::read(text).unwrap() {
            if let Ok(message) = written.message() {
                let format = formats::of_code(message[0]).unwrap();
                examples.push((format, text.to_string(), message));
            }
        }
    }
    examples
}

fn table(rows: Vec<Row>) -> String {
    let mut text = format!(
        "| {} |\n|---|---|---|---|---|\n",
        tables::COLUMNS.join(" | ")
    );
    for row in rows {
        text.push_str(&format!("| {} |\n", row.join(" | ")));
    }
    text
}

fn code_block(line: &str, message: &[u8]) -> String {
    let mut dump = Vec::new();
    draw::dump(message, &mut dump).unwrap();
    let mut text = format!("\n    {line}\n");
    for bytes in String::from_utf8(dump).unwrap().lines() {
        text.push_str(&format!("    {bytes}\n"));
    }
    text
}

/// Every field, with the message or part that it is in.
fn fields() -> Vec<(&'static Field, String)> {
    let mut fields = Vec::new();
    for part in PARTS {
        let of_part = part.pieces.iter().flat_map(|(_, layout)| layout.fields);
        fields.extend(of_part.map(|field| (field, format!("a {}", part.name))));
    }
    for format in &FORMATS {
        let of_format = format
            .layouts()
            .into_iter()
            .flat_map(|(_, layout)| layout.fields);
        fields.extend(of_format.map(|field| (field, format.name.to_string())));
    }
    fields
}

/// What the numbers of a field are called.
fn called(field: &Field) -> Option<String> {
    let called: Vec<String> = match field.drawn {
        Drawn::Decimal | Drawn::Hexadecimal => return None,
        Drawn::Bits(names) => {
            let bits = names.iter().enumerate();
            bits.map(|(bit, name)| format!("bit {bit} {name}"))
                .collect()
        }
        Drawn::Named(names) => {
            let numbers = names.iter();
            numbers
                .map(|(number, name)| format!("{number} {name}"))
                .collect()
        }
    };
    Some(called.join(", "))
}

/// The fields whose numbers have names, each once, with what it is in.
fn names() -> String {
    let mut rows: Vec<(&str, String, Vec<String>)> = Vec::new();
    for (field, place) in fields() {
        let Some(called) = called(field) else {
            continue;
        };
        match rows
            .iter_mut()
            .find(|row| (row.0, &row.1) == (field.name, &called))
        {
            Some((_, _, places)) if places.contains(&place) => {}
            Some((_, _, places)) => places.push(place),
            None => rows.push((field.name, called, vec![place])),
        }
    }
    let mut text = String::from("| Field | Numbers | In |\n|---|---|---|\n");
    for (name, called, places) in rows {
        text.push_str(&format!("| {name} | {called} | {} |\n", places.join(", ")));
    }
    text
}

fn computed() -> String {
    let examples = examples();
    let mut text = format!("\n## What numbers are called\n\n{}", names());
    text.push_str("\n## The parts of lists\n");
    for part in PARTS {
        text.push_str(&format!("\n### A {}\n\n", part.name));
        text.push_str(&table(tables::of_part(part)));
    }
    for (at, format) in FORMATS.iter().enumerate() {
        match at {
            0 => text.push_str("\n## Requests\n"),
            15 => text.push_str("\n## Responses\n"),
            _ => {}
        }
        text.push_str(&format!("\n### {}, `{:02x}`\n", format.name, format.code));
        for (first, layout) in format.layouts() {
            if let Some(with) = tables::with_first(first, layout) {
                text.push_str(&format!("\nWith {with}:\n"));
            }
            text.push('\n');
            text.push_str(&table(tables::of_message(format, layout)));
        }
        for (_, line, message) in examples.iter().filter(|(of, ..)| of.code == format.code) {
            text.push_str(&code_block(line, message));
        }
    }
    text
}

#[test]
fn the_document_is_what_is_computed() {
    is_computed("docs/WIRE.md", MARK, RENEW, &computed());
}

#[test]
fn every_message_and_layout_has_an_example() {
    for format in &FORMATS {
        for (first, layout) in format.layouts() {
            let has = examples().iter().any(|(of, _, message)| {
                of.code == format.code && (first.is_empty() || first.contains(&message[2].into()))
            });
            assert!(
                has,
                "{} {:?}",
                format.name,
                tables::with_first(first, layout)
            );
        }
    }
}

/// The value that a line gives a field.
fn given<'a>(words: &'a str, name: &str) -> Option<&'a str> {
    let mut pairs = words.split(' ').filter_map(|word| word.split_once('='));
    pairs
        .find(|(field, _)| *field == name)
        .map(|(_, value)| value)
}

/// The bytes that a value is written with.
fn bytes_of(value: &str) -> Vec<u8> {
    if let Some(name) = bytes::of_letter(value) {
        return name.to_vec();
    }
    let mut bytes = Vec::new();
    if !value.is_empty() {
        bytes::read(value, &mut bytes).unwrap();
    }
    bytes
}

/// Asks that the message has the given numbers and bytes one behind the other from an offset on, and gives where they end.
fn end_of(layout: &Layout, words: &str, message: &[u8], mut at: usize) -> usize {
    for field in layout.fields {
        let mut number = [0; 8];
        number[..field.bytes].copy_from_slice(&message[at..at + field.bytes]);
        if let Some(value) = given(words, field.name) {
            let value = line::number_of_bits(value, 64).unwrap();
            assert_eq!(u64::from_le_bytes(number), value, "{words}: {}", field.name);
        }
        at += field.bytes;
    }
    let Rest::Bytes(rest) = &layout.rest else {
        return at;
    };
    for field in *rest {
        let value = bytes_of(given(words, field.name).unwrap());
        assert_eq!(
            message[at..at + value.len()],
            value,
            "{words}: {}",
            field.name
        );
        at += value.len();
    }
    at
}

/// The offsets and lengths of the tables are those with which the module writes.
#[test]
fn fields_stand_where_the_tables_have_them() {
    for (format, line, message) in examples() {
        let mut words = line.split(" part ");
        let layout = format.layout(message.get(2).copied().unwrap_or(0).into());
        let mut at = end_of(layout, words.next().unwrap(), &message, 2);
        for words in words {
            let Rest::Parts(_, part) = &layout.rest else {
                panic!("{line}");
            };
            for (_, piece) in part.pieces {
                at = end_of(piece, words, &message, at);
            }
        }
        assert_eq!(at, message.len(), "{line}");
    }
}
