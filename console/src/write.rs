//! Messages of 004 clause 9.2 written from the fields that a line gives.

use crate::bytes;
use crate::formats::{self, Bytes, Field, Format, Layout, Length, Part, Rest, Role, Values};
use crate::line::{number_of_bits, quoted};
use slavotuk::entries;

/// Code and reserved byte, and as many numbers as there can be: what a message takes beside its rest, or more.
const LONGEST_HEAD: usize = 2 + 8 * entries::MESSAGE_VALUES;

/// The fields that a line gives a message, or one part of its list: each name with its value.
#[derive(Default)]
pub struct Given<'a> {
    fields: Vec<(&'a str, &'a str)>,
}

impl<'a> Given<'a> {
    pub fn add(&mut self, text: &'a str) -> Result<(), String> {
        let pair = text.split_once('=');
        self.fields
            .push(pair.ok_or_else(|| format!("{} is no FIELD=VALUE", quoted(text)))?);
        Ok(())
    }

    /// The value of a field.
    fn value(&self, name: &str) -> Option<&'a str> {
        let field = self.fields.iter().find(|(given, _)| *given == name);
        field.map(|(_, value)| *value)
    }

    fn needed(&self, name: &str) -> Result<&'a str, String> {
        self.value(name).ok_or_else(|| format!("{name} is missing"))
    }

    /// Asks that every field is one of these, and is given once.
    fn are_of(&self, names: &[&str], whose: &str) -> Result<(), String> {
        for (at, (name, _)) in self.fields.iter().enumerate() {
            if !names.contains(name) {
                let all = names.join(" ");
                let has = if all.is_empty() { "none" } else { &all };
                return Err(format!(
                    "{} is no field of {whose}, which has {has}",
                    quoted(name)
                ));
            }
            if self.fields[..at].iter().any(|(before, _)| before == name) {
                return Err(format!("{name} is given twice"));
            }
        }
        Ok(())
    }

    fn number(&self, field: &Field) -> Result<u64, String> {
        let text = self.needed(field.name)?;
        number_of_bits(text, 8 * field.bytes as u32)
            .map_err(|wrong| format!("{}: {wrong}", field.name))
    }

    /// Adds the bytes of a field to those before them.
    fn add_bytes(&self, name: &str, bytes: &mut Vec<u8>) -> Result<(), String> {
        let text = self.needed(name)?;
        if let Some(letter) = bytes::of_letter(text) {
            bytes.extend(letter);
            return Ok(());
        }
        if text.is_empty() {
            return Ok(());
        }
        bytes::read(text, bytes).map_err(|wrong| format!("{name}: {}: {wrong}", quoted(text)))
    }
}

/// The names of a layout's fields that a line can give.
fn names(layout: &Layout) -> Vec<&'static str> {
    let numbers = layout.fields.iter();
    let mut names: Vec<&str> = numbers
        .filter(|field| field.role != Role::Reserved)
        .map(|field| field.name)
        .collect();
    if let Rest::Bytes(rest) = &layout.rest {
        names.extend(rest.iter().map(|bytes| bytes.name));
    }
    names
}

/// The names of the fields of a part.
fn names_of_part(part: &Part) -> Vec<&'static str> {
    let pieces = part.pieces.iter();
    pieces.flat_map(|(_, layout)| names(layout)).collect()
}

/// The values of a layout, and where the bytes that it has lie in those of the whole line.
#[derive(Debug, PartialEq)]
struct Filled {
    values: Values,
    from: usize,
    to: usize,
}

/// A message that a line gives.
#[derive(Debug, PartialEq)]
pub struct Written {
    code: u8,
    head: Filled,
    /// The pieces of the parts, each with its kind.
    pieces: Vec<(u32, Filled)>,
    /// The bytes of all fields.
    bytes: Vec<u8>,
}

/// Fills a layout with what is given. A count that is not given is that of what follows, of which there may be so many parts.
fn fill(
    layout: &Layout,
    given: &Given,
    parts: usize,
    bytes: &mut Vec<u8>,
) -> Result<Filled, String> {
    let mut values = Values::default();
    for (value, field) in values.iter_mut().zip(layout.fields) {
        if field.role == Role::Value || given.value(field.name).is_some() {
            *value = given.number(field)?;
        }
    }
    let from = bytes.len();
    let counted = match &layout.rest {
        Rest::Bytes(rest) => fill_bytes(rest, given, bytes)?,
        Rest::Parts(..) => parts,
    };
    for (value, field) in values.iter_mut().zip(layout.fields) {
        if field.role == Role::Count && given.value(field.name).is_none() {
            *value = counted as u64;
        }
    }
    Ok(Filled {
        values,
        from,
        to: bytes.len(),
    })
}

/// Adds the bytes that follow the numbers, and gives how many the first of them are.
fn fill_bytes(rest: &[Bytes], given: &Given, bytes: &mut Vec<u8>) -> Result<usize, String> {
    let mut first = None;
    let from = bytes.len();
    for field in rest {
        given.add_bytes(field.name, bytes)?;
        first.get_or_insert(bytes.len() - from);
    }
    Ok(first.unwrap_or(0))
}

/// The layout that a message has with the first number that is given.
fn layout_of(format: &'static Format, given: &Given) -> Result<&'static Layout, String> {
    let layout = format.layout(0);
    match layout.fields.first() {
        Some(first) if format.layouts().len() > 1 => Ok(format.layout(given.number(first)?)),
        _ => Ok(layout),
    }
}

impl Written {
    /// The message that is given by the fields of its head and those of its parts.
    pub fn of(format: &'static Format, head: &Given, parts: &[Given]) -> Result<Written, String> {
        let mut bytes = Vec::new();
        let layout = layout_of(format, head)?;
        head.are_of(&names(layout), format.name)?;
        let filled = fill(layout, head, parts.len(), &mut bytes)?;
        let mut pieces = Vec::new();
        match &layout.rest {
            Rest::Parts(_, part) => {
                for (at, given) in parts.iter().enumerate() {
                    add_part(part, given, &mut pieces, &mut bytes)
                        .map_err(|wrong| format!("part {at}: {wrong}"))?;
                }
            }
            Rest::Bytes(_) if parts.is_empty() => {}
            Rest::Bytes(_) => return Err(format!("this {} has no parts", format.name)),
        }
        Ok(Written {
            code: format.code,
            head: filled,
            pieces,
            bytes,
        })
    }

    /// The bytes of the message, or the number that the module answers.
    pub fn message(&self) -> Result<Vec<u8>, u32> {
        let list;
        let rest = if self.pieces.is_empty() {
            self.bytes_of(&self.head)
        } else {
            list = self.list()?;
            &list
        };
        let mut message = vec![0; LONGEST_HEAD + rest.len()];
        let mut length = 0;
        let number = entries::write_message(
            &mut message,
            self.code.into(),
            &self.head.values,
            rest,
            &mut length,
        );
        message.truncate(length);
        if number == 0 {
            Ok(message)
        } else {
            Err(number)
        }
    }

    fn bytes_of(&self, filled: &Filled) -> &[u8] {
        &self.bytes[filled.from..filled.to]
    }

    /// The parts, one behind the other.
    fn list(&self) -> Result<Vec<u8>, u32> {
        let mut list = Vec::new();
        for (kind, piece) in &self.pieces {
            let (start, mut length) = (list.len(), 0);
            let rest = self.bytes_of(piece);
            list.resize(start + LONGEST_HEAD + rest.len(), 0);
            let number =
                entries::write_piece(&mut list[start..], *kind, &piece.values, rest, &mut length);
            if number != 0 {
                return Err(number);
            }
            list.truncate(start + length);
        }
        Ok(list)
    }

    /// What is asked of such a message, for whoever was refused.
    pub fn asked(&self) -> String {
        let Some(format) = formats::of_code(self.code) else {
            return String::new();
        };
        let layout = format.layout(self.head.values[0]);
        let mut asked = asked_of(layout);
        if let Rest::Parts(_, part) = &layout.rest {
            asked.extend(part.pieces.iter().flat_map(|(_, piece)| asked_of(piece)));
        }
        let mut text = format!("no {} can carry this", format.name);
        if !asked.is_empty() {
            text.push_str(&format!("; 004 asks {}", asked.join("; ")));
        }
        text
    }
}

/// What is asked of the fields of a layout. A count is asked to fit its field.
fn asked_of(layout: &Layout) -> Vec<String> {
    let number = |field: &Field| match (field.asked, field.role) {
        ("", Role::Count) => Some(format!("{} 0 to {}", field.name, largest(field.bytes))),
        ("", Role::Value | Role::Reserved) => None,
        (asked, _) => Some(format!("{} {asked}", field.name)),
    };
    let mut asked: Vec<String> = layout.fields.iter().filter_map(number).collect();
    if let Rest::Bytes(rest) = &layout.rest {
        asked.extend(rest.iter().filter_map(|bytes| match bytes.length {
            Length::Fixed(count) => Some(format!("{} {count} bytes", bytes.name)),
            Length::Left(count) => Some(format!("{} {count}", bytes.name)),
            Length::Said(_) => None,
        }));
    }
    asked
}

/// The largest number of so many bytes.
fn largest(bytes: usize) -> u64 {
    u64::MAX >> (64 - 8 * bytes)
}

fn add_part(
    part: &Part,
    given: &Given,
    pieces: &mut Vec<(u32, Filled)>,
    bytes: &mut Vec<u8>,
) -> Result<(), String> {
    given.are_of(&names_of_part(part), &format!("a {}", part.name))?;
    for (kind, layout) in part.pieces {
        pieces.push((*kind, fill(layout, given, 0, bytes)?));
    }
    Ok(())
}
