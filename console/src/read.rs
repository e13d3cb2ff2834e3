//! Messages of 004 clause 9.2 read, and drawn with its names.

use crate::formats::{self, Drawn, Field, Format, Layout, Part, Rest, Role, Values};
use crate::{bytes, draw};
use slavotuk::entries;
use std::io::{self, Write};

/// What is drawn of a layout: its fields in the form in which a line gives them, and what more there is to say of them.
#[derive(Default)]
struct Drawing {
    fields: Vec<(String, String)>,
}

impl Drawing {
    fn add(&mut self, name: &str, value: &str, meaning: String) {
        self.fields.push((format!("{name}={value}"), meaning));
    }

    fn add_number(&mut self, field: &Field, value: u64) {
        let width = 2 * field.bytes;
        let (text, meaning) = match field.drawn {
            Drawn::Decimal => (value.to_string(), String::new()),
            Drawn::Hexadecimal => (format!("0x{value:0width$x}"), String::new()),
            Drawn::Bits(names) => (format!("0x{value:0width$x}"), set_bits(value, names)),
            Drawn::Named(names) => (value.to_string(), name_of(value, names).into()),
        };
        self.add(field.name, &text, meaning);
    }

    fn add_bytes(&mut self, name: &str, value: &[u8]) {
        let letter = value.try_into().ok().and_then(bytes::letter_of);
        self.add(name, &bytes::written(value), letter.unwrap_or("").into());
    }

    /// Adds the numbers of a layout, and the bytes that follow them.
    fn add_layout(&mut self, layout: &Layout, values: &Values, rest: &[u8]) {
        for (field, value) in layout.fields.iter().zip(values) {
            if field.role != Role::Reserved {
                self.add_number(field, *value);
            }
        }
        match &layout.rest {
            Rest::Bytes([first, second]) => {
                let (own, behind) = rest.split_at(counted(layout, values).min(rest.len()));
                self.add_bytes(first.name, own);
                self.add_bytes(second.name, behind);
            }
            Rest::Bytes(fields) => fields
                .iter()
                .for_each(|field| self.add_bytes(field.name, rest)),
            Rest::Parts(..) => {}
        }
    }

    /// A line for each field.
    fn lines(&self, out: &mut impl Write) -> io::Result<()> {
        self.fields.iter().try_for_each(|(field, meaning)| {
            writeln!(out, "  {field}{}", meant(std::slice::from_ref(meaning)))
        })
    }

    /// All in one line.
    fn line(&self) -> String {
        let (fields, meanings): (Vec<&str>, Vec<String>) = self
            .fields
            .iter()
            .map(|(field, meaning)| (field.as_str(), meaning.clone()))
            .unzip();
        format!("{}{}", fields.join(" "), meant(&meanings))
    }
}

/// What more there is to say, behind two blanks.
fn meant(meanings: &[String]) -> String {
    let said: Vec<&str> = meanings
        .iter()
        .map(String::as_str)
        .filter(|meaning| !meaning.is_empty())
        .collect();
    if said.is_empty() {
        return String::new();
    }
    format!("  {}", said.join(", "))
}

fn set_bits(value: u64, names: &[&str]) -> String {
    let set = (0..).zip(names).filter(|(bit, _)| value >> bit & 1 == 1);
    let set: Vec<&str> = set.map(|(_, name)| *name).collect();
    set.join(", ")
}

fn name_of(value: u64, names: &[(u64, &'static str)]) -> &'static str {
    let named = names.iter().find(|(known, _)| *known == value);
    named.map_or("", |(_, name)| name)
}

/// The number of bytes or parts that follow, as the values say it.
fn counted(layout: &Layout, values: &Values) -> usize {
    let mut said = layout.fields.iter().zip(values);
    let count = said.find(|(field, _)| field.role == Role::Count);
    count.map_or(0, |(_, value)| *value as usize)
}

/// Reads a message and draws it, or says what it is not.
pub fn message(message: &[u8], out: &mut impl Write) -> io::Result<()> {
    let (mut values, mut from) = (Values::default(), 0);
    let number = entries::read_message(message, &mut values, &mut from);
    writeln!(out, "{}", draw::answer(number))?;
    let format = message.first().copied().and_then(formats::of_code);
    match (format, message.first()) {
        (Some(format), _) if number == 0 => {
            let rest = message.get(from..).unwrap_or_default();
            draw_message(format, &values, rest, out)
        }
        (Some(format), Some(code)) => writeln!(out, "code {code:02x}, but no {}", format.name),
        (_, Some(code)) => writeln!(out, "no message has code {code:02x}"),
        (_, None) => writeln!(out, "no message has no bytes"),
    }
}

fn draw_message(
    format: &'static Format,
    values: &Values,
    rest: &[u8],
    out: &mut impl Write,
) -> io::Result<()> {
    let layout = format.layout(values[0]);
    let mut head = Drawing::default();
    head.add_layout(layout, values, rest);
    writeln!(out, "{}", format.name)?;
    head.lines(out)?;
    if let Rest::Parts(_, part) = &layout.rest {
        draw_parts(part, counted(layout, values), rest, out)?;
    }
    Ok(())
}

/// A line for each part. The module has read the message, so that there are as many.
fn draw_parts(part: &Part, count: usize, mut list: &[u8], out: &mut impl Write) -> io::Result<()> {
    for at in 0..count {
        let mut drawing = Drawing::default();
        for (kind, layout) in part.pieces {
            let (mut values, mut from, mut next) = (Values::default(), 0, 0);
            if entries::read_piece(list, *kind, &mut values, &mut from, &mut next) != 0 {
                return Ok(());
            }
            drawing.add_layout(layout, &values, list.get(from..next).unwrap_or_default());
            list = list.get(next..).unwrap_or_default();
        }
        writeln!(out, "  part {at}: {}", drawing.line())?;
    }
    Ok(())
}
