//! Messages and parts as tables: where each field lies, how long it is and what is asked of it.

use crate::formats::{Bytes, Field, Format, Layout, Length, Part, Rest, Role};

/// A line of a table: the offset, 004's name, how many bytes it has, what is asked of it, and 004's tables that define it.
pub type Row = [String; 5];

/// Of what is reserved.
const RESERVED: &str = "written 0";

/// What the columns are called.
pub const COLUMNS: [&str; 5] = ["Offset", "Field", "Bytes", "Asked", "004"];

/// The table of a message, or of a part of a list.
struct Table {
    rows: Vec<Row>,
    /// 004's tables of the message or part.
    own: Vec<u8>,
    /// Where the next field lies: a number, and the counts of the bytes before it.
    fixed: usize,
    counts: Vec<&'static str>,
}

impl Table {
    fn new(own: &[u8]) -> Table {
        Table {
            rows: Vec::new(),
            own: own.to_vec(),
            fixed: 0,
            counts: Vec::new(),
        }
    }

    fn add(&mut self, field: &str, bytes: String, asked: String, tables: &[u8]) {
        let mut offset = self.fixed.to_string();
        for count in &self.counts {
            offset.push_str(&format!(" + {count}"));
        }
        let mut all = self.own.clone();
        all.extend(tables.iter().filter(|table| !self.own.contains(table)));
        let tables: Vec<String> = all.iter().map(u8::to_string).collect();
        self.rows
            .push([offset, field.into(), bytes, asked, tables.join(", ")]);
    }

    fn add_number(&mut self, field: &Field) {
        let asked = match field.role {
            Role::Reserved => RESERVED,
            Role::Count | Role::Value => field.asked,
        };
        self.add(
            field.name,
            field.bytes.to_string(),
            asked.into(),
            field.tables,
        );
        self.fixed += field.bytes;
    }

    fn add_bytes(&mut self, bytes: &Bytes) {
        let length = match bytes.length {
            Length::Fixed(count) => count.to_string(),
            Length::Said(text) | Length::Left(text) => text.into(),
        };
        self.add(bytes.name, length, String::new(), bytes.tables);
        match bytes.length {
            Length::Fixed(count) => self.fixed += count,
            Length::Said(count) => self.counts.push(count),
            Length::Left(_) => {}
        }
    }

    /// The two bytes with which every message begins.
    fn add_head(&mut self, code: u8) {
        let codes = if code < 0x80 { 17 } else { 16 };
        let asked = format!("0x{code:02x}");
        self.add("RequestResponseCode", "1".into(), asked, &[codes]);
        self.fixed += 1;
        self.add("Reserved", "1".into(), RESERVED.into(), &[]);
        self.fixed += 1;
    }

    fn add_layout(&mut self, layout: &Layout) {
        layout
            .fields
            .iter()
            .for_each(|field| self.add_number(field));
        match &layout.rest {
            Rest::Bytes(rest) => rest.iter().for_each(|bytes| self.add_bytes(bytes)),
            Rest::Parts(list, part) => {
                let each = format!("each a {}", part.name);
                self.add(list, "parts".into(), each, part.tables);
            }
        }
    }
}

/// The fields of a message with one of its layouts.
pub fn of_message(format: &Format, layout: &Layout) -> Vec<Row> {
    let mut table = Table::new(&[format.table]);
    table.add_head(format.code);
    table.add_layout(layout);
    table.rows
}

/// The fields of a part, from its beginning on.
pub fn of_part(part: &Part) -> Vec<Row> {
    let mut table = Table::new(part.tables);
    for (_, layout) in part.pieces {
        table.add_layout(layout);
    }
    table.rows
}

/// The first numbers with which a message has this layout, where it has several.
pub fn with_first(numbers: &[u64], layout: &Layout) -> Option<String> {
    let field = layout.fields.first()?.name;
    let numbers: Vec<String> = numbers.iter().map(u64::to_string).collect();
    (!numbers.is_empty()).then(|| format!("{field} {}", numbers.join(", ")))
}
