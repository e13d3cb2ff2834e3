//! The state's bytes, from the names of the layout: `xAt` says where x begins, and the last name of a section where the whole ends.

use crate::page::html::{anchor, link};
use crate::page::Book;
use crate::pictures::expression::{clause, value, Expression};
use crate::pictures::strip::{self, Cell};
use crate::source::Declaration;
use crate::tree::{Folder, Id};
use std::collections::BTreeMap;

/// A field from a byte on; of a row of equal parts how many they are, and the name of their size.
struct Field {
    id: Id,
    name: String,
    long: usize,
    parts: Option<(usize, String)>,
}

/// What one section of a file lays out.
struct Layout {
    id: Id,
    size_name: String,
    long: usize,
    fields: Vec<Field>,
}

pub fn section(book: &Book) -> String {
    let layouts = layouts(book);
    // the whole first: it is the one that no other one's fields are made of
    let is_part = |layout: &Layout| {
        layouts
            .iter()
            .any(|other| other.fields.iter().any(|field| is_of(field, layout)))
    };
    let (parts, wholes): (Vec<&Layout>, Vec<&Layout>) =
        layouts.iter().partition(|layout| is_part(layout));
    if wholes.is_empty() {
        return "<p class=\"absent\">No file of definitions has names of a layout.</p>\n"
            .to_string();
    }
    let ordered = wholes.into_iter().chain(parts);
    ordered
        .map(|layout| {
            format!(
                "<p>{}: {} bytes</p>\n{}",
                link(&anchor(book.tree, layout.id), &layout.size_name),
                layout.long,
                draw(book, layout)
            )
        })
        .collect()
}

fn is_of(field: &Field, layout: &Layout) -> bool {
    field
        .parts
        .as_ref()
        .is_some_and(|(_, size)| *size == layout.size_name)
}

fn layouts(book: &Book) -> Vec<Layout> {
    let files =
        (0..book.tree.files.len()).filter(|file| book.tree.files[*file].folder == Folder::Specs);
    files
        .flat_map(|file| {
            sections(book, file)
                .into_values()
                .filter_map(move |ids| layout(book, &ids))
        })
        .collect()
}

/// The numbers that a file names, section by section.
fn sections(book: &Book, file: usize) -> BTreeMap<usize, Vec<Id>> {
    let mut sections: BTreeMap<usize, Vec<Id>> = BTreeMap::new();
    for (at, declaration) in book.tree.files[file]
        .content
        .declarations
        .iter()
        .enumerate()
    {
        if is_number(declaration) {
            sections
                .entry(declaration.section)
                .or_default()
                .push(Id { file, at });
        }
    }
    sections
}

fn is_number(declaration: &Declaration) -> bool {
    declaration.statement.len() == 1
        && declaration.statement[0].ends_with(&format!("{} : ℕ", declaration.name))
}

fn layout(book: &Book, ids: &[Id]) -> Option<Layout> {
    let last = *ids.last()?;
    let size_name = book.tree.declaration(last).name.clone();
    let fits = size_name.ends_with("Size") || size_name.ends_with("Length");
    let starts: Vec<Id> = ids
        .iter()
        .copied()
        .filter(|id| book.tree.declaration(*id).name.ends_with("At"))
        .collect();
    if !fits || starts.is_empty() {
        return None;
    }
    let fields: Option<Vec<Field>> = starts
        .iter()
        .enumerate()
        .map(|(n, id)| field(book, *id, starts.get(n + 1).copied().unwrap_or(last)))
        .collect();
    Some(Layout {
        id: last,
        size_name,
        long: number(book, last)?,
        fields: fields?,
    })
}

fn number(book: &Book, id: Id) -> Option<usize> {
    let (_, is) = clause(book.tree.declaration(id))?;
    value(book, id.file, &is)
}

/// The field that begins at one name and ends where the next one begins: `next = this + count * size`, or `this + size`.
fn field(book: &Book, id: Id, next: Id) -> Option<Field> {
    let at = number(book, id)?;
    let (_, end) = clause(book.tree.declaration(next))?;
    let parts = match &end {
        Expression::Operator(_, plus, long) if plus == "+" => match &**long {
            Expression::Operator(count, times, size) if times == "*" => {
                Some((value(book, next.file, count)?, size.text()))
            }
            _ => None,
        },
        _ => None,
    };
    let name = book
        .tree
        .declaration(id)
        .name
        .trim_end_matches("At")
        .to_string();
    Some(Field {
        id,
        name,
        long: number(book, next)?.checked_sub(at)?,
        parts,
    })
}

fn draw(book: &Book, layout: &Layout) -> String {
    let cell = |field: &Field| Cell {
        name: field.name.clone(),
        remark: match &field.parts {
            Some((count, _)) => format!("{count} × {}", field.long / count.max(&1)),
            None => strip::bytes(field.long),
        },
        long: Some(field.long),
        anchor: Some(anchor(book.tree, field.id)),
    };
    let cells: Vec<Cell> = layout.fields.iter().map(cell).collect();
    strip::draw(&format!("The bytes of {}", layout.size_name), &cells)
}

#[cfg(test)]
mod tests {
    use super::*;
    use crate::page::tests::with_book;
    use crate::tree::tests::tree;

    const LAYOUT: &str = "-- ---- of a pair\nabbrev pub flagAt : ℕ\nflagAt = 0\n\nabbrev pub wordAt : ℕ\nwordAt = flagAt + 1\n\nabbrev pub pairSize : ℕ\n\
        pairSize = wordAt + 4\n\n-- ---- and of the whole\nabbrev pub pairsAt : ℕ\npairsAt = 0\n\nabbrev pub restAt : ℕ\nrestAt = pairsAt + many * pairSize\n\n\
        abbrev pub wholeLength : ℕ\nwholeLength = restAt + 2\n\n-- ---- another number\nabbrev pub many : ℕ\nmany = 8\n";

    #[test]
    fn the_whole_is_drawn_before_its_parts() {
        let tree = tree(&[("layout", Folder::Specs, "Layout", LAYOUT)]);
        let drawn = with_book(&tree, section);
        let [whole, part] = ["wholeLength</a>: 42 bytes", "pairSize</a>: 5 bytes"]
            .map(|text| drawn.find(text).expect(text));
        assert!(whole < part);
        for text in [
            "8 × 5", "2 bytes", "4 bytes", ">pairs<", ">rest<", ">flag<", ">word<",
        ] {
            assert!(drawn.contains(text), "{text} in {drawn}");
        }
    }

    #[test]
    fn where_there_is_no_layout_it_says_so() {
        assert!(with_book(&tree(&[]), section).contains("No file of definitions"));
    }
}
