//! The bytes that definitions spell out, one after another: `code ∷ 0 ∷ bytesOf 2 n`.

use crate::page::html::{anchor, link};
use crate::page::Book;
use crate::pictures::expression::{clause, meant, value, Expression};
use crate::pictures::strip::{self, Cell};
use crate::tree::{Folder, Id};
use Expression::{Applied, Operator, Word};

/// Some bytes: how many where that is fixed, their value where they are one, or what is repeated.
#[derive(Clone, Debug)]
struct Span {
    name: String,
    long: Option<usize>,
    value: Option<usize>,
    repeats: Option<Id>,
}

impl Span {
    fn new(name: String, long: Option<usize>) -> Span {
        Span {
            name,
            long,
            value: None,
            repeats: None,
        }
    }

    /// What stands below its name.
    fn remark(&self, book: &Book) -> String {
        match (self.long, self.value, self.repeats) {
            (Some(n), Some(value), _) => format!("{}, {value:#04x}", strip::bytes(n)),
            (Some(n), None, _) => strip::bytes(n),
            (None, _, Some(each)) => format!("each {}", book.tree.declaration(each).name),
            (None, _, None) => String::new(),
        }
    }
}

/// A picture of fewer spans than this would show nothing.
const FEWEST: usize = 3;

pub fn section(book: &Book) -> String {
    let definitions = book
        .tree
        .declarations()
        .filter(|id| book.tree.file(*id).folder == Folder::Specs);
    let spelled = definitions.filter_map(|id| Some((id, spans(book, id)?)));
    let drawn: String = spelled
        .filter(|(_, spans)| spans.len() >= FEWEST)
        .map(|(id, spans)| draw(book, id, &spans))
        .collect();
    match drawn.as_str() {
        "" => "<p class=\"absent\">No definition spells bytes out.</p>\n".to_string(),
        _ => drawn,
    }
}

/// The bytes of a definition that ends in a list of numbers and is one clause.
fn spans(book: &Book, id: Id) -> Option<Vec<Span>> {
    let declaration = book.tree.declaration(id);
    let is_bytes =
        declaration.statement.len() == 1 && declaration.statement[0].ends_with("→ List ℕ");
    let (_, is) = clause(declaration).filter(|_| is_bytes)?;
    spelled(book, id.file, &is)
}

fn spelled(book: &Book, file: usize, is: &Expression) -> Option<Vec<Span>> {
    match is {
        Operator(byte, sign, rest) if sign == "∷" => {
            Some([vec![single(book, file, byte)], spelled(book, file, rest)?].concat())
        }
        Operator(first, sign, rest) if sign == "++" => {
            Some([spelled(book, file, first)?, spelled(book, file, rest)?].concat())
        }
        Applied(parts) => applied(book, file, parts),
        Word(word) if word == "[]" => Some(Vec::new()),
        _ => None,
    }
}

fn single(book: &Book, file: usize, byte: &Expression) -> Span {
    Span {
        value: value(book, file, byte),
        ..Span::new(label(byte), Some(1))
    }
}

fn applied(book: &Book, file: usize, parts: &[Expression]) -> Option<Vec<Span>> {
    match parts {
        [Word(f), width, number] if f == "bytesOf" => {
            Some(vec![Span::new(label(number), value(book, file, width))])
        }
        [Word(f), Applied(inner)] if f == "join" => match inner.as_slice() {
            [Word(map), Word(each), list] if map == "map" => Some(vec![Span {
                repeats: meant(book, file, each),
                ..Span::new(label(list), None)
            }]),
            _ => None,
        },
        [.., Word(last)] if last.starts_with('.') => Some(vec![Span::new(
            label(&Applied(parts.to_vec())),
            array(book, last),
        )]),
        [Word(f), given @ ..] => {
            let id = meant(book, file, f)?;
            let (parameters, is) = clause(book.tree.declaration(id))
                .filter(|(parameters, _)| parameters.len() == given.len())?;
            let given: Vec<(String, Expression)> =
                parameters.into_iter().zip(given.iter().cloned()).collect();
            spelled(book, id.file, &is.with(&given))
        }
        _ => None,
    }
}

/// What an expression is called: its last field that has a name, or its own text.
fn label(is: &Expression) -> String {
    let text = is.text();
    let words: Vec<&str> = text
        .split([' ', '(', ')'])
        .filter(|word| !word.is_empty())
        .collect();
    let is_named = |word: &&&str| {
        word.starts_with('.') && !word[1..].starts_with(|c: char| c.is_ascii_digit())
    };
    let mut named = words
        .iter()
        .rev()
        .filter(is_named)
        .map(|word| word.trim_start_matches('.'));
    match (named.next(), named.next()) {
        // the bytes of something are called by what they are of
        (Some("bytes"), Some(owner)) => owner.to_string(),
        (Some(field), _) => field.to_string(),
        _ => text,
    }
}

/// How long the array is that a type of the code has as this field: `[u8; NAME_LENGTH]`.
fn array(book: &Book, field: &str) -> Option<usize> {
    let name = field.trim_start_matches('.');
    let types = book
        .fields
        .get(name)?
        .iter()
        .filter(|id| book.tree.file(**id).folder == Folder::Src);
    let longs: Vec<Option<usize>> = types.map(|id| array_in(book, *id, name)).collect();
    match longs.as_slice() {
        [only] => *only,
        _ => None,
    }
}

fn array_in(book: &Book, id: Id, field: &str) -> Option<usize> {
    let declaration = book.tree.declaration(id);
    let member = declaration
        .members
        .iter()
        .find(|member| member.name == field)?;
    let line = &declaration.statement[member.line - declaration.line];
    let long = line.split_once("[u8; ")?.1.split(']').next()?;
    let constant = || {
        let named = book.tree.coded(&book.tree.file(id).crate_name, long)?;
        let text = book.tree.declaration(named).statement.join(" ");
        text.rsplit_once("= ")?.1.trim_end_matches(';').parse().ok()
    };
    long.parse().ok().or_else(constant)
}

fn draw(book: &Book, id: Id, spans: &[Span]) -> String {
    let cell = |span: &Span| Cell {
        name: span.name.clone(),
        remark: span.remark(book),
        long: span.long,
        anchor: span.repeats.map(|each| anchor(book.tree, each)),
    };
    let cells: Vec<Cell> = spans.iter().map(cell).collect();
    let name = &book.tree.declaration(id).name;
    format!(
        "<p>{} <span class=\"place\">{}</span></p>\n{}",
        link(&anchor(book.tree, id), name),
        book.tree.file(id).place(),
        strip::draw(&format!("The bytes of {name}"), &cells)
    )
}

#[cfg(test)]
mod tests {
    use super::*;
    use crate::page::tests::with_book;
    use crate::tree::tests::tree;

    const CODE: &str =
        "pub const LONG: usize = 48;\n\npub struct Name {\n    pub bytes: [u8; LONG],\n}\n";
    const WIRE: &str = "abbrev pub code : ℕ\ncode = 0x8e\n\nunfoldable pub head : ℕ → ℕ → List ℕ\nhead first n = first ∷ 0 ∷ bytesOf 2 n\n\n\
        unfoldable pub row : Row → List ℕ\nrow r = bytesOf 2 (r .credential .0) ++ (kindNumber (r .kind) ∷ r .name .bytes)\n\n\
        unfoldable pub message : List Row → List ℕ\nmessage rows = head code (length rows) ++ join (map row rows)\n";

    fn told(name: &str) -> Vec<(String, String)> {
        let tree = tree(&[
            ("names", Folder::Src, "lib", CODE),
            ("wire", Folder::Specs, "Wire", WIRE),
        ]);
        let [id] = tree.named_in(1, name)[..] else {
            panic!("one")
        };
        with_book(&tree, |book| {
            spans(book, id)
                .expect("bytes")
                .iter()
                .map(|span| (span.name.clone(), span.remark(book)))
                .collect()
        })
    }

    fn pairs(texts: &[(&str, &str)]) -> Vec<(String, String)> {
        texts
            .iter()
            .map(|(name, remark)| (name.to_string(), remark.to_string()))
            .collect()
    }

    #[test]
    fn a_row_is_taken_apart() {
        assert_eq!(
            told("row"),
            pairs(&[
                ("credential", "2 bytes"),
                ("kind", "1 byte"),
                ("name", "48 bytes")
            ])
        );
    }

    #[test]
    fn a_definition_in_another_is_unfolded() {
        let message = [
            ("code", "1 byte, 0x8e"),
            ("0", "1 byte, 0x00"),
            ("length rows", "2 bytes"),
            ("rows", "each row"),
        ];
        assert_eq!(told("message"), pairs(&message));
    }
}
