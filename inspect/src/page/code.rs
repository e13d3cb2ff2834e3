//! Lines of the logic and of the code, with a link from each name and a meaning at each sign.

use crate::page::html::{anchor, escaped, line_anchor};
use crate::page::Book;
use crate::scope::{bound, Meaning, Scope};
use crate::source::{begins_contract, counts, indent, Kind};
use crate::tree::{Folder, Id};
use crate::words::{self, Piece};
use std::collections::HashSet;

/// What is to be shown of a file: some of its lines from a line on, counted from 1.
#[derive(Clone)]
pub struct Lines<'a> {
    pub id: Id,
    pub first: usize,
    pub text: &'a [String],
    /// with the line's number in the margin, and its anchor
    pub numbered: bool,
    /// with a mark for who has to believe them
    pub believed: bool,
    /// the lines of the file that stand out
    pub marked: HashSet<usize>,
}

const KEYWORDS: [&str; 28] = [
    "pub",
    "fn",
    "let",
    "mut",
    "if",
    "else",
    "while",
    "loop",
    "match",
    "return",
    "break",
    "continue",
    "struct",
    "enum",
    "const",
    "extern",
    "as",
    "for",
    "in",
    "abbrev",
    "unfoldable",
    "unfolding",
    "record",
    "data",
    "where",
    "module",
    "requires",
    "ensures",
];

pub fn lines(book: &Book, shown: &Lines) -> String {
    let is_code = book.tree.file(shown.id).folder == Folder::Src;
    let contract = match is_code {
        true => shown
            .text
            .iter()
            .position(|line| begins_contract(line))
            .unwrap_or(shown.text.len()),
        false => 0,
    };
    let body = contract
        + shown.text[contract..]
            .iter()
            .position(|line| is_code && (line == "{" || line == "}"))
            .unwrap_or(shown.text.len() - contract);
    let scope = &book.scopes[shown.id.file];
    let bounds = bound(scope, &shown.text[contract..body]);
    let margin = shown.text.first().map_or(0, |line| indent(line));
    let mut html = String::new();
    for (at, line) in shown.text.iter().enumerate() {
        let inside = if (contract..body).contains(&at) {
            logic(book, scope, &bounds[at - contract], line, margin)
        } else {
            code(book, scope, line)
        };
        html.push_str(&one(book, shown, shown.first + at, line, &inside));
    }
    html
}

/// A line by itself: where it wraps, it goes on a little deeper than it began.
fn one(book: &Book, shown: &Lines, number: usize, line: &str, inside: &str) -> String {
    let mut classes = vec!["l"];
    if shown.believed && counts(line) {
        classes.push("b");
    }
    if shown.marked.contains(&number) {
        classes.push("m");
    }
    let numbered = match shown.numbered {
        true => format!(
            " id=\"{}\" data-n=\"{number}\"",
            line_anchor(book.tree, shown.id.file, number)
        ),
        false => String::new(),
    };
    let deep = match indent(line) {
        0 => String::new(),
        deep => format!(" style=\"--i:{deep}\""),
    };
    let inside = if inside.is_empty() { "&#8203;" } else { inside };
    format!(
        "<span class=\"{}\"{numbered}{deep}>{inside}\n</span>",
        classes.join(" ")
    )
}

fn logic(book: &Book, scope: &Scope, bound: &HashSet<String>, line: &str, margin: usize) -> String {
    let piece = |piece: Piece| match piece {
        Piece::Comment(text) => format!("<i class=\"c\">{}</i>", escaped(text)),
        Piece::Other(text) => escaped(text),
        Piece::Field(text) | Piece::Label(text) => field(book, text, text.trim_start_matches('.')),
        Piece::Word(word) if bound.contains(word) => escaped(word),
        Piece::Word(word) => logic_word(book, scope, word),
    };
    scope.pieces(line, margin).into_iter().map(piece).collect()
}

fn logic_word(book: &Book, scope: &Scope, word: &str) -> String {
    let sign = book.glossary.get(word);
    match scope.of_logic(word) {
        Some(Meaning::Ours(id)) if book.graph.shown.contains(&id) => {
            linked(book, id, word, sign.cloned())
        }
        Some(Meaning::Outside(module)) => titled(
            word,
            sign.unwrap_or(&format!("of the logic's library: {module}")),
            "o",
        ),
        _ if KEYWORDS.contains(&word) => match sign {
            Some(sign) => titled(word, sign, "k"),
            None => format!("<i class=\"k\">{}</i>", escaped(word)),
        },
        _ => sign.map_or_else(|| escaped(word), |sign| titled(word, sign, "o")),
    }
}

fn titled(word: &str, title: &str, class: &str) -> String {
    format!(
        "<i class=\"{class}\" title=\"{}\">{}</i>",
        escaped(title),
        escaped(word)
    )
}

/// A link to a declaration, which says what it is at the pointer.
fn linked(book: &Book, id: Id, word: &str, title: Option<String>) -> String {
    let title = title.unwrap_or_else(|| book.described(id));
    format!(
        "<a href=\"#{}\" title=\"{}\">{}</a>",
        anchor(book.tree, id),
        escaped(&title),
        escaped(word)
    )
}

/// A field leads to the type that has it; where several have one of that name, to the index.
fn field(book: &Book, text: &str, name: &str) -> String {
    if let Some(sign) = book.glossary.get(text) {
        return titled(text, sign, "o");
    }
    match book.fields.get(name).map(Vec::as_slice) {
        None => escaped(text),
        Some([only]) => linked(book, *only, text, None),
        Some(several) => {
            let names: Vec<&str> = several
                .iter()
                .map(|id| book.tree.declaration(*id).name.as_str())
                .collect();
            format!(
                "<a href=\"#field.{name}\" title=\"a field of {}\">{}</a>",
                escaped(&names.join(", ")),
                escaped(text)
            )
        }
    }
}

fn code(book: &Book, scope: &Scope, line: &str) -> String {
    let pieces = words::of_code(line);
    let piece = |at: usize| match pieces[at] {
        Piece::Comment(text) => format!("<i class=\"c\">{}</i>", escaped(text)),
        Piece::Other(text) | Piece::Field(text) | Piece::Label(text) => escaped(text),
        Piece::Word(word) if KEYWORDS.contains(&word) => format!("<i class=\"k\">{word}</i>"),
        Piece::Word(word) => match scope.of_code(word, words::is_called(&pieces, at)) {
            Some(Meaning::Ours(id)) if book.graph.shown.contains(&id) => {
                linked(book, id, word, None)
            }
            _ => escaped(word),
        },
    };
    (0..pieces.len()).map(piece).collect()
}

/// The modules around a declaration, whose parameters its statement speaks of.
pub fn context(book: &Book, id: Id) -> String {
    let declarations = &book.tree.file(id).content.declarations;
    let mut html = String::new();
    for at in &book.tree.declaration(id).within {
        let module = &declarations[*at];
        let shown = Lines {
            id: Id {
                file: id.file,
                at: *at,
            },
            first: module.line,
            text: &module.statement,
            numbered: false,
            believed: false,
            marked: HashSet::new(),
        };
        html.push_str(&lines(book, &shown));
    }
    html
}

pub fn comment(lines: &[String]) -> String {
    match lines.join(" ") {
        words if words.is_empty() => String::new(),
        words => format!("<p class=\"comment\">{}</p>", escaped(&words)),
    }
}

/// Whether the page shows a declaration's body beside its statement: a proof is not shown.
pub fn has_body(book: &Book, id: Id) -> bool {
    let declaration = book.tree.declaration(id);
    !(declaration.body.is_empty()
        || declaration.kind == Kind::Theorem && book.tree.file(id).folder == Folder::Proofs)
}
