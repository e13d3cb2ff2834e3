//! The sentences, each with its definitions, promises, theorems and wrong builds beside it.

use crate::map::{self, Block, Citation, Column, Row, Section, Target};
use crate::page::code::{self, Lines};
use crate::page::html::{anchor, escaped, line_anchor, row_anchor};
use crate::page::{edits, prose, Book};
use crate::source::{indent, Declaration, Kind};
use crate::tree::{Folder, Id};
use std::collections::{BTreeSet, HashSet};

/// A definition longer than this stands folded beside a sentence, where no part of it is the sentence's own.
const LONG: usize = 14;

/// How many of the map's sections stand before the first that has sentences: what has to be believed, the signs, what is assumed.
fn front_matter(book: &Book) -> usize {
    let has_sentences = |section: &Section| {
        section
            .blocks
            .iter()
            .any(|block| matches!(block, Block::Sentences(..)))
    };
    book.map
        .sections
        .iter()
        .position(has_sentences)
        .unwrap_or(0)
}

/// Anchors, each with a title.
pub type Links = Vec<(String, String)>;

/// The sections that have no sentences, and those that have.
pub fn titles(book: &Book) -> (Links, Links) {
    let front = front_matter(book);
    let of_level = book
        .map
        .sections
        .iter()
        .enumerate()
        .skip(1)
        .filter(|(_, section)| section.level == 2);
    let (first, rest): (Vec<_>, Vec<_>) = of_level.partition(|(at, _)| *at < front);
    let titled = |sections: Vec<(usize, &Section)>| {
        sections
            .iter()
            .map(|(at, section)| (section_anchor(*at), section.title.clone()))
            .collect()
    };
    (titled(first), titled(rest))
}

fn section_anchor(at: usize) -> String {
    format!("section-{at}")
}

/// The map's sections before its sentences, but for its own title.
pub fn front(book: &Book) -> String {
    let sections = book
        .map
        .sections
        .iter()
        .enumerate()
        .take(front_matter(book))
        .skip(1);
    sections
        .map(|(at, section)| one_section(book, at, section, &mut 0))
        .collect()
}

pub fn sections(book: &Book) -> String {
    let mut html = "<h2 id=\"sentences\">Sentences</h2>\n".to_string();
    let mut number = 0;
    let rest = front_matter(book).max(1);
    for (at, section) in book
        .map
        .sections
        .iter()
        .enumerate()
        .filter(|(at, _)| *at == 0 || *at >= rest)
    {
        html.push_str(&one_section(book, at, section, &mut number));
    }
    html
}

fn one_section(book: &Book, at: usize, section: &Section, number: &mut usize) -> String {
    let tag = if section.level <= 2 { "h3" } else { "h4" };
    let mut html = match at {
        0 => String::new(),
        _ => format!(
            "<{tag} id=\"{}\">{}</{tag}>\n",
            section_anchor(at),
            escaped(&section.title)
        ),
    };
    for block in &section.blocks {
        match block {
            Block::Prose(node) => html.push_str(&prose::block(&book.names, node)),
            Block::Sentences(whose, rows) => {
                html.push_str(&format!("<p class=\"whose\">{}</p>\n", escaped(whose)));
                for row in rows {
                    html.push_str(&one_row(book, row, *number));
                    *number += 1;
                }
            }
        }
    }
    html
}

fn one_row(book: &Book, row: &Row, number: usize) -> String {
    let anchor = row_anchor(number);
    let columns: String = Column::ALL
        .into_iter()
        .map(|column| one_column(book, row, column))
        .collect();
    format!(
        "<article class=\"row\" id=\"{anchor}\">\n<div class=\"sentence\"><a class=\"self\" href=\"#{anchor}\">{}</a> {}</div>\n{columns}</article>\n",
        number + 1,
        prose::inline(&book.names, &row.sentence)
    )
}

fn one_column(book: &Book, row: &Row, column: Column) -> String {
    let groups = row.groups(column);
    if groups.is_empty() {
        return String::new();
    }
    let remarks = groups.iter().filter(|group| group.names.is_empty());
    let remarks: String = remarks
        .map(|group| format!("<p class=\"remark\">{}</p>\n", escaped(&group.place)))
        .collect();
    let title = column.title();
    let class = title.split(' ').next().unwrap_or_default().to_lowercase();
    format!(
        "<div class=\"{class}\"><h5>{title}</h5>\n{remarks}{}</div>\n",
        figures(book, row, column)
    )
}

/// What a row cites in a column; the same part of a declaration once.
fn figures(book: &Book, row: &Row, column: Column) -> String {
    let mut html = String::new();
    let mut done: BTreeSet<(Id, Vec<usize>)> = BTreeSet::new();
    for citation in row.citations().filter(|citation| citation.column == column) {
        for target in map::targets(book.tree, &citation) {
            match target {
                Target::Edit(at) => html.push_str(&figure(
                    &edits::caption(book, at),
                    &edits::content(book, at, false),
                )),
                Target::Declaration(id) => {
                    let parts = parts(book, &citation, id);
                    if done.insert((id, parts.iter().map(|(first, _)| *first).collect())) {
                        html.push_str(&declaration(book, &citation, id, &parts));
                    }
                }
            }
        }
    }
    html
}

fn figure(caption: &str, content: &str) -> String {
    format!("<figure><figcaption>{caption}</figcaption>{content}</figure>\n")
}

/// Lines of a declaration that belong together, from a line of the file on.
type Part<'a> = (usize, &'a [String]);

fn declaration(book: &Book, citation: &Citation, id: Id, parts: &[Part]) -> String {
    let text = format!(
        "<pre class=\"code\">{}{}</pre>",
        code::context(book, id),
        joined(book, id, parts)
    );
    let shown: usize = parts.iter().map(|(_, lines)| lines.len()).sum();
    let declaration = book.tree.declaration(id);
    let content = if declaration.kind != Kind::Function && shown > LONG {
        let first = escaped(declaration.statement[0].trim());
        format!("<details><summary>{shown} lines: <code>{first}</code></summary>{text}</details>")
    } else if declaration.kind != Kind::Function && shown < whole(book, id) {
        format!(
            "{text}<p class=\"more\"><a href=\"#{}\">the whole of {}</a></p>",
            anchor(book.tree, id),
            escaped(&declaration.name)
        )
    } else {
        code::comment(&declaration.comment) + &text
    };
    figure(&caption(book, citation, id), &content)
}

/// How many lines the page has of a declaration.
fn whole(book: &Book, id: Id) -> usize {
    let declaration = book.tree.declaration(id);
    let body = if code::has_body(book, id) {
        declaration.body.len()
    } else {
        0
    };
    declaration.statement.len() + body
}

fn caption(book: &Book, citation: &Citation, id: Id) -> String {
    let declaration = book.tree.declaration(id);
    let name = match declaration.has_member(citation.name) {
        true => format!("{} of {}", citation.name, declaration.name),
        false => declaration.name.clone(),
    };
    let code = match declaration.kind {
        Kind::Function => code_link(book, id),
        _ => String::new(),
    };
    let (anchor, place) = (anchor(book.tree, id), escaped(citation.place));
    format!(
        "<a class=\"name\" href=\"#{anchor}\">{}</a> <span class=\"place\">{place}</span>{code}",
        escaped(&name)
    )
}

/// To the code of a function, line by line.
fn code_link(book: &Book, id: Id) -> String {
    let declaration = book.tree.declaration(id);
    let (first, last) = (
        declaration.body_line(),
        declaration.body_line() + declaration.body.len().saturating_sub(1),
    );
    format!(
        " <a class=\"to-code\" href=\"#{}\">code, lines {first} to {last}</a>",
        line_anchor(book.tree, id.file, first)
    )
}

fn joined(book: &Book, id: Id, parts: &[Part]) -> String {
    let show = |(first, text): &Part| {
        code::lines(
            book,
            &Lines {
                id,
                first: *first,
                text,
                numbered: false,
                believed: false,
                marked: HashSet::new(),
            },
        )
    };
    let texts: Vec<String> = parts.iter().map(show).collect();
    let mut html = String::new();
    for (n, text) in texts.iter().enumerate() {
        // what lies between two parts is left out
        if n > 0 && parts[n - 1].0 + parts[n - 1].1.len() < parts[n].0 {
            html.push_str("<span class=\"l gap\">⋮\n</span>");
        }
        html.push_str(text);
    }
    html
}

/// What a row shows of a declaration: the field or constructor that it cites, the clause that is the sentence's own, or all.
fn parts<'a>(book: &Book<'a>, citation: &Citation, id: Id) -> Vec<Part<'a>> {
    let declaration = book.tree.declaration(id);
    let statement = (declaration.line, declaration.statement.as_slice());
    if declaration.name != citation.name
        && declaration.has_member(citation.name)
        && book.tree.file(id).folder != Folder::Src
    {
        return member(declaration, citation.name);
    }
    if declaration.kind == Kind::Function || !code::has_body(book, id) {
        return vec![statement];
    }
    let clauses = clauses(declaration);
    let spoken = spoken(&citation.row.sentence.plain());
    let own: Vec<Part> = clauses
        .iter()
        .copied()
        .filter(|(_, lines)| is_spoken_of(lines, &spoken))
        .collect();
    let parts = if own.is_empty() || clauses.len() == 1 {
        vec![(declaration.body_line(), declaration.body.as_slice())]
    } else {
        own
    };
    [vec![statement], parts].concat()
}

/// The first line of a record, and the field with the comment above it.
fn member<'a>(declaration: &'a Declaration, name: &str) -> Vec<Part<'a>> {
    let lines = &declaration.statement;
    let at = declaration
        .members
        .iter()
        .find(|member| member.name == name)
        .map_or(0, |member| member.line - declaration.line);
    let margin = indent(&lines[at]);
    let is_comment = |line: &String| line.trim_start().starts_with("--");
    let start = at
        - lines[..at]
            .iter()
            .rev()
            .take_while(|line| is_comment(line))
            .count();
    let deeper = lines[at + 1..]
        .iter()
        .take_while(|line| !line.trim().is_empty() && indent(line) > margin)
        .count();
    vec![
        (declaration.line, &lines[..1]),
        (declaration.line + start, &lines[start..at + 1 + deeper]),
    ]
}

/// The clauses of a definition, each with the lines that stand deeper below it.
fn clauses(declaration: &Declaration) -> Vec<Part<'_>> {
    let body = &declaration.body;
    let margin = body.first().map_or(0, |line| indent(line));
    let starts: Vec<usize> = (0..body.len())
        .filter(|at| indent(&body[*at]) == margin && !body[*at].trim().is_empty())
        .collect();
    let ends = starts.iter().skip(1).copied().chain([body.len()]);
    starts
        .iter()
        .zip(ends)
        .map(|(start, end)| (declaration.body_line() + start, &body[*start..end]))
        .collect()
}

/// What a sentence begins with up to its colon, in letters alone: "Set word: claim; .." speaks of setword.
fn spoken(sentence: &str) -> String {
    sentence
        .split_once(':')
        .map_or(String::new(), |(first, _)| letters(first))
}

fn letters(text: &str) -> String {
    text.chars()
        .filter(char::is_ascii_alphabetic)
        .collect::<String>()
        .to_lowercase()
}

/// Whether a clause is of the constructor that a sentence speaks of.
fn is_spoken_of(clause: &[String], spoken: &str) -> bool {
    let left = clause[0].split(" = ").next().unwrap_or_default();
    let words = left
        .split([' ', '(', ')'])
        .filter(|word| word.starts_with(char::is_uppercase));
    !spoken.is_empty() && words.into_iter().any(|word| letters(word) == *spoken)
}

#[cfg(test)]
mod tests {
    use super::*;
    use crate::antt;

    const NUMBER: &str = "unfoldable pub number : State → Call → ℕ\nnumber st (Open s) =\n    No.argument unless isSession s\n    ▸ x\n\
        number st (SetWord s claim c word) = 1\n";

    #[test]
    fn a_sentence_has_its_own_clause() {
        let content = antt::read(NUMBER);
        let clauses = clauses(&content.declarations[0]);
        assert_eq!(clauses.len(), 2);
        assert_eq!((clauses[0].0, clauses[0].1.len()), (2, 3));
        assert!(is_spoken_of(
            clauses[1].1,
            &spoken("Set word: claim; 10 by class 3; 5")
        ));
        assert!(!is_spoken_of(
            clauses[0].1,
            &spoken("Set word: claim; 10 by class 3; 5")
        ));
        assert!(!is_spoken_of(clauses[0].1, &spoken("no colon")));
    }

    #[test]
    fn a_field_has_its_comment_and_the_records_first_line() {
        let content = antt::read("pub record Rules (st : State) : Type 0 where\n  pub few : ℕ\n  -- \"each\"\n  pub each :\n    st\n  pub last : ℕ\n");
        let parts = member(&content.declarations[0], "each");
        assert_eq!((parts[0].0, parts[0].1.len()), (1, 1));
        assert_eq!((parts[1].0, parts[1].1.len()), (3, 3));
    }
}
