//! Every definition, every function with its code, the statements and the wrong builds, crate by crate; each says who cites it.

use crate::page::code::{self, Lines};
use crate::page::html::{
    anchor, crate_anchor, edit_anchor, escaped, file_anchor, line_anchor, link, row_anchor,
};
use crate::page::{edits, Book};
use crate::source::Kind;
use crate::tree::{Crate, Folder, Id};
use std::collections::{BTreeSet, HashSet};

pub fn section(book: &Book) -> String {
    let crates: String = book
        .tree
        .crates
        .iter()
        .map(|c| one_crate(book, c))
        .collect();
    format!(
        "<h2 id=\"library\">Definitions, code, wrong builds</h2>\n<p>Crate by crate, from the lowest. Lines with a bar at their left are those that \
         a reader has to believe.</p>\n{crates}"
    )
}

fn one_crate(book: &Book, of: &Crate) -> String {
    let relies_on: Vec<String> = of
        .relies_on
        .iter()
        .map(|name| link(&crate_anchor(name), name))
        .collect();
    let relies_on = if relies_on.is_empty() {
        "no other".to_string()
    } else {
        relies_on.join(", ")
    };
    let mut html = format!(
        "<section class=\"crate\"><h3 id=\"{}\">{}</h3>\n<p>{}. Relies on {relies_on}.</p>\n",
        crate_anchor(&of.name),
        of.name,
        escaped(&of.comment)
    );
    for folder in Folder::ALL {
        let files = (0..book.tree.files.len()).filter(|file| {
            book.tree.files[*file].crate_name == of.name && book.tree.files[*file].folder == folder
        });
        files.for_each(|file| html.push_str(&one_file(book, file)));
    }
    html.push_str(&wrong_builds(book, &of.name));
    html.push_str("</section>\n");
    html
}

fn one_file(book: &Book, file: usize) -> String {
    let declarations = book.tree.files[file].content.declarations.len();
    let ids: Vec<Id> = (0..declarations).map(|at| Id { file, at }).collect();
    let shown: BTreeSet<usize> = ids
        .iter()
        .filter(|id| book.graph.shown.contains(id))
        .map(|id| id.at)
        .collect();
    if shown.is_empty() {
        return String::new();
    }
    let modules: BTreeSet<usize> = shown
        .iter()
        .flat_map(|at| book.tree.declaration(Id { file, at: *at }).within.clone())
        .collect();
    let mut html = format!(
        "<h4 id=\"{}\">{}</h4>
",
        file_anchor(book.tree, file),
        escaped(&book.tree.files[file].path)
    );
    for id in ids {
        if shown.contains(&id.at) {
            html.push_str(&one_declaration(book, id));
        } else if modules.contains(&id.at) {
            html.push_str(&format!(
                "<pre class=\"code n\">{}</pre>\n",
                statement(book, id)
            ));
        }
    }
    html
}

fn one_declaration(book: &Book, id: Id) -> String {
    let declaration = book.tree.declaration(id);
    let body = match code::has_body(book, id) {
        true => body(book, id),
        false => String::new(),
    };
    let folded = declaration.kind == Kind::Function;
    let text = match folded {
        true => format!(
            "<pre class=\"code n\">{}</pre><pre class=\"code n body\">{body}</pre>",
            statement(book, id)
        ),
        false => format!("<pre class=\"code n\">{}{body}</pre>", statement(book, id)),
    };
    format!(
        "<article class=\"d\" id=\"{}\">\n<h5>{}</h5>{}{text}{}{}</article>\n",
        anchor(book.tree, id),
        escaped(&declaration.name),
        fixity(book, id) + &code::comment(&declaration.comment),
        edits_of(book, id),
        cited_by(book, id)
    )
}

/// How tightly an operator binds, and to which side.
fn fixity(book: &Book, id: Id) -> String {
    let fixities = &book.tree.file(id).content.fixities;
    match fixities
        .iter()
        .find(|(name, _)| *name == book.tree.declaration(id).name)
    {
        Some((_, fixity)) => format!(" <span class=\"place\">{fixity}</span>"),
        None => String::new(),
    }
}

fn statement(book: &Book, id: Id) -> String {
    let declaration = book.tree.declaration(id);
    let believed = book.believed.share(id).is_some();
    lines(book, id, declaration.line, &declaration.statement, believed)
}

fn body(book: &Book, id: Id) -> String {
    let declaration = book.tree.declaration(id);
    let believed = book.believed.share(id).is_some_and(|share| share.with_body);
    lines(
        book,
        id,
        declaration.body_line(),
        &declaration.body,
        believed,
    )
}

fn lines(book: &Book, id: Id, first: usize, text: &[String], believed: bool) -> String {
    let marked: HashSet<usize> = edit_lines(book, id)
        .into_iter()
        .map(|(line, _)| line)
        .collect();
    code::lines(
        book,
        &Lines {
            id,
            first,
            text,
            numbered: true,
            believed,
            marked,
        },
    )
}

/// The wrong builds that change a line of a declaration, with that line.
fn edit_lines(book: &Book, id: Id) -> Vec<(usize, usize)> {
    let path = &book.tree.file(id).path;
    let mut found = Vec::new();
    for (at, edit) in book.tree.edits.iter().enumerate() {
        for (hunk, change) in edit.hunks.iter().zip(&book.changes[at]) {
            let line = change.as_ref().map_or(0, |change| change.line);
            if book.tree.declaration(id).has_line(line)
                && *path == format!("crates/{}/{}", edit.crate_name, hunk.file)
            {
                found.push((line, at));
            }
        }
    }
    found
}

fn edits_of(book: &Book, id: Id) -> String {
    let of_line = |(line, at): &(usize, usize)| {
        format!(
            "{} (line {})",
            link(&edit_anchor(book.tree, *at), &book.tree.edits[*at].name),
            link(&line_anchor(book.tree, id.file, *line), &line.to_string())
        )
    };
    let links: Vec<String> = edit_lines(book, id).iter().map(of_line).collect();
    labelled("Wrong builds of it", &links)
}

fn labelled(label: &str, items: &[String]) -> String {
    match items {
        [] => String::new(),
        items => format!(
            "<p class=\"cites\"><b>{label}:</b> {}</p>",
            items.join(", ")
        ),
    }
}

/// What those who cite a declaration are called, in the order of the page.
const CITERS: [&str; 5] = [
    "Cited by the definitions",
    "Cited by the contracts of",
    "Used by the code of",
    "By the types",
    "By the statements",
];

fn citer(book: &Book, cited: Id, citing: Id) -> &'static str {
    let is_code = book.tree.file(cited).folder == Folder::Src;
    match (
        book.tree.file(citing).folder,
        book.tree.declaration(citing).kind,
    ) {
        (Folder::Specs, _) => CITERS[0],
        (Folder::Src, Kind::Function) if is_code => CITERS[2],
        (Folder::Src, Kind::Function) => CITERS[1],
        (Folder::Src, _) => CITERS[3],
        (Folder::Proofs, _) => CITERS[4],
    }
}

/// Who cites a declaration: the sentences first, which is the way back.
fn cited_by(book: &Book, id: Id) -> String {
    let none = Vec::new();
    let one_answer = book.graph.one_answer.get(&id).unwrap_or(&none);
    let named = |other: &Id| link(&anchor(book.tree, *other), &qualified(book, id, *other));
    let mut html = labelled("Sentences", &sentences(book, book.graph.rows.get(&id)));
    html.push_str(&labelled(
        "That there is no second answer",
        &one_answer.iter().map(named).collect::<Vec<_>>(),
    ));
    let citing: Vec<Id> = book
        .graph
        .cited_by
        .get(&id)
        .into_iter()
        .flatten()
        .copied()
        .filter(|other| !one_answer.contains(other))
        .collect();
    for label in CITERS {
        let links: Vec<String> = citing
            .iter()
            .filter(|other| citer(book, id, **other) == label)
            .map(named)
            .collect();
        html.push_str(&labelled(label, &links));
    }
    html
}

fn sentences(book: &Book, rows: Option<&BTreeSet<usize>>) -> Vec<String> {
    let rows = rows.into_iter().flatten();
    rows.map(|row| {
        link(
            &row_anchor(*row),
            &format!("{} {}", row + 1, book.sentence(*row)),
        )
    })
    .collect()
}

/// A name with its crate, where that is another one.
fn qualified(book: &Book, here: Id, other: Id) -> String {
    let name = &book.tree.declaration(other).name;
    let crate_name = &book.tree.file(other).crate_name;
    if *crate_name == book.tree.file(here).crate_name {
        name.clone()
    } else {
        format!("{crate_name}: {name}")
    }
}

fn wrong_builds(book: &Book, crate_name: &str) -> String {
    let of_crate =
        (0..book.tree.edits.len()).filter(|at| book.tree.edits[*at].crate_name == crate_name);
    let mut html = String::new();
    for at in of_crate {
        let rows = sentences(book, book.graph.edit_rows.get(&at));
        html.push_str(&format!(
            "<article class=\"d wrong\" id=\"{}\">\n<h5>{}</h5>{}{}</article>\n",
            edit_anchor(book.tree, at),
            book.tree.edits[at].name,
            edits::content(book, at, true),
            labelled("Sentences", &rows)
        ));
    }
    match html.as_str() {
        "" => html,
        articles => format!(
            "<div class=\"builds\"><h4>crates/{crate_name}: wrong builds</h4>\n{articles}</div>\n"
        ),
    }
}
