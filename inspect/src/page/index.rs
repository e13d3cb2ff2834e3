//! The index of names, which the search looks through.

use crate::page::html::{anchor, edit_anchor, escaped};
use crate::page::{kind_word, Book};
use std::collections::BTreeMap;

/// Where a name leads, and what it is there.
struct Entry {
    href: String,
    what: String,
}

/// Names in the order of the alphabet, each with all that it names.
type Names = BTreeMap<(String, String), Vec<Entry>>;

pub fn section(book: &Book) -> String {
    let items: String = names(book)
        .iter()
        .map(|((_, name), entries)| item(book, name, entries))
        .collect();
    format!(
        "<h2 id=\"index\">Index of names</h2>\n<ul class=\"index\" id=\"names\">\n{items}</ul>\n"
    )
}

fn names(book: &Book) -> Names {
    let mut names = Names::new();
    for id in &book.graph.shown {
        let declaration = book.tree.declaration(*id);
        let (href, place) = (anchor(book.tree, *id), book.tree.file(*id).place());
        add(
            &mut names,
            &declaration.name,
            &href,
            format!("{}, {place}", kind_word(book.tree, *id)),
        );
        for member in declaration
            .members
            .iter()
            .filter(|member| member.name != "0")
        {
            add(
                &mut names,
                &member.name,
                &href,
                format!("of {}, {place}", declaration.name),
            );
        }
    }
    for (at, edit) in book.tree.edits.iter().enumerate() {
        add(
            &mut names,
            &edit.name,
            &edit_anchor(book.tree, at),
            format!("wrong build, {}", edit.crate_name),
        );
    }
    names
}

fn add(names: &mut Names, name: &str, href: &str, what: String) {
    let key = (name.trim_matches('_').to_lowercase(), name.to_string());
    let entry = Entry {
        href: href.to_string(),
        what,
    };
    names.entry(key).or_default().push(entry);
}

fn item(book: &Book, name: &str, entries: &[Entry]) -> String {
    let field = match book.fields.get(name) {
        Some(several) if several.len() > 1 => format!(" id=\"field.{}\"", escaped(name)),
        _ => String::new(),
    };
    let links: Vec<String> = entries
        .iter()
        .map(|entry| format!("<a href=\"#{}\">{}</a>", entry.href, escaped(&entry.what)))
        .collect();
    format!(
        "<li{field}><code>{}</code> {}</li>\n",
        escaped(name),
        links.join("; ")
    )
}
