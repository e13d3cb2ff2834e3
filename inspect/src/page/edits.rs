//! A wrong build: its comment, its lines before and after, and where it was refused.

use crate::edit::Change;
use crate::page::html::{anchor, edit_anchor, escaped, line_anchor, shortened};
use crate::page::Book;

/// How many letters of an error are shown.
const MOST: usize = 600;

pub fn caption(book: &Book, at: usize) -> String {
    let edit = &book.tree.edits[at];
    format!(
        "<a class=\"name\" href=\"#{}\">{}</a> <span class=\"place\">{}</span>",
        edit_anchor(book.tree, at),
        edit.name,
        edit.crate_name
    )
}

/// With the checker's words in full, or the fact alone that was not shown.
pub fn content(book: &Book, at: usize, full: bool) -> String {
    let edit = &book.tree.edits[at];
    let mut html = match edit.comment.as_str() {
        "" => String::new(),
        words => format!("<p class=\"comment\">{}</p>", escaped(words)),
    };
    for (hunk, change) in edit.hunks.iter().zip(&book.changes[at]) {
        let path = format!("crates/{}/{}", edit.crate_name, hunk.file);
        html.push_str(&match change {
            Some(change) => difference(book, &path, change),
            // a text that an earlier hunk of the same edit made
            None => lines_of_difference(&hunk.old, &hunk.new),
        });
    }
    html.push_str(&refusal(book, at, full));
    html
}

fn difference(book: &Book, path: &str, change: &Change) -> String {
    let lines = lines_of_difference(&change.before, &change.after);
    let Some(file) = book.tree.file_of_path(path) else {
        return lines;
    };
    let place = format!(
        "{}, line {}",
        path.rsplit_once('/').map_or(path, |(_, name)| name),
        change.line
    );
    let owner = book
        .tree
        .at_line(file, change.line)
        .filter(|id| book.graph.shown.contains(id));
    let link = match owner {
        Some(id) => {
            let name = &book.tree.declaration(id).name;
            format!(
                "<a href=\"#{}\">{place}</a>, in <a href=\"#{}\">{}</a>",
                line_anchor(book.tree, file, change.line),
                anchor(book.tree, id),
                escaped(name)
            )
        }
        None => place,
    };
    format!("<p class=\"where\">{link}</p>{lines}")
}

/// Both lines, with what differs marked.
fn lines_of_difference(before: &str, after: &str) -> String {
    let (start, end) = common(before, after);
    let line = |tag: &str, sign: &str, text: &str| {
        let (head, middle, tail) = (
            &text[..start],
            &text[start..text.len() - end],
            &text[text.len() - end..],
        );
        let deep = 2 + text.len() - text.trim_start().len();
        format!(
            "<{tag} class=\"l\" style=\"--i:{deep}\">{sign} {}<mark>{}</mark>{}\n</{tag}>",
            escaped(head),
            escaped(middle),
            escaped(tail)
        )
    };
    format!(
        "<pre class=\"code diff\">{}{}</pre>",
        line("del", "−", before),
        line("ins", "+", after)
    )
}

/// How many bytes two lines share at their starts, and at their ends after that.
fn common(before: &str, after: &str) -> (usize, usize) {
    let start: usize = before
        .chars()
        .zip(after.chars())
        .take_while(|(a, b)| a == b)
        .map(|(a, _)| a.len_utf8())
        .sum();
    let ends = before[start..]
        .chars()
        .rev()
        .zip(after[start..].chars().rev());
    (
        start,
        ends.take_while(|(a, b)| a == b)
            .map(|(a, _)| a.len_utf8())
            .sum(),
    )
}

fn refusal(book: &Book, at: usize, full: bool) -> String {
    let edit = &book.tree.edits[at];
    let Some(run) = &book.run else {
        return String::new();
    };
    let Some(refusal) = run
        .refusals
        .get(&(edit.crate_name.clone(), edit.name.clone()))
    else {
        return "<p class=\"refusal\">not in the last gate run</p>".to_string();
    };
    let fact = format!("{} {}", edit.at.of, edit.at.name);
    let words = match if full { &refusal.words } else { &fact }.as_str() {
        "" => String::new(),
        words => format!(": <code>{}</code>", escaped(&shortened(words, MOST))),
    };
    let place = match refusal.place.as_str() {
        "" => String::new(),
        place => format!(" at {}", escaped(place)),
    };
    format!("<p class=\"refusal\">refused{place}{words}</p>")
}

#[cfg(test)]
mod tests {
    use super::*;

    #[test]
    fn what_differs_is_marked() {
        assert_eq!(common("while i < 48 {", "while i < 16 {"), (10, 2));
        let html = lines_of_difference("a ≢ b", "a ≡ b");
        assert!(
            html.contains("a <mark>≢</mark> b") && html.contains("a <mark>≡</mark> b"),
            "{html}"
        );
    }

    #[test]
    fn a_line_that_only_grows_is_marked_where_it_grows() {
        assert_eq!(common("aa", "aaa"), (2, 0));
        assert_eq!(common("x", "x"), (1, 0));
    }
}
