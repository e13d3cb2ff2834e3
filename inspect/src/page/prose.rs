//! The map's own prose, as the page has it. A name in it leads to what it names, where that is one thing.

use crate::page::html::escaped;
use crate::xml::Node;
use std::collections::HashMap;

/// The anchors of names that only one thing has.
pub type Names = HashMap<String, String>;

pub fn block(names: &Names, node: &Node) -> String {
    let inside = || {
        node.children
            .iter()
            .map(|child| block(names, child))
            .collect::<String>()
    };
    match node.name.as_str() {
        "paragraph" => format!("<p>{}</p>\n", inline(names, node)),
        "heading" => format!("<h4>{}</h4>\n", inline(names, node)),
        "list" if node.attribute("type") == Some("ordered") => format!("<ol>{}</ol>\n", inside()),
        "list" => format!("<ul>{}</ul>\n", inside()),
        "item" => format!("<li>{}</li>\n", tight(names, &node.children)),
        "code_block" => format!("<pre class=\"code\">{}</pre>\n", escaped(&node.text)),
        "block_quote" => format!("<blockquote>{}</blockquote>\n", inside()),
        "table" => table(names, node),
        _ => inline(names, node),
    }
}

/// An item of one paragraph has no paragraph's space around it.
fn tight(names: &Names, children: &[Node]) -> String {
    match children {
        [only] if only.name == "paragraph" => inline(names, only),
        _ => children.iter().map(|child| block(names, child)).collect(),
    }
}

fn table(names: &Names, node: &Node) -> String {
    let mut rows = String::new();
    for row in &node.children {
        let tag = if row.name == "table_header" {
            "th"
        } else {
            "td"
        };
        let cells: String = row
            .children
            .iter()
            .map(|cell| format!("<{tag}>{}</{tag}>", inline(names, cell)))
            .collect();
        rows.push_str(&format!("<tr>{cells}</tr>\n"));
    }
    format!("<div class=\"wide\"><table>{rows}</table></div>\n")
}

pub fn inline(names: &Names, node: &Node) -> String {
    node.children
        .iter()
        .map(|child| one(names, child))
        .collect()
}

fn one(names: &Names, node: &Node) -> String {
    match node.name.as_str() {
        "text" => text(names, &node.text),
        "code" => match names.get(&node.text) {
            Some(anchor) => format!(
                "<code><a href=\"#{anchor}\">{}</a></code>",
                escaped(&node.text)
            ),
            None => format!("<code>{}</code>", escaped(&node.text)),
        },
        "emph" => format!("<em>{}</em>", inline(names, node)),
        "strong" => format!("<strong>{}</strong>", inline(names, node)),
        "softbreak" | "linebreak" => " ".to_string(),
        // a link of the repository leads nowhere from the page
        _ => inline(names, node),
    }
}

/// A file that is named leads to what the page has of it.
fn text(names: &Names, words: &str) -> String {
    let word = |word: &str| {
        let name = word.trim_end_matches([',', ';', ':', '.']);
        match names.get(name).filter(|_| name.contains('/')) {
            Some(anchor) => format!(
                "<a href=\"#{anchor}\">{}</a>{}",
                escaped(name),
                &word[name.len()..]
            ),
            None => escaped(word),
        }
    };
    words.split(' ').map(word).collect::<Vec<_>>().join(" ")
}

#[cfg(test)]
mod tests {
    use super::*;

    #[test]
    fn files_and_names_lead_to_what_they_name() {
        let names: Names = [
            ("calls/Run".to_string(), "a".to_string()),
            ("holdsState".to_string(), "b".to_string()),
        ]
        .into();
        assert_eq!(
            text(&names, "in calls/Run, and"),
            "in <a href=\"#a\">calls/Run</a>, and"
        );
        assert_eq!(text(&names, "holdsState < x"), "holdsState &lt; x");
        let code = Node {
            name: "code".to_string(),
            text: "holdsState".to_string(),
            ..Node::default()
        };
        assert_eq!(
            one(&names, &code),
            "<code><a href=\"#b\">holdsState</a></code>"
        );
    }
}
