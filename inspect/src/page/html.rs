//! Texts and anchors of the page.

use crate::source::Kind;
use crate::tree::{Id, Tree};

pub fn escaped(text: &str) -> String {
    text.replace('&', "&amp;")
        .replace('<', "&lt;")
        .replace('>', "&gt;")
        .replace('"', "&quot;")
}

/// The anchor of a declaration; where a file declares a name again, in another module, its number follows.
pub fn anchor(tree: &Tree, id: Id) -> String {
    let file = tree.file(id);
    let name = &tree.declaration(id).name;
    let earlier = file.content.declarations[..id.at]
        .iter()
        .filter(|d| d.name == *name && d.kind != Kind::Module)
        .count();
    let again = if earlier == 0 {
        String::new()
    } else {
        format!("~{}", earlier + 1)
    };
    escaped(&format!(
        "{}.{}.{}.{name}{again}",
        file.crate_name,
        file.folder.name(),
        file.stem
    ))
}

pub fn file_anchor(tree: &Tree, file: usize) -> String {
    let file = &tree.files[file];
    format!("{}.{}.{}", file.crate_name, file.folder.name(), file.stem)
}

pub fn line_anchor(tree: &Tree, file: usize, line: usize) -> String {
    format!("{}:{line}", file_anchor(tree, file))
}

pub fn crate_anchor(name: &str) -> String {
    format!("crate.{name}")
}

pub fn edit_anchor(tree: &Tree, at: usize) -> String {
    let edit = &tree.edits[at];
    format!("{}.{}.{}", edit.crate_name, edit.shelf.name(), edit.name)
}

pub fn row_anchor(number: usize) -> String {
    format!("sentence-{}", number + 1)
}

pub fn link(anchor: &str, text: &str) -> String {
    format!("<a href=\"#{anchor}\">{}</a>", escaped(text))
}

/// The first letters of a text, and a sign where there are more.
pub fn shortened(text: &str, most: usize) -> String {
    match text.char_indices().nth(most) {
        Some((end, _)) => format!("{} …", text[..end].trim_end()),
        None => text.to_string(),
    }
}

/// A number with commas between thousands.
pub fn number(n: usize) -> String {
    let digits = n.to_string();
    let mut text = String::new();
    for (at, digit) in digits.chars().enumerate() {
        if at > 0 && (digits.len() - at) % 3 == 0 {
            text.push(',');
        }
        text.push(digit);
    }
    text
}

/// A number of things.
pub fn several(n: usize, one: &str, more: &str) -> String {
    format!("{} {}", number(n), if n == 1 { one } else { more })
}

#[cfg(test)]
mod tests {
    use super::*;

    #[test]
    fn numbers_read_well() {
        assert_eq!(number(1793), "1,793");
        assert_eq!(number(616), "616");
        assert_eq!(several(1, "crate", "crates"), "1 crate");
    }

    #[test]
    fn a_long_text_is_cut_between_letters() {
        assert_eq!(shortened("≡≢≡", 3), "≡≢≡");
        assert_eq!(shortened("a ≢ b", 2), "a …");
    }

    #[test]
    fn text_cannot_end_an_attribute_or_begin_a_tag() {
        assert_eq!(escaped("a < \"b\" & c"), "a &lt; &quot;b&quot; &amp; c");
    }
}
