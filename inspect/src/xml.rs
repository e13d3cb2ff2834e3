//! The tree that `cmark-gfm -t xml` prints: elements with attributes, and text.

#[derive(Clone, Debug, Default, PartialEq, Eq)]
pub struct Node {
    pub name: String,
    pub attributes: Vec<(String, String)>,
    pub children: Vec<Node>,
    pub text: String,
}

impl Node {
    pub fn attribute(&self, name: &str) -> Option<&str> {
        self.attributes
            .iter()
            .find(|(key, _)| key == name)
            .map(|(_, value)| value.as_str())
    }

    /// The line of the source, counted from 1.
    pub fn line(&self) -> usize {
        let place = self
            .attribute("sourcepos")
            .and_then(|place| place.split(':').next());
        place.and_then(|line| line.parse().ok()).unwrap_or(0)
    }

    /// All the text below it.
    pub fn plain(&self) -> String {
        let below: String = self.children.iter().map(Node::plain).collect();
        let own = if self.name == "softbreak" {
            " "
        } else {
            &self.text
        };
        format!("{own}{below}")
    }
}

/// Reads one document; what is no element of it is passed over.
pub fn read(text: &str) -> Option<Node> {
    let mut open: Vec<Node> = vec![Node::default()];
    let mut rest = text;
    while let Some(start) = rest.find('<') {
        let words = &rest[..start];
        if let Some(node) = open
            .last_mut()
            .filter(|node| node.attribute("xml:space").is_some())
        {
            node.text.push_str(&unescaped(words));
        }
        let end = start + rest[start..].find('>')?;
        tag(&rest[start + 1..end], &mut open)?;
        rest = &rest[end + 1..];
    }
    open.pop()?.children.pop()
}

fn tag(text: &str, open: &mut Vec<Node>) -> Option<()> {
    if text.starts_with(['?', '!']) {
        return Some(());
    }
    if text.starts_with('/') {
        let node = open.pop()?;
        open.last_mut()?.children.push(node);
        return Some(());
    }
    let (words, closed) = match text.strip_suffix('/') {
        Some(words) => (words, true),
        None => (text, false),
    };
    let (name, attributes) = words.trim().split_once(' ').unwrap_or((words.trim(), ""));
    let node = Node {
        name: name.to_string(),
        attributes: read_attributes(attributes),
        ..Node::default()
    };
    if closed {
        open.last_mut()?.children.push(node);
    } else {
        open.push(node);
    }
    Some(())
}

/// `key="value"`, again and again.
fn read_attributes(text: &str) -> Vec<(String, String)> {
    let mut found = Vec::new();
    let mut parts = text.split('"');
    while let (Some(key), Some(value)) = (parts.next(), parts.next()) {
        found.push((
            key.trim().trim_end_matches('=').to_string(),
            unescaped(value),
        ));
    }
    found
}

fn unescaped(text: &str) -> String {
    text.replace("&lt;", "<")
        .replace("&gt;", ">")
        .replace("&quot;", "\"")
        .replace("&amp;", "&")
}

#[cfg(test)]
mod tests {
    use super::*;

    #[test]
    fn a_document_is_read() {
        let text = "<?xml version=\"1.0\"?>\n<!DOCTYPE d>\n<document x=\"y\">\n  <heading level=\"2\" sourcepos=\"4:1-4:9\">\n    \
                    <text xml:space=\"preserve\">a &lt; b </text>\n    <softbreak />\n    <code xml:space=\"preserve\">&amp;lt;</code>\n  </heading>\n</document>\n";
        let document = read(text).unwrap();
        assert_eq!(document.name, "document");
        let heading = &document.children[0];
        assert_eq!((heading.attribute("level"), heading.line()), (Some("2"), 4));
        assert_eq!(heading.plain(), "a < b  &lt;");
    }
}
