//! Reads a wrong build (`.edit`): a comment, where it is refused, and texts of the crate's files with what stands for them.

/// Where a wrong build lies in its crate. `slavotuk-inspect wrong` tries all of them.
#[derive(Clone, Copy, Debug, PartialEq, Eq)]
pub enum Shelf {
    /// those that documents 01 and 02 name: `rt ci` tries them too
    MustFail,
    Wrong,
}

impl Shelf {
    pub const ALL: [Shelf; 2] = [Shelf::MustFail, Shelf::Wrong];

    pub fn name(self) -> &'static str {
        match self {
            Shelf::MustFail => "must-fail",
            Shelf::Wrong => "wrong",
        }
    }
}

#[derive(Clone, Debug)]
pub struct Edit {
    pub crate_name: String,
    pub shelf: Shelf,
    pub name: String,
    pub comment: String,
    pub at: Fact,
    pub hunks: Vec<Hunk>,
}

/// The fact that fails under an edit: a goal of a function, by the function's path in the crate; or a lemma of a file, by the file's path from the crate's
/// folder on.
#[derive(Clone, Debug, Default, PartialEq, Eq)]
pub struct Fact {
    pub of: String,
    pub name: String,
}

impl Fact {
    /// The function whose goal it is.
    pub fn function(&self) -> Option<&str> {
        let of = Some(self.of.as_str());
        of.filter(|of| !of.is_empty() && !of.ends_with(".antt"))
    }
}

#[derive(Clone, Debug)]
pub struct Hunk {
    /// from the crate's folder on
    pub file: String,
    pub old: String,
    pub new: String,
}

/// A hunk where it lies: the line of the file, counted from 1, as it is and as the edit makes it.
#[derive(Clone, Debug, PartialEq, Eq)]
pub struct Change {
    pub line: usize,
    pub before: String,
    pub after: String,
}

pub fn read(crate_name: &str, shelf: Shelf, name: &str, text: &str) -> Edit {
    let mut comment = Vec::new();
    let mut at = Fact::default();
    let mut hunks: Vec<Hunk> = Vec::new();
    let mut file = "";
    for line in text.lines() {
        if let Some(fact) = value(line, "at:") {
            let (of, name) = fact.split_once(' ').unwrap_or((fact, ""));
            at = Fact {
                of: of.to_string(),
                name: name.to_string(),
            };
        } else if let Some(words) = line.strip_prefix('#') {
            comment.push(words.trim());
        } else if let Some(path) = line.strip_prefix("file:") {
            file = path.trim();
        } else if let Some(old) = value(line, "old:") {
            hunks.push(Hunk {
                file: file.to_string(),
                old: old.to_string(),
                new: String::new(),
            });
        } else if let (Some(new), Some(hunk)) = (value(line, "new:"), hunks.last_mut()) {
            hunk.new = new.to_string();
        }
    }
    Edit {
        crate_name: crate_name.to_string(),
        shelf,
        name: name.to_string(),
        comment: comment.join(" "),
        at,
        hunks,
    }
}

/// What stands after a key and its one space.
fn value<'a>(line: &'a str, key: &str) -> Option<&'a str> {
    let rest = line.strip_prefix(key)?;
    Some(rest.strip_prefix(' ').unwrap_or(rest))
}

impl Hunk {
    /// Where the old text lies in a file, if it lies there exactly once.
    pub fn change(&self, text: &str) -> Option<Change> {
        let mut places = text.match_indices(&self.old);
        let (at, _) = places.next().filter(|_| !self.old.is_empty())?;
        if places.next().is_some() {
            return None;
        }
        let start = text[..at].rfind('\n').map_or(0, |newline| newline + 1);
        let end = text[at..]
            .find('\n')
            .map_or(text.len(), |newline| at + newline);
        let before = text[start..end].to_string();
        let after = format!(
            "{}{}{}",
            &text[start..at],
            self.new,
            &text[at + self.old.len()..end]
        );
        Some(Change {
            line: text[..start].matches('\n').count() + 1,
            before,
            after,
        })
    }
}

#[cfg(test)]
mod tests {
    use super::*;

    #[test]
    fn the_comment_the_files_and_the_texts_are_read() {
        let edit = read("names", Shelf::Wrong, "x", "# stops\n# early\nat: same loop-i-preserved\nfile: src/lib.rt\nold:     while i < 48 {\nnew:     while i < 16 {\nold: a\nnew:\n");
        assert_eq!(edit.comment, "stops early");
        assert_eq!(
            (edit.at.of.as_str(), edit.at.name.as_str()),
            ("same", "loop-i-preserved")
        );
        assert_eq!(edit.hunks.len(), 2);
        assert_eq!(edit.hunks[0].old, "    while i < 48 {");
        assert_eq!(
            (edit.hunks[1].file.as_str(), edit.hunks[1].new.as_str()),
            ("src/lib.rt", "")
        );
    }

    #[test]
    fn a_text_that_is_there_once_is_found_with_its_line() {
        let hunk = Hunk {
            file: String::new(),
            old: "< 48".to_string(),
            new: "< 16".to_string(),
        };
        let change = hunk.change("fn\n    while i < 48 {\n}\n").unwrap();
        assert_eq!(
            change,
            Change {
                line: 2,
                before: "    while i < 48 {".to_string(),
                after: "    while i < 16 {".to_string()
            }
        );
        assert!(hunk.change("nothing").is_none());
        assert!(hunk.change("i < 48; j < 48").is_none());
    }
}
