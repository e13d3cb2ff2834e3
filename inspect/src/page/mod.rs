//! The inspector's page: one file of HTML, with its style, its script and its pictures inside.

mod code;
mod edits;
mod first;
pub mod html;
mod index;
mod library;
mod prose;
mod sentences;

use crate::believed::Believed;
use crate::check::Verdict;
use crate::edit::Change;
use crate::graph::Graph;
use crate::map::Map;
use crate::pictures;
use crate::run::Run;
use crate::scope::Scope;
use crate::source::Kind;
use crate::tree::{File, Folder, Id, Tree};
use crate::xml::Node;
use std::collections::{BTreeMap, BTreeSet, HashMap};

const STYLE: &str = include_str!("style.css");
const SCRIPT: &str = include_str!("search.js");

/// From where and when the page is made.
pub struct Origin {
    pub commit: String,
    pub date: String,
    /// README.md, whose first section says what is proved
    pub readme: Node,
    /// what the check of the map found
    pub verdicts: Vec<Verdict>,
}

/// All that the page is made of.
pub struct Book<'a> {
    pub tree: &'a Tree,
    pub map: &'a Map,
    pub run: Option<Run>,
    pub origin: Origin,
    pub believed: Believed,
    pub scopes: Vec<Scope<'a>>,
    pub graph: Graph,
    /// what each sign means
    pub glossary: HashMap<String, String>,
    /// the types and records that have a field of a name
    pub fields: BTreeMap<String, Vec<Id>>,
    /// where a name leads that only one thing has
    pub names: prose::Names,
    /// of each wrong build its hunks where they lie
    pub changes: Vec<Vec<Option<Change>>>,
}

impl<'a> Book<'a> {
    pub fn new(tree: &'a Tree, map: &'a Map, run: Option<Run>, origin: Origin) -> Book<'a> {
        let scopes: Vec<Scope> = (0..tree.files.len())
            .map(|file| Scope::of(tree, file))
            .collect();
        let believed = Believed::of(tree, map, &scopes);
        let graph = Graph::of(tree, map, &believed, &scopes);
        let fields = fields(tree, &graph);
        let names = names(tree, &graph);
        Book {
            tree,
            map,
            run,
            origin,
            believed,
            scopes,
            graph,
            glossary: glossary(map),
            fields,
            names,
            changes: changes(tree),
        }
    }

    /// What a declaration is, in a few words.
    pub fn described(&self, id: Id) -> String {
        let what = format!(
            "{}, {}",
            kind_word(self.tree, id),
            self.tree.file(id).place()
        );
        match self.tree.declaration(id).comment.join(" ") {
            comment if comment.is_empty() => what,
            comment => format!("{what}: {}", html::shortened(&comment, 90)),
        }
    }

    /// The first words of a row's sentence.
    pub fn sentence(&self, number: usize) -> String {
        let row = self.map.rows().nth(number);
        row.map_or(String::new(), |row| {
            html::shortened(&row.sentence.plain(), 60)
        })
    }
}

pub fn kind_word(tree: &Tree, id: Id) -> &'static str {
    match (tree.declaration(id).kind, tree.file(id).folder) {
        (Kind::Theorem, Folder::Proofs) => "statement",
        (Kind::Function, _) => "function",
        (Kind::Type, _) => "type",
        (Kind::Constant, _) => "constant",
        _ => "definition",
    }
}

/// The signs of the map's glossary: what stands in its first column in code, but for single letters, which stand for any value.
fn glossary(map: &Map) -> HashMap<String, String> {
    let mut signs: HashMap<String, String> = HashMap::new();
    for cells in map.table(&["Written", "Means"]) {
        let [written, means] = cells.as_slice() else {
            continue;
        };
        let codes: Vec<&str> = written
            .children
            .iter()
            .filter(|node| node.name == "code")
            .map(|node| node.text.as_str())
            .collect();
        for (code, meaning) in codes.iter().zip(meanings(codes.len(), &means.plain())) {
            for word in signs_of(code) {
                let known = signs.entry(word.to_string()).or_default();
                known.push_str(if known.is_empty() { "" } else { "\n" });
                known.push_str(&format!("{code}: {meaning}"));
            }
        }
    }
    signs
}

/// A meaning for each of some signs: where a row has as many, which semicolons separate, each its own; else all of them the whole.
fn meanings(signs: usize, text: &str) -> Vec<String> {
    let parts: Vec<String> = text.split("; ").map(str::to_string).collect();
    if parts.len() == signs {
        parts
    } else {
        vec![text.to_string(); signs]
    }
}

/// A field is written behind a letter, and is a sign without it.
fn signs_of(code: &str) -> BTreeSet<&str> {
    let words = code
        .split([' ', '(', ')', '{', '}'])
        .map(|word| word.trim_end_matches('.'));
    let words = words.map(|word| match word.find('.') {
        Some(1) => &word[1..],
        _ => word,
    });
    words.filter(|word| !is_placeholder(word)).collect()
}

fn is_placeholder(word: &str) -> bool {
    let mut letters = word.chars();
    match (letters.next(), letters.next()) {
        (None, _) => true,
        (Some(only), None) => only.is_ascii_alphanumeric() || [':', '='].contains(&only),
        _ => false,
    }
}

fn fields(tree: &Tree, graph: &Graph) -> BTreeMap<String, Vec<Id>> {
    let mut fields: BTreeMap<String, Vec<Id>> = BTreeMap::new();
    for id in &graph.shown {
        let declaration = tree.declaration(*id);
        let is_struct =
            declaration.kind == Kind::Type && declaration.statement[0].contains("struct ");
        if is_struct || declaration.kind == Kind::Record {
            for member in declaration
                .members
                .iter()
                .filter(|member| member.name != "0")
            {
                fields.entry(member.name.clone()).or_default().push(*id);
            }
        }
    }
    fields
}

/// Where prose may lead: names that only one thing has, but for plain words, which can mean something else; and the files.
fn names(tree: &Tree, graph: &Graph) -> prose::Names {
    let mut places: HashMap<&str, Vec<Id>> = HashMap::new();
    for id in &graph.shown {
        places
            .entry(&tree.declaration(*id).name)
            .or_default()
            .push(*id);
    }
    let is_plain = |name: &str| name.chars().all(|c| c.is_ascii_lowercase());
    let only = places
        .into_iter()
        .filter(|(name, ids)| ids.len() == 1 && !is_plain(name));
    let mut names: prose::Names = only
        .map(|(name, ids)| (name.to_string(), html::anchor(tree, ids[0])))
        .collect();
    let files: BTreeSet<usize> = graph.shown.iter().map(|id| id.file).collect();
    for file in files {
        let File {
            crate_name,
            stem,
            folder,
            ..
        } = &tree.files[file];
        let place = match folder {
            Folder::Specs => format!("{crate_name}/{stem}"),
            folder => format!("{crate_name}/{}/{stem}", folder.name()),
        };
        names.insert(place, html::file_anchor(tree, file));
    }
    names
}

fn changes(tree: &Tree) -> Vec<Vec<Option<Change>>> {
    let of_hunk = |crate_name: &str, hunk: &crate::edit::Hunk| {
        let file = tree.file_of_path(&format!("crates/{crate_name}/{}", hunk.file))?;
        hunk.change(&tree.files[file].text)
    };
    tree.edits
        .iter()
        .map(|edit| {
            edit.hunks
                .iter()
                .map(|hunk| of_hunk(&edit.crate_name, hunk))
                .collect()
        })
        .collect()
}

pub fn write(book: &Book) -> String {
    let main = [
        first::page(book),
        pictures::section(book),
        sentences::sections(book),
        library::section(book),
        index::section(book),
    ]
    .concat();
    format!(
        "<!DOCTYPE html>\n<html lang=\"en\">\n<head>\n<meta charset=\"utf-8\">\n\
         <meta name=\"viewport\" content=\"width=device-width, initial-scale=1\">\n\
         <meta http-equiv=\"Content-Security-Policy\" content=\"default-src 'none'; style-src 'unsafe-inline'; script-src 'unsafe-inline'\">\n\
         <title>Slavotuk: the inspector's page</title>\n<style>\n{STYLE}</style>\n</head>\n<body>\n{}<main>\n{main}</main>\n<script>\n{SCRIPT}</script>\n</body>\n</html>\n",
        navigation(book)
    )
}

fn navigation(book: &Book) -> String {
    let items = |links: &[(String, String)]| {
        links
            .iter()
            .map(|(anchor, title)| format!("<li>{}</li>", html::link(anchor, title)))
            .collect::<String>()
    };
    let (front, sections) = sentences::titles(book);
    let crates: Vec<(String, String)> = book
        .tree
        .crates
        .iter()
        .map(|c| (html::crate_anchor(&c.name), c.name.clone()))
        .collect();
    format!(
        "<nav aria-label=\"Contents\">\n<p class=\"title\"><a href=\"#top\">Slavotuk</a></p>\n<div id=\"search\" role=\"search\"></div>\n\
         <ul>\n<li><a href=\"#proved\">What is proved</a></li><li><a href=\"#run\">The last gate run</a></li>\
         <li><a href=\"#believed\">How much has to be believed</a></li>\n<li><a href=\"#asking\">Private functions that ask something</a></li>{}\n<li><a href=\"#pictures\">Pictures</a></li>\n\
         <li><a href=\"#sentences\">Sentences</a><ul>{}</ul></li>\n<li><a href=\"#library\">Definitions, code, wrong builds</a>\
         <ul class=\"crates\">{}</ul></li>\n<li><a href=\"#index\">Index of names</a></li>\n</ul>\n</nav>\n",
        items(&front),
        items(&sections),
        items(&crates)
    )
}

#[cfg(test)]
pub mod tests {
    use super::*;

    /// The book of a tree with no map.
    pub fn with_book<T>(tree: &Tree, look: impl Fn(&Book) -> T) -> T {
        let map = Map::of(Node::default());
        let origin = Origin {
            commit: String::new(),
            date: String::new(),
            readme: Node::default(),
            verdicts: Vec::new(),
        };
        look(&Book::new(tree, &map, None, origin))
    }

    #[test]
    fn each_sign_has_its_own_meaning_where_there_are_as_many() {
        assert_eq!(
            meanings(2, "the same; they are not"),
            ["the same", "they are not"]
        );
        assert_eq!(meanings(3, "and, or, not"), ["and, or, not"; 3]);
    }

    #[test]
    fn letters_stand_for_values() {
        assert_eq!(signs_of("a ≡ b").into_iter().collect::<Vec<_>>(), ["≡"]);
        assert_eq!(
            signs_of("length s.old").into_iter().collect::<Vec<_>>(),
            [".old", "length"]
        );
        assert_eq!(signs_of("λ x. e").into_iter().collect::<Vec<_>>(), ["λ"]);
    }
}
