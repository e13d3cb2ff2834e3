//! The map from sentences to names: docs/STATEMENTS.md, read by Debian's cmark-gfm.

use crate::source::Kind;
use crate::tree::{Folder, Id, Tree};
use crate::xml::{self, Node};
use std::io;
use std::path::Path;
use std::process::Command;

pub const PATH: &str = "docs/STATEMENTS.md";

/// The columns of a table of sentences, after the sentence itself.
#[derive(Clone, Copy, Debug, PartialEq, Eq, Hash)]
pub enum Column {
    Definition,
    Promise,
    Proved,
    WrongBuilds,
}

impl Column {
    pub const ALL: [Column; 4] = [
        Column::Definition,
        Column::Promise,
        Column::Proved,
        Column::WrongBuilds,
    ];

    pub fn title(self) -> &'static str {
        match self {
            Column::Definition => "Definition",
            Column::Promise => "Promise",
            Column::Proved => "Proved",
            Column::WrongBuilds => "Wrong builds",
        }
    }
}

/// `place: names`; a group with no name is a remark.
#[derive(Clone, Debug, Default, PartialEq, Eq)]
pub struct Group {
    pub place: String,
    pub names: Vec<String>,
}

#[derive(Clone, Debug)]
pub struct Row {
    /// of the map, counted from 1
    pub line: usize,
    pub sentence: Node,
    pub cells: [Vec<Group>; 4],
}

#[derive(Clone, Debug)]
pub enum Block {
    Prose(Node),
    /// a table of sentences; the title of its first column says whose
    Sentences(String, Vec<Row>),
}

#[derive(Clone, Debug)]
pub struct Section {
    pub level: usize,
    pub title: String,
    pub blocks: Vec<Block>,
}

impl Section {
    fn rows(&self) -> impl Iterator<Item = &Row> {
        self.blocks.iter().flat_map(|block| match block {
            Block::Sentences(_, rows) => rows.as_slice(),
            Block::Prose(_) => &[],
        })
    }
}

pub struct Map {
    pub sections: Vec<Section>,
    /// tables that have some of the columns and not all, in their order: their lines
    pub misshapen: Vec<usize>,
}

/// A name that a row cites.
#[derive(Clone, Debug)]
pub struct Citation<'a> {
    pub row: &'a Row,
    pub column: Column,
    pub place: &'a str,
    pub name: &'a str,
}

/// What a cited name is.
#[derive(Clone, Copy, Debug, PartialEq, Eq)]
pub enum Target {
    Declaration(Id),
    Edit(usize),
}

impl Map {
    pub fn read(root: &Path) -> io::Result<Map> {
        document(&root.join(PATH)).map(Map::of)
    }

    pub fn of(document: Node) -> Map {
        let mut map = Map {
            sections: Vec::new(),
            misshapen: Vec::new(),
        };
        for node in document.children {
            if node.name == "heading" {
                let level = node
                    .attribute("level")
                    .and_then(|level| level.parse().ok())
                    .unwrap_or(1);
                map.sections.push(Section {
                    level,
                    title: node.plain(),
                    blocks: Vec::new(),
                });
                continue;
            }
            let block = map.block(node);
            if map.sections.is_empty() {
                map.sections.push(Section {
                    level: 1,
                    title: String::new(),
                    blocks: Vec::new(),
                });
            }
            map.sections
                .last_mut()
                .expect("there is one")
                .blocks
                .push(block);
        }
        map
    }

    fn block(&mut self, node: Node) -> Block {
        let titles = titles(&node);
        let wanted = Column::ALL.map(Column::title);
        if titles.len() == 5 && titles[1..] == wanted {
            let rows = node.children.iter().skip(1).filter_map(row).collect();
            return Block::Sentences(titles[0].clone(), rows);
        }
        // one of the columns by itself may be another table's
        if titles
            .iter()
            .filter(|title| wanted.contains(&title.as_str()))
            .count()
            > 1
        {
            self.misshapen.push(node.line());
        }
        Block::Prose(node)
    }

    pub fn rows(&self) -> impl Iterator<Item = &Row> {
        self.sections.iter().flat_map(Section::rows)
    }

    /// The rows of the section with a title.
    pub fn section_rows<'a>(&'a self, title: &'a str) -> impl Iterator<Item = &'a Row> {
        let sections = self.sections.iter();
        sections
            .filter(move |section| section.title == title)
            .flat_map(Section::rows)
    }

    pub fn citations(&self) -> impl Iterator<Item = Citation<'_>> {
        self.rows().flat_map(Row::citations)
    }

    /// The rows of the first table with these titles, each as its cells.
    pub fn table(&self, titles_wanted: &[&str]) -> Vec<Vec<Node>> {
        let blocks = self.sections.iter().flat_map(|section| &section.blocks);
        let mut tables = blocks.filter_map(|block| match block {
            Block::Prose(node) if titles(node) == titles_wanted => Some(node),
            _ => None,
        });
        let rows = tables.next().map_or(&[][..], |table| &table.children[1..]);
        rows.iter().map(|row| row.children.clone()).collect()
    }

    /// All words of the prose, for what is named there.
    pub fn prose_words(&self) -> Vec<String> {
        let blocks = self.sections.iter().flat_map(|section| &section.blocks);
        let mut words = Vec::new();
        for block in blocks {
            if let Block::Prose(node) = block {
                gather_words(node, &mut words);
            }
        }
        words
    }
}

/// A file of Markdown, as cmark-gfm reads it.
pub fn document(path: &Path) -> io::Result<Node> {
    let output = Command::new("cmark-gfm")
        .args(["--sourcepos", "-e", "table", "-t", "xml"])
        .arg(path)
        .output();
    let output = output.map_err(|e| {
        io::Error::new(
            e.kind(),
            format!("cmark-gfm, of Debian's package of that name: {e}"),
        )
    })?;
    let document = Some(output.stdout)
        .filter(|_| output.status.success())
        .and_then(|text| xml::read(&String::from_utf8_lossy(&text)));
    document.ok_or_else(|| {
        io::Error::new(
            io::ErrorKind::InvalidData,
            format!("cmark-gfm cannot read {}", path.display()),
        )
    })
}

fn gather_words(node: &Node, words: &mut Vec<String>) {
    words.extend(
        node.text
            .split([' ', ',', ';', ':'])
            .filter(|word| !word.is_empty())
            .map(str::to_string),
    );
    node.children
        .iter()
        .for_each(|child| gather_words(child, words));
}

impl Row {
    pub fn groups(&self, column: Column) -> &[Group] {
        &self.cells[column as usize]
    }

    pub fn citations(&self) -> impl Iterator<Item = Citation<'_>> {
        let groups = Column::ALL
            .into_iter()
            .flat_map(|column| self.groups(column).iter().map(move |group| (column, group)));
        groups.flat_map(move |(column, group)| {
            group.names.iter().map(move |name| Citation {
                row: self,
                column,
                place: &group.place,
                name,
            })
        })
    }
}

fn titles(node: &Node) -> Vec<String> {
    let header = node
        .children
        .iter()
        .find(|child| node.name == "table" && child.name == "table_header");
    header.map_or(Vec::new(), |header| {
        header.children.iter().map(Node::plain).collect()
    })
}

fn row(node: &Node) -> Option<Row> {
    let mut cells = node.children.iter();
    let sentence = cells.next()?.clone();
    let mut next = || cells.next().map(groups).unwrap_or_default();
    Some(Row {
        line: node.line(),
        sentence,
        cells: [next(), next(), next(), next()],
    })
}

/// A cell's groups, which semicolons separate.
fn groups(cell: &Node) -> Vec<Group> {
    let mut found = vec![Group::default()];
    for node in &cell.children {
        if node.name == "code" {
            found
                .last_mut()
                .expect("there is one")
                .names
                .push(node.text.clone());
            continue;
        }
        for (n, part) in node.plain().split(';').enumerate() {
            if n > 0 {
                found.push(Group::default());
            }
            let group = found.last_mut().expect("there is one");
            if group.names.is_empty() {
                group.place.push_str(part);
            }
        }
    }
    for group in &mut found {
        let place = group.place.trim();
        group.place = if group.names.is_empty() {
            place
        } else {
            place.trim_end_matches(':')
        }
        .to_string();
    }
    found.retain(|group| !group.names.is_empty() || !group.place.is_empty());
    found
}

/// What a cited name is, in the place that its column gives it. A name can be that of several: fields of several records of a file.
pub fn targets(tree: &Tree, citation: &Citation) -> Vec<Target> {
    if citation.column == Column::WrongBuilds {
        let is = |at: &usize| {
            tree.edits[*at].crate_name == citation.place && tree.edits[*at].name == citation.name
        };
        return (0..tree.edits.len()).filter(is).map(Target::Edit).collect();
    }
    let found = match (citation.column, citation.place.split_once('/')) {
        (Column::Definition, Some((crate_name, stem))) => {
            in_file(tree, crate_name, Folder::Specs, stem, citation.name)
        }
        (Column::Proved, Some((crate_name, stem))) => {
            in_file(tree, crate_name, Folder::Proofs, stem, citation.name)
        }
        (column, None) => in_code(tree, column, citation),
        _ => Vec::new(),
    };
    found.into_iter().map(Target::Declaration).collect()
}

fn in_file(tree: &Tree, crate_name: &str, folder: Folder, stem: &str, name: &str) -> Vec<Id> {
    tree.find_file(crate_name, folder, stem)
        .map_or(Vec::new(), |file| tree.named_in(file, name))
}

/// A type or a constant is a definition, a function that promises something a promise, any other one of a program is what runs something proved.
fn in_code(tree: &Tree, column: Column, citation: &Citation) -> Vec<Id> {
    let fits = |id: &Id| {
        let kind = tree.declaration(*id).kind;
        match column {
            Column::Definition => matches!(kind, Kind::Type | Kind::Constant),
            Column::Promise => kind == Kind::Function && tree.promises(*id),
            _ => kind == Kind::Function && !tree.promises(*id),
        }
    };
    tree.coded(citation.place, citation.name)
        .into_iter()
        .filter(fits)
        .collect()
}

#[cfg(test)]
mod tests {
    use super::*;

    fn text(words: &str) -> Node {
        Node {
            name: "text".to_string(),
            text: words.to_string(),
            ..Node::default()
        }
    }

    fn code(words: &str) -> Node {
        Node {
            name: "code".to_string(),
            text: words.to_string(),
            ..Node::default()
        }
    }

    fn cell(children: Vec<Node>) -> Node {
        Node {
            name: "table_cell".to_string(),
            children,
            ..Node::default()
        }
    }

    #[test]
    fn a_cell_has_groups_and_remarks() {
        let found = groups(&cell(vec![
            text("names/Names: "),
            code("a"),
            text(", "),
            code("b"),
            text("; claims: "),
            code("C"),
            text("; assumed, above"),
        ]));
        let group = |place: &str, names: &[&str]| Group {
            place: place.to_string(),
            names: names.iter().map(|n| n.to_string()).collect(),
        };
        assert_eq!(
            found,
            [
                group("names/Names", &["a", "b"]),
                group("claims", &["C"]),
                group("assumed, above", &[])
            ]
        );
        assert!(groups(&cell(vec![])).is_empty());
    }

    fn table(titles: &[&str]) -> Node {
        let cells = titles.iter().map(|title| cell(vec![text(title)])).collect();
        let header = Node {
            name: "table_header".to_string(),
            children: cells,
            ..Node::default()
        };
        Node {
            name: "table".to_string(),
            children: vec![header],
            ..Node::default()
        }
    }

    #[test]
    fn a_table_of_sentences_is_told_by_its_columns() {
        let children = vec![
            table(&[
                "Document 01",
                "Definition",
                "Promise",
                "Proved",
                "Wrong builds",
            ]),
            table(&["Written", "Means"]),
            table(&[
                "Document 01",
                "Definition",
                "Promises",
                "Proved",
                "Wrong builds",
            ]),
        ];
        let map = Map::of(Node {
            name: "document".to_string(),
            children,
            ..Node::default()
        });
        assert!(
            matches!(&map.sections[0].blocks[0], Block::Sentences(whose, rows) if whose == "Document 01" && rows.is_empty())
        );
        assert!(matches!(&map.sections[0].blocks[1], Block::Prose(_)));
        assert_eq!(map.misshapen.len(), 1);
    }
}
