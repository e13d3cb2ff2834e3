//! What a reader has to believe, in two figures: what the entries promise and the demands say, with all that these cite; and what the other rows of the map
//! cite. The page marks these lines, and they are counted here from what it marks.

use crate::map::{self, Map, Row, Target};
use crate::scope::{self, Scope};
use crate::source::{counts, Declaration, Kind};
use crate::tree::{Folder, Id, Tree};
use std::collections::BTreeMap;

#[derive(Clone, Copy, Debug, PartialEq, Eq)]
pub enum Part {
    Definitions,
    Promises,
    Statements,
}

impl Part {
    pub const ALL: [Part; 3] = [Part::Definitions, Part::Promises, Part::Statements];

    pub fn title(self) -> &'static str {
        match self {
            Part::Definitions => "definitions",
            Part::Promises => "contracts, types and constants",
            Part::Statements => "statements of theorems",
        }
    }
}

/// The section of the map that has the customer's demands.
pub const DEMANDS: &str = "The three demands";

#[derive(Clone, Copy, Debug, PartialEq, Eq)]
pub enum Figure {
    /// the contracts of the entries, the rows of the demands, and all that these cite
    Demands,
    /// what the other rows cite, and all that that cites
    Map,
}

impl Figure {
    pub const ALL: [Figure; 2] = [Figure::Demands, Figure::Map];

    pub fn title(self) -> &'static str {
        match self {
            Figure::Demands => "the entries' contracts and the three demands",
            Figure::Map => "the other sentences",
        }
    }
}

/// Which declarations, in which figure and as what, and whether with their bodies.
#[derive(Clone, Copy, Debug)]
pub struct Share {
    pub figure: Figure,
    pub part: Part,
    pub with_body: bool,
}

pub struct Believed(BTreeMap<Id, Share>);

impl Believed {
    pub fn of(tree: &Tree, map: &Map, scopes: &[Scope]) -> Believed {
        let entries = tree.public_functions().filter(|id| is_entry(tree, *id));
        let demands = map.section_rows(DEMANDS);
        let first: Vec<Id> = entries.chain(cited(tree, demands)).collect();
        let mut believed = Believed(BTreeMap::new());
        believed.add(tree, scopes, Figure::Demands, first);
        believed.add(tree, scopes, Figure::Map, cited(tree, map.rows()).collect());
        believed
    }

    /// These declarations and all that they cite, but what another figure has.
    fn add(&mut self, tree: &Tree, scopes: &[Scope], figure: Figure, mut waiting: Vec<Id>) {
        while let Some(id) = waiting.pop() {
            if self.0.contains_key(&id) {
                continue;
            }
            let share = share(figure, tree.file(id).folder, tree.declaration(id));
            self.0.insert(id, share);
            let scope = &scopes[id.file];
            waiting.extend(scope::cited_by_statement(scope, id));
            waiting.extend(
                scope::cited_by_body(scope, id)
                    .into_iter()
                    .filter(|_| share.with_body),
            );
            // and the parameters that it shares with others
            for at in &tree.declaration(id).within {
                let shared = Id {
                    file: id.file,
                    at: *at,
                };
                self.0.entry(shared).or_insert(share);
            }
        }
    }

    pub fn share(&self, id: Id) -> Option<Share> {
        self.0.get(&id).copied()
    }

    pub fn ids(&self) -> impl Iterator<Item = Id> + '_ {
        self.0.keys().copied()
    }

    pub fn all_lines(&self, tree: &Tree, figure: Figure) -> usize {
        let crates = tree
            .crates
            .iter()
            .flat_map(|c| self.lines(tree, figure, &c.name));
        crates.sum()
    }

    /// The lines of a crate in a figure, part by part.
    pub fn lines(&self, tree: &Tree, figure: Figure, crate_name: &str) -> [usize; 3] {
        let mut lines = [0; 3];
        for (id, share) in self.0.iter().filter(|(id, share)| {
            share.figure == figure && tree.file(**id).crate_name == crate_name
        }) {
            lines[share.part as usize] += share.lines(tree.declaration(*id));
        }
        lines
    }
}

impl Share {
    fn lines(self, declaration: &Declaration) -> usize {
        let body = declaration
            .body
            .iter()
            .filter(|line| self.with_body && counts(line));
        declaration
            .statement
            .iter()
            .filter(|line| counts(line))
            .count()
            + body.count()
    }
}

/// Whether a program in C or Rust calls it.
fn is_entry(tree: &Tree, id: Id) -> bool {
    let statement = &tree.declaration(id).statement;
    statement
        .iter()
        .any(|line| line.contains("extern \"C\" fn"))
}

/// What rows cite, but the wrong builds.
fn cited<'a>(
    tree: &'a Tree,
    rows: impl Iterator<Item = &'a Row> + 'a,
) -> impl Iterator<Item = Id> + 'a {
    let targets = rows
        .flat_map(Row::citations)
        .flat_map(|citation| map::targets(tree, &citation));
    targets.filter_map(|target| match target {
        Target::Declaration(id) => Some(id),
        Target::Edit(_) => None,
    })
}

fn share(figure: Figure, folder: Folder, declaration: &Declaration) -> Share {
    let (part, with_body) = match folder {
        Folder::Specs => (Part::Definitions, true),
        Folder::Proofs => (Part::Statements, declaration.kind != Kind::Theorem),
        Folder::Src => (Part::Promises, false),
    };
    Share {
        figure,
        part,
        with_body,
    }
}

#[cfg(test)]
mod tests {
    use super::*;
    use crate::tree::tests::tree;
    use crate::xml::Node;

    const SPECS: &str = "abbrev pub used : ℕ\nused = below\n\nabbrev below : ℕ\nbelow =\n    -- why\n    0\n\nabbrev pub unused : ℕ\nunused = 1\n";
    const CODE: &str = "ghost use Rattle.names.specs.Names.{used, unused};\n\npub extern \"C\" fn none() -> u8\n    ensures { result ≡ used }\n{\n    \
        other()\n}\n\npub fn other() -> u8\n    ensures { result ≡ unused }\n{\n    0\n}\n";

    #[test]
    fn what_the_contracts_of_entries_cite_is_believed_and_what_other_functions_cite_is_not() {
        let tree = tree(&[
            ("names", Folder::Specs, "Names", SPECS),
            ("names", Folder::Src, "lib", CODE),
        ]);
        let scopes: Vec<Scope> = (0..2).map(|file| Scope::of(&tree, file)).collect();
        let believed = Believed::of(&tree, &Map::of(Node::default()), &scopes);
        let names: Vec<&str> = believed
            .ids()
            .map(|id| tree.declaration(id).name.as_str())
            .collect();
        assert_eq!(names, ["used", "below", "none"]);
        assert_eq!(
            believed.lines(&tree, Figure::Demands, "names"),
            [5, 2, 0],
            "without the comment, and without the code"
        );
        assert_eq!(believed.all_lines(&tree, Figure::Map), 0);
    }
}
