//! Who cites whom, and what the page shows.

use crate::believed::Believed;
use crate::check;
use crate::map::{self, Map, Target};
use crate::scope::{self, Scope};
use crate::source::Kind;
use crate::tree::{Folder, Id, Tree};
use std::collections::{BTreeMap, BTreeSet};

pub struct Graph {
    /// what the page shows: all definitions and all code; of the proofs what rows cite, what has to be believed, the theorems of one
    /// answer, and what these cite
    pub shown: BTreeSet<Id>,
    pub cited_by: BTreeMap<Id, BTreeSet<Id>>,
    /// the rows, counted from 0, that cite a declaration
    pub rows: BTreeMap<Id, BTreeSet<usize>>,
    pub edit_rows: BTreeMap<usize, BTreeSet<usize>>,
    pub one_answer: BTreeMap<Id, Vec<Id>>,
}

impl Graph {
    pub fn of(tree: &Tree, map: &Map, believed: &Believed, scopes: &[Scope]) -> Graph {
        let one_answer: BTreeMap<Id, Vec<Id>> = tree
            .public_functions()
            .map(|id| (id, check::one_answer(tree, id)))
            .collect();
        let mut graph = Graph {
            shown: BTreeSet::new(),
            cited_by: BTreeMap::new(),
            rows: BTreeMap::new(),
            edit_rows: BTreeMap::new(),
            one_answer,
        };
        graph.look_at_rows(tree, map);
        let code_and_definitions = tree
            .declarations()
            .filter(|id| tree.file(*id).folder != Folder::Proofs);
        let mut waiting: Vec<Id> = code_and_definitions.collect();
        waiting.extend(
            believed
                .ids()
                .filter(|id| tree.declaration(*id).kind != Kind::Module),
        );
        waiting.extend(graph.rows.keys());
        waiting.extend(graph.one_answer.values().flatten());
        while let Some(id) = waiting.pop() {
            if graph.shown.insert(id) {
                let scope = &scopes[id.file];
                for cited in scope::cited_by_statement(scope, id)
                    .into_iter()
                    .chain(scope::cited_by_body(scope, id))
                {
                    graph.cited_by.entry(cited).or_default().insert(id);
                    waiting.push(cited);
                }
            }
        }
        graph
    }

    fn look_at_rows(&mut self, tree: &Tree, map: &Map) {
        for (number, row) in map.rows().enumerate() {
            for target in row
                .citations()
                .flat_map(|citation| map::targets(tree, &citation))
            {
                match target {
                    Target::Declaration(id) => self.rows.entry(id).or_default().insert(number),
                    Target::Edit(at) => self.edit_rows.entry(at).or_default().insert(number),
                };
            }
        }
    }
}
