//! What a word of a file means: a declaration of the tree, or a name of the logic's own library.

use crate::source::{begins_contract, indent, Declaration, Kind, Use};
use crate::tree::{Folder, Id, Tree};
use crate::words::{self, Piece};
use std::collections::{BTreeSet, HashMap, HashSet};

#[derive(Clone, Debug, PartialEq, Eq)]
pub enum Meaning {
    Ours(Id),
    /// of this module outside the tree
    Outside(String),
}

/// A module that a file takes names from.
enum Module {
    File(usize),
    /// the types that the code of a crate declares
    Declared(String),
    /// what the checker makes of the contract of one function
    Contract(Id),
    Outside(String),
}

pub struct Scope<'a> {
    tree: &'a Tree,
    /// what the logic's words mean: in a file of code those of its contracts
    names: HashMap<String, Meaning>,
    /// what the code's words mean. A function and its definition can have one name
    code: HashMap<String, Meaning>,
    aliases: HashMap<String, Module>,
}

impl<'a> Scope<'a> {
    pub fn of(tree: &'a Tree, file: usize) -> Scope<'a> {
        let mut scope = Scope {
            tree,
            names: HashMap::new(),
            code: HashMap::new(),
            aliases: HashMap::new(),
        };
        for used in &tree.files[file].content.uses {
            scope.take(used);
        }
        scope.own(file);
        scope
    }

    fn take(&mut self, used: &Use) {
        let is_code = self.tree.crates.iter().any(|c| c.name == used.module);
        let module = module(self.tree, &used.module);
        for name in &used.names {
            let (name, local) = name.split_once(" as ").unwrap_or((name, name));
            if let Some(meaning) = self.of_module(&module, name) {
                self.learn(is_code, local, meaning);
            }
        }
        if let Some(alias) = &used.alias {
            self.aliases.insert(alias.clone(), module);
        }
    }

    fn learn(&mut self, is_code: bool, name: &str, meaning: Meaning) {
        let names = if is_code {
            &mut self.code
        } else {
            &mut self.names
        };
        names.insert(name.to_string(), meaning);
    }

    /// What the file itself declares.
    fn own(&mut self, file: usize) {
        let is_code = self.tree.files[file].folder == Folder::Src;
        let declarations = self.tree.files[file]
            .content
            .declarations
            .iter()
            .enumerate();
        for (at, declaration) in declarations.filter(|(_, d)| d.kind != Kind::Module) {
            for name in bare_names(declaration) {
                self.learn(is_code, name, Meaning::Ours(Id { file, at }));
            }
        }
    }

    fn of_module(&self, module: &Module, name: &str) -> Option<Meaning> {
        match module {
            Module::File(file) => self
                .tree
                .named_in(*file, name)
                .first()
                .copied()
                .map(Meaning::Ours),
            Module::Declared(crate_name) => self.declared(crate_name, name),
            Module::Contract(function) => Some(Meaning::Ours(*function)),
            Module::Outside(path) => Some(Meaning::Outside(path.clone())),
        }
    }

    /// A type, a constant, a function or a variant of the code of a crate.
    fn declared(&self, crate_name: &str, name: &str) -> Option<Meaning> {
        let variant = || {
            let types = self
                .tree
                .declarations()
                .filter(|id| self.tree.file(*id).crate_name == crate_name);
            let mut types = types.filter(|id| self.tree.declaration(*id).kind == Kind::Type);
            types.find(|id| self.tree.declaration(*id).has_member(name))
        };
        self.tree
            .coded(crate_name, name)
            .or_else(variant)
            .map(Meaning::Ours)
    }

    /// The pieces of a line of the logic.
    pub fn pieces<'b>(&self, line: &'b str, margin: usize) -> Vec<Piece<'b>> {
        words::of_logic(line, margin, &|word| self.aliases.contains_key(word))
    }

    /// A word of the logic. An operator is declared with holes at its sides; `A.x` is the x of the module called A here.
    pub fn of_logic(&self, word: &str) -> Option<Meaning> {
        if let Some(meaning) = self
            .names
            .get(word)
            .or_else(|| self.names.get(&format!("◌{word}◌")))
        {
            return Some(meaning.clone());
        }
        let (alias, name) = word.split_once('.')?;
        self.of_module(self.aliases.get(alias)?, name)
    }

    /// A word of the code: a name, `Type::Variant` or `crate::name`. A function is meant where it is called.
    pub fn of_code(&self, word: &str, called: bool) -> Option<Meaning> {
        let meaning = match word.split_once("::") {
            None => self.code.get(word).cloned(),
            Some((first, rest)) => {
                let rest = rest.split("::").next().unwrap_or(rest);
                let here = self.code.get(first).cloned();
                here.or_else(|| self.declared(first, rest))
            }
        };
        meaning.filter(|meaning| self.is_code(meaning, called))
    }

    fn is_code(&self, meaning: &Meaning, called: bool) -> bool {
        let fits = |id: Id| called || self.tree.declaration(id).kind != Kind::Function;
        matches!(meaning, Meaning::Ours(id) if self.tree.file(*id).folder == Folder::Src && fits(*id))
    }
}

/// The names by which a declaration can be cited with no dot: its own, and the constructors of data.
fn bare_names(declaration: &Declaration) -> Vec<&str> {
    let mut names = vec![declaration.name.as_str()];
    if declaration.kind == Kind::Data {
        names.extend(
            declaration
                .members
                .iter()
                .map(|member| member.name.as_str()),
        );
    }
    names
}

/// `Rattle.CRATE.specs.FILE` or `Rattle.CRATE.proofs.FILE`; or a crate of code.
fn module(tree: &Tree, path: &str) -> Module {
    let outside = || Module::Outside(path.to_string());
    let Some(ours) = path.strip_prefix("Rattle.") else {
        let is_crate = tree.crates.iter().any(|c| c.name == path);
        return if is_crate {
            Module::Declared(path.to_string())
        } else {
            outside()
        };
    };
    let Some((crate_name, rest)) = ours.split_once('.') else {
        return outside();
    };
    let parts: Vec<&str> = rest.split('.').collect();
    let file = |folder, stem| tree.find_file(crate_name, folder, stem).map(Module::File);
    let found = match parts.as_slice() {
        ["specs", "declared", ..] => Some(Module::Declared(crate_name.to_string())),
        ["specs", stem] => file(Folder::Specs, stem),
        ["proofs", stem] => file(Folder::Proofs, stem),
        ["proofs", function, _] => tree.coded(crate_name, function).map(Module::Contract),
        _ => None,
    };
    found.unwrap_or_else(outside)
}

/// The words of the logic's lines that are bound there, clause by clause: for each line, those that it must not be linked by.
pub fn bound(scope: &Scope, lines: &[String]) -> Vec<HashSet<String>> {
    let margin = lines.first().map_or(0, |line| indent(line));
    let starts: Vec<usize> = (0..lines.len())
        .filter(|at| *at == 0 || indent(&lines[*at]) == margin)
        .collect();
    let mut bounds = Vec::new();
    for (n, start) in starts.iter().enumerate() {
        let end = starts.get(n + 1).copied().unwrap_or(lines.len());
        let names = bound_in(scope, &lines[*start..end].join(" "));
        bounds.extend(std::iter::repeat(names).take(end - start));
    }
    bounds
}

/// Binders `(x y : T)`, `λ x.`, `let x :`, and the variables of the patterns on a clause's left side.
fn bound_in(scope: &Scope, text: &str) -> HashSet<String> {
    let pieces = scope.pieces(text, indent(text));
    let mut names = variables(scope, &pieces);
    // the words since the last bracket, λ or let
    let mut run: Option<Vec<&str>> = None;
    for piece in pieces {
        match piece {
            Piece::Word("λ" | "let") => run = Some(Vec::new()),
            Piece::Word(":") | Piece::Other(".") => {
                names.extend(run.take().into_iter().flatten().map(str::to_string))
            }
            Piece::Word(word) => run.iter_mut().for_each(|run| run.push(word)),
            Piece::Other(text) if text.contains(['(', '{']) => run = Some(Vec::new()),
            Piece::Other(text) if text.contains([')', '}']) => run = None,
            _ => {}
        }
    }
    names
}

/// The variables on a clause's left side: its words after the first but for the constructors; none where a colon comes before `=`.
fn variables(scope: &Scope, pieces: &[Piece]) -> HashSet<String> {
    let words = pieces.iter().filter_map(|piece| match piece {
        Piece::Word(word) => Some(*word),
        _ => None,
    });
    let left: Vec<&str> = words.take_while(|word| *word != "=").collect();
    let is_clause = pieces.contains(&Piece::Word("=")) && !left.contains(&":");
    let left = left
        .into_iter()
        .skip(1)
        .filter(|word| is_clause && !is_constructor(scope, word));
    left.map(str::to_string).collect()
}

fn is_constructor(scope: &Scope, word: &str) -> bool {
    match scope.of_logic(word) {
        Some(Meaning::Ours(id)) => {
            scope.tree.declaration(id).has_member(word) || word.starts_with(char::is_uppercase)
        }
        Some(Meaning::Outside(_)) => true,
        None => false,
    }
}

/// What lines of the logic cite, in their order, without what they bind.
pub fn cited_by_logic(scope: &Scope, lines: &[String]) -> BTreeSet<Id> {
    let bounds = bound(scope, lines);
    let margin = lines.first().map_or(0, |line| indent(line));
    let mut cited = BTreeSet::new();
    for (line, bound) in lines.iter().zip(&bounds) {
        for piece in scope.pieces(line, margin) {
            let Piece::Word(word) = piece else { continue };
            if let Some(Meaning::Ours(id)) = scope.of_logic(word).filter(|_| !bound.contains(word))
            {
                cited.insert(id);
            }
        }
    }
    cited
}

/// What a function's contract cites.
pub fn cited_by_contract(scope: &Scope, function: &Declaration) -> BTreeSet<Id> {
    let from = function
        .statement
        .iter()
        .position(|line| begins_contract(line))
        .unwrap_or(function.statement.len());
    cited_by_logic(scope, &function.statement[from..])
}

/// What lines of code cite.
fn cited_by_code(scope: &Scope, lines: &[String]) -> BTreeSet<Id> {
    let mut cited = BTreeSet::new();
    for line in lines {
        let pieces = words::of_code(line);
        for (at, piece) in pieces.iter().enumerate() {
            let Piece::Word(word) = piece else { continue };
            if let Some(Meaning::Ours(id)) = scope.of_code(word, words::is_called(&pieces, at)) {
                cited.insert(id);
            }
        }
    }
    cited
}

/// What the statement of a declaration cites, with the modules around it: of a function its signature and its contract.
pub fn cited_by_statement(scope: &Scope, id: Id) -> BTreeSet<Id> {
    let file = scope.tree.file(id);
    let declaration = scope.tree.declaration(id);
    let mut found = match file.folder {
        Folder::Src => {
            let signature: Vec<String> = declaration
                .statement
                .iter()
                .take_while(|line| !begins_contract(line))
                .cloned()
                .collect();
            let mut found = cited_by_contract(scope, declaration);
            found.extend(cited_by_code(scope, &signature));
            found
        }
        Folder::Specs | Folder::Proofs => cited_by_logic(scope, &declaration.statement),
    };
    for module in &declaration.within {
        found.extend(cited_by_logic(
            scope,
            &file.content.declarations[*module].statement,
        ));
    }
    found.remove(&id);
    found
}

/// What the body of a declaration cites; a proof is not looked into.
pub fn cited_by_body(scope: &Scope, id: Id) -> BTreeSet<Id> {
    let declaration = scope.tree.declaration(id);
    let mut found = match (scope.tree.file(id).folder, declaration.kind) {
        (Folder::Src, _) => cited_by_code(scope, &declaration.body),
        (Folder::Proofs, Kind::Theorem) => BTreeSet::new(),
        _ => cited_by_logic(scope, &declaration.body),
    };
    found.remove(&id);
    found
}

#[cfg(test)]
mod tests {
    use super::*;
    use crate::tree::tests::tree;

    const NUMBERS: &str = "infix 25 ◌when◌\nunfoldable pub ◌when◌ : ℕ → Bool → ℕ\nn when b = cond b n done\n\nabbrev pub done : ℕ\ndone = 0\n";
    const CALLS: &str = "use lib.Dec.{eqb as same}\nuse Rattle.claims.specs.Numbers as No\nuse Rattle.claims.specs.Numbers.{◌when◌}\n\
        use Rattle.claims.specs.declared.Phase.{Phase}\nuse Rattle.claims.specs.declared.Phase.TheVariants.{Closed}\n\n\
        pub data Call : Type 0 where\n  Open : Phase → Call\n\nabbrev pub word : ℕ\nword = 1\n\n\
        unfoldable pub number : Phase → Call → ℕ\nnumber word (Open s) = No.done when same word.at (λ s. word)\nnumber Closed call = word\n";
    const CODE: &str = "ghost use Rattle.claims.specs.Numbers.{done};\n\npub enum Phase {\n    Closed,\n}\n\npub fn none() -> u8\n    \
        ensures { result ≡ done }\n{\n    done()\n}\n\npub fn done() -> u8\n    ensures { result ≡ done }\n{\n    0\n}\n";

    fn read() -> Tree {
        tree(&[
            ("claims", Folder::Specs, "Numbers", NUMBERS),
            ("claims", Folder::Src, "lib", CODE),
            ("calls", Folder::Specs, "Calls", CALLS),
        ])
    }

    fn named(tree: &Tree, ids: BTreeSet<Id>) -> Vec<&str> {
        ids.into_iter()
            .map(|id| tree.declaration(id).name.as_str())
            .collect()
    }

    #[test]
    fn a_word_means_what_the_file_takes_or_declares() {
        let tree = read();
        let scope = Scope::of(&tree, 2);
        let name = |word: &str| match scope.of_logic(word) {
            Some(Meaning::Ours(id)) => tree.declaration(id).name.clone(),
            Some(Meaning::Outside(module)) => module,
            None => String::new(),
        };
        assert_eq!(name("when"), "◌when◌");
        assert_eq!(name("No.done"), "done");
        assert_eq!(name("Closed"), "Phase");
        assert_eq!(name("Open"), "Call");
        assert_eq!(name("same"), "lib.Dec");
        assert_eq!(name("done"), "", "it is known here below its alias alone");
    }

    #[test]
    fn what_a_clause_binds_is_not_cited_by_it_and_is_by_the_next() {
        let tree = read();
        let scope = Scope::of(&tree, 2);
        let number = tree.coded("calls", "number");
        assert_eq!(number, None, "it is no code");
        let [id] = tree.named_in(2, "number")[..] else {
            panic!("one")
        };
        let body = &tree.declaration(id).body;
        assert_eq!(
            named(&tree, cited_by_logic(&scope, &body[..1])),
            ["◌when◌", "done", "Call", "number"]
        );
        assert_eq!(
            named(&tree, cited_by_logic(&scope, &body[1..])),
            ["Phase", "word", "number"]
        );
    }

    #[test]
    fn a_contract_cites_definitions_and_the_code_does_not() {
        let tree = read();
        let scope = Scope::of(&tree, 1);
        let none = tree.coded("claims", "none").expect("it is there");
        assert_eq!(
            named(&tree, cited_by_contract(&scope, tree.declaration(none))),
            ["done"]
        );
        assert_eq!(
            cited_by_contract(&scope, tree.declaration(none))
                .first()
                .map(|id| id.file),
            Some(0),
            "the definition"
        );
        assert_eq!(
            cited_by_body(&scope, none).first().copied(),
            tree.coded("claims", "done"),
            "the function"
        );
        assert_eq!(
            scope.of_code("Phase::Closed", false),
            tree.coded("claims", "Phase").map(Meaning::Ours)
        );
        assert_eq!(scope.of_code("done", false), None);
        assert_eq!(scope.of_code("none", true), Some(Meaning::Ours(none)));
        assert_eq!(scope.of_code("none", false), None, "a variable");
    }
}
