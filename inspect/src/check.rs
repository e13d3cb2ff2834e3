//! Whether the map is right: every name that it cites is there, and nothing is missing in it.

use crate::map::{self, Citation, Column, Map, Target};
use crate::scope::{self, Scope};
use crate::source::{Declaration, Kind};
use crate::tree::{Folder, Id, Tree};
use std::collections::{BTreeMap, BTreeSet, HashSet};
use std::fs;
use std::path::Path;

/// One rule: what holds of all that were looked at, and what is wrong.
pub struct Verdict {
    pub rule: &'static str,
    pub looked_at: usize,
    pub wrong: Vec<String>,
}

pub fn check(root: &Path, tree: &Tree, map: &Map) -> Vec<Verdict> {
    let shown = shown(tree, map);
    vec![
        shapes(map),
        names_are_there(tree, map),
        functions_are_shown(tree, &shown),
        edits_are_shown(tree, &shown),
        edits_fit(root, tree),
        contracts_definitions_are_shown(tree, &shown),
        files_are_named(tree, map),
        answers_are_one(tree),
        nothing_is_asked(tree),
        exports_say_the_same(tree),
        readme_has_the_crates(root, tree),
    ]
}

/// What rows show, in which column.
struct Shown {
    declarations: HashSet<(Column, Id)>,
    edits: HashSet<usize>,
}

fn shown(tree: &Tree, map: &Map) -> Shown {
    let mut shown = Shown {
        declarations: HashSet::new(),
        edits: HashSet::new(),
    };
    for citation in map.citations() {
        for target in map::targets(tree, &citation) {
            let _is_new = match target {
                Target::Declaration(id) => shown.declarations.insert((citation.column, id)),
                Target::Edit(at) => shown.edits.insert(at),
            };
        }
    }
    shown
}

fn shapes(map: &Map) -> Verdict {
    let wrong = map
        .misshapen
        .iter()
        .map(|line| {
            format!(
                "{}:{line}: a table that has some of a sentence's columns and not all",
                map::PATH
            )
        })
        .collect();
    let tables = map.rows().count();
    Verdict {
        rule: "rows of sentences have their four columns",
        looked_at: tables,
        wrong,
    }
}

fn names_are_there(tree: &Tree, map: &Map) -> Verdict {
    let mut looked_at = 0;
    let mut wrong = Vec::new();
    for citation in map.citations() {
        looked_at += 1;
        if map::targets(tree, &citation).is_empty() {
            wrong.push(missing(&citation));
        }
    }
    Verdict {
        rule: "names that rows cite are where the rows say",
        looked_at,
        wrong,
    }
}

fn missing(citation: &Citation) -> String {
    let Citation {
        row,
        column,
        place,
        name,
    } = citation;
    format!(
        "{}:{}: {}, {place}: `{name}` is not there",
        map::PATH,
        row.line,
        column.title()
    )
}

fn functions_are_shown(tree: &Tree, shown: &Shown) -> Verdict {
    let mut verdict = Verdict {
        rule: "public functions and entries are in some row",
        looked_at: 0,
        wrong: Vec::new(),
    };
    for id in tree.public_functions() {
        verdict.looked_at += 1;
        if !shown.declarations.contains(&(Column::Promise, id)) {
            verdict.wrong.push(format!(
                "{}: `{}` is public, and no row cites it",
                tree.file(id).crate_name,
                tree.declaration(id).name
            ));
        }
    }
    verdict
}

fn edits_are_shown(tree: &Tree, shown: &Shown) -> Verdict {
    let missing = (0..tree.edits.len()).filter(|at| !shown.edits.contains(at));
    let wrong = missing
        .map(|at| {
            format!(
                "{}: no row cites the wrong build `{}`",
                tree.edits[at].crate_name, tree.edits[at].name
            )
        })
        .collect();
    Verdict {
        rule: "wrong builds are in some row",
        looked_at: tree.edits.len(),
        wrong,
    }
}

fn edits_fit(root: &Path, tree: &Tree) -> Verdict {
    let mut verdict = Verdict {
        rule: "texts that wrong builds replace are in their files, each once",
        looked_at: 0,
        wrong: Vec::new(),
    };
    for edit in &tree.edits {
        let mut texts: BTreeMap<&str, String> = BTreeMap::new();
        for hunk in &edit.hunks {
            verdict.looked_at += 1;
            let path = root.join("crates").join(&edit.crate_name).join(&hunk.file);
            let text = texts
                .entry(&hunk.file)
                .or_insert_with(|| std::fs::read_to_string(path).unwrap_or_default());
            if hunk.change(text).is_none() {
                verdict.wrong.push(format!(
                    "{}/{}/{}: `{}` is not in {} exactly once",
                    edit.crate_name,
                    edit.shelf.name(),
                    edit.name,
                    hunk.old.trim(),
                    hunk.file
                ));
            }
            *text = text.replacen(&hunk.old, &hunk.new, 1);
        }
    }
    verdict
}

/// The definitions that the contracts of public functions cite.
fn contract_definitions(tree: &Tree) -> BTreeMap<Id, BTreeSet<Id>> {
    let mut cited: BTreeMap<Id, BTreeSet<Id>> = BTreeMap::new();
    let files: BTreeSet<usize> = tree.public_functions().map(|id| id.file).collect();
    for file in files {
        let scope = Scope::of(tree, file);
        for function in tree.public_functions().filter(|id| id.file == file) {
            for definition in scope::cited_by_contract(&scope, tree.declaration(function)) {
                if tree.file(definition).folder == Folder::Specs {
                    cited.entry(definition).or_default().insert(function);
                }
            }
        }
    }
    cited
}

fn contracts_definitions_are_shown(tree: &Tree, shown: &Shown) -> Verdict {
    let cited = contract_definitions(tree);
    let missing = cited
        .iter()
        .filter(|(id, _)| !shown.declarations.contains(&(Column::Definition, **id)));
    let wrong = missing.map(|(id, functions)| {
        let names: Vec<String> = functions
            .iter()
            .map(|f| {
                format!(
                    "{}::{}",
                    tree.file(*f).crate_name,
                    tree.declaration(*f).name
                )
            })
            .collect();
        let definition = &tree.declaration(*id).name;
        format!(
            "{}: `{definition}`, which the contracts of {} cite, is in no row",
            tree.file(*id).place(),
            names.join(", ")
        )
    });
    let wrong = wrong.collect();
    Verdict {
        rule: "definitions that contracts cite are in some row",
        looked_at: cited.len(),
        wrong,
    }
}

fn files_are_named(tree: &Tree, map: &Map) -> Verdict {
    let words: HashSet<String> = map.prose_words().into_iter().collect();
    let specs: Vec<_> = tree
        .files
        .iter()
        .filter(|file| file.folder == Folder::Specs)
        .collect();
    let missing = specs
        .iter()
        .filter(|file| !words.contains(&file.place()) && !words.contains(&file.path));
    let wrong = missing
        .map(|file| {
            format!(
                "{}: a file of definitions that {} does not name",
                file.path,
                map::PATH
            )
        })
        .collect();
    Verdict {
        rule: "files of definitions are named",
        looked_at: specs.len(),
        wrong,
    }
}

/// What a theorem of one answer says of a contract, one of an answer that is lent (what lies there), and one of what was lent.
const ANSWER: &str = "OneAnswer";
const VIEW: &str = "OneView";
const CONTENT: &str = "OneContent";

/// How a statement `OneView` ends: it is of all that lies there.
const WHOLE_VIEW: &str = "(λ κs x. x.now)";

/// Whether a theorem says that word of a function's contract: at once or, where the function has type parameters, of each argument that
/// its contract takes for them. Behind anything else it would say it of less.
fn says(theorem: &Declaration, word: &str, function: &Declaration) -> bool {
    let statement = theorem.statement.join(" ");
    let Some((_, said)) = statement.split_once(" : ") else {
        return false;
    };
    let (asked, said) = match said.split_once(&format!("→ {word} ")) {
        Some((before, _)) if has_type_parameters(function) => (bound_names(before), word),
        _ => (Some(Vec::new()), said.trim_start()),
    };
    said.split(' ').next() == Some(word)
        && asked.is_some_and(|names| names == taken_by_contract(&statement))
        && (word != VIEW || statement.trim_end().ends_with(WHOLE_VIEW))
}

/// Whether a function is one for each type: `fn NAME<T: ..>`, where a lifetime is none.
fn has_type_parameters(function: &Declaration) -> bool {
    let parameters = function
        .statement
        .first()
        .and_then(|line| line.split_once(&format!("fn {}<", function.name)))
        .and_then(|(_, rest)| rest.split_once('('))
        .map_or("", |(parameters, _)| parameters);
    parameters
        .split(',')
        .any(|one| !one.trim().is_empty() && !one.trim().starts_with('\''))
}

/// The names of `(a b : A) (c : C)`; none where something else stands among these.
fn bound_names(text: &str) -> Option<Vec<&str>> {
    let mut names = Vec::new();
    let mut rest = text.trim();
    while !rest.is_empty() {
        let inner = rest.strip_prefix('(')?;
        let mut depth = 1;
        let end = inner.find(|c| {
            depth += i32::from(c == '(') - i32::from(c == ')');
            depth == 0
        })?;
        names.extend(inner[..end].split_once(" : ")?.0.split_whitespace());
        rest = inner[end + 1..].trim_start();
    }
    Some(names)
}

/// What stands behind the contract, in its brackets: `(same.Post T laws)`. A contract of no type parameters stands without.
fn taken_by_contract(statement: &str) -> Vec<&str> {
    let brackets = statement.split('(');
    let mut contracts = brackets.filter_map(|part| {
        let (inner, _) = part.split_once(')')?;
        let (contract, taken) = inner.split_once(' ')?;
        contract.ends_with(".Post").then_some(taken)
    });
    contracts
        .next()
        .map_or(Vec::new(), |taken| taken.split_whitespace().collect())
}

/// The theorems of proofs/Unique.antt that no second answer, or no second content of what was lent, meets a function's contract.
pub fn one_answer(tree: &Tree, function: Id) -> Vec<Id> {
    let Some(file) = tree.find_file(&tree.file(function).crate_name, Folder::Proofs, "Unique")
    else {
        return Vec::new();
    };
    let scope = Scope::of(tree, file);
    let speaks = |at: &usize| {
        let theorem = &tree.files[file].content.declarations[*at];
        let statement = theorem.statement.join(" ");
        let is_one = [ANSWER, VIEW, CONTENT]
            .iter()
            .any(|word| says(theorem, word, tree.declaration(function)));
        let posts = statement
            .split([' ', '(', ')'])
            .filter(|word| word.ends_with(".Post"));
        let mut posts = posts.map(|word| scope.of_logic(word));
        theorem.public
            && is_one
            && posts.any(|meaning| meaning == Some(scope::Meaning::Ours(function)))
    };
    let declarations = 0..tree.files[file].content.declarations.len();
    declarations
        .filter(speaks)
        .map(|at| Id { file, at })
        .collect()
}

/// The lines of a function before its contract: its name, its parameters and the type of its answer.
fn signature(tree: &Tree, function: Id) -> String {
    let lines = tree.declaration(function).statement.iter();
    let before = lines.take_while(|line| {
        let line = line.trim_start();
        !line.starts_with("requires") && !line.starts_with("ensures")
    });
    before.map(|line| format!("{line} ")).collect()
}

/// A theorem for the answer, and one for each slice or number that is lent to be written.
fn answers_are_one(tree: &Tree) -> Verdict {
    let mut verdict = Verdict {
        rule: "answers and lent buffers of public functions have a theorem that there is one",
        looked_at: 0,
        wrong: Vec::new(),
    };
    for id in tree.public_functions() {
        let signature = signature(tree, id);
        let theorems = one_answer(tree, id);
        let of = |word: &str| {
            let statements = theorems.iter().map(|theorem| tree.declaration(*theorem));
            statements
                .filter(|theorem| says(theorem, word, tree.declaration(id)))
                .count()
        };
        let answers = usize::from(signature.contains("-> "));
        let lent = signature.matches("&mut ").count();
        verdict.looked_at += answers + lent;
        // of an answer that is lent, what lies there
        let answer = if signature.contains("-> &") {
            VIEW
        } else {
            ANSWER
        };
        for (wanted, word) in [(answers, answer), (lent, CONTENT)] {
            let found = of(word);
            for _ in found..wanted {
                verdict.wrong.push(format!(
                    "{}: `{}` wants {wanted} theorems `{word}` and has {found}",
                    tree.file(id).crate_name,
                    tree.declaration(id).name
                ));
            }
        }
    }
    verdict
}

/// Whether a function has a `requires`.
pub fn asks(tree: &Tree, id: Id) -> bool {
    let declaration = tree.declaration(id);
    declaration.kind == Kind::Function
        && declaration
            .statement
            .iter()
            .any(|line| line.trim_start().starts_with("requires"))
}

/// "No caller checks anything beforehand."
fn nothing_is_asked(tree: &Tree) -> Verdict {
    let functions: Vec<Id> = tree.public_functions().collect();
    let wrong = functions.iter().filter(|id| asks(tree, **id)).map(|id| {
        format!(
            "{}: `{}` asks something of its caller",
            tree.file(*id).crate_name,
            tree.declaration(*id).name
        )
    });
    Verdict {
        rule: "public functions ask nothing of their callers",
        looked_at: functions.len(),
        wrong: wrong.collect(),
    }
}

/// What is exported has the name, the parameters and the contract of a library's function, and calls that one.
fn exports_say_the_same(tree: &Tree) -> Verdict {
    let says_the_same = |export: Id| {
        let (export, functions) = (tree.declaration(export), tree.public_functions());
        let mut same =
            functions.filter(|function| tree.declaration(*function).statement == export.statement);
        same.any(|function| {
            let call = format!("{}::{}(", tree.file(function).crate_name, export.name);
            let body = export.body.get(1);
            body.is_some_and(|line| line.trim_start().starts_with(&call))
        })
    };
    let exports: Vec<Id> = tree.exports().collect();
    let others = exports.iter().filter(|id| !says_the_same(**id));
    let wrong = others.map(|id| {
        format!(
            "{}: `{}` says something else than the function that it calls",
            tree.file(*id).crate_name,
            tree.declaration(*id).name
        )
    });
    Verdict {
        rule: "exports say what the functions say that they call",
        looked_at: exports.len(),
        wrong: wrong.collect(),
    }
}

/// README's table of crates has those of crates.txt, in their order: who reads one finds the other.
fn readme_has_the_crates(root: &Path, tree: &Tree) -> Verdict {
    let readme = fs::read_to_string(root.join("README.md")).unwrap_or_default();
    let rows = readme
        .lines()
        .skip_while(|line| !line.starts_with("| Crate | What it has |"))
        .skip(2)
        .take_while(|line| line.starts_with('|'));
    let named: Vec<&str> = rows
        .filter_map(|row| row.split('|').nth(1))
        .flat_map(|cell| cell.split(','))
        .map(str::trim)
        .collect();
    let listed: Vec<&str> = tree.crates.iter().map(|c| c.name.as_str()).collect();
    let nobody = "none";
    let wrong = (0..listed.len().max(named.len()))
        .map(|at| {
            (
                named.get(at).unwrap_or(&nobody),
                listed.get(at).unwrap_or(&nobody),
            )
        })
        .find(|(there, here)| there != here)
        .map(|(there, here)| {
            format!("README.md: its table of crates has {there} where crates.txt has {here}")
        });
    Verdict {
        rule: "README's table has the crates in the order of crates.txt",
        looked_at: listed.len(),
        wrong: wrong.into_iter().collect(),
    }
}

/// Prints the verdicts, and last `N passed, M failed`; whether none failed.
pub fn report(verdicts: &[Verdict]) -> bool {
    for verdict in verdicts {
        match verdict.wrong.as_slice() {
            [] => println!("ok: {} {}", verdict.looked_at, verdict.rule),
            wrong => wrong.iter().for_each(|line| println!("FAILED: {line}")),
        }
    }
    let failed: usize = verdicts.iter().map(|verdict| verdict.wrong.len()).sum();
    let looked_at: usize = verdicts.iter().map(|verdict| verdict.looked_at).sum();
    println!(
        "{} passed, {failed} failed",
        looked_at.saturating_sub(failed)
    );
    failed == 0
}

#[cfg(test)]
mod tests {
    use super::*;
    use crate::tree::tests::tree;

    const ENTRY: &str = "pub extern \"C\" fn open(port: u32) -> u32\n    ensures { result ≡ opened port }\n{\n    0\n}\n";

    fn told_of(export: &str) -> usize {
        let mut tree = tree(&[
            ("entries", Folder::Src, "lib", ENTRY),
            ("entries_c", Folder::Src, "lib", export),
        ]);
        tree.crates[1].is_exported = true;
        exports_say_the_same(&tree).wrong.len()
    }

    /// How many theorems a public function lacks, where this one stands in proofs/Unique.antt.
    fn lacking(signature: &str, statement: &str) -> usize {
        let code =
            format!("pub {signature}\n    ensures {{ result ≡ sized part }}\n{{\n    0\n}}\n");
        let uses = "use Rattle.parts.proofs.sized.Kinds as kinds\nuse Rattle.parts.proofs.sized.Reads as sized\n\n";
        let proof = format!(
            "{uses}pub sized-once : {statement}\nsized-once κs a x y s t p q = p ∙ sym q\n"
        );
        let tree = tree(&[
            ("parts", Folder::Src, "lib", &code),
            ("parts", Folder::Proofs, "Unique", &proof),
        ]);
        answers_are_one(&tree).wrong.len()
    }

    #[test]
    fn a_theorem_of_one_answer_asks_nothing_ahead() {
        let (plain, generic) = (
            "fn sized(part: u8) -> u8",
            "fn sized<T: Copy>(part: T) -> u8",
        );
        let one = "OneAnswer 0 kinds.ps kinds.r sized.Post";
        assert_eq!(lacking(plain, one), 0);
        assert_eq!(lacking(plain, &format!("⊥ → {one}")), 1);
        assert_eq!(lacking(plain, &format!("(no : ⊥) → {one}")), 1);
        assert_eq!(lacking(plain, &format!("{{no : ⊥}} → {one}")), 1);
        assert_eq!(
            lacking("fn sized<'a>(part: &'a u8) -> u8", &format!("⊥ → {one}")),
            1
        );

        let types = "(T : RattleType) (laws copied : Laws T (T))";
        let each = "OneAnswer 0 (kinds.ps T) (kinds.r T) (sized.Post T laws copied)";
        assert_eq!(lacking(generic, &format!("{types}\n    → {each}")), 0);
        assert_eq!(lacking(generic, &format!("⊥ → {each}")), 1);
        assert_eq!(lacking(generic, &format!("{types} → ⊥ → {each}")), 1);
        assert_eq!(lacking(generic, &format!("{types} (no : ⊥) → {each}")), 1);
        assert_eq!(lacking(generic, &format!("{types} {{no : ⊥}} → {each}")), 1);
        assert_eq!(lacking(generic, each), 1);
    }

    #[test]
    fn a_theorem_of_a_lent_answer_is_of_all_that_lies_there() {
        let lends = "fn sized(part: &[u8]) -> &[u8]";
        let view = "OneView 1 kinds.ps kinds.r sized.Post";
        assert_eq!(lacking(lends, &format!("{view} (λ κs x. x.now)")), 0);
        assert_eq!(lacking(lends, &format!("{view} (λ κs x. tt)")), 1);
        assert_eq!(lacking(lends, &format!("{view} (λ κs x. length x.now)")), 1);
    }

    #[test]
    fn an_export_that_says_something_else_than_the_entry_is_told() {
        let right = ENTRY.replace("    0\n", "    entries::open(port)\n");
        assert_eq!(told_of(&right), 0);
        let changes = [
            ("opened port", "opened 0"),
            ("port: u32", "port: u16"),
            ("fn open", "fn shut"),
            ("entries::open", "entries::shut"),
        ];
        for (from, to) in changes {
            assert_eq!(told_of(&right.replace(from, to)), 1, "{from} as {to}");
        }
    }
}
