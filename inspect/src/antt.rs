//! Reads a file of the logic (`.antt`) in the formatter's layout: a declaration begins at its block's margin, and what stands deeper
//! belongs to it, as do its clauses at the margin.

use crate::source::{indent, Content, Declaration, Held, Kind, Member, Use};

pub const COMMENT: &str = "--";
const HEADING: &str = "-- ----";

pub fn read(text: &str) -> Content {
    let mut reader = Reader::default();
    for (at, line) in text.lines().enumerate() {
        reader.line(at + 1, line);
    }
    reader.content
}

/// The words that may stand before a declared name.
const MODIFIERS: [&str; 3] = ["pub", "abbrev", "unfoldable"];
/// What begins an item that declares nothing to be shown.
const SILENT: [&str; 7] = [
    "use", "mod", "infix", "infixl", "infixr", "ruleset", "module",
];

/// What is being read: where its margin is, and which declaration it is, if it is one.
struct Open {
    margin: usize,
    declaration: Option<usize>,
}

#[derive(Default)]
struct Reader {
    content: Content,
    held: Held,
    open: Option<Open>,
    /// the modules around the next line, with their margins
    modules: Vec<(usize, usize)>,
    section: usize,
}

impl Reader {
    fn line(&mut self, number: usize, line: &str) {
        let text = line.trim();
        if text.is_empty() || text.starts_with(COMMENT) {
            self.section += usize::from(line.starts_with(HEADING));
            self.held.push(line);
        } else if self.goes_on(indent(line), text) {
            self.append(number, line);
        } else {
            self.start(number, line);
        }
    }

    fn goes_on(&self, margin: usize, text: &str) -> bool {
        let Some(open) = &self.open else { return false };
        margin > open.margin
            || (margin == open.margin && open.declaration.is_some() && is_clause(text))
    }

    fn append(&mut self, number: usize, line: &str) {
        let held = self.held.take();
        let Some(Open {
            margin,
            declaration: Some(at),
        }) = self.open
        else {
            return;
        };
        let declaration = &mut self.content.declarations[at];
        let clause = indent(line) == margin;
        let into = if clause || !declaration.body.is_empty() {
            &mut declaration.body
        } else {
            &mut declaration.statement
        };
        into.extend(held);
        into.push(line.to_string());
        if matches!(declaration.kind, Kind::Record | Kind::Data) && indent(line) == margin + 2 {
            let names = declared(unmodified(line.trim()).0).unwrap_or_default();
            declaration
                .members
                .extend(names.into_iter().map(|name| Member { name, line: number }));
        }
        self.close_module(at, line);
    }

    fn start(&mut self, number: usize, line: &str) {
        let margin = indent(line);
        let text = line.trim();
        self.modules.retain(|(outer, _)| *outer < margin);
        let comment = self.held.comment(COMMENT);
        self.open = Some(Open {
            margin,
            declaration: None,
        });
        if let Some(from) = text.strip_prefix("use ") {
            self.content.uses.extend(used(from));
        } else if let Some((fixity, name)) =
            text.rsplit_once(' ').filter(|_| text.starts_with("infix"))
        {
            self.content
                .fixities
                .push((name.to_string(), fixity.to_string()));
        } else if let Some(mut declaration) = begun(text, number) {
            declaration.comment = comment;
            declaration.section = self.section;
            declaration.within = self.modules.iter().map(|(_, module)| *module).collect();
            declaration.statement.push(line.to_string());
            let at = self.content.declarations.len();
            self.content.declarations.push(declaration);
            self.open = Some(Open {
                margin,
                declaration: Some(at),
            });
            self.close_module(at, line);
        }
    }

    /// A module's header ends with `where`; what stands deeper after it is inside.
    fn close_module(&mut self, at: usize, line: &str) {
        if self.content.declarations[at].kind == Kind::Module && line.ends_with(" where") {
            let margin = self.open.as_ref().map_or(0, |open| open.margin);
            self.modules.push((margin, at));
            self.open = None;
        }
    }
}

/// The declaration that a line begins; none for a line that declares nothing to be shown.
fn begun(text: &str, number: usize) -> Option<Declaration> {
    let (rest, modifiers) = unmodified(text);
    let public = modifiers.contains(&"pub");
    let (first, after) = rest.split_once(' ').unwrap_or((rest, ""));
    match first {
        "module" => return Some(Declaration::new("_", Kind::Module, false, number)),
        "record" | "data" => {
            let kind = if first == "record" {
                Kind::Record
            } else {
                Kind::Data
            };
            let name = after.split_whitespace().next()?;
            return Some(Declaration::new(name, kind, public, number));
        }
        _ if SILENT.contains(&first) => return None,
        _ => {}
    }
    let kind = if modifiers.iter().any(|word| *word != "pub") {
        Kind::Definition
    } else {
        Kind::Theorem
    };
    let names = declared(rest)?;
    let mut declaration = Declaration::new(&names[0], kind, public, number);
    declaration.members = names[1..]
        .iter()
        .map(|name| Member {
            name: name.clone(),
            line: number,
        })
        .collect();
    Some(declaration)
}

fn unmodified(text: &str) -> (&str, Vec<&str>) {
    let mut rest = text;
    let mut modifiers = Vec::new();
    while let Some((word, after)) = rest
        .split_once(' ')
        .filter(|(word, _)| MODIFIERS.contains(word))
    {
        modifiers.push(word);
        rest = after;
    }
    (rest, modifiers)
}

fn is_clause(text: &str) -> bool {
    let (rest, modifiers) = unmodified(text);
    let first = rest.split(' ').next().unwrap_or_default();
    modifiers.is_empty()
        && !SILENT.contains(&first)
        && !["record", "data"].contains(&first)
        && declared(rest).is_none()
}

/// The names before a colon that stands outside of brackets, with no `=` before it.
fn declared(text: &str) -> Option<Vec<String>> {
    let mut depth = 0;
    let mut names = Vec::new();
    for word in text.split_whitespace() {
        match word {
            ":" if depth == 0 => return Some(names).filter(|names| !names.is_empty()),
            "=" if depth == 0 => return None,
            _ if depth == 0 && !word.starts_with(['(', '{']) => names.push(word.to_string()),
            _ => {}
        }
        depth += word.matches(['(', '{']).count();
        depth = depth.saturating_sub(word.matches([')', '}']).count());
    }
    None
}

/// `A.B.{x, y as z}` or `A.B as C`, as it stands after `use`.
pub fn used(text: &str) -> Option<Use> {
    let text = text.trim_end_matches(';').trim();
    if let Some((module, names)) = text.split_once(".{") {
        return Some(Use::names_of(module, names));
    }
    let (module, alias) = text.split_once(" as ")?;
    Some(Use {
        module: module.to_string(),
        names: Vec::new(),
        alias: Some(alias.to_string()),
    })
}

#[cfg(test)]
mod tests {
    use super::*;

    fn names(content: &Content) -> Vec<&str> {
        content
            .declarations
            .iter()
            .map(|d| d.name.as_str())
            .collect()
    }

    #[test]
    fn a_definition_has_its_comment_its_clauses_and_no_more() {
        let content = read(
            "-- the file\nuse A.B.{x, ◌∷◌}\n\n-- ---- names: \"all 48 bytes\"\n\n-- each byte\nunfoldable pub same_bytes : List ℕ → Bool\n\
             same_bytes [] = true\nsame_bytes (x ∷ xs) =\n    cond x\n    (same_bytes xs)\n\nabbrev pub next : ℕ\nnext = 1\n",
        );
        assert_eq!(names(&content), ["same_bytes", "next"]);
        let same = &content.declarations[0];
        assert_eq!(same.comment, ["each byte"]);
        assert_eq!(
            same.statement,
            ["unfoldable pub same_bytes : List ℕ → Bool"]
        );
        assert_eq!(same.body.len(), 4);
        assert_eq!((same.line, same.body_line(), same.section), (7, 8, 1));
        assert!(same.public && same.kind == Kind::Definition);
        assert_eq!(content.uses, [used("A.B.{x, ◌∷◌}").unwrap()]);
    }

    #[test]
    fn a_comment_belongs_to_what_follows_it_without_a_blank_line() {
        let content =
            read("-- far\n\n-- ---- near\nabbrev a : ℕ\na = 0\n-- of b\nabbrev b : ℕ\nb = 1\n");
        assert_eq!(content.declarations[0].comment, ["near"]);
        assert_eq!(content.declarations[1].comment, ["of b"]);
        assert_eq!(content.declarations[0].body, ["a = 0"]);
    }

    #[test]
    fn an_operator_is_declared_with_its_holes_and_defined_without_them() {
        let content = read("infix 25 ◌when◌\n-- a number\nunfoldable pub ◌when◌ : ℕ → Bool → ℕ\nn when b = cond b n done\n");
        assert_eq!(names(&content), ["◌when◌"]);
        assert_eq!(content.declarations[0].body, ["n when b = cond b n done"]);
        assert_eq!(content.declarations[0].comment, ["a number"]);
        assert_eq!(
            content.fixities,
            [("◌when◌".to_string(), "infix 25".to_string())]
        );
    }

    #[test]
    fn a_record_has_its_fields_and_data_its_constructors() {
        let content = read(
            "pub record Rules (st : State) (p q : Process) : Type 0 where\n  -- \"at most 12\"\n  pub few : length st ≤ 12\n\n  pub each :\n    \
             Each st\n\npub data Call : Type 0 where\n  Open Close : Session → Call\n  called : {fine : Bool}\n      → (fine ≡ true → Call)\n",
        );
        assert_eq!(names(&content), ["Rules", "Call"]);
        let fields: Vec<_> = content.declarations[0]
            .members
            .iter()
            .map(|m| (m.name.as_str(), m.line))
            .collect();
        assert_eq!(fields, [("few", 3), ("each", 5)]);
        assert_eq!(content.declarations[0].statement.len(), 6);
        let cases: Vec<_> = content.declarations[1]
            .members
            .iter()
            .map(|m| m.name.as_str())
            .collect();
        assert_eq!(cases, ["Open", "Close", "called"]);
    }

    #[test]
    fn a_theorem_has_its_statement_apart_from_its_proof_and_the_modules_around_it() {
        let content = read(
            "module _ (st : State)\n    (v : Rules st) where\n  pub fits : (w : Wanted)\n      → length w ≤ 616\n  unfolding length\n  fits w =\n      \
             let p : w ≡ w = refl in\n      omega p\n\n  module _ (x : ℕ) where\n    inner : x ≡ x\n    inner = refl\n\npub after : ℕ → ℕ\nafter n = n\n",
        );
        assert_eq!(names(&content), ["_", "fits", "_", "inner", "after"]);
        let fits = &content.declarations[1];
        assert_eq!(fits.statement.len(), 2);
        assert_eq!(fits.body[0].trim(), "unfolding length");
        assert_eq!(fits.within, [0]);
        assert_eq!(content.declarations[3].within, [0, 2]);
        assert!(content.declarations[4].within.is_empty());
        assert_eq!(fits.kind, Kind::Theorem);
    }

    #[test]
    fn a_ruleset_declares_nothing_and_its_lines_are_nobodys() {
        let content = read("pub ruleset small = (a,\n    b)\n\nf : (x : ℕ) → x ≡ x\nf x = refl\nruleset other = (f)\n");
        assert_eq!(names(&content), ["f"]);
        assert_eq!(content.declarations[0].body, ["f x = refl"]);
    }

    #[test]
    fn a_clause_with_typed_brackets_is_a_clause() {
        assert!(is_clause("f (x : ℕ) = x"));
        assert!(is_clause("same_once κs a x y s t p q = p ∙ sym q"));
        assert!(!is_clause("f : (x : ℕ) → x ≡ x"));
        assert!(!is_clause("pub f : ℕ"));
    }

    #[test]
    fn an_alias_is_read() {
        let alias = used("Rattle.claims.specs.Numbers as No").unwrap();
        assert_eq!(
            (alias.module.as_str(), alias.alias.as_deref()),
            ("Rattle.claims.specs.Numbers", Some("No"))
        );
        let names = used("A.B.{rules as std_rules, x}").unwrap();
        assert_eq!(names.names, ["rules as std_rules", "x"]);
        assert_eq!(names.alias, None);
    }
}
