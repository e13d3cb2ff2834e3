//! Reads a file of Rattle (`.rt`) in the formatter's layout: a declaration begins at the margin, or in the block of what a type has of its
//! own; a function's body is between braces where it begins.

use crate::antt;
use crate::source::{begins_contract, indent, Content, Declaration, Held, Kind, Member, Use};

const COMMENT: &str = "//";

pub fn read(text: &str) -> Content {
    let lines: Vec<&str> = text.lines().collect();
    let mut content = Content::default();
    let mut held = Held::default();
    let mut at = 0;
    while at < lines.len() {
        let line = lines[at];
        let text = line.trim();
        if text.is_empty() || text.starts_with(COMMENT) {
            held.push(line);
        } else if text.starts_with("use ") || text.starts_with("ghost use ") {
            let last = lines[at..].iter().position(|line| line.ends_with(';'));
            let end = at + last.unwrap_or(0);
            content.uses.extend(used(&lines[at..=end].concat()));
            held.take();
            at = end;
        } else if let Some(mut declaration) = begun(text, at + 1) {
            declaration.comment = held.comment(COMMENT);
            fill(&mut declaration, &lines[at..]);
            at += declaration.statement.len() + declaration.body.len() - 1;
            content.declarations.push(declaration);
        }
        at += 1;
    }
    content
}

/// `ghost use A.B.{x};` names the logic, `use a::B;` and `use a::{B, C};` the code of another crate.
fn used(text: &str) -> Option<Use> {
    if let Some(ghost) = text.strip_prefix("ghost use ") {
        return antt::used(ghost);
    }
    let (module, names) = text
        .strip_prefix("use ")?
        .trim_end_matches(';')
        .rsplit_once("::")?;
    Some(Use::names_of(module, names.trim_start_matches('{')))
}

/// The header of a block that gives a type what a trait asks: `impl From<Kind> for u8 {`.
fn trait_given(line: &str) -> Option<&str> {
    let header = line.strip_prefix("impl")?;
    let begins = header.starts_with([' ', '<']);
    (begins && header.contains(" for ")).then_some(header)
}

fn begun(text: &str, number: usize) -> Option<Declaration> {
    // what a trait gives a type: by no name of its own, and for no one to cite. What a type has of its own is read as what it is
    if let Some(header) = trait_given(text) {
        let words = header.split(|c: char| !c.is_alphanumeric());
        let words: Vec<&str> = words.filter(|word| !word.is_empty()).collect();
        let name = format!("impl_{}", words.join("_"));
        return Some(Declaration::new(&name, Kind::Constant, false, number));
    }
    let public = text.starts_with("pub ");
    let rest = text.strip_prefix("pub ").unwrap_or(text);
    let rest = rest.strip_prefix("extern \"C\" ").unwrap_or(rest);
    let (word, after) = rest.split_once(' ')?;
    let kind = match word {
        "fn" => Kind::Function,
        "struct" | "enum" => Kind::Type,
        "const" => Kind::Constant,
        _ => return None,
    };
    let name: String = after
        .chars()
        .take_while(|c| c.is_alphanumeric() || *c == '_')
        .collect();
    Some(Declaration::new(&name, kind, public, number))
}

/// The lines of a declaration, which begins on the first of these.
fn fill(declaration: &mut Declaration, lines: &[&str]) {
    let own = |count: usize| {
        lines[..count]
            .iter()
            .map(|line| line.to_string())
            .collect::<Vec<_>>()
    };
    match declaration.kind {
        Kind::Function => {
            let opens = lines
                .iter()
                .position(|line| line.ends_with('{') && !begins_contract(line))
                .unwrap_or(lines.len() - 1);
            let brace = format!("{}}}", " ".repeat(indent(lines[0])));
            let ends = lines
                .iter()
                .position(|line| *line == brace)
                .map_or(lines.len(), |last| last + 1);
            // a brace by itself is the body's, one that ends the signature is the signature's
            let head = if lines[opens].trim() == "{" {
                opens
            } else {
                opens + 1
            };
            declaration.statement = own(head);
            declaration.body = lines[head..ends.max(head)]
                .iter()
                .map(|line| line.to_string())
                .collect();
        }
        _ => {
            let is_block = trait_given(lines[0]).is_some();
            let last = lines
                .iter()
                .position(|line| *line == "}" || !is_block && line.ends_with(';'))
                .unwrap_or(lines.len() - 1);
            declaration.statement = own(last + 1);
            if !is_block {
                declaration.members = members(declaration, lines[0]);
            }
        }
    }
}

/// The fields of a struct, the variants of an enum; a tuple struct has the field 0.
fn members(declaration: &Declaration, first: &str) -> Vec<Member> {
    if declaration.kind == Kind::Type && first.ends_with(");") {
        return vec![Member {
            name: "0".to_string(),
            line: declaration.line,
        }];
    }
    let name = |line: &str| -> String {
        let text = line.trim().trim_start_matches("pub ");
        text.chars()
            .take_while(|c| c.is_alphanumeric() || *c == '_')
            .collect()
    };
    let inner = declaration.statement.iter().enumerate().skip(1);
    inner
        .filter(|(_, line)| indent(line) == 4 && !line.trim().starts_with(COMMENT))
        .map(|(at, line)| Member {
            name: name(line),
            line: declaration.line + at,
        })
        .filter(|member| !member.name.is_empty())
        .collect()
}

#[cfg(test)]
mod tests {
    use super::*;

    const FILE: &str = "// The file.\n#![tactic(auto)]\n\nghost use Rattle.std.specs.Prelude.{◌≡◌};\nuse claims::{\n    DONE,\n    SPENT,\n};\n\n\
        // A handle.\n#[derive(Clone, Copy)]\npub struct Session(pub u8);\n\npub enum Kind {\n    // a user's\n    User,\n    Saved(Session),\n}\n\npub const LONG: usize = 48;\n\n// Whether.\n#[unsafe(no_mangle)]\n\
        pub extern \"C\" fn slavotuk_same(a: Name) -> bool\n    requires { Fits a }\n    ensures same {\n        result ≡ same_name a\n    }\n{\n    \
        if a.x {\n        return false;\n    }\n    true\n}\n\nfn name(most: u8) -> Name {\n    Name { bytes: most }\n}\n";

    #[test]
    fn every_kind_is_found_with_its_lines() {
        let content = read(FILE);
        let found: Vec<_> = content
            .declarations
            .iter()
            .map(|d| (d.name.as_str(), d.kind, d.public))
            .collect();
        assert_eq!(
            found,
            [
                ("Session", Kind::Type, true),
                ("Kind", Kind::Type, true),
                ("LONG", Kind::Constant, true),
                ("slavotuk_same", Kind::Function, true),
                ("name", Kind::Function, false)
            ]
        );
        assert_eq!(content.uses.len(), 2);
        assert_eq!(content.uses[1].names, ["DONE", "SPENT"]);
    }

    #[test]
    fn a_function_has_its_contract_apart_from_its_code() {
        let content = read(FILE);
        let same = &content.declarations[3];
        assert_eq!(same.statement.len(), 5);
        assert_eq!(same.body.first().map(String::as_str), Some("{"));
        assert_eq!(same.body.last().map(String::as_str), Some("}"));
        assert_eq!(same.comment, ["Whether."]);
        assert_eq!((same.line, same.body_line()), (24, 29));
    }

    #[test]
    fn a_function_with_no_contract_ends_its_statement_with_the_brace() {
        let name = &read(FILE).declarations[4];
        assert_eq!(name.statement, ["fn name(most: u8) -> Name {"]);
        assert_eq!(name.body.len(), 2);
    }

    #[test]
    fn what_a_trait_gives_a_type_is_read_to_its_end() {
        let file = "// Its number.\nimpl From<Kind> for u8 {\n    ghost from_gives = { λ k n. n ≡ number k };\n\n    fn from(kind: Kind) -> u8 {\n        kind as u8\n    }\n}\n\nconst ONE: u8 = 1;\n";
        let content = read(file);
        let given = &content.declarations[0];
        assert_eq!(
            (given.name.as_str(), given.public),
            ("impl_From_Kind_for_u8", false)
        );
        assert_eq!((given.line, given.statement.len()), (2, 7));
        assert_eq!(content.declarations[1].name, "ONE");
    }

    #[test]
    fn functions_of_a_type_s_own_are_found() {
        let file = "pub struct Part(pub u8);\n\nimpl Part {\n    pub fn sized(part: &[u8]) -> usize\n        ensures { result ≡ length part.now }\n    {\n        \
            part.len()\n    }\n\n    pub fn none() -> u8 {\n        0\n    }\n}\n\nconst ONE: u8 = 1;\n";
        let content = read(file);
        let found: Vec<_> = content
            .declarations
            .iter()
            .map(|d| (d.name.as_str(), d.kind, d.public))
            .collect();
        assert_eq!(
            found,
            [
                ("Part", Kind::Type, true),
                ("sized", Kind::Function, true),
                ("none", Kind::Function, true),
                ("ONE", Kind::Constant, false)
            ]
        );
        let sized = &content.declarations[1];
        assert_eq!((sized.statement.len(), sized.body.len()), (2, 3));
    }

    #[test]
    fn fields_and_variants_are_members() {
        let content = read(FILE);
        assert!(content.declarations[0].has_member("0"));
        let variants: Vec<_> = content.declarations[1]
            .members
            .iter()
            .map(|m| (m.name.as_str(), m.line))
            .collect();
        assert_eq!(variants, [("User", 16), ("Saved", 17)]);
    }
}
