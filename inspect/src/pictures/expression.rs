//! Expressions of the logic, as far as pictures need them: what numbers they are, and which bytes they spell.

use crate::page::Book;
use crate::scope::Meaning;
use crate::source::Declaration;
use crate::tree::Id;

#[derive(Clone, Debug, PartialEq, Eq)]
pub enum Expression {
    Word(String),
    /// a function and what it is given
    Applied(Vec<Expression>),
    /// the left side, an operator, the right side
    Operator(Box<Expression>, String, Box<Expression>),
}

use Expression::{Applied, Operator, Word};

/// The operators that are read, from the one that binds least on. All take the rest at their right, as `∷` and `++` do.
const OPERATORS: [&[&str]; 3] = [&["++", "∷"], &["+"], &["*"]];

pub fn read(text: &str) -> Option<Expression> {
    let spaced = text.replace('(', " ( ").replace(')', " ) ");
    let words: Vec<&str> = spaced.split_whitespace().collect();
    parse(&words)
}

fn parse(words: &[&str]) -> Option<Expression> {
    for operators in OPERATORS {
        let mut depth = 0;
        for (at, word) in words.iter().enumerate() {
            depth += i32::from(*word == "(") - i32::from(*word == ")");
            if depth == 0 && operators.contains(word) {
                let (left, right) = (parse(&words[..at])?, parse(&words[at + 1..])?);
                return Some(Operator(Box::new(left), word.to_string(), Box::new(right)));
            }
        }
    }
    let mut parts = Vec::new();
    let mut rest = words;
    while let Some((first, after)) = rest.split_first() {
        if *first == "(" {
            let end = closing(rest)?;
            parts.push(parse(&rest[1..end])?);
            rest = &rest[end + 1..];
        } else if *first == ")" || ["=", "λ", "record", "{", "}"].contains(first) {
            return None;
        } else {
            parts.push(Word(first.to_string()));
            rest = after;
        }
    }
    match parts.len() {
        0 => None,
        1 => parts.pop(),
        _ => Some(Applied(parts)),
    }
}

/// The place of the bracket that closes the one with which these words begin.
fn closing(words: &[&str]) -> Option<usize> {
    let mut depth = 0;
    words.iter().position(|word| {
        depth += i32::from(*word == "(") - i32::from(*word == ")");
        depth == 0
    })
}

impl Expression {
    /// The expression with others in the place of some words.
    pub fn with(&self, given: &[(String, Expression)]) -> Expression {
        match self {
            Word(word) => given
                .iter()
                .find(|(name, _)| name == word)
                .map_or_else(|| self.clone(), |(_, value)| value.clone()),
            Applied(parts) => Applied(parts.iter().map(|part| part.with(given)).collect()),
            Operator(left, sign, right) => Operator(
                Box::new(left.with(given)),
                sign.clone(),
                Box::new(right.with(given)),
            ),
        }
    }

    pub fn text(&self) -> String {
        let inner = |part: &Expression| match part {
            Word(word) => word.clone(),
            other => format!("({})", other.text()),
        };
        match self {
            Word(word) => word.clone(),
            Applied(parts) => parts.iter().map(inner).collect::<Vec<_>>().join(" "),
            Operator(left, sign, right) => format!("{} {sign} {}", left.text(), right.text()),
        }
    }
}

/// The one clause of a definition: its parameters, and what it is.
pub fn clause(declaration: &Declaration) -> Option<(Vec<String>, Expression)> {
    let lines: Vec<&str> = declaration
        .body
        .iter()
        .map(|line| line.trim())
        .filter(|line| !line.starts_with("unfolding "))
        .collect();
    let text = lines.join(" ");
    let (left, right) = text.split_once(" = ")?;
    let mut words = left.split_whitespace().map(str::to_string);
    words.next().filter(|name| *name == declaration.name)?;
    Some((words.collect(), read(right)?))
}

/// The definition that a word means in a file.
pub fn meant(book: &Book, file: usize, word: &str) -> Option<Id> {
    match book.scopes[file].of_logic(word) {
        Some(Meaning::Ours(id)) => Some(id),
        _ => None,
    }
}

/// The number that an expression is, where it is one.
pub fn value(book: &Book, file: usize, expression: &Expression) -> Option<usize> {
    match expression {
        Word(word) => literal(word).or_else(|| {
            let id = meant(book, file, word)?;
            let (parameters, is) = clause(book.tree.declaration(id))?;
            value(book, id.file, &is).filter(|_| parameters.is_empty())
        }),
        Operator(left, sign, right) => {
            let (left, right) = (value(book, file, left)?, value(book, file, right)?);
            match sign.as_str() {
                "+" => Some(left + right),
                "*" => Some(left * right),
                _ => None,
            }
        }
        Applied(_) => None,
    }
}

fn literal(word: &str) -> Option<usize> {
    match word.strip_prefix("0x") {
        Some(digits) => usize::from_str_radix(digits, 16).ok(),
        None => word.parse().ok(),
    }
}

#[cfg(test)]
mod tests {
    use super::*;

    #[test]
    fn what_is_read_is_written_again() {
        for text in [
            "a ∷ 0 ∷ bytesOf 2 (row .credential .0) ++ x",
            "placesAt + places * placeSize",
            "join (map rowBytes rows)",
        ] {
            assert_eq!(read(text).unwrap().text(), text);
        }
        assert!(read("record { x = 1 }").is_none());
    }

    #[test]
    fn sums_hold_products_and_lists_hold_sums() {
        let Some(Operator(_, sign, _)) = read("a * b + c") else {
            panic!("an operator")
        };
        assert_eq!(sign, "+");
        let Some(Operator(_, sign, _)) = read("x + 1 ∷ l") else {
            panic!("an operator")
        };
        assert_eq!(sign, "∷");
    }

    #[test]
    fn a_clause_has_its_parameters() {
        let content = crate::antt::read(
            "unfoldable pub head : ℕ → ℕ → List ℕ\nhead code n = code ∷ 0 ∷ bytesOf 2 n\n",
        );
        let (parameters, is) = clause(&content.declarations[0]).unwrap();
        assert_eq!(parameters, ["code", "n"]);
        let given = [
            ("code".to_string(), Word("0x8e".to_string())),
            ("n".to_string(), read("f x").unwrap()),
        ];
        assert_eq!(is.with(&given).text(), "0x8e ∷ 0 ∷ bytesOf 2 (f x)");
    }

    #[test]
    fn numbers_are_read() {
        assert_eq!(
            (literal("0x0e"), literal("48"), literal("n")),
            (Some(14), Some(48), None)
        );
    }
}
