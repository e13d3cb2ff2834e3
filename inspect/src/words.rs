//! Takes a line apart into words, as far as links and signs need it.

#[derive(Clone, Copy, Debug, PartialEq, Eq)]
pub enum Piece<'a> {
    /// a name or a sign
    Word(&'a str),
    /// a field that is taken of what stands before it: `.name`, with its dot
    Field(&'a str),
    /// a field that a record is given: `name = ..` between braces
    Label(&'a str),
    Comment(&'a str),
    /// spaces, brackets, commas
    Other(&'a str),
}

impl<'a> Piece<'a> {
    pub fn text(self) -> &'a str {
        match self {
            Piece::Word(text)
            | Piece::Field(text)
            | Piece::Label(text)
            | Piece::Comment(text)
            | Piece::Other(text) => text,
        }
    }
}

/// The pieces of a line of the logic, in a declaration whose margin this is. A word goes up to a space, a bracket or a dot; a dot at its end is
/// that of a λ, and one behind the alias of a module leads to a name of it.
pub fn of_logic<'a>(
    line: &'a str,
    margin: usize,
    is_alias: &dyn Fn(&str) -> bool,
) -> Vec<Piece<'a>> {
    let mut pieces = Vec::new();
    let mut rest = line;
    if rest.trim_start().starts_with("--") {
        return vec![Piece::Comment(line)];
    }
    while let Some(first) = rest.chars().next() {
        let ends = |c: char| c.is_whitespace() || "(){};,".contains(c);
        let length = if ends(first) {
            rest.find(|c| !ends(c))
        } else {
            rest.find(ends)
        }
        .unwrap_or(rest.len());
        let (text, after) = rest.split_at(length);
        if ends(first) {
            pieces.push(Piece::Other(text));
        } else {
            word_of_logic(text, is_alias, &mut pieces);
        }
        rest = after;
    }
    for at in 0..pieces.len() {
        if let (Piece::Word(word), true) = (pieces[at], is_label(&pieces, at, margin)) {
            pieces[at] = Piece::Label(word);
        }
    }
    pieces
}

/// Whether a word is given a value inside of a record: after a brace or a semicolon, or first on a line that goes on.
fn is_label(pieces: &[Piece], at: usize, margin: usize) -> bool {
    let is_given = pieces.get(at + 1) == Some(&Piece::Other(" "))
        && pieces.get(at + 2) == Some(&Piece::Word("="));
    let begins = match at.checked_sub(1).map(|before| pieces[before]) {
        Some(Piece::Other(text)) if at == 1 && text.trim().is_empty() => text.len() > margin,
        Some(Piece::Other(text)) => text.contains(['{', ';']),
        _ => false,
    };
    is_given && begins
}

fn word_of_logic<'a>(text: &'a str, is_alias: &dyn Fn(&str) -> bool, pieces: &mut Vec<Piece<'a>>) {
    let next_dot = |from: usize| text[from..].find('.').map_or(text.len(), |at| from + at);
    let first = next_dot(0);
    let mut end = match is_alias(&text[..first]) && first < text.len() {
        true => next_dot(first + 1),
        false => first,
    };
    if end > 0 {
        pieces.push(Piece::Word(&text[..end]));
    }
    while end < text.len() {
        let next = next_dot(end + 1);
        pieces.push(match &text[end..next] {
            "." => Piece::Other("."),
            field => Piece::Field(field),
        });
        end = next;
    }
}

/// Whether a word of the code is given arguments.
pub fn is_called(pieces: &[Piece], at: usize) -> bool {
    pieces.get(at + 1) == Some(&Piece::Other("("))
}

/// The pieces of a line of code. A word is a name with the `::` in it.
pub fn of_code(line: &str) -> Vec<Piece<'_>> {
    let mut pieces = Vec::new();
    let mut rest = line;
    let in_word = |c: char| c.is_alphanumeric() || c == '_' || c == ':';
    while let Some(first) = rest.chars().next() {
        if rest.starts_with("//") {
            pieces.push(Piece::Comment(rest));
            break;
        }
        let is_word = in_word(first) && first != ':';
        let length = if is_word {
            let end = rest.find(|c| !in_word(c)).unwrap_or(rest.len());
            rest[..end].trim_end_matches(':').len()
        } else {
            first.len_utf8()
        };
        let (text, after) = rest.split_at(length);
        let after_dot = matches!(pieces.last(), Some(Piece::Other(".")));
        pieces.push(match is_word {
            true if after_dot => Piece::Field(text),
            true => Piece::Word(text),
            false => Piece::Other(text),
        });
        rest = after;
    }
    pieces
}

#[cfg(test)]
mod tests {
    use super::*;
    use Piece::{Comment, Field, Label, Other, Word};

    fn words(pieces: Vec<Piece<'_>>) -> Vec<Piece<'_>> {
        pieces
            .into_iter()
            .filter(|piece| !matches!(piece, Other(_)))
            .collect()
    }

    #[test]
    fn the_logics_words_fields_and_signs() {
        assert_eq!(
            words(of_logic(
                "same a b = λ x. No.done ▸ (f {st} []).bytes.0 s.now",
                0,
                &|word| word == "No"
            )),
            [
                Word("same"),
                Word("a"),
                Word("b"),
                Word("="),
                Word("λ"),
                Word("x"),
                Word("No.done"),
                Word("▸"),
                Word("f"),
                Word("st"),
                Word("[]"),
                Field(".bytes"),
                Field(".0"),
                Word("s"),
                Field(".now")
            ]
        );
        assert_eq!(
            of_logic("  -- \"all\"", 0, &|_| false),
            [Comment("  -- \"all\"")]
        );
    }

    #[test]
    fn a_field_that_is_given_is_no_name() {
        assert_eq!(
            words(of_logic(
                "x = record { number = n; word = let r = y }",
                0,
                &|_| false
            )),
            [
                Word("x"),
                Word("="),
                Word("record"),
                Label("number"),
                Word("="),
                Word("n"),
                Label("word"),
                Word("="),
                Word("let"),
                Word("r"),
                Word("="),
                Word("y")
            ]
        );
        assert_eq!(
            words(of_logic("      number = n;", 0, &|_| false))[0],
            Label("number")
        );
        assert_eq!(
            words(of_logic("  last = n", 2, &|_| false))[0],
            Word("last")
        );
    }

    #[test]
    fn the_codes_words_paths_and_fields() {
        assert_eq!(
            words(of_code(
                "let x: u8 = rows::number16(part, Kind::User).len(); // why"
            )),
            [
                Word("let"),
                Word("x"),
                Word("u8"),
                Word("rows::number16"),
                Word("part"),
                Word("Kind::User"),
                Field("len"),
                Comment("// why")
            ]
        );
    }

    #[test]
    fn a_function_is_called_and_a_variable_is_not() {
        let pieces = of_code("let same = same(a)");
        let called: Vec<bool> = (0..pieces.len())
            .filter(|at| pieces[*at] == Word("same"))
            .map(|at| is_called(&pieces, at))
            .collect();
        assert_eq!(called, [false, true]);
    }

    #[test]
    fn nothing_is_lost() {
        for line in [
            "    record { 0 = number_at 2 0 part };",
            "λ (e : Event). e.call",
            "a ≢ b' . (f x).0.now",
            "",
        ] {
            let joined: String = of_logic(line, 0, &|word| word == "e")
                .into_iter()
                .map(Piece::text)
                .collect();
            assert_eq!(joined, line);
            let joined: String = of_code(line).into_iter().map(Piece::text).collect();
            assert_eq!(joined, line);
        }
    }
}
