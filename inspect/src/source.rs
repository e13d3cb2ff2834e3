//! What a file of Rattle or of the logic declares, as its readers hand it on.

/// What a declaration is.
#[derive(Clone, Copy, Debug, PartialEq, Eq)]
pub enum Kind {
    /// a function or a type of the logic, with the clauses that define it
    Definition,
    Record,
    Data,
    /// a statement whose proof stands below it
    Theorem,
    /// the parameters that the declarations inside it share
    Module,
    Function,
    Type,
    Constant,
}

/// A field, a constructor or a variant, with its line in the file, counted from 1.
#[derive(Clone, Debug, PartialEq, Eq)]
pub struct Member {
    pub name: String,
    pub line: usize,
}

#[derive(Clone, Debug)]
pub struct Declaration {
    pub name: String,
    pub kind: Kind,
    pub public: bool,
    /// The comment right above it, without its marks.
    pub comment: Vec<String>,
    /// The line on which the statement begins, counted from 1. The body follows the statement without a gap.
    pub line: usize,
    /// The signature, with the contract of a function; types, records and constants whole.
    pub statement: Vec<String>,
    /// The clauses of a definition, the proof of a theorem, the code of a function.
    pub body: Vec<String>,
    pub members: Vec<Member>,
    /// The modules that it stands in, outermost first: declarations of the same file.
    pub within: Vec<usize>,
    /// How many headings (`-- ----`) the file has before it.
    pub section: usize,
}

impl Declaration {
    pub fn new(name: &str, kind: Kind, public: bool, line: usize) -> Self {
        Declaration {
            name: name.to_string(),
            kind,
            public,
            comment: Vec::new(),
            line,
            statement: Vec::new(),
            body: Vec::new(),
            members: Vec::new(),
            within: Vec::new(),
            section: 0,
        }
    }

    pub fn body_line(&self) -> usize {
        self.line + self.statement.len()
    }

    /// Whether a line of the file is one of its own.
    pub fn has_line(&self, line: usize) -> bool {
        (self.line..self.body_line() + self.body.len()).contains(&line)
    }

    pub fn has_member(&self, name: &str) -> bool {
        self.members.iter().any(|member| member.name == name)
    }
}

/// Names taken from another module: these, one by another name as `x as y`, or all of them below an alias.
#[derive(Clone, Debug, PartialEq, Eq)]
pub struct Use {
    pub module: String,
    pub names: Vec<String>,
    pub alias: Option<String>,
}

impl Use {
    /// Names that commas separate, up to a bracket.
    pub fn names_of(module: &str, names: &str) -> Use {
        let names = names.split('}').next().unwrap_or_default();
        let names = names.split(',').map(str::trim);
        Use {
            module: module.to_string(),
            names: names
                .filter(|name| !name.is_empty())
                .map(str::to_string)
                .collect(),
            alias: None,
        }
    }
}

/// What a reader finds in a file.
#[derive(Clone, Debug, Default)]
pub struct Content {
    pub uses: Vec<Use>,
    pub declarations: Vec<Declaration>,
    /// of each operator how it binds: `infixr 20`
    pub fixities: Vec<(String, String)>,
}

/// Lines that wait for what comes next: blank ones and comments. They belong to the declaration before them where that goes on, and
/// else the last comment among them belongs to the next one.
#[derive(Default)]
pub struct Held(Vec<String>);

impl Held {
    pub fn push(&mut self, line: &str) {
        self.0.push(line.to_string());
    }

    pub fn take(&mut self) -> Vec<String> {
        std::mem::take(&mut self.0)
    }

    /// The comment that ends right here, and nothing held any more.
    pub fn comment(&mut self, mark: &str) -> Vec<String> {
        let lines = self.take();
        let start = lines
            .iter()
            .rposition(|line| line.trim().is_empty())
            .map_or(0, |blank| blank + 1);
        lines[start..]
            .iter()
            .map(|line| uncommented(line, mark))
            .collect()
    }
}

fn uncommented(line: &str, mark: &str) -> String {
    let text = line.trim().strip_prefix(mark).unwrap_or(line).trim();
    text.strip_prefix("---- ").unwrap_or(text).to_string()
}

/// Whether a line of a function's statement, and each after it, is of the contract.
pub fn begins_contract(line: &str) -> bool {
    ["requires", "ensures"]
        .iter()
        .any(|word| line.trim_start().starts_with(word))
}

pub fn indent(line: &str) -> usize {
    line.len() - line.trim_start_matches(' ').len()
}

/// Whether a line says something: no blank one, and no comment.
pub fn counts(line: &str) -> bool {
    let text = line.trim();
    !(text.is_empty() || text.starts_with("--") || text.starts_with("//"))
}
