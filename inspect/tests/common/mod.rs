//! A small tree, in a folder of its own.

use slavotuk_inspect::map::Map;
use slavotuk_inspect::tree::Tree;
use std::fs;
use std::path::PathBuf;

const FILES: [(&str, &str); 8] = [
    ("crates.txt", "# what things are called\nnames:\n# a program\ntell: names\n"),
    (
        "crates/names/specs/Names.antt",
        "use Rattle.std.specs.Prelude.{◌==◌}\n\n-- all bytes\nunfoldable pub same_name : Name → Name → Bool\nsame_name a b = a == b\n",
    ),
    (
        "crates/names/src/lib.rt",
        "ghost use Rattle.names.specs.Names.{same_name};\n\n#[derive(Clone, Copy)]\npub struct Name(pub u8);\n\n// Whether two names are one.\n\
         pub fn same(a: Name, b: Name) -> bool\n    ensures { result ≡ same_name a b }\n{\n    a.0 == b.0\n}\n",
    ),
    (
        "crates/names/proofs/Unique.antt",
        "use Rattle.names.proofs.same.Kinds as same-kinds\nuse Rattle.names.proofs.same.Reads as same\n\n\
         pub same_once : OneAnswer 0 same-kinds.ps same-kinds.r same.Post\nsame_once κs a x y s t p q = p ∙ sym q\n",
    ),
    (
        "crates/tell/src/main.rt",
        "ghost use Rattle.std.specs.Prelude.{◌≡◌};\n\nfn one() -> u8\n    ensures { result ≡ 1 }\n{\n    1\n}\n\nfn main() {\n    one();\n}\n",
    ),
    ("README.md", "# Small\n\nIt is proved.\n\n## More\n\nNot this.\n\n| Crate | What it has |\n|---|---|\n| names, tell | what things are called; a program |\n"),
    ("crates/names/must-fail/one_byte.edit", "# one byte\nat: same returns\nfile: src/lib.rt\nold: a.0 == b.0\nnew: true\n"),
    (
        "docs/STATEMENTS.md",
        "# Statements\n\n| File | What it says |\n|---|---|\n| names/Names | equal names |\n\n## Names\n\n\
         | Document 01 | Definition | Promise | Proved | Wrong builds |\n|---|---|---|---|---|\n\
         | Two names are equal | names/Names: `same_name`; names: `Name` | names: `same` | names/Unique: `same_once` | names: `one_byte` |\n\
         | The hash unit's duty | assumed, above | | | |\n| One is told | | tell: `one` | tell: `main` | |\n",
    ),
];

/// The small tree, in a folder of its own, with one text replaced.
pub struct Fixture(pub PathBuf);

impl Fixture {
    pub fn new(name: &str, file: &str, old: &str, new: &str) -> Fixture {
        let root =
            std::env::temp_dir().join(format!("slavotuk-inspect-{}-{name}", std::process::id()));
        for (path, text) in FILES {
            let path_there = root.join(path);
            fs::create_dir_all(path_there.parent().expect("a folder")).expect("made");
            assert!(path != file || text.contains(old), "{old} is in {file}");
            let text = if path == file {
                text.replacen(old, new, 1)
            } else {
                text.to_string()
            };
            fs::write(path_there, text).expect("written");
        }
        Fixture(root)
    }

    pub fn read(&self) -> (Tree, Map) {
        (
            Tree::read(&self.0).expect("a tree"),
            Map::read(&self.0).expect("a map"),
        )
    }
}

impl Drop for Fixture {
    fn drop(&mut self) {
        let _left = fs::remove_dir_all(&self.0);
    }
}
