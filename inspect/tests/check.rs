//! The map's check on a small tree: it passes as it is, and each fault is told by name.

mod common;

use common::Fixture;
use slavotuk_inspect::check;

fn wrong(fixture: &Fixture) -> Vec<String> {
    let (tree, map) = fixture.read();
    check::check(&fixture.0, &tree, &map)
        .into_iter()
        .flat_map(|verdict| verdict.wrong)
        .collect()
}

/// Asks that a text replaced makes exactly these failures.
fn fails(name: &str, file: &str, old: &str, new: &str, told: &[&str]) {
    assert_eq!(wrong(&Fixture::new(name, file, old, new)), told);
}

const MAP: &str = "docs/STATEMENTS.md";

#[test]
fn a_right_map_passes() {
    fails("right", "", "", "", &[]);
}

#[test]
fn a_name_that_is_not_there() {
    let told = [
        "docs/STATEMENTS.md:11: Definition, names/Names: `same_names` is not there",
        "names/Names: `same_name`, which the contracts of names::same cite, is in no row",
    ];
    fails("name", MAP, "`same_name`", "`same_names`", &told);
    fails(
        "theorem",
        MAP,
        "`same_once`",
        "`once`",
        &["docs/STATEMENTS.md:11: Proved, names/Unique: `once` is not there"],
    );
    fails(
        "type",
        MAP,
        "`Name`",
        "`same`",
        &["docs/STATEMENTS.md:11: Definition, names: `same` is not there"],
    );
}

#[test]
fn a_table_of_crates_in_another_order() {
    fails(
        "crates",
        "README.md",
        "names, tell",
        "tell, names",
        &["README.md: its table of crates has tell where crates.txt has names"],
    );
    fails(
        "crate",
        "README.md",
        "names, tell",
        "names",
        &["README.md: its table of crates has none where crates.txt has tell"],
    );
}

#[test]
fn a_place_that_is_not_there() {
    fails(
        "place",
        MAP,
        "names/Unique",
        "names/Once",
        &["docs/STATEMENTS.md:11: Proved, names/Once: `same_once` is not there"],
    );
}

#[test]
fn a_function_of_a_program_promises_where_it_has_a_contract() {
    fails(
        "promise",
        MAP,
        "tell: `one`",
        "tell: `main`",
        &["docs/STATEMENTS.md:13: Promise, tell: `main` is not there"],
    );
    fails(
        "run",
        MAP,
        "tell: `main`",
        "tell: `one`",
        &["docs/STATEMENTS.md:13: Proved, tell: `one` is not there"],
    );
}

#[test]
fn a_public_function_that_no_row_cites() {
    fails(
        "function",
        MAP,
        "names: `same`",
        "",
        &["names: `same` is public, and no row cites it"],
    );
}

#[test]
fn a_wrong_build_that_no_row_cites() {
    fails(
        "edit",
        MAP,
        "names: `one_byte`",
        "",
        &["names: no row cites the wrong build `one_byte`"],
    );
}

#[test]
fn a_wrong_build_whose_text_is_gone() {
    let told = ["names/must-fail/one_byte: `a.0 == b.1` is not in src/lib.rt exactly once"];
    fails(
        "text",
        "crates/names/must-fail/one_byte.edit",
        "a.0 == b.0",
        "a.0 == b.1",
        &told,
    );
}

#[test]
fn a_definition_that_contracts_cite_and_no_row_shows() {
    let told = ["names/Names: `same_name`, which the contracts of names::same cite, is in no row"];
    fails("definition", MAP, "names/Names: `same_name`; ", "", &told);
}

#[test]
fn a_file_of_definitions_that_is_not_named() {
    let told = ["crates/names/specs/Names.antt: a file of definitions that docs/STATEMENTS.md does not name"];
    fails(
        "file",
        MAP,
        "| names/Names | equal names |",
        "| names | equal names |",
        &told,
    );
}

#[test]
fn a_public_function_with_no_theorem_of_one_answer() {
    let told = ["names: `same` wants 1 theorems `OneAnswer` and has 0"];
    fails(
        "once",
        "crates/names/proofs/Unique.antt",
        "OneAnswer",
        "Answer",
        &told,
    );
}

#[test]
fn a_lent_buffer_with_no_theorem_of_one_content() {
    let told = ["names: `same` wants 1 theorems `OneContent` and has 0"];
    fails(
        "content",
        "crates/names/src/lib.rt",
        "b: Name)",
        "b: &mut [u8])",
        &told,
    );
}

#[test]
fn a_public_function_that_asks_something() {
    let told = ["names: `same` asks something of its caller"];
    fails(
        "asks",
        "crates/names/src/lib.rt",
        "    ensures { result ≡ same_name",
        "    requires { a ≡ b }\n    ensures { result ≡ same_name",
        &told,
    );
}

#[test]
fn a_table_with_a_column_misspelt() {
    let wrong = wrong(&Fixture::new("columns", MAP, "Promise", "Promises"));
    assert!(
        wrong.contains(
            &"docs/STATEMENTS.md:9: a table that has some of a sentence's columns and not all"
                .to_string()
        ),
        "{wrong:?}"
    );
}
