//! The page of a small tree, and of this repository: what is on it, and that its links lead somewhere.

mod common;

use common::Fixture;
use slavotuk_inspect::believed::{Believed, Figure};
use slavotuk_inspect::map::{self, Map};
use slavotuk_inspect::page::{self, Book, Origin};
use slavotuk_inspect::run::Run;
use slavotuk_inspect::scope::Scope;
use slavotuk_inspect::tree::Tree;
use std::collections::HashSet;
use std::path::Path;

fn origin(root: &Path) -> Origin {
    let readme = map::document(&root.join("README.md")).expect("a README");
    Origin {
        commit: "abc".to_string(),
        date: "today".to_string(),
        readme,
        verdicts: Vec::new(),
    }
}

fn small(name: &str, log: Option<&str>) -> String {
    let fixture = Fixture::new(name, "", "", "");
    let (tree, map) = fixture.read();
    page::write(&Book::new(
        &tree,
        &map,
        log.map(Run::of),
        origin(&fixture.0),
    ))
}

/// The values of an attribute, in their order.
fn values<'a>(html: &'a str, attribute: &str) -> Vec<&'a str> {
    let start = format!(" {attribute}=\"");
    html.split(&start)
        .skip(1)
        .filter_map(|rest| rest.split('"').next())
        .collect()
}

/// What stands between two texts.
fn between<'a>(html: &'a str, from: &str, to: &str) -> &'a str {
    let rest = html
        .split_once(from)
        .unwrap_or_else(|| panic!("no {from}"))
        .1;
    rest.split_once(to).unwrap_or_else(|| panic!("no {to}")).0
}

/// The text without its tags.
fn plain(html: &str) -> String {
    let text: String = html
        .split('<')
        .map(|part| part.split_once('>').map_or(part, |(_, text)| text))
        .collect();
    text.replace("&gt;", ">")
}

#[test]
fn a_row_has_the_texts_of_what_it_cites() {
    let html = small("row", None);
    let row = plain(between(
        &html,
        "<article class=\"row\" id=\"sentence-1\">",
        "</article>",
    ));
    for text in [
        "Two names are equal",
        "same_name a b = a == b",
        "pub fn same(a: Name, b: Name) -> bool",
        "ensures { result ≡ same_name a b }",
        "same_once : OneAnswer 0 same-kinds.ps same-kinds.r same.Post",
        "−     a.0 == b.0",
        "+     true",
    ] {
        assert!(row.contains(text), "{text} is in {row}");
    }
    assert!(!row.contains("sym q"), "the proof is not shown");
}

#[test]
fn a_sentence_leads_to_the_line_of_code_and_back() {
    let html = small("way", None);
    let row = between(&html, "id=\"sentence-1\">", "</article>");
    assert!(row.contains("href=\"#names.src.lib:9\""), "to the code");
    assert!(
        row.contains("href=\"#names.src.lib:10\""),
        "to the line of the wrong build"
    );
    let function = between(
        &html,
        "<article class=\"d\" id=\"names.src.lib.same\">",
        "</article>",
    );
    assert!(plain(between(function, "id=\"names.src.lib:10\"", "</span>")).contains("a.0 == b.0"));
    assert!(function.contains("href=\"#sentence-1\""), "back");
    assert!(
        function.contains("href=\"#names.must-fail.one_byte\""),
        "to the wrong build"
    );
}

#[test]
fn a_definition_says_who_cites_it() {
    let html = small("cited", None);
    let definition = between(
        &html,
        "<article class=\"d\" id=\"names.specs.Names.same_name\">",
        "</article>",
    );
    assert!(definition.contains("Cited by the contracts of:</b> <a href=\"#names.src.lib.same\">"));
    assert!(
        definition.contains("title=\"of the logic's library: Rattle.std.specs.Prelude\""),
        "a name from outside says from where"
    );
}

#[test]
fn where_no_run_is_at_hand_it_says_so() {
    assert!(small("no-run", None).contains("No gate run is at hand"));
}

#[test]
fn a_run_is_told_with_its_date_commit_and_kit() {
    let log = "date: then\ncommit: def\nkit: kit-5\n== names\nlogic=proved functions=1 sum=0\nrt: names proved\n\
               rt: must-fail names/one_byte.edit: refused, as it must be: note\nrt: ok; handles allowed: none; must-fail edits: 1 refused\n\
               wrong: names/one_byte: refused at proofs/same/Answers.antt:3:4 (2.0 s)\n";
    let html = small("run", Some(log));
    let told = plain(between(&html, "<h2 id=\"run\">", "<h2"));
    assert!(
        told.contains("then, commit def, kit kit-5. This page is made from abc."),
        "{told}"
    );
    assert!(
        told.contains("It proved 1 crate with 1 function, and refused 1 wrong build."),
        "{told}"
    );
    assert!(told.contains("No library reports an axiom."), "{told}");
    assert!(plain(&html).contains("refused at proofs/same/Answers.antt:3:4: same returns"));
}

#[test]
fn a_run_that_failed_is_told_as_failed() {
    let html = small(
        "failed",
        Some("rt: names NOT PROVED\nrt: FAILED: names\n0 passed, 1 failed\n"),
    );
    assert!(html.contains("It failed: names."));
}

/// This repository.
fn here() -> (Tree, Map, Origin) {
    let root = Path::new(env!("CARGO_MANIFEST_DIR")).join("..");
    (
        Tree::read(&root).expect("a tree"),
        Map::read(&root).expect("a map"),
        origin(&root),
    )
}

#[test]
fn every_link_leads_somewhere_and_every_anchor_is_one() {
    let (tree, map, origin) = here();
    let html = page::write(&Book::new(&tree, &map, None, origin));
    let ids = values(&html, "id");
    let anchors: HashSet<&str> = ids.iter().copied().collect();
    assert_eq!(ids.len(), anchors.len());
    for href in values(&html, "href") {
        assert!(
            href.strip_prefix('#')
                .is_some_and(|anchor| anchors.contains(anchor)),
            "{href}"
        );
    }
}

#[test]
fn the_lines_to_be_believed_are_those_that_the_page_marks() {
    let (tree, map, origin) = here();
    let html = page::write(&Book::new(&tree, &map, None, origin));
    let marked = values(&html, "class")
        .iter()
        .filter(|classes| classes.split(' ').any(|class| class == "b"))
        .count();
    let scopes: Vec<Scope> = (0..tree.files.len())
        .map(|file| Scope::of(&tree, file))
        .collect();
    let believed = Believed::of(&tree, &map, &scopes);
    let counted = Figure::ALL.map(|figure| believed.all_lines(&tree, figure));
    assert_eq!(marked, counted.iter().sum::<usize>());
}

#[test]
fn what_is_read_stands_there() {
    let (tree, _, _) = here();
    for file in &tree.files {
        let lines: Vec<&str> = file.text.lines().collect();
        for declaration in &file.content.declarations {
            for (at, line) in declaration
                .statement
                .iter()
                .chain(&declaration.body)
                .enumerate()
            {
                assert_eq!(
                    *line,
                    lines[declaration.line - 1 + at],
                    "{}: {}",
                    file.path,
                    declaration.name
                );
            }
            for member in declaration
                .members
                .iter()
                .filter(|member| member.name != "0")
            {
                assert!(
                    lines[member.line - 1].contains(&member.name),
                    "{}: {}",
                    file.path,
                    member.name
                );
            }
        }
    }
}

#[test]
fn no_declaration_is_passed_over() {
    let (tree, _, _) = here();
    for file in &tree.files {
        let silent = [
            "use ",
            "ghost use ",
            "infix",
            "pub ruleset ",
            "ruleset ",
            "#[",
            "#![",
            "};",
        ];
        for (at, line) in file
            .text
            .lines()
            .enumerate()
            .filter(|(_, line)| line.starts_with(|c: char| !c.is_whitespace()))
        {
            let says_nothing = line.starts_with("--")
                || line.starts_with("//")
                || silent.iter().any(|start| line.starts_with(start));
            let is_read = file
                .content
                .declarations
                .iter()
                .any(|declaration| declaration.has_line(at + 1));
            assert!(says_nothing || is_read, "{}:{}: {line}", file.path, at + 1);
        }
    }
}
