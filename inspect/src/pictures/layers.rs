//! The families of crates, from crates.txt, each above those that it relies on, with the lines of definition, code and proof of their crates.

use crate::page::html::{crate_anchor, link, number};
use crate::page::Book;
use crate::pictures::svg;
use crate::tree::{Crate, Folder, Tree};

const WIDE: f64 = 172.0;
const HIGH: f64 = 50.0;
const APART: f64 = 14.0;
/// what a family's own words take at the left
const TITLE: f64 = 250.0;
/// how many crates stand beside each other
const BESIDE: usize = 5;

pub fn section(book: &Book) -> String {
    let tree = book.tree;
    let rows: String = tree.crates.iter().map(|c| table_row(tree, c)).collect();
    format!(
        "<p>A family relies on those below it that its words name, and on what they rely on; within a family a crate relies on some of those before it. The figures and the bar are a crate's lines of <i class=\"key definition\"></i> definition, <i class=\"key code\"></i> code and <i class=\"key proof\"></i> proof.</p>\n{}\
         <details><summary>The same as a table</summary><div class=\"wide\"><table class=\"numbers\"><tr><th>crate</th><th>definition</th><th>code</th><th>proof</th>\
         <th>wrong builds</th><th>relies on</th></tr>\n{rows}</table></div></details>\n",
        draw(tree)
    )
}

fn table_row(tree: &Tree, of: &Crate) -> String {
    let name = &of.name;
    let edits = tree
        .edits
        .iter()
        .filter(|edit| edit.crate_name == *name)
        .count();
    let lines: String = sizes(tree, name)
        .iter()
        .map(|n| format!("<td>{}</td>", number(*n)))
        .collect();
    format!(
        "<tr><td>{}</td>{lines}<td>{edits}</td><td class=\"left\">{}</td></tr>\n",
        link(&crate_anchor(name), name),
        of.relies_on.join(", ")
    )
}

/// Lines of definition, code and proof.
fn sizes(tree: &Tree, name: &str) -> [usize; 3] {
    [Folder::Specs, Folder::Src, Folder::Proofs].map(|folder| tree.lines(name, folder))
}

/// A family: its name, its crates in their order, and the families below that it relies on with none between.
#[derive(Debug, PartialEq)]
struct Family<'a> {
    name: &'a str,
    crates: Vec<&'a Crate>,
    relies_on: Vec<&'a str>,
}

/// The families in the order of crates.txt.
fn families(crates: &[Crate]) -> Vec<Family<'_>> {
    let mut found: Vec<Family> = Vec::new();
    for one in crates {
        match found.last_mut().filter(|family| family.name == one.family) {
            Some(family) => family.crates.push(one),
            None => found.push(Family {
                name: &one.family,
                crates: vec![one],
                relies_on: Vec::new(),
            }),
        }
    }
    let all: Vec<Vec<usize>> = found.iter().map(|family| below(&found, family)).collect();
    for at in 0..found.len() {
        let is_between = |low: &usize| all[at].iter().any(|middle| all[*middle].contains(low));
        let names: Vec<&str> = all[at]
            .iter()
            .filter(|low| !is_between(low))
            .map(|low| found[*low].name)
            .collect();
        found[at].relies_on = names;
    }
    found
}

/// Which other families the crates of a family rely on.
fn below(all: &[Family], family: &Family) -> Vec<usize> {
    let has = |other: &Family| {
        let mut names = other.crates.iter().map(|c| &c.name);
        names.any(|name| family.crates.iter().any(|c| c.relies_on.contains(name)))
    };
    (0..all.len())
        .filter(|at| all[*at].name != family.name && has(&all[*at]))
        .collect()
}

fn draw(tree: &Tree) -> String {
    let families = families(&tree.crates);
    let most = tree
        .crates
        .iter()
        .map(|c| sizes(tree, &c.name).iter().sum::<usize>())
        .max()
        .unwrap_or(1);
    let mut inside = String::new();
    let mut top = APART;
    for family in families.iter().rev() {
        let rows = (family.crates.len() + BESIDE - 1) / BESIDE;
        inside.push_str(&svg::text(APART, top + 18.0, "name start", family.name));
        let words = match family.relies_on.is_empty() {
            true => String::new(),
            false => format!("on {}", family.relies_on.join(", ")),
        };
        inside.push_str(&svg::text(APART, top + 33.0, "small start", &words));
        for (at, one) in family.crates.iter().enumerate() {
            let x = TITLE + (at % BESIDE) as f64 * (WIDE + APART);
            let y = top + (at / BESIDE) as f64 * (HIGH + APART);
            inside.push_str(&svg::link(
                &crate_anchor(&one.name),
                &drawn(x, y, &one.name, sizes(tree, &one.name), most),
            ));
        }
        top += rows as f64 * (HIGH + APART) + APART;
    }
    svg::picture(
        TITLE + BESIDE as f64 * (WIDE + APART),
        top,
        "The families of crates, each above those that it relies on",
        &inside,
    )
}

fn drawn(x: f64, y: f64, name: &str, sizes: [usize; 3], most: usize) -> String {
    let words = sizes.map(number).join(" · ");
    let mut drawn = svg::rect(x, y, WIDE, HIGH, "box")
        + &svg::text(x + WIDE / 2.0, y + 18.0, "name", name)
        + &svg::text(x + WIDE / 2.0, y + 33.0, "small", &words);
    let mut left = x + 6.0;
    for (size, class) in sizes.iter().zip(["definition", "code", "proof"]) {
        let width = (WIDE - 12.0) * *size as f64 / most as f64;
        drawn.push_str(&svg::rect(left, y + HIGH - 11.0, width, 6.0, class));
        left += width;
    }
    drawn
}

#[cfg(test)]
mod tests {
    use super::*;
    use crate::tree::crates;

    const LISTED: &str = "## low\n# the lowest\na:\n## middle\n# one above it\nb: a\n# one above both\nb_more: b a\n## top\n# the top\nc: b_more b a io\n";

    #[test]
    fn a_family_has_its_crates_and_relies_on_those_with_none_between() {
        let listed = crates(LISTED);
        let families = families(&listed);
        let names: Vec<&str> = families.iter().map(|family| family.name).collect();
        assert_eq!(names, ["low", "middle", "top"]);
        let middle: Vec<&str> = families[1].crates.iter().map(|c| c.name.as_str()).collect();
        assert_eq!(middle, ["b", "b_more"]);
        let relies_on: Vec<&[&str]> = families.iter().map(|f| f.relies_on.as_slice()).collect();
        assert_eq!(relies_on, [&[][..], &["low"], &["middle"]]);
    }
}
