//! The first page: what is proved, what is assumed, how much has to be believed, and what the last gate run proved.

use crate::believed::{Figure, Part};
use crate::check;
use crate::page::html::{anchor, crate_anchor, escaped, link, number, several};
use crate::page::{prose, sentences, Book};
use crate::run::Run;
use crate::source::Kind;
use crate::tree::Folder;

pub fn page(book: &Book) -> String {
    let origin = format!(
        "<p class=\"origin\">Made from the sources of {}, {}. Every text of a definition, a contract, a statement or a wrong build on this page is taken \
         from the sources by its name.</p>\n",
        escaped(&book.origin.commit),
        escaped(&book.origin.date)
    );
    let title = "<h1 id=\"top\">Slavotuk: the inspector's page</h1>\n".to_string();
    [
        title,
        origin,
        proved(book),
        run(book),
        believed(book),
        asking(book),
        sentences::front(book),
    ]
    .concat()
}

/// README's first section.
fn proved(book: &Book) -> String {
    let after_title = book.origin.readme.children.iter().skip(1);
    let section = after_title.take_while(|node| node.name != "heading");
    let text: String = section
        .map(|node| prose::block(&book.names, node))
        .collect();
    format!(
        "<h2 id=\"proved\">What is proved</h2>\n{text}{}{}",
        counts(book),
        map(book)
    )
}

fn counts(book: &Book) -> String {
    let tree = book.tree;
    let definitions = tree
        .declarations()
        .filter(|id| tree.file(*id).folder == Folder::Specs)
        .count();
    format!(
        "<p>This page has {} with {}, {} whose contracts cite them, and {}.</p>\n",
        several(book.map.rows().count(), "sentence", "sentences"),
        several(definitions, "definition", "definitions"),
        several(
            tree.public_functions().count(),
            "public function",
            "public functions"
        ),
        several(tree.edits.len(), "wrong build", "wrong builds")
    )
}

/// What the check of the map found.
fn map(book: &Book) -> String {
    let looked_at: usize = book
        .origin
        .verdicts
        .iter()
        .map(|verdict| verdict.looked_at)
        .sum();
    let wrong: Vec<&String> = book
        .origin
        .verdicts
        .iter()
        .flat_map(|verdict| &verdict.wrong)
        .collect();
    let found: String = wrong
        .iter()
        .map(|line| format!("<li>{}</li>", escaped(line)))
        .collect();
    match wrong.len() {
        0 => format!("<p>{} names and rules of the map were looked up in the sources: all are as it says.</p>\n", number(looked_at)),
        n => format!("<p class=\"absent\"><strong>The map is wrong in {}:</strong></p>\n<ul>{found}</ul>\n", several(n, "place", "places")),
    }
}

/// The functions that ask something of their callers, which these prove: private ones, since the check asks that no public one does.
fn asking(book: &Book) -> String {
    let mut rows = String::new();
    for of in &book.tree.crates {
        let own = book
            .tree
            .declarations()
            .filter(|id| book.tree.file(*id).crate_name == of.name && check::asks(book.tree, *id));
        let names: Vec<String> = own
            .map(|id| link(&anchor(book.tree, id), &book.tree.declaration(id).name))
            .collect();
        if !names.is_empty() {
            rows.push_str(&format!(
                "<tr><td>{}</td><td>{}</td></tr>\n",
                link(&crate_anchor(&of.name), &of.name),
                names.join(", ")
            ));
        }
    }
    format!(
        "<h2 id=\"asking\">Private functions that ask something</h2>\n<p>No public function has a <code>requires</code>. These private ones do, and each caller is \
         proved to give what they ask.</p>\n<details><summary>Crate by crate</summary><div class=\"wide\"><table><tr><th>crate</th><th>functions</th></tr>\n{rows}\
         </table></div></details>\n"
    )
}

fn believed(book: &Book) -> String {
    let figures: String = Figure::ALL
        .iter()
        .map(|figure| {
            format!(
                "<p><strong>{} lines</strong> for {}.</p>\n<details><summary>Crate by crate</summary>{}</details>\n",
                number(book.believed.all_lines(book.tree, *figure)),
                figure.title(),
                believed_table(book, *figure)
            )
        })
        .collect();
    format!(
        "<h2 id=\"believed\">How much has to be believed</h2>\n<p>The lines that have a bar at their left in <a href=\"#library\">the listing below</a>, counted \
         without comments and imports: what the rows cite, and all that that cites. Proofs are checked, and need not be read.</p>\n{figures}"
    )
}

/// The lines to be believed, crate by crate.
fn believed_table(book: &Book, figure: Figure) -> String {
    let mut rows = String::new();
    let mut all = [0; 3];
    for of in &book.tree.crates {
        let lines = book.believed.lines(book.tree, figure, &of.name);
        if lines.iter().sum::<usize>() > 0 {
            rows.push_str(&believed_row(
                &link(&crate_anchor(&of.name), &of.name),
                lines,
            ));
        }
        (0..3).for_each(|part| all[part] += lines[part]);
    }
    let titles: String = Part::ALL
        .iter()
        .map(|part| format!("<th>{}</th>", part.title()))
        .collect();
    format!("<div class=\"wide\"><table class=\"numbers\"><tr><th>crate</th>{titles}<th>lines</th></tr>\n{rows}{}</table></div>\n", believed_row("all", all))
}

fn believed_row(name: &str, lines: [usize; 3]) -> String {
    let cells: String = lines
        .iter()
        .chain([&lines.iter().sum()])
        .map(|n| format!("<td>{}</td>", number(*n)))
        .collect();
    format!("<tr><td>{name}</td>{cells}</tr>\n")
}

fn run(book: &Book) -> String {
    let text = match &book.run {
        None => "<p class=\"absent\">No gate run is at hand: <code>make test</code> makes one, and then this page tells what it proved.</p>\n".to_string(),
        Some(run) => told(book, run),
    };
    format!("<h2 id=\"run\">What the last gate run proved</h2>\n{text}")
}

fn told(book: &Book, run: &Run) -> String {
    let functions: usize = run.crates.iter().map(|name| functions_of(book, name)).sum();
    let other = match run.commit == book.origin.commit {
        true => String::new(),
        false => format!(
            " <strong>This page is made from {}.</strong>",
            escaped(&book.origin.commit)
        ),
    };
    let places: String = run
        .crates
        .iter()
        .map(|name| run_row(run, name, functions_of(book, name)))
        .collect();
    format!(
        "<p>{}, commit {}, kit {}.{other} It proved {} with {}, and refused {}. {}</p>\n\
         <details><summary>Crate by crate</summary><div class=\"wide\"><table class=\"numbers\"><tr><th>crate</th><th>functions proved</th><th>wrong \
         builds refused</th></tr>\n{places}</table></div></details>\n<p>{} Where each wrong build was refused stands with it.</p>\n",
        escaped(&run.date),
        escaped(&run.commit),
        escaped(&run.kit),
        several(run.crates.len(), "crate", "crates"),
        several(functions, "function", "functions"),
        several(run.refusals.len(), "wrong build", "wrong builds"),
        ended(run),
        axioms(book, run)
    )
}

fn ended(run: &Run) -> String {
    match run.end.starts_with("ok") {
        true => format!("It ended: {}.", escaped(&run.end)),
        false => {
            let what = run.end.trim_start_matches("FAILED: ");
            format!("<strong>It failed: {}.</strong>", escaped(what))
        }
    }
}

fn functions_of(book: &Book, crate_name: &str) -> usize {
    let declarations = book.tree.declarations();
    let functions = declarations.filter(|id| {
        book.tree.file(*id).crate_name == crate_name
            && book.tree.declaration(*id).kind == Kind::Function
    });
    functions.count()
}

fn run_row(run: &Run, name: &str, functions: usize) -> String {
    let refused = run
        .refusals
        .keys()
        .filter(|(crate_name, _)| crate_name == name)
        .count();
    format!("<tr><td>{name}</td><td>{functions}</td><td>{refused}</td></tr>\n")
}

/// A library proves what it says and assumes nothing; a program, as tests are one, rests on the C library that it writes with.
fn axioms(book: &Book, run: &Run) -> String {
    let is_library = |name: &str| {
        let mut files = book.tree.files.iter();
        files.any(|file| file.crate_name == name && file.stem == "lib")
    };
    let assuming = run.assuming.iter().map(String::as_str);
    let with: Vec<&str> = assuming.filter(|name| is_library(name)).collect();
    match with.as_slice() {
        [] => "No library reports an axiom.".to_string(),
        names => format!(
            "<strong>These libraries report an axiom: {}.</strong>",
            names.join(", ")
        ),
    }
}
