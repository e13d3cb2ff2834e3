//! The header and the module's sources have the signatures of the table, `slavotuk::SIGNATURES`: every entry, and its parameters by name, order and type. Nothing else
//! sees to that: the linker looks at names alone.

use slavotuk::SIGNATURES;
use std::collections::BTreeMap;
use std::fs;
use std::path::{Path, PathBuf};

/// The parameters of each entry as the header has them, `const u8 *name` and `usize name_length` for a slice, with Rust's words for the numbers.
type Declarations = BTreeMap<String, Vec<String>>;

/// The sources have another word for a length, and C++ knows no parameter named class.
const LENGTH_IN_SOURCES: (&str, &str) = ("long", "length");
const CLASS_IN_HEADER: (&str, &str) = ("device_class", "class");

fn renamed(name: &str, (from, to): (&str, &str)) -> String {
    if name == from { to } else { name }.to_string()
}

/// A parameter in Rust's words, blanks aside, as the header has it.
fn in_c(parameter: &str) -> Vec<String> {
    let plain: String = parameter.split_whitespace().collect();
    let (name, kind) = plain.split_once(':').expect("a parameter has a type");
    let name = renamed(name, LENGTH_IN_SOURCES);
    let slice = |number: &str| number.strip_suffix(']').expect("a slice ends").to_string();
    if kind == "RawClaim" {
        return ["u32 kind", "u32 credential", "u16 number", "u32 verdict"]
            .map(String::from)
            .to_vec();
    }
    if let Some(number) = kind.strip_prefix("&mut[") {
        let number = slice(number);
        return vec![format!("{number} *{name}"), format!("usize {name}_length")];
    }
    if let Some(number) = kind.strip_prefix("&[") {
        let number = slice(number);
        return vec![
            format!("const {number} *{name}"),
            format!("usize {name}_length"),
        ];
    }
    match kind.strip_prefix("&mut") {
        Some(number) => vec![format!("{number} *{name}")],
        None => vec![format!("{kind} {name}")],
    }
}

fn of_table() -> Declarations {
    let signatures = SIGNATURES.into_iter().flatten();
    signatures
        .map(|entry| {
            let parameters = entry.parameters.iter();
            let parameters = parameters.flat_map(|parameter| in_c(parameter));
            (entry.symbol.to_string(), parameters.collect())
        })
        .collect()
}

/// What stands behind each `begin` of a text, up to the next `end`: a name, and the parameters between its parentheses.
fn declared<'a>(text: &'a str, begin: &'a str, end: &'a str) -> Vec<(String, Vec<&'a str>)> {
    let declared = text.split(begin).skip(1);
    declared
        .map(|rest| {
            let (declared, _) = rest.split_once(end).expect("a declaration ends");
            let (name, parameters) = declared.split_once('(').expect("a function has parameters");
            let parameters = parameters.split(',').map(str::trim);
            let parameters = parameters.filter(|parameter| !["", "void"].contains(parameter));
            (format!("slavotuk_{name}"), parameters.collect())
        })
        .collect()
}

fn of_header(text: &str) -> Declarations {
    let parts = text.split("/*");
    let code: String = parts
        .map(|part| part.split_once("*/").map_or(part, |(_, code)| code))
        .collect();
    let in_rust = |word: &str| match word {
        "uint8_t" => "u8".to_string(),
        "uint16_t" => "u16".to_string(),
        "uint32_t" => "u32".to_string(),
        "uint64_t" => "u64".to_string(),
        "size_t" => "usize".to_string(),
        other => renamed(other, CLASS_IN_HEADER),
    };
    let parameter = |text: &str| {
        let text = text.replace("SLAVOTUK_RESTRICT ", "");
        text.split(' ').map(in_rust).collect::<Vec<_>>().join(" ")
    };
    let declared = declared(&code, "\nuint32_t slavotuk_", ");");
    declared
        .into_iter()
        .map(|(name, parameters)| (name, parameters.into_iter().map(parameter).collect()))
        .collect()
}

fn of_sources(text: &str) -> Declarations {
    let declared = declared(text, "pub extern \"C\" fn slavotuk_", ") -> u32\n");
    declared
        .into_iter()
        .map(|(name, parameters)| (name, parameters.into_iter().flat_map(in_c).collect()))
        .collect()
}

/// The entries whose declarations are not the table's.
fn others_than_in_table(found: &Declarations) -> Vec<String> {
    let table = of_table();
    let mut entries: Vec<_> = table.keys().chain(found.keys()).collect();
    entries.sort();
    entries.dedup();
    let differs = |entry: &&&String| table.get(**entry) != found.get(**entry);
    let told = |entry: &String| {
        let (table, found) = (table.get(entry), found.get(entry));
        format!("{entry}: the table has {table:?}, and here it is {found:?}")
    };
    entries
        .iter()
        .filter(differs)
        .map(|entry| told(entry))
        .collect()
}

fn root() -> PathBuf {
    Path::new(env!("CARGO_MANIFEST_DIR")).join("..")
}

fn header() -> String {
    fs::read_to_string(root().join("include/slavotuk.h")).expect("the header is there")
}

/// The source of the crate that exports the entries.
fn sources() -> String {
    fs::read_to_string(root().join("crates/entries_c/src/lib.rt")).expect("the exports are there")
}

const NOTHING: [&str; 0] = [];

#[test]
fn the_header_has_the_tables_signatures() {
    assert_eq!(others_than_in_table(&of_header(&header())), NOTHING);
}

#[test]
fn the_sources_have_the_tables_signatures() {
    assert_eq!(others_than_in_table(&of_sources(&sources())), NOTHING);
}

/// Asks that each of these changes to a text is told, of the entry alone that it changes.
fn all_are_told(text: &str, read: fn(&str) -> Declarations, changes: &[[&str; 3]]) {
    for [entry, from, to] in changes {
        assert!(text.contains(from), "{from}");
        let told = others_than_in_table(&read(&text.replacen(from, to, 1)));
        assert_eq!(told.len(), 1, "{from} as {to}: {told:?}");
        assert!(told[0].starts_with(&format!("{entry}: ")), "{told:?}");
    }
}

#[test]
fn a_changed_parameter_of_the_header_is_told() {
    let open =
        "slavotuk_open(uint8_t *state, size_t state_length, uint32_t port, uint32_t session)";
    let read_count = "slavotuk_read_count(const uint8_t *message, size_t message_length, uint16_t *SLAVOTUK_RESTRICT count)";
    let changes = [
        [
            "slavotuk_open",
            open,
            &open.replace("uint32_t port", "uint32_t network, uint32_t port"),
        ],
        ["slavotuk_open", open, &open.replace("uint32_t port, ", "")],
        [
            "slavotuk_open",
            open,
            &open.replace("port, uint32_t session", "session, uint32_t port"),
        ],
        ["slavotuk_open", open, &open.replace("session", "handle")],
        [
            "slavotuk_open",
            open,
            &open.replace("uint32_t session", "uint16_t session"),
        ],
        [
            "slavotuk_open",
            open,
            &open.replace("uint8_t *state", "const uint8_t *state"),
        ],
        [
            "slavotuk_open",
            open,
            &open.replace(
                "size_t state_length, uint32_t port",
                "uint32_t port, size_t state_length",
            ),
        ],
        ["slavotuk_open", &format!("uint32_t {open};\n"), ""],
        [
            "slavotuk_read_count",
            read_count,
            &read_count.replace("*SLAVOTUK_RESTRICT ", ""),
        ],
        [
            "slavotuk_record",
            "uint32_t device_class",
            "uint32_t wanted",
        ],
        [
            "slavotuk_end",
            "uint32_t verdict, uint32_t keep",
            "uint32_t keep, uint32_t verdict",
        ],
        [
            "slavotuk_set_word",
            "uint32_t word, uint32_t second",
            "uint32_t second, uint32_t word",
        ],
        [
            "slavotuk_set_word",
            "uint32_t word, uint32_t second",
            "uint32_t word",
        ],
        [
            "slavotuk_fresh",
            "const uint32_t *seconds",
            "const uint8_t *seconds",
        ],
        // three numbers of one type, one behind the other
        [
            "slavotuk_rescue",
            "uint16_t *SLAVOTUK_RESTRICT kept, uint16_t *SLAVOTUK_RESTRICT dropped",
            "uint16_t *SLAVOTUK_RESTRICT dropped, uint16_t *SLAVOTUK_RESTRICT kept",
        ],
        [
            "slavotuk_other",
            "\nuint32_t slavotuk_open",
            "\nuint32_t slavotuk_other(void);\nuint32_t slavotuk_open",
        ],
    ];
    all_are_told(&header(), of_header, &changes);
}

#[test]
fn a_changed_parameter_of_the_sources_is_told() {
    let open = "slavotuk_open(state: &mut [u8], port: u32, session: u32) -> u32";
    let record = "slavotuk_record(\n    state: &mut [u8],\n    port: u32,\n    session: u32,\n";
    let set_word = "    target: u32,\n    word: u32,\n    second: u32,\n";
    let changes = [
        [
            "slavotuk_open",
            open,
            &open.replace("port: u32", "network: u32, port: u32"),
        ],
        ["slavotuk_open", open, &open.replace("port: u32, ", "")],
        ["slavotuk_open", open, &open.replace("session", "handle")],
        [
            "slavotuk_open",
            open,
            &open.replace("session: u32", "session: u16"),
        ],
        ["slavotuk_open", open, &open.replace("&mut [u8]", "&[u8]")],
        [
            "slavotuk_open",
            open,
            &open.replace("state: &mut [u8], port: u32", "port: u32, state: &mut [u8]"),
        ],
        [
            "slavotuk_record",
            record,
            &record.replace(
                "port: u32,\n    session: u32",
                "session: u32,\n    port: u32",
            ),
        ],
        [
            "slavotuk_read_count",
            "message: &[u8], count: &mut u16",
            "message: &[u8], count: u16",
        ],
        [
            "slavotuk_set_word",
            set_word,
            "    target: u32,\n    second: u32,\n    word: u32,\n",
        ],
        [
            "slavotuk_set_word",
            set_word,
            "    target: u32,\n    word: u32,\n",
        ],
        [
            "slavotuk_open",
            "pub extern \"C\" fn slavotuk_open",
            "fn slavotuk_open",
        ],
    ];
    all_are_told(&sources(), of_sources, &changes);
}
