//! The header has the layout's figures.

use slavotuk::layout::{image, listing, state};
use slavotuk::{Credential, Port, Session, NAME_LENGTH, PLACES};
use std::fs;
use std::path::Path;

const SAME: [(&str, usize); 12] = [
    ("PORTS", Port::COUNT),
    ("SESSIONS", Session::PER_PORT),
    ("CREDENTIALS", Credential::COUNT),
    ("PROCESSES", PLACES),
    ("STATE_SIZE", state::LENGTH),
    ("NAME_SIZE", NAME_LENGTH),
    ("REQUEST_SIZE", listing::REQUEST_LENGTH),
    ("HEADER_SIZE", listing::ROWS_AT),
    ("ROW_SIZE", listing::ROW_LENGTH),
    ("IMAGE_HEADER_SIZE", image::ROWS_AT),
    ("IMAGE_OLD_HEADER_SIZE", image::OLD_ROWS_AT),
    ("IMAGE_ROW_SIZE", image::ROW_LENGTH),
];

#[test]
fn the_header_has_the_figures() {
    let file = Path::new(env!("CARGO_MANIFEST_DIR")).join("../include/slavotuk.h");
    let header = fs::read_to_string(file).expect("the header is there");
    for (name, figure) in SAME {
        let line = format!("\n#define SLAVOTUK_{name} {figure}\n");
        assert!(header.contains(&line), "{line}");
    }
}
