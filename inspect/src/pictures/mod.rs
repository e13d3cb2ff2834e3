//! Pictures, drawn from the sources: the layers, the state's bytes, and the bytes that definitions spell out.

mod bytes;
mod expression;
mod layers;
mod layout;
mod strip;
mod svg;

use crate::page::Book;

pub fn section(book: &Book) -> String {
    format!(
        "<h2 id=\"pictures\">Pictures</h2>\n<h3 id=\"layers\">The layers</h3>\n{}<h3 id=\"state-bytes\">The state's bytes</h3>\n{}\
         <h3 id=\"message-bytes\">Messages and rows, as their definitions spell them</h3>\n{}",
        layers::section(book),
        layout::section(book),
        bytes::section(book)
    )
}
