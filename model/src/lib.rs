//! The module of documents 01 and 02 written a second time, in ordinary Rust and from the documents alone. Nothing here is taken from the proved module, so
//! that an error of one is not an error of both. The tests run the compiled archive beside it.
//!
//! [`module`] has what the module holds and the calls, in the order of the document's sentences; [`messages`] the listing messages; [`layout`] the state's
//! 717 bytes; [`image`] what comes through a power cycle; [`rescue`] what is left of a damaged image, with [`rescue_examples`]; [`figures`] what is printed of a
//! drawer of images; [`entries`] the entries as a host calls them; [`port_steps`] steps on two ports. [`wire`] has all messages of 004 clause 9.2, read by
//! [`wire_read`], written by [`wire_write`], with their entries in [`wire_entries`] and examples in [`wire_examples`].
#![forbid(unsafe_code)]
#![warn(missing_docs)]

pub mod entries;
pub mod figures;
pub mod image;
pub mod layout;
pub mod messages;
pub mod module;
pub mod port_steps;
pub mod rescue;
pub mod rescue_examples;
pub mod wire;
pub mod wire_entries;
pub mod wire_examples;
pub mod wire_read;
pub mod wire_write;

mod number;

pub use module::Module;
pub use number::Number;

#[cfg(test)]
mod rescue_tests;
#[cfg(test)]
mod steps;
#[cfg(test)]
mod wire_tests;
