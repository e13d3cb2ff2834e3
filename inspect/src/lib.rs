//! The inspector's page: every sentence of document 01 with its definition, contract and wrong builds; and the check of its map.
#![forbid(unsafe_code)]

pub mod antt;
pub mod believed;
pub mod check;
pub mod edit;
pub mod graph;
pub mod map;
pub mod page;
mod pictures;
pub mod rattle;
pub mod run;
pub mod scope;
pub mod source;
pub mod tree;
pub mod words;
pub mod wrong;
pub mod xml;
