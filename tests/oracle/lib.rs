//! The oracle: a second implementation of document 01, and of requests 01 to 08 of document 02, in plain Rust, written
//! from the documents and the appendix of Gallager, Humblet and Spira alone. The tests compare the compiled Rattle code
//! with it. Nothing here is proved and nothing here is fast: it is meant to be read beside the documents.
//!
//! Standard terms: a module is a node, a link an edge, a plan a weighted graph in a file format, a field the state of
//! the network, the waiting words its channels and queues.

pub mod compare;
pub mod cue;
pub mod field;
pub mod fields;
pub mod frame;
pub mod kruskal;
pub mod path;
pub mod plan;
pub mod plans;
pub mod points;
pub mod preview;
pub mod report;
pub mod rest;
pub mod rng;
pub mod rounds;
pub mod rules;
pub mod schedule;
pub mod trace;
pub mod waking;

#[cfg(test)]
mod tests;
#[cfg(test)]
mod tests_blank;
#[cfg(test)]
mod tests_cue;
#[cfg(test)]
mod tests_parts;
#[cfg(test)]
mod tests_path;
#[cfg(test)]
mod tests_points;
#[cfg(test)]
mod tests_preview;
#[cfg(test)]
mod tests_waking;
