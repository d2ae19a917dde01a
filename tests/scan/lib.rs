//! The tree of crates read as text: what each file of specs/, proofs/ and src/ imports and defines, and which
//! definitions each of its definitions names. Nothing is proved or typed here; a word means what the imports, the
//! definitions of its file and the binders around it make of it.
pub mod antt;
pub mod rattle;
pub mod scopes;
pub mod tree;
pub mod words;

pub use tree::{Target, Tree};

#[cfg(test)]
mod tests;
