//! What each call of the proved core must answer, from the documents alone, and questions about it.
//! README.md has the format.

pub mod ask;
mod bench;
mod calls;
mod examples;
mod hex;
pub mod holds;
pub mod questions;
mod random;
mod rules;
pub mod scripts;
mod words;
