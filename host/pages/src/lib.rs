//! Holds the reading list and the trace of the rules against the crates.

pub mod check;
pub mod edits;
pub mod graph;
pub mod import;
pub mod item;
pub mod layout;
pub mod mention;
pub mod page;
pub mod reach;
pub mod reading;
pub mod report;
pub mod rows;
pub mod rules;
pub mod scope;
pub mod source;
pub mod sum;
pub mod table;
pub mod token;
pub mod trace;
pub mod tree;
