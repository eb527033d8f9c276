//! A reference ledger for the technical accounts and limits of a bank group.
//!
//! It plays frames, one a line, and answers each with a number. It is written
//! for reading: each rule stands in one place, in the words of the paper.

pub mod account;
pub mod answer;
pub mod book;
pub mod command;
pub mod examples;
pub mod frame;
pub mod generate;
pub mod ledger;
pub mod letters;
pub mod lone_letter;
pub mod message;
pub mod one_group;
pub mod report;
pub mod stream;
pub mod tally;
pub mod write;

pub use ledger::Ledger;
