//! A second version of the program `campaign`, written from the documents alone, with sets and maps and
//! the rules as they are worded there; a generator of campaigns; and what a comparison needs.

pub mod bench;
pub mod carriage;
pub mod fault;
pub mod generator;
pub mod group;
pub mod report;
pub mod statistics;
pub mod text;
pub mod value;

pub use report::campaign;
