//! The program `campaign` as a careful engineer would write it in Rust for speed: sets of controllers are masks, tables are
//! arrays, nothing is allocated per act. It has the layout of the proved program and is there to be measured against it.

mod bench;
mod carriage;
mod report;
mod text;

pub use report::report;
