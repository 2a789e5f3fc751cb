//! A second screen and a second plain glass, written once more from the texts of docs/, to be run beside the proved machine and compared with it.
#![deny(unsafe_code)]

pub mod cell;
pub mod check;
mod control;
pub mod day;
pub mod faults;
pub mod garbage;
pub mod glass;
pub mod guarded;
pub mod host;
pub mod known;
pub mod layout;
pub mod machine;
pub mod make_bytes;
pub mod make_day;
pub mod options;
pub mod painter;
pub mod parser;
pub mod picture;
pub mod plain;
#[cfg(feature = "proved")]
pub mod proved;
pub mod random;
pub mod run;
pub mod screen;
pub mod shrink;
