//! Described calls: made up, run by the Rust, made smaller, told and counted.

pub mod answers;
pub mod build;
pub mod case;
pub mod chip;
pub mod expected;
pub mod generate;
pub mod known;
pub mod outside;
pub mod pieces;
pub mod run;
pub mod sample;
pub mod shrink;
pub mod tally;
