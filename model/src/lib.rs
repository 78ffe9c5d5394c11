//! An independent model of document 01: recipes, verdicts, images and steps, straight from the
//! document and from the figures of the paper on the concurrent lambda calculus with futures.
//! It is written to be read and to be compared with the proved library, not to be fast.

#![deny(unsafe_op_in_unsafe_fn)]

pub mod across;
pub mod answers;
pub mod by_hand;
pub mod causes;
pub mod command;
pub mod comparison;
pub mod config;
pub mod context;
pub mod curves;
pub mod draw;
pub mod editions;
pub mod examples;
pub mod expression;
#[cfg(feature = "library")]
pub mod ffi;
pub mod format;
pub mod generate;
pub mod guard;
pub mod houses;
pub mod image;
pub mod kinds;
pub mod limits;
pub mod load;
pub mod nodes;
pub mod plain;
pub mod profile;
pub mod reduce;
pub mod rows;
pub mod rules;
pub mod run;
pub mod runner;
pub mod step;
pub mod subjects;
pub mod table;
pub mod tags;
pub mod test_load;
pub mod timing;
pub mod tool;
pub mod types;
pub mod typing;
pub mod verdict;
pub mod weights;
