//! A second reading of the rules, written from their text alone, and what tests other programs with it.
pub mod places;
pub mod questions;
pub mod random;
pub mod records;
pub mod replay;
pub mod rules;
pub mod script;
pub mod scripts;
pub mod text;
pub mod wrong;
