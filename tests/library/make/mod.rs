//! What the trials try: rulesets, exceptions lists, names, and memory of every kind of soundness.

pub mod classes;
pub mod files;
pub mod images;
pub mod lists;
pub mod names;
pub mod rules;
pub mod sheets;
pub mod tables;
