//! Seeded inputs: good ones, damaged ones, and ones meant to mislead.

pub mod clients;
pub mod damage;
pub mod examples;
pub mod policies;
pub mod relabel;
pub mod scripts;
pub mod sets;
pub mod tables;
pub mod trees;
