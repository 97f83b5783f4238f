//! Tests of the gate from outside: a checker and a runner written from documents 01 and 02 and their readings, a generator of models,
//! and the comparison of the proved library with them.

pub mod aimed;
mod attributes;
pub mod buckets;
pub mod checker;
pub mod compare;
#[cfg(test)]
mod examples;
mod functions;
#[cfg(feature = "library")]
pub mod gate;
pub mod header;
pub mod lending;
pub mod lent;
pub mod library;
pub mod models;
pub mod odd;
pub mod oplist;
pub mod parts;
pub mod rng;
pub mod rows;
pub mod runner;
pub mod schema;
pub mod spellings;
pub mod sweeps;
pub mod utf8;
pub mod verdict;
pub mod wire;
