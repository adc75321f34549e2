//! A second implementation of document 01 (the counter box), written from its words and from READINGS.md alone.
//! Plain on purpose: routes by explicit search, rules one by one, the machine on arrays, the history from the calls.

pub mod damage;
pub mod generate;
pub mod history;
pub mod judge;
pub mod machine;
pub mod near;
pub mod plan;
pub mod read;
pub mod replay;
pub mod rng;
pub mod routes;
pub mod states;
#[cfg(test)]
mod tests;
