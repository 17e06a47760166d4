//! The rules of a walk, of the listing and of what a host does to its caches beside, in plain Rust, written from document 01 and the sources that it names, not from the proved definitions.
//! Text is a list of UTF-16 units, a cache is a list of places, a step is a function.
pub mod caches;
pub mod listing;
pub mod look_up;
pub mod names;
pub mod replies;
pub mod storing;
pub mod upkeep;
pub mod walk;
