//! The rules of document 01 in plain Rust, written for speed: on the same lent memory, each unit looked at once where that is enough, no allocation and
//! no list of pieces. What the proved functions are timed against.
pub mod caches;
pub mod names;
pub mod replies;
pub mod start;
