//! What the tests share. The rules here are written from document 01, and from nothing of the crates under test.

pub mod bench;
pub mod cases;
pub mod histories;
pub mod host;
pub mod met;
pub mod program;
pub mod random;
pub mod scenario;
pub mod spaces;
pub mod words;
