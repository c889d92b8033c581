//! What the proved axis is measured against, and the words in which both are fed.

pub mod baseline;
pub mod lines;
pub mod rows;
pub mod words;
