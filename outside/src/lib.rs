//! What the test programs share: the proved library's calls, what they are told and what they met, numbers by a seed, and document 01 in Rust.
pub mod call;
pub mod met;
pub mod options;
pub mod random;
pub mod rules;
