//! Runs of heap calls: those of the rule with which rlsf's answers were recorded, and wilder ones.
//!
//! The binary `digest` makes the calls of `data/answers/RULE.md` and prints their digests; `compare` makes wild calls on the
//! compiled heap and on the model, and compares.

pub mod calls;
pub mod compare;
pub mod compiled;
pub mod digest;
pub mod random;
pub mod rule;
pub mod slices;
