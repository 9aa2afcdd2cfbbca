//! The heap as plain data: what `docs/HEAP.md` says, in safe Rust, with no arena and no clever index.
//!
//! It was written from an account of what rlsf does and from the table of refusals in `docs/DECISIONS.md`, and not from the
//! heap's own code, so that a mistake in one of the two shows as a difference. Blocks stand in one vector in order of
//! address, and each free list is a vector of offsets. All numbers are bytes.
//!
//! Refusal 5, damage, is never answered: a model has no words that could contradict each other.

mod blocks;
mod heap;
mod refusal;
pub mod size;

pub use blocks::{Block, State};
pub use heap::{lists_length, live_length, Heap, Lent, Region};
pub use refusal::Refusal;
