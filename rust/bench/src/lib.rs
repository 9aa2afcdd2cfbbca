//! How long a call of the heap takes, beside the same algorithm without checks and beside malloc. The binary `bench` measures;
//! the crate `yardstick` does the same with rlsf, which comes from the registry.

pub mod arenas;
pub mod beside;
pub mod candidate;
pub mod command;
pub mod instructions;
pub mod lent;
pub mod library;
pub mod malloc;
pub mod measure;
pub mod picture;
pub mod record;
pub mod table;
pub mod ticks;
pub mod twin;
