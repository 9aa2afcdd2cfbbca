#![doc = include_str!("../README.md")]
#![cfg_attr(not(test), no_std)]
#![deny(missing_docs, unsafe_code)]

pub mod calls;
#[allow(unsafe_code)]
mod ffi;
mod heap;
mod pointers;
mod refusal;
mod tables;

pub use heap::Heap;
pub use refusal::Refusal;
pub use tables::{lists_length, live_length, regions_length};
