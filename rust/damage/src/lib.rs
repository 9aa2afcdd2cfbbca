//! Damage: sound heaps of many shapes are overwritten in some words, and then every call is made on them, with good and with
//! bad arguments. Whatever was overwritten, a call must stay inside its slices, a refusal must change nothing, and the
//! answer must be one that this call may give.
//!
//! - [`slices`]: the lent slices, with red zones around them, or each in an allocation of its own;
//! - [`words`]: what stands in the arena, read and written from outside;
//! - [`calls`]: a call with its arguments, and the refusals that are due whatever the headers say;
//! - [`check`]: one call, made and checked;
//! - [`shape`]: sound heaps;
//! - [`strike`]: what is overwritten, and by what;
//! - [`forge`]: damage that looks sound;
//! - [`round`]: one heap, one damage, all calls; and what they are counted as;
//! - [`show`]: the counts as tables;
//! - [`watch`]: rounds in a process of their own, so that it is told which of them did not end well.
#![forbid(unsafe_code)]

pub mod calls;
pub mod check;
pub mod forge;
pub mod random;
pub mod round;
pub mod shape;
pub mod show;
pub mod slices;
pub mod strike;
pub mod watch;
pub mod words;
