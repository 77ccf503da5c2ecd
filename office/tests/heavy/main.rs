//! The command `owl` under load, apart from the other tests, so that these do not share the processor with them.

// The other tests use all of it.
#[allow(dead_code)]
#[path = "../common/mod.rs"]
mod common;

mod at_once;
mod killed;
mod large;
mod many;
