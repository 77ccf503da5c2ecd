//! The command `owl`, run: a module for each subject.

#[path = "../common/mod.rs"]
mod common;

mod back;
mod check;
mod closed;
mod convert;
mod explain;
mod folders;
mod full_disk;
mod help;
mod names;
mod outputs;
mod parts;
mod progress;
mod property;
mod refusals;
mod show;
mod standard_output;
mod status;
mod summary;
mod usage;
mod write;
