//! The library against an independent implementation.

pub mod before;
pub mod boundary;
pub mod compare;
pub mod cpu_time;
pub mod expert;
pub mod inputs;
pub mod library;
pub mod measured;
pub mod night;
mod served;
pub mod week;
