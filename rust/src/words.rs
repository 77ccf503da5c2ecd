//! The words of `words.txt`, in which a refusal is told: a function for each of its lines, by its name, that takes what is filled in.

include!(concat!(env!("OUT_DIR"), "/words.rs"));
