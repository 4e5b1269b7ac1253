//! Second implementation of the network presolver, written from document 01 and from requests 2026-01 and 2026-02 alone.
//! It exists to be compared with the verified one.

pub mod bench_networks;
pub mod calls;
pub mod compare;
pub mod constants;
pub mod draw;
pub mod exact;
pub mod fraction;
pub mod network;
pub mod optimality;
pub mod pairs;
pub mod parallel_cases;
pub mod programs;
pub mod reduce;
pub mod restore;
pub mod rules;
pub mod sample_texts;
pub mod samples;
pub mod scenes;
pub mod solve;
pub mod step_pairs;
pub mod text;
pub mod trips;
