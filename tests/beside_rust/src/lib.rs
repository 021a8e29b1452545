//! What the comparison and the benchmark share.

pub mod answer;
pub mod ours;

pub use inputs;
