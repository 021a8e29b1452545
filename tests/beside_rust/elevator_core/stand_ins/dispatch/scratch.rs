//! Stand-in for dispatch/scratch.rs: a strategy's buffers.

pub struct PrepareScratch;
