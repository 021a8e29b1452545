//! Stand-in for dispatch/sweep.rs: shared by strategies; nothing of it is named here.
