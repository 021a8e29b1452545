//! Stand-in for dispatch/loop_sweep.rs.

unused_strategy!(LoopSweepDispatch);
