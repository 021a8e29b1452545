//! Stand-in for dispatch/loop_schedule.rs.

unused_strategy!(LoopScheduleDispatch);
