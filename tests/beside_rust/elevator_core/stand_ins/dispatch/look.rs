//! Stand-in for dispatch/look.rs.

unused_strategy!(LookDispatch);
