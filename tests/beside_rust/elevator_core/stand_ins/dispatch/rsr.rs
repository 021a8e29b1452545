//! Stand-in for dispatch/rsr.rs.

unused_strategy!(RsrDispatch);
