//! Stand-in for dispatch/scan.rs.

unused_strategy!(ScanDispatch);
