//! Stand-in for dispatch/etd.rs.

unused_strategy!(EtdDispatch);
