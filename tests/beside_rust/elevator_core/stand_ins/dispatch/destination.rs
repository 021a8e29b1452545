//! Stand-in for dispatch/destination.rs.

unused_strategy!(DestinationDispatch);

pub struct AssignedCar;
