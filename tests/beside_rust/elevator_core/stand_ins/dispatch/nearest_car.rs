//! Stand-in for dispatch/nearest_car.rs.

unused_strategy!(NearestCarDispatch);
