/// A dispatch strategy that dispatch/mod.rs names and nothing here asks.
macro_rules! unused_strategy {
    ($name:ident) => {
        #[derive(Default)]
        pub struct $name;

        impl $name {
            pub fn new() -> Self {
                Self
            }
        }

        impl crate::dispatch::DispatchStrategy for $name {
            fn rank(&self, _: &crate::dispatch::RankContext<'_>) -> Option<f64> {
                None
            }
        }
    };
}

pub mod arrival_log;
pub mod components;
pub mod dispatch;
pub mod door;
pub mod entity;
pub mod error;
pub mod events;
pub mod fp;
pub mod ids;
pub mod metrics;
pub mod movement;
pub mod query;
pub mod rider_index;
pub mod systems;
pub mod tagged_metrics;
pub mod traffic_detector;
pub mod world;
