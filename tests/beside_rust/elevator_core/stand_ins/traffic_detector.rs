//! Stand-in for traffic_detector.rs: read by a reposition strategy alone.

#[derive(Clone, Copy)]
pub enum TrafficMode {
    Idle,
    UpPeak,
    DownPeak,
    InterFloor,
}

pub struct TrafficDetector;

impl TrafficDetector {
    pub fn current_mode(&self) -> TrafficMode {
        TrafficMode::Idle
    }
}
