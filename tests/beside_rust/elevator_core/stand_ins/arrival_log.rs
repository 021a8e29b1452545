//! Stand-in for arrival_log.rs: read by strategies alone. Nothing is logged.

use crate::entity::EntityId;

pub const DEFAULT_ARRIVAL_WINDOW_TICKS: u64 = 1;

pub struct ArrivalLog;

impl ArrivalLog {
    pub fn arrivals_in_window(&self, _: EntityId, _: u64, _: u64) -> u64 {
        0
    }
}

pub struct ArrivalLogRetention(pub u64);

pub struct CurrentTick(pub u64);
