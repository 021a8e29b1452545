//! Stand-in for dispatch/manifest.rs: what systems/dispatch.rs tells a strategy.

use std::collections::BTreeMap;

use crate::components::{CarCall, HallCall, Weight};
use crate::entity::EntityId;

#[derive(Debug, Clone)]
pub struct RiderInfo {
    pub id: EntityId,
    pub destination: Option<EntityId>,
    pub weight: Weight,
    pub wait_ticks: u64,
}

#[derive(Debug, Clone, Default)]
pub struct DispatchManifest {
    pub waiting_at_stop: BTreeMap<EntityId, Vec<RiderInfo>>,
    pub riding_to_stop: BTreeMap<EntityId, Vec<RiderInfo>>,
    pub resident_count_at_stop: BTreeMap<EntityId, usize>,
    pub hall_calls_at_stop: BTreeMap<EntityId, Vec<HallCall>>,
    pub car_calls_by_car: BTreeMap<EntityId, Vec<CarCall>>,
    pub arrivals_at_stop: BTreeMap<EntityId, u64>,
    pub arrival_window_ticks: u64,
}

impl DispatchManifest {
    pub fn waiting_riders_at(&self, stop: EntityId) -> &[RiderInfo] {
        self.waiting_at_stop.get(&stop).map_or(&[], Vec::as_slice)
    }

    pub fn has_demand(&self, stop: EntityId) -> bool {
        !self.waiting_riders_at(stop).is_empty()
    }
}
