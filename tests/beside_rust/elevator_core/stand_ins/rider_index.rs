//! Stand-in for rider_index.rs: read by systems/dispatch.rs alone. It holds no rider.

use crate::entity::EntityId;

pub struct RiderIndex;

impl RiderIndex {
    pub fn waiting_at(&self, _: EntityId) -> &[EntityId] {
        &[]
    }

    pub fn resident_count_at(&self, _: EntityId) -> usize {
        0
    }
}
