//! Stand-in for tagged_metrics.rs: read by a reposition strategy alone. It holds no tag.

use crate::entity::EntityId;

pub struct MetricTags;

impl MetricTags {
    pub fn tags_for(&self, _: EntityId) -> &[String] {
        &[]
    }

    pub fn metric(&self, _: &str) -> Option<&TaggedMetric> {
        None
    }
}

pub struct TaggedMetric;

impl TaggedMetric {
    pub fn total_delivered(&self) -> u64 {
        0
    }
}
