//! Stand-in for dispatch/assignment.rs: which car goes where. It decides nothing.

use super::{DispatchDecision, DispatchManifest, DispatchStrategy, ElevatorGroup};
use crate::entity::EntityId;
use crate::world::World;

pub struct AssignmentResult {
    pub decisions: Vec<(EntityId, DispatchDecision)>,
}

#[derive(Default)]
pub struct DispatchScratch {
    pub pinned_pairs: Vec<(EntityId, EntityId)>,
    pub committed_pairs: Vec<(EntityId, EntityId)>,
    pub idle_elevators: Vec<(EntityId, f64)>,
}

impl DispatchScratch {
    pub fn clear_all(&mut self) {
        *self = Self::default();
    }
}

pub fn assign_with_scratch(
    _: &mut dyn DispatchStrategy,
    _: &[(EntityId, f64)],
    _: &ElevatorGroup,
    _: &DispatchManifest,
    _: &World,
    _: &mut DispatchScratch,
) -> AssignmentResult {
    AssignmentResult {
        decisions: Vec::new(),
    }
}
