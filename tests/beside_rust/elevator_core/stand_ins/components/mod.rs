//! Stand-in for components/mod.rs and for the components whose files are not there: the fields and
//! methods that the sources name.

use std::collections::{BTreeMap, HashSet};

use serde::{Deserialize, Serialize};

use crate::entity::EntityId;

pub mod cyclic;
pub mod destination_queue;
pub mod elevator;
pub mod route;
pub mod service_mode;
pub mod units;

pub use destination_queue::DestinationQueue;
pub use elevator::{Direction, Elevator, ElevatorPhase};
pub use route::{Route, RouteLeg, TransportMode};
pub use service_mode::ServiceMode;
pub use units::{Accel, Speed, Weight};

#[derive(Debug, Clone, Copy)]
pub struct Position {
    pub(crate) value: f64,
}

impl Position {
    pub fn value(&self) -> f64 {
        self.value
    }
}

#[derive(Debug, Clone, Copy)]
pub struct Velocity {
    pub(crate) value: f64,
}

#[derive(Debug, Clone)]
pub struct Stop {
    pub(crate) position: f64,
}

#[derive(Debug, Clone, Copy)]
pub enum LineKind {
    Linear,
    Loop {
        circumference: f64,
        min_headway: f64,
    },
}

#[derive(Debug, Clone)]
pub struct Line {
    pub(crate) kind: LineKind,
}

impl Line {
    pub fn is_loop(&self) -> bool {
        matches!(self.kind, LineKind::Loop { .. })
    }

    pub fn circumference(&self) -> Option<f64> {
        match self.kind {
            LineKind::Linear => None,
            LineKind::Loop { circumference, .. } => Some(circumference),
        }
    }

    pub fn min_headway(&self) -> Option<f64> {
        match self.kind {
            LineKind::Linear => None,
            LineKind::Loop { min_headway, .. } => Some(min_headway),
        }
    }
}

#[derive(Debug, Clone, Copy, PartialEq, Eq)]
pub enum RiderPhase {
    Waiting,
    Boarding(EntityId),
    Riding(EntityId),
    Exiting(EntityId),
    Walking,
    Arrived,
    Abandoned,
    Resident,
}

#[derive(Debug, Clone)]
pub struct Rider {
    pub(crate) weight: Weight,
    pub(crate) phase: RiderPhase,
    pub(crate) spawn_tick: u64,
}

#[derive(Debug, Clone, Copy, PartialEq, Eq, Serialize, Deserialize)]
pub enum CallDirection {
    Up,
    Down,
}

#[derive(Debug, Clone, Serialize, Deserialize)]
pub struct HallCall {
    pub stop: EntityId,
    pub direction: CallDirection,
    pub pending_riders: Vec<EntityId>,
    pub assigned_cars_by_line: BTreeMap<EntityId, EntityId>,
    pub pinned: bool,
}

impl HallCall {
    pub fn is_acknowledged(&self) -> bool {
        true
    }
}

#[derive(Debug, Clone)]
pub struct CarCall {
    pub pending_riders: Vec<EntityId>,
}

impl CarCall {
    pub fn is_acknowledged(&self) -> bool {
        true
    }
}

#[derive(Debug, Clone)]
pub struct Patience {
    waited_ticks: u64,
}

impl Patience {
    pub fn waited_ticks(&self) -> u64 {
        self.waited_ticks
    }
}

#[derive(Debug, Clone)]
pub struct Preferences;

#[derive(Debug, Clone)]
pub struct AccessControl {
    pub allowed_stops: HashSet<EntityId>,
}
