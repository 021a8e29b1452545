//! When two answers are alike, and how they are shown.

use elevator_core::door::{DoorState, DoorTransition};

use crate::ours::{DoorWords, MovementResult};

pub trait Answer: Copy {
    fn alike(self, other: Self) -> bool;
    fn show(self) -> String;
}

/// Bit for bit, any two NaNs alike.
impl Answer for f64 {
    fn alike(self, other: Self) -> bool {
        self.to_bits() == other.to_bits() || self.is_nan() && other.is_nan()
    }

    fn show(self) -> String {
        format!("{:016x} ({self:e})", self.to_bits())
    }
}

/// As f64, and the two zeros alike: the Rust's page leaves open which one max and min give.
#[derive(Clone, Copy)]
pub struct AnyZero(pub f64);

impl Answer for AnyZero {
    fn alike(self, other: Self) -> bool {
        self.0.alike(other.0) || self.0 == 0.0 && other.0 == 0.0
    }

    fn show(self) -> String {
        self.0.show()
    }
}

impl Answer for bool {
    fn alike(self, other: Self) -> bool {
        self == other
    }

    fn show(self) -> String {
        self.to_string()
    }
}

/// A log word.
impl Answer for u32 {
    fn alike(self, other: Self) -> bool {
        self == other
    }

    fn show(self) -> String {
        format!("{self:08x}")
    }
}

impl Answer for MovementResult {
    fn alike(self, other: Self) -> bool {
        self.position.alike(other.position)
            && self.velocity.alike(other.velocity)
            && self.arrived == other.arrived
    }

    fn show(self) -> String {
        format!(
            "{} {} {}",
            self.position.show(),
            self.velocity.show(),
            self.arrived
        )
    }
}

impl From<elevator_core::movement::MovementResult> for MovementResult {
    fn from(rust: elevator_core::movement::MovementResult) -> Self {
        Self {
            position: rust.position,
            velocity: rust.velocity,
            arrived: rust.arrived,
        }
    }
}

impl Answer for DoorWords {
    fn alike(self, other: Self) -> bool {
        self == other
    }

    fn show(self) -> String {
        format!("{:?}", self.words())
    }
}

impl DoorWords {
    pub fn words(self) -> [u32; 5] {
        [
            self.state,
            self.ticks_remaining,
            self.open_duration,
            self.close_duration,
            self.transition,
        ]
    }

    /// The Rust's door and transition as numbers.
    pub fn of(door: DoorState, transition: DoorTransition) -> Self {
        let (state, ticks_remaining, open_duration, close_duration) = match door {
            DoorState::Closed => (0, 0, 0, 0),
            DoorState::Opening {
                ticks_remaining,
                open_duration,
                close_duration,
            } => (1, ticks_remaining, open_duration, close_duration),
            DoorState::Open {
                ticks_remaining,
                close_duration,
            } => (2, ticks_remaining, 0, close_duration),
            DoorState::Closing { ticks_remaining } => (3, ticks_remaining, 0, 0),
            _ => unreachable!("door.rs has four states"),
        };
        let transition = match transition {
            DoorTransition::None => 0,
            DoorTransition::FinishedOpening => 1,
            DoorTransition::FinishedOpen => 2,
            DoorTransition::FinishedClosing => 3,
            _ => unreachable!("door.rs has four transitions"),
        };
        Self {
            state,
            ticks_remaining,
            open_duration,
            close_duration,
            transition,
        }
    }
}

/// The Rust's door of four numbers.
pub fn door_of([state, ticks_remaining, open_duration, close_duration]: [u32; 4]) -> DoorState {
    match state {
        0 => DoorState::Closed,
        1 => DoorState::Opening {
            ticks_remaining,
            open_duration,
            close_duration,
        },
        2 => DoorState::Open {
            ticks_remaining,
            close_duration,
        },
        _ => DoorState::Closing { ticks_remaining },
    }
}

/// Arguments as they are shown beside a difference.
pub trait Arguments: Copy {
    fn show(self) -> String;
}

impl<const N: usize> Arguments for [f64; N] {
    fn show(self) -> String {
        self.map(Answer::show).join(", ")
    }
}

impl<const N: usize> Arguments for [u32; N] {
    fn show(self) -> String {
        format!("{self:?}")
    }
}
