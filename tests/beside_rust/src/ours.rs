//! Our exported functions.

/// One tick of movement.
#[repr(C)]
#[derive(Clone, Copy)]
pub struct MovementResult {
    pub position: f64,
    pub velocity: f64,
    pub arrived: bool,
}

// libmotion.a
unsafe extern "C" {
    pub safe fn wrap_position(p: f64, circumference: f64) -> f64;
    pub safe fn forward_distance(from: f64, to: f64, circumference: f64) -> f64;
    pub safe fn cyclic_distance(a: f64, b: f64, circumference: f64) -> f64;
    pub safe fn braking_distance(velocity: f64, deceleration: f64) -> f64;
    pub safe fn headway_clamp_target(
        trailer_position: f64,
        leader_position: f64,
        intended_target: f64,
        min_headway: f64,
        circumference: f64,
    ) -> f64;
    pub safe fn tick_movement(
        position: f64,
        velocity: f64,
        target_position: f64,
        max_speed: f64,
        acceleration: f64,
        deceleration: f64,
        dt: f64,
    ) -> MovementResult;
    pub safe fn tick_movement_cyclic(
        position: f64,
        velocity: f64,
        target_position: f64,
        max_speed: f64,
        acceleration: f64,
        deceleration: f64,
        dt: f64,
        circumference: f64,
    ) -> MovementResult;
}

/// A door and its last transition on plain numbers.
/// state: 0 Closed, 1 Opening, 2 Open, 3 Closing; a field that the state does not have is 0.
/// transition: 0 None, 1 FinishedOpening, 2 FinishedOpen, 3 FinishedClosing.
#[repr(C)]
#[derive(Clone, Copy, PartialEq, Eq)]
pub struct DoorWords {
    pub state: u32,
    pub ticks_remaining: u32,
    pub open_duration: u32,
    pub close_duration: u32,
    pub transition: u32,
}

// libbeside.a
#[cfg(feature = "beside")]
unsafe extern "C" {
    pub safe fn float_abs(x: f64) -> f64;
    pub safe fn float_signum(x: f64) -> f64;
    pub safe fn float_is_finite(x: f64) -> bool;
    pub safe fn float_max(x: f64, y: f64) -> f64;
    pub safe fn float_min(x: f64, y: f64) -> f64;
    pub safe fn float_rem_euclid(x: f64, y: f64) -> f64;
    pub safe fn float_clamp(x: f64, lo: f64, hi: f64) -> f64;
    pub safe fn float_total_before(x: f64, y: f64) -> bool;
    pub safe fn motion_fma(a: f64, b: f64, c: f64) -> f64;
    pub safe fn motion_manual_velocity(
        target: f64,
        velocity: f64,
        max_speed: f64,
        acceleration: f64,
        deceleration: f64,
        dt: f64,
    ) -> f64;
    pub safe fn door_request_open(transition_ticks: u32, open_ticks: u32) -> DoorWords;
    pub safe fn door_tick(
        state: u32,
        ticks_remaining: u32,
        open_duration: u32,
        close_duration: u32,
    ) -> DoorWords;
    pub safe fn door_is_open(
        state: u32,
        ticks_remaining: u32,
        open_duration: u32,
        close_duration: u32,
    ) -> bool;
    pub safe fn door_is_closed(
        state: u32,
        ticks_remaining: u32,
        open_duration: u32,
        close_duration: u32,
    ) -> bool;
}
