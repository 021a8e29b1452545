//! The Rust's functions, each behind a call as ours are.

use beside_rust::ours::MovementResult;
#[cfg(feature = "beside")]
use beside_rust::{answer::door_of, ours::DoorWords};
use elevator_core::components::cyclic;
#[cfg(feature = "beside")]
use elevator_core::fp;
use elevator_core::movement;

macro_rules! called {
    ($($name:ident($($argument:ident: $type:ty),*) -> $result:ty { $body:expr })*) => {
        $(
            #[inline(never)]
            #[allow(clippy::too_many_arguments)]
            pub extern "C" fn $name($($argument: $type),*) -> $result {
                $body
            }
        )*
    };
}

called! {
    wrap_position(p: f64, c: f64) -> f64 { cyclic::wrap_position(p, c) }
    forward_distance(from: f64, to: f64, c: f64) -> f64 { cyclic::forward_distance(from, to, c) }
    cyclic_distance(a: f64, b: f64, c: f64) -> f64 { cyclic::cyclic_distance(a, b, c) }
    braking_distance(v: f64, dec: f64) -> f64 { movement::braking_distance(v, dec) }
    headway_clamp_target(t: f64, l: f64, target: f64, h: f64, c: f64) -> f64 {
        movement::headway_clamp_target(t, l, target, h, c)
    }
    tick_movement(
        p: f64, v: f64, target: f64, max: f64, acc: f64, dec: f64, dt: f64
    ) -> MovementResult {
        movement::tick_movement(p, v, target, max, acc, dec, dt).into()
    }
    tick_movement_cyclic(
        p: f64, v: f64, target: f64, max: f64, acc: f64, dec: f64, dt: f64, c: f64
    ) -> MovementResult {
        movement::tick_movement_cyclic(p, v, target, max, acc, dec, dt, c).into()
    }
}

#[cfg(feature = "beside")]
called! {
    fma(a: f64, b: f64, c: f64) -> f64 { fp::fma(a, b, c) }
    abs(x: f64) -> f64 { x.abs() }
    signum(x: f64) -> f64 { x.signum() }
    is_finite(x: f64) -> bool { x.is_finite() }
    max(x: f64, y: f64) -> f64 { x.max(y) }
    min(x: f64, y: f64) -> f64 { x.min(y) }
    rem_euclid(x: f64, y: f64) -> f64 { x.rem_euclid(y) }
    clamp(x: f64, lo: f64, hi: f64) -> f64 { x.clamp(lo, hi) }
    total_before(x: f64, y: f64) -> bool { x.total_cmp(&y).is_lt() }
    door_tick(state: u32, left: u32, open: u32, close: u32) -> DoorWords {
        {
            let mut door = door_of([state, left, open, close]);
            let transition = door.tick();
            DoorWords::of(door, transition)
        }
    }
}

/// The ramp of tick_manual in systems/movement.rs, which is private there.
#[cfg(feature = "beside")]
#[inline(never)]
pub extern "C" fn manual_velocity(
    target: f64,
    velocity: f64,
    max_speed: f64,
    acceleration: f64,
    deceleration: f64,
    dt: f64,
) -> f64 {
    let target = target.clamp(-max_speed, max_speed);
    let slowing = target.abs() < velocity.abs() || target.signum() * velocity.signum() < 0.0;
    let dv_max = if slowing { deceleration } else { acceleration } * dt;
    if (target - velocity).abs() <= dv_max {
        target
    } else if target > velocity {
        velocity + dv_max
    } else {
        velocity - dv_max
    }
}
