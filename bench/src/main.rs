//! Nanoseconds a call, a tick and a tick of the whole study, ours and the Rust's, in the same run.

use std::hint::black_box;
use std::time::Instant;

use beside_rust::inputs::Draw;
use beside_rust::ours::{self, MovementResult};

#[cfg(feature = "records")]
mod records;
mod rust;
#[cfg(feature = "records")]
mod worlds;

/// Argument tuples of a formula.
const TUPLES: usize = 8192;
/// How often a round goes through them.
const REPEATS: usize = 12;
/// Rounds; the best counts. Ours and the Rust's take turns.
const ROUNDS: usize = 25;

fn main() {
    #[cfg(feature = "records")]
    if std::env::args()
        .nth(1)
        .is_some_and(|word| word == "once" || word == "tape")
    {
        return records::all();
    }
    println!(
        "{:28} {:>8} {:>8} {:>6}",
        "formula", "ours ns", "Rust ns", "ratio"
    );
    motion();
    #[cfg(feature = "beside")]
    beside();
    #[cfg(feature = "records")]
    records::all();
}

/// Times one formula and prints its line.
fn measure<A: Copy, R>(
    name: &str,
    draw: impl Fn(&mut Draw) -> A,
    ours: impl Fn(A) -> R,
    rust: impl Fn(A) -> R,
) {
    let mut source = Draw::named(1, name);
    let tuples: Vec<A> = (0..TUPLES).map(|_| draw(&mut source)).collect();
    race(
        name,
        || {
            for &a in &tuples {
                black_box(ours(a));
            }
        },
        || {
            for &a in &tuples {
                black_box(rust(a));
            }
        },
    );
}

/// Times two loops of TUPLES calls in turn and prints the best round of each.
fn race(name: &str, mut ours: impl FnMut(), mut rust: impl FnMut()) {
    let (mut best_ours, mut best_rust) = (f64::INFINITY, f64::INFINITY);
    for _ in 0..ROUNDS {
        best_ours = best_ours.min(round(&mut ours));
        best_rust = best_rust.min(round(&mut rust));
    }
    println!(
        "{name:28} {best_ours:8.2} {best_rust:8.2} {:6.2}",
        best_ours / best_rust
    );
}

/// Nanoseconds a call over one round.
fn round(calls: &mut impl FnMut()) -> f64 {
    let start = Instant::now();
    for _ in 0..REPEATS {
        calls();
    }
    start.elapsed().as_nanos() as f64 / (REPEATS * TUPLES) as f64
}

/// A car to and fro between 0 and 10, each tick on the last one's result.
struct Journey {
    position: f64,
    velocity: f64,
    target: f64,
}

impl Journey {
    fn new() -> Self {
        Self {
            position: 0.0,
            velocity: 0.0,
            target: 10.0,
        }
    }

    fn go(&mut self, tick: impl Fn(f64, f64, f64, f64, f64, f64, f64) -> MovementResult) {
        for _ in 0..TUPLES {
            let r = tick(
                self.position,
                self.velocity,
                self.target,
                2.0,
                1.0,
                1.0,
                0.1,
            );
            self.position = r.position;
            self.velocity = r.velocity;
            if r.arrived {
                self.target = 10.0 - self.target;
            }
        }
    }
}

fn motion() {
    measure(
        "wrap_position",
        Draw::usual_wrap,
        |[p, c]| ours::wrap_position(p, c),
        |[p, c]| rust::wrap_position(p, c),
    );
    measure(
        "forward_distance",
        Draw::usual_places,
        |[from, to, c]| ours::forward_distance(from, to, c),
        |[from, to, c]| rust::forward_distance(from, to, c),
    );
    measure(
        "cyclic_distance",
        Draw::usual_places,
        |[a, b, c]| ours::cyclic_distance(a, b, c),
        |[a, b, c]| rust::cyclic_distance(a, b, c),
    );
    measure(
        "braking_distance",
        Draw::usual_braking,
        |[v, dec]| ours::braking_distance(v, dec),
        |[v, dec]| rust::braking_distance(v, dec),
    );
    measure(
        "headway_clamp_target",
        Draw::usual_headway,
        |[t, l, target, h, c]| ours::headway_clamp_target(t, l, target, h, c),
        |[t, l, target, h, c]| rust::headway_clamp_target(t, l, target, h, c),
    );
    measure(
        "tick_movement, random",
        Draw::usual_tick,
        |[p, v, target, max, acc, dec, dt]| ours::tick_movement(p, v, target, max, acc, dec, dt),
        |[p, v, target, max, acc, dec, dt]| rust::tick_movement(p, v, target, max, acc, dec, dt),
    );
    let (mut our_car, mut rust_car) = (Journey::new(), Journey::new());
    race(
        "tick_movement, journey",
        || {
            our_car.go(|p, v, target, max, acc, dec, dt| {
                ours::tick_movement(p, v, target, max, acc, dec, dt)
            })
        },
        || {
            rust_car.go(|p, v, target, max, acc, dec, dt| {
                rust::tick_movement(p, v, target, max, acc, dec, dt)
            })
        },
    );
    assert_eq!(our_car.position.to_bits(), rust_car.position.to_bits());
    measure(
        "tick_movement_cyclic, random",
        Draw::usual_tick_cyclic,
        |[p, v, target, max, acc, dec, dt, c]| {
            ours::tick_movement_cyclic(p, v, target, max, acc, dec, dt, c)
        },
        |[p, v, target, max, acc, dec, dt, c]| {
            rust::tick_movement_cyclic(p, v, target, max, acc, dec, dt, c)
        },
    );
}

#[cfg(feature = "beside")]
fn beside() {
    measure(
        "manual velocity",
        Draw::usual_manual,
        |[target, v, max, acc, dec, dt]| ours::motion_manual_velocity(target, v, max, acc, dec, dt),
        |[target, v, max, acc, dec, dt]| rust::manual_velocity(target, v, max, acc, dec, dt),
    );
    measure(
        "fma",
        Draw::usual_places,
        |[a, b, c]| ours::motion_fma(a, b, c),
        |[a, b, c]| rust::fma(a, b, c),
    );
    measure(
        "abs",
        Draw::usual_two,
        |[x, _]| ours::float_abs(x),
        |[x, _]| rust::abs(x),
    );
    measure(
        "signum",
        Draw::usual_two,
        |[x, _]| ours::float_signum(x),
        |[x, _]| rust::signum(x),
    );
    measure(
        "is_finite",
        Draw::usual_two,
        |[x, _]| ours::float_is_finite(x),
        |[x, _]| rust::is_finite(x),
    );
    measure(
        "max",
        Draw::usual_two,
        |[x, y]| ours::float_max(x, y),
        |[x, y]| rust::max(x, y),
    );
    measure(
        "min",
        Draw::usual_two,
        |[x, y]| ours::float_min(x, y),
        |[x, y]| rust::min(x, y),
    );
    measure(
        "rem_euclid",
        Draw::usual_wrap,
        |[x, y]| ours::float_rem_euclid(x, y),
        |[x, y]| rust::rem_euclid(x, y),
    );
    measure(
        "clamp",
        Draw::usual_two,
        |[x, y]| ours::float_clamp(x, -y.abs(), y.abs()),
        |[x, y]| rust::clamp(x, -y.abs(), y.abs()),
    );
    measure(
        "total_cmp is less",
        Draw::usual_two,
        |[x, y]| ours::float_total_before(x, y),
        |[x, y]| rust::total_before(x, y),
    );
    measure(
        "door tick",
        Draw::door,
        |[state, left, open, close]| ours::door_tick(state, left, open, close),
        |[state, left, open, close]| rust::door_tick(state, left, open, close),
    );
}
