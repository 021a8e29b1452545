//! The functions of libbeside.a.

use beside_rust::answer::{Answer, AnyZero, door_of};
use beside_rust::inputs::Draw;
use beside_rust::ours::{self, DoorWords, MovementResult};
use elevator_core::components::{LineKind, ServiceMode};
use elevator_core::door::{DoorState, DoorTransition};
use elevator_core::fp;
use elevator_core::study::{Motion, Study};

use crate::study::SLOW;
use crate::{Comparison, Line, number};

pub fn compare(comparison: &mut Comparison) {
    floats(comparison);
    doors(comparison);
    manual(comparison);
}

/// As `number`, and whether the answer is an argument of the function as it came.
fn choice<const N: usize>(a: [f64; N], r: f64) -> &'static str {
    const NAMES: [&str; 3] = ["the first", "the second", "the third"];
    a.iter()
        .zip(NAMES)
        .find(|&(x, _)| x.alike(r))
        .map_or(number(r), |(_, name)| name)
}

fn floats(comparison: &mut Comparison) {
    comparison.compare(
        "float_abs",
        |draw| [draw.any()],
        |[x]| ours::float_abs(x),
        |[x]| x.abs(),
        |_, r| number(r),
    );
    comparison.compare(
        "float_signum",
        |draw| [draw.any()],
        |[x]| ours::float_signum(x),
        |[x]| x.signum(),
        |_, r| number(r),
    );
    comparison.compare(
        "float_is_finite",
        |draw| [draw.any()],
        |[x]| ours::float_is_finite(x),
        |[x]| x.is_finite(),
        |_, r| if r { "finite" } else { "not finite" },
    );
    comparison.compare(
        "float_max",
        Draw::two,
        |[x, y]| AnyZero(ours::float_max(x, y)),
        |[x, y]| AnyZero(x.max(y)),
        |a, r| choice(a, r.0),
    );
    comparison.compare(
        "float_min",
        Draw::two,
        |[x, y]| AnyZero(ours::float_min(x, y)),
        |[x, y]| AnyZero(x.min(y)),
        |a, r| choice(a, r.0),
    );
    comparison.compare(
        "float_rem_euclid",
        |draw| {
            if draw.below(2) == 0 {
                draw.two()
            } else {
                draw.wrap_position()
            }
        },
        |[x, y]| ours::float_rem_euclid(x, y),
        |[x, y]| x.rem_euclid(y),
        |[x, _], r| if r.alike(x) { "x itself" } else { number(r) },
    );
    comparison.compare(
        "float_clamp",
        Draw::limits,
        |[x, lo, hi]| ours::float_clamp(x, lo, hi),
        |[x, lo, hi]| x.clamp(lo, hi),
        choice,
    );
    comparison.compare(
        "float_total_before",
        Draw::ordered,
        |[x, y]| ours::float_total_before(x, y),
        |[x, y]| x.total_cmp(&y).is_lt(),
        |[x, y], r| match (r, x == y) {
            (true, true) => "-0 before 0",
            (true, false) => "before",
            (false, true) => "alike or 0 after -0",
            (false, false) => "not before",
        },
    );
    comparison.compare(
        "motion_fma",
        Draw::product_and_sum,
        |[a, b, c]| ours::motion_fma(a, b, c),
        |[a, b, c]| fp::fma(a, b, c),
        |[a, b, c], r| {
            if r.is_finite() && !r.alike(a.mul_add(b, c)) {
                "unlike one rounding"
            } else {
                number(r)
            }
        },
    );
}

fn transition_name(door: DoorWords) -> &'static str {
    match (door.transition, door.state) {
        (1, _) => "finished opening",
        (2, _) => "finished open",
        (3, _) => "finished closing",
        (_, 0) => "closed",
        (_, 1) => "opening",
        (_, 2) => "open",
        _ => "closing",
    }
}

fn rust_tick(door: &mut DoorState) -> DoorWords {
    let transition = door.tick();
    DoorWords::of(*door, transition)
}

fn doors(comparison: &mut Comparison) {
    comparison.compare(
        "door_request_open",
        Draw::door_times,
        |[transition, open]| ours::door_request_open(transition, open),
        |[transition, open]| {
            DoorWords::of(
                DoorState::request_open(transition, open),
                DoorTransition::None,
            )
        },
        |_, r| transition_name(r),
    );
    comparison.compare(
        "door_tick",
        Draw::door,
        |[state, left, open, close]| ours::door_tick(state, left, open, close),
        |a| rust_tick(&mut door_of(a)),
        |_, r| transition_name(r),
    );
    comparison.compare(
        "door_is_open",
        Draw::door,
        |[state, left, open, close]| ours::door_is_open(state, left, open, close),
        |a| door_of(a).is_open(),
        |_, r| if r { "open" } else { "not open" },
    );
    comparison.compare(
        "door_is_closed",
        Draw::door,
        |[state, left, open, close]| ours::door_is_closed(state, left, open, close),
        |a| door_of(a).is_closed(),
        |_, r| if r { "closed" } else { "not closed" },
    );
    comparison.differences += door_cycles(comparison.seed, comparison.tuples);
}

/// Whole cycles, each tick on the last: request_open until a tick past Closed.
fn door_cycles(seed: u64, tuples: u64) -> u64 {
    let mut draw = Draw::named(seed, "door cycle");
    let mut line = Line::new("door cycle");
    while line.compared < tuples {
        let times = draw.short_door_times();
        let mut rust = DoorState::request_open(times[0], times[1]);
        let mut ours = ours::door_request_open(times[0], times[1]);
        line.count(
            times,
            ours,
            DoorWords::of(rust, DoorTransition::None),
            "requested",
        );
        let mut closed = false;
        while !closed {
            closed = rust.is_closed();
            let [state, left, open, close, _] = ours.words();
            ours = ours::door_tick(state, left, open, close);
            let expected = rust_tick(&mut rust);
            line.count(times, ours, expected, transition_name(expected));
        }
    }
    line.finish()
}

/// movement::run on a world with one car in Manual mode, on a line.
fn manual(comparison: &mut Comparison) {
    let mut car = ManualCar::new();
    comparison.compare(
        "tick_manual on a line",
        |draw| {
            let [target, velocity, max, acc, dec, dt] = draw.manual_velocity();
            [draw.position(), target, velocity, max, acc, dec, dt]
        },
        |[position, target, velocity, max, acc, dec, dt]| {
            let velocity = ours::motion_manual_velocity(target, velocity, max, acc, dec, dt);
            MovementResult {
                position: ours::motion_fma(velocity, dt, position),
                velocity,
                arrived: false,
            }
        },
        |tuple| car.tick(tuple),
        |[_, target, velocity, max, ..], r| {
            if r.velocity.is_nan() || r.position.is_nan() {
                "NaN"
            } else if r.velocity == target.clamp(-max, max) {
                "target met"
            } else if r.velocity.abs() < velocity.abs() {
                "slower"
            } else if r.velocity.abs() > velocity.abs() {
                "faster"
            } else {
                "as before"
            }
        },
    );
}

/// One car in Manual mode on a line without stops.
struct ManualCar {
    study: Study,
}

impl ManualCar {
    fn new() -> Self {
        let mut study = Study::new();
        study.line(LineKind::Linear, None);
        study.car(0, SLOW, 1, 1);
        study.start();
        study.set_mode(0, ServiceMode::Manual);
        Self { study }
    }

    /// One tick from the given motion.
    fn tick(&mut self, tuple: [f64; 7]) -> MovementResult {
        let [
            position,
            target,
            velocity,
            max_speed,
            acceleration,
            deceleration,
            dt,
        ] = tuple;
        self.study.set_motion(
            0,
            Motion {
                position,
                velocity,
                max_speed,
                acceleration,
                deceleration,
                inspection_factor: 1.0,
            },
        );
        self.study.set_manual_speed(0, Some(target));
        self.study.tick(dt);
        let [position, velocity] = self.study.place(0);
        MovementResult {
            position,
            velocity,
            arrived: false,
        }
    }
}
