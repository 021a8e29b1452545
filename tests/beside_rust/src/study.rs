//! The Rust's two systems as a study drives them.

use beside_rust::inputs::Draw;
use elevator_core::components::{CallDirection, ElevatorPhase, LineKind, ServiceMode};
use elevator_core::door::DoorCommand;
use elevator_core::study::{self, Motion, Phase, Study};

use crate::{Comparison, Line};

/// The car of the examples.
pub const SLOW: Motion = Motion {
    position: 0.0,
    velocity: 0.0,
    max_speed: 2.0,
    acceleration: 1.0,
    deceleration: 1.0,
    inspection_factor: 1.0,
};

pub fn compare(comparison: &mut Comparison) {
    study::quiet();
    examples(comparison);
    largest(comparison);
}

/// The example of document 01, and the range at which the Rust panics and no word is written.
fn examples(comparison: &mut Comparison) {
    let mut line = Line::new("example tapes");
    check(
        &mut line,
        &example_words(),
        &[
            0x0000_0000,
            0x2001_0000,
            0x6000_0000,
            0x0000_0001,
            0x0000_0002,
            0x7000_0000,
            0x0000_0003,
        ],
    );
    check(&mut line, &short_range_words(), &[0]);
    // Past the stop at 0, which a seam's second range holds.
    check(&mut line, &short_range_at_seam_words(), &[0, 0x1000_0001]);
    comparison.differences += line.finish();
}

/// Compares the words and their number with what document 01 says.
fn check(line: &mut Line, words: &[u32], expected: &[u32]) {
    line.count([0; 0], expected.len() as u32, words.len() as u32, "counts");
    for (at, (&expected, &word)) in expected.iter().zip(words).enumerate() {
        line.count([at as u32], expected, word, "words");
    }
}

fn example_words() -> Vec<u32> {
    let mut study = Study::new();
    study.stop(0.0);
    study.stop(0.25);
    study.line(LineKind::Linear, None);
    study.car(0, SLOW, 1, 1);
    study.start();
    study.send(0, 1, false);
    (0..4).flat_map(|_| study.tick(0.5)).collect()
}

/// From 0 to 1.5e-9 with a stop at 0.7e-9.
fn short_range_words() -> Vec<u32> {
    let mut study = Study::new();
    study.stop(0.7e-9);
    study.line(LineKind::Linear, None);
    study.car(0, SLOW, 1, 1);
    study.start();
    study.set_mode(0, ServiceMode::Manual);
    study.set_manual_speed(0, Some(1.5e-9));
    study.tick(1.0)
}

/// Over the seam from 1.5e-9 before it, with a stop 0.7e-9 before it and one at 0.
fn short_range_at_seam_words() -> Vec<u32> {
    let mut study = Study::new();
    study.stop(0.0);
    study.stop(1.0 - 0.7e-9);
    study.line(
        LineKind::Loop {
            circumference: 1.0,
            min_headway: 0.0,
        },
        None,
    );
    let position = 1.0 - 1.5e-9;
    study.car(0, Motion { position, ..SLOW }, 1, 1);
    study.start();
    study.set_mode(0, ServiceMode::Manual);
    study.set_manual_speed(0, Some(0.5));
    study.tick(1.0)
}

const STOPS: u64 = 64;
const LINES: u64 = 8;
const CARS: u64 = 16;
const RIDERS: u64 = 128;

/// The names of the log words, by their kind.
const WORDS: [&str; 11] = [
    "ticks",
    "passing",
    "arrived",
    "repositioned",
    "idle",
    "lamps",
    "opened",
    "closed",
    "departed",
    "cleared",
    "commands",
];

/// The largest world under random records: after each tick the total of moves is the cars' sum and
/// the number of passing, arrived and repositioned words.
fn largest(comparison: &mut Comparison) {
    let mut draw = Draw::named(comparison.seed, "largest world");
    let mut line = Line::new("largest world");
    let mut study = largest_world(&mut draw);
    let mut moves = 0;
    for tick in 0..2000 {
        for _ in 0..8 {
            random_record(&mut study, &mut draw);
        }
        for word in study.tick(0.5) {
            let kind = word >> 28;
            line.tally(WORDS[kind as usize]);
            moves += u32::from((1..=3).contains(&kind));
        }
        let sum: u64 = (0..CARS).map(|n| study.car_state(n as usize).moves).sum();
        line.compare([tick], moves, study.total_moves() as u32);
        line.compare([tick], sum as u32, study.total_moves() as u32);
    }
    comparison.differences += line.finish();
}

fn largest_world(draw: &mut Draw) -> Study {
    let mut study = Study::new();
    for stop in 0..STOPS {
        study.stop(stop as f64 * 2.5 + draw.unit());
    }
    for line in 0..LINES {
        let kind = if line % 2 == 0 {
            LineKind::Linear
        } else {
            LineKind::Loop {
                circumference: 170.0,
                min_headway: 5.0 * draw.unit(),
            }
        };
        let serves: Vec<usize> = (0..20).map(|_| draw.below(STOPS) as usize).collect();
        study.line(kind, if line < 6 { Some(&serves) } else { None });
    }
    for car in 0..CARS {
        let motion = Motion {
            position: 160.0 * draw.unit(),
            max_speed: 1.0 + 9.0 * draw.unit(),
            ..SLOW
        };
        study.car(
            (car % LINES) as usize,
            motion,
            draw.below(4) as u32,
            draw.below(6) as u32,
        );
    }
    for rider in 0..RIDERS {
        random_rider(&mut study, draw, rider as usize);
    }
    study.start();
    study
}

fn random_rider(study: &mut Study, draw: &mut Draw, rider: usize) {
    let car = draw.below(CARS) as usize;
    let phase = match draw.below(4) {
        0 => Phase::Boarding(car),
        1 => Phase::Exiting(car),
        2 => Phase::Waiting,
        _ => Phase::Riding(car),
    };
    let destination = Some(draw.below(STOPS) as usize).filter(|_| draw.below(8) > 0);
    let aboard = Some(car).filter(|_| draw.below(2) == 0);
    study.rider(rider, phase, destination, aboard);
}

fn random_record(study: &mut Study, draw: &mut Draw) {
    let car = draw.below(CARS) as usize;
    let stop = draw.below(STOPS) as usize;
    match draw.below(16) {
        0..=5 => {
            let state = study.car_state(car);
            let free = matches!(state.phase, ElevatorPhase::Idle | ElevatorPhase::Stopped);
            if free && !state.disabled {
                study.send(car, stop, draw.below(3) == 0);
            }
        }
        6 => {
            let modes = [
                ServiceMode::Normal,
                ServiceMode::Independent,
                ServiceMode::Inspection,
                ServiceMode::Manual,
                ServiceMode::OutOfService,
            ];
            study.set_mode(car, modes[draw.below(5) as usize]);
        }
        7 => {
            let speed = draw.within(10.0);
            study.set_manual_speed(car, Some(speed).filter(|_| draw.below(4) > 0));
        }
        8..=10 => {
            let commands = [
                DoorCommand::Open,
                DoorCommand::Close,
                DoorCommand::HoldOpen { ticks: 3 },
                DoorCommand::CancelHold,
            ];
            if study.car_state(car).commands.len() < 8 {
                study.door_command(car, commands[draw.below(4) as usize]);
            }
        }
        11 | 12 => {
            let directions = [CallDirection::Up, CallDirection::Down];
            study.hall_call(stop, directions[draw.below(2) as usize]);
        }
        13 => {
            if study.car_state(car).destinations.len() < 8 {
                study.destination(car, stop);
            }
        }
        14 => study.set_enabled(car, draw.below(4) > 0),
        _ => {
            let rider = draw.below(RIDERS) as usize;
            random_rider(study, draw, rider);
        }
    }
}
