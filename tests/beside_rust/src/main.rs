//! Compares each of our functions with the Rust's and counts the differences.

use std::process::ExitCode;

use beside_rust::answer::{Answer, Arguments};
use beside_rust::inputs::Draw;
use beside_rust::ours::{self, MovementResult};
use elevator_core::components::cyclic;
use elevator_core::movement;

#[cfg(feature = "beside")]
mod beside;
mod study;

const USAGE: &str = "usage: beside_rust [--seed N] [--tuples N]";

/// How many differences of a function are printed.
const SHOWN: u64 = 5;

fn main() -> ExitCode {
    let mut comparison = match Comparison::from_words(std::env::args().skip(1)) {
        Ok(comparison) => comparison,
        Err(message) => {
            eprintln!("{message}\n{USAGE}");
            return ExitCode::from(2);
        }
    };
    println!(
        "seed {}, {} tuples a function",
        comparison.seed, comparison.tuples
    );
    study::compare(&mut comparison);
    motion(&mut comparison);
    #[cfg(feature = "beside")]
    beside::compare(&mut comparison);
    println!("{} differences in all", comparison.differences);
    if comparison.differences == 0 {
        ExitCode::SUCCESS
    } else {
        ExitCode::FAILURE
    }
}

struct Comparison {
    seed: u64,
    tuples: u64,
    differences: u64,
}

impl Comparison {
    fn from_words(mut words: impl Iterator<Item = String>) -> Result<Self, String> {
        let mut comparison = Self {
            seed: 1,
            tuples: 1_000_000,
            differences: 0,
        };
        while let Some(word) = words.next() {
            let number = words
                .next()
                .and_then(|n| n.parse().ok())
                .ok_or_else(|| format!("{word}: a number must follow"));
            match word.as_str() {
                "--seed" => comparison.seed = number?,
                "--tuples" => comparison.tuples = number?,
                _ => return Err(format!("{word}: not known")),
            }
        }
        Ok(comparison)
    }

    /// Compares one function on tuples drawn for it and prints its line.
    fn compare<A: Arguments, R: Answer>(
        &mut self,
        name: &str,
        arguments: impl Fn(&mut Draw) -> A,
        ours: impl Fn(A) -> R,
        mut rust: impl FnMut(A) -> R,
        kind: impl Fn(A, R) -> &'static str,
    ) {
        let mut draw = Draw::named(self.seed, name);
        let mut line = Line::new(name);
        for _ in 0..self.tuples {
            let a = arguments(&mut draw);
            let expected = rust(a);
            line.count(a, ours(a), expected, kind(a, expected));
        }
        self.differences += line.finish();
    }
}

/// What is known of one function so far.
struct Line<'a> {
    name: &'a str,
    compared: u64,
    differences: u64,
    kinds: Vec<(&'static str, u64)>,
}

impl<'a> Line<'a> {
    fn new(name: &'a str) -> Self {
        Self {
            name,
            compared: 0,
            differences: 0,
            kinds: Vec::new(),
        }
    }

    /// Compares one pair of answers, whose kind is given.
    fn count<A: Arguments, R: Answer>(&mut self, a: A, ours: R, rust: R, kind: &'static str) {
        self.tally(kind);
        self.compare(a, ours, rust);
    }

    fn tally(&mut self, kind: &'static str) {
        match self.kinds.iter_mut().find(|(k, _)| *k == kind) {
            Some((_, n)) => *n += 1,
            None => self.kinds.push((kind, 1)),
        }
    }

    fn compare<A: Arguments, R: Answer>(&mut self, a: A, ours: R, rust: R) {
        self.compared += 1;
        if !ours.alike(rust) {
            self.differences += 1;
            if self.differences <= SHOWN {
                println!("  {}({})", self.name, a.show());
                println!("    ours {}", ours.show());
                println!("    Rust {}", rust.show());
            }
        }
    }

    /// Prints the line; answers the differences.
    fn finish(mut self) -> u64 {
        self.kinds.sort_by_key(|&(_, n)| std::cmp::Reverse(n));
        let kinds: Vec<String> = self
            .kinds
            .iter()
            .map(|(kind, n)| format!("{kind} {n}"))
            .collect();
        println!(
            "{:22} {:>8} compared, {} differences: {}",
            self.name,
            self.compared,
            self.differences,
            kinds.join(", ")
        );
        self.differences
    }
}

/// What kind of float an answer is.
fn number(x: f64) -> &'static str {
    if x.is_nan() {
        "NaN"
    } else if x.is_infinite() {
        "infinite"
    } else if x == 0.0 {
        if x.is_sign_negative() { "-0" } else { "0" }
    } else if x.is_subnormal() {
        "subnormal"
    } else if x < 0.0 {
        "negative"
    } else {
        "positive"
    }
}

fn movement(r: MovementResult) -> &'static str {
    if r.position.is_nan() || r.velocity.is_nan() {
        "NaN"
    } else if r.position.is_infinite() || r.velocity.is_infinite() {
        "infinite"
    } else if r.arrived {
        "arrived"
    } else if r.velocity == 0.0 {
        "stopped"
    } else {
        "moving"
    }
}

fn motion(comparison: &mut Comparison) {
    comparison.compare(
        "wrap_position",
        Draw::wrap_position,
        |[p, c]| ours::wrap_position(p, c),
        |[p, c]| cyclic::wrap_position(p, c),
        |[p, c], r| {
            if !(c > 0.0 && c.is_finite() && p.is_finite()) {
                "no circle or place"
            } else if r == 0.0 {
                if p == 0.0 { "at 0" } else { "wrapped to 0" }
            } else if r == p {
                "inside"
            } else if p < 0.0 {
                "wrapped up"
            } else {
                "wrapped down"
            }
        },
    );
    comparison.compare(
        "forward_distance",
        Draw::two_places,
        |[from, to, c]| ours::forward_distance(from, to, c),
        |[from, to, c]| cyclic::forward_distance(from, to, c),
        |[from, to, c], r| {
            if !(c > 0.0 && c.is_finite() && from.is_finite() && to.is_finite()) {
                "no circle or place"
            } else if r == 0.0 {
                "0"
            } else if r == c {
                "whole circle"
            } else if to < from {
                "over the seam or wrapped"
            } else {
                "within"
            }
        },
    );
    comparison.compare(
        "cyclic_distance",
        Draw::two_places,
        |[a, b, c]| ours::cyclic_distance(a, b, c),
        |[a, b, c]| cyclic::cyclic_distance(a, b, c),
        |[a, b, c], r| {
            if !(c > 0.0 && c.is_finite() && a.is_finite() && b.is_finite()) {
                "no circle or place"
            } else if r == 0.0 {
                "0"
            } else if r == cyclic::forward_distance(a, b, c) {
                "forward"
            } else {
                "backward"
            }
        },
    );
    comparison.compare(
        "braking_distance",
        Draw::braking_distance,
        |[velocity, deceleration]| ours::braking_distance(velocity, deceleration),
        |[velocity, deceleration]| movement::braking_distance(velocity, deceleration),
        |[_, deceleration], r| {
            if deceleration <= 0.0 {
                "no deceleration"
            } else {
                number(r)
            }
        },
    );
    comparison.compare(
        "headway_clamp_target",
        Draw::headway_clamp_target,
        |[trailer, leader, target, headway, c]| {
            ours::headway_clamp_target(trailer, leader, target, headway, c)
        },
        |[trailer, leader, target, headway, c]| {
            movement::headway_clamp_target(trailer, leader, target, headway, c)
        },
        |[trailer, _, target, headway, c], r| {
            if !(c > 0.0 && c.is_finite() && headway.is_finite()) {
                "no circle or headway"
            } else if r.is_nan() {
                "NaN"
            } else if r.is_infinite() {
                "infinite"
            } else if r == cyclic::wrap_position(target, c) {
                "target kept"
            } else if r == cyclic::wrap_position(trailer, c) {
                "held in place"
            } else {
                "held back"
            }
        },
    );
    comparison.compare(
        "tick_movement",
        Draw::tick_movement,
        |[p, v, target, max, acc, dec, dt]| ours::tick_movement(p, v, target, max, acc, dec, dt),
        |[p, v, target, max, acc, dec, dt]| {
            movement::tick_movement(p, v, target, max, acc, dec, dt).into()
        },
        |_, r| movement(r),
    );
    comparison.compare(
        "tick_movement_cyclic",
        Draw::tick_movement_cyclic,
        |[p, v, target, max, acc, dec, dt, c]| {
            ours::tick_movement_cyclic(p, v, target, max, acc, dec, dt, c)
        },
        |[p, v, target, max, acc, dec, dt, c]| {
            movement::tick_movement_cyclic(p, v, target, max, acc, dec, dt, c).into()
        },
        |[p, .., c], r| match movement(r) {
            _ if !(c > 0.0 && c.is_finite()) => "no circle",
            "moving" if r.position < p && r.velocity > 0.0 => "moving over the seam",
            kind => kind,
        },
    );
}
