//! The Rust's systems under a tape, and the text that they answer.

use std::fmt::Write;

use elevator_core::components::{CallDirection, ElevatorPhase, LineKind, ServiceMode};
use elevator_core::door::DoorState;
use elevator_core::study::{CarState, Motion, Phase, Study};

use crate::record::{Record, code_of};

/// The ticks that a tape may make: tick 268,435,455 is the last.
const TICKS: u64 = 1 << 28;
/// The words of the log that the study lends.
const LOG: usize = 2048;

/// A car as records told it.
#[derive(Debug, Clone)]
pub struct Told {
    pub line: usize,
    pub motion: Motion,
    pub mode: ServiceMode,
    pub speed: Option<f64>,
}

pub struct Line {
    pub kind: LineKind,
    pub serves: Option<Vec<usize>>,
}

pub enum Answer {
    Accepted,
    Refused(u32),
    /// A tick's log words.
    Ticked(Vec<u32>),
}

/// A world and the records that made it.
pub struct Player {
    pub study: Study,
    pub stops: Vec<f64>,
    pub lines: Vec<Line>,
    pub cars: Vec<Told>,
    pub riders: usize,
    pub started: bool,
    pub ticks: u64,
}

/// The numbers that a record names beside its own.
#[derive(Default)]
struct Named {
    lines: Vec<usize>,
    stops: Vec<usize>,
    cars: Vec<usize>,
}

impl Player {
    pub fn new() -> Self {
        Self {
            study: Study::new(),
            stops: Vec::new(),
            lines: Vec::new(),
            cars: Vec::new(),
            riders: 0,
            started: false,
            ticks: 0,
        }
    }

    /// Takes a record, unless one of the refusals 6 to 12 holds.
    pub fn take(&mut self, record: &Record) -> Answer {
        if let Some(number) = self.refusal(record) {
            return Answer::Refused(number);
        }
        match record {
            Record::Line { kind, serves, .. } => {
                self.study.line(*kind, serves.as_deref());
                self.lines.push(Line {
                    kind: *kind,
                    serves: serves.clone(),
                });
            }
            Record::Stop { position, .. } => {
                self.study.stop(*position);
                self.stops.push(*position);
            }
            Record::Car {
                line,
                motion,
                transition_ticks,
                open_ticks,
                ..
            } => {
                self.study
                    .car(*line, *motion, *transition_ticks, *open_ticks);
                self.cars.push(Told {
                    line: *line,
                    motion: *motion,
                    mode: ServiceMode::Normal,
                    speed: None,
                });
            }
            Record::Rider {
                number,
                phase,
                destination,
                aboard,
            } => {
                self.study.rider(*number, *phase, *destination, *aboard);
                self.riders = self.riders.max(number + 1);
            }
            Record::Start => {
                self.study.start();
                self.started = true;
            }
            Record::Tick { dt } => {
                self.ticks += 1;
                return Answer::Ticked(self.study.tick(*dt));
            }
            _ => self.order(record),
        }
        Answer::Accepted
    }

    /// Kinds 5 to B.
    fn order(&mut self, record: &Record) {
        match *record {
            Record::Send {
                car,
                stop,
                reposition,
            } => self.study.send(car, stop, reposition),
            Record::Mode { car, mode } => {
                self.study.set_mode(car, mode);
                self.cars[car].mode = mode;
            }
            Record::ManualSpeed { car, speed } => {
                self.study.set_manual_speed(car, speed);
                self.cars[car].speed = speed;
            }
            Record::Command { car, command } => self.study.door_command(car, command),
            Record::HallCall { stop, direction } => self.study.hall_call(stop, direction),
            Record::Destination { car, stop } => self.study.destination(car, stop),
            Record::Enable { car, enabled } => self.study.set_enabled(car, enabled),
            _ => unreachable!("taken before"),
        }
    }

    /// The first refusal that the state brings, in the order of the numbers.
    fn refusal(&self, record: &Record) -> Option<u32> {
        if self.out_of_turn(record) {
            return Some(6);
        }
        if self.out_of_order(record) {
            return Some(7);
        }
        if self.names_unloaded(record) {
            return Some(8);
        }
        match *record {
            Record::Send { car, .. } if !self.free(car) => Some(9),
            Record::Command { car, .. } if self.study.car_state(car).commands.len() >= 8 => {
                Some(10)
            }
            Record::Destination { car, .. }
                if self.study.car_state(car).destinations.len() >= 8 =>
            {
                Some(10)
            }
            Record::Tick { .. } if self.ticks >= TICKS => Some(11),
            Record::Tick { .. } if LOG < self.cars.len() * (self.stops.len() + 14) + 1 => Some(12),
            _ => None,
        }
    }

    /// Refusal 6: kinds 1, 2, 3 and D after start, 5 to C before it.
    fn out_of_turn(&self, record: &Record) -> bool {
        match record {
            Record::Rider { .. } => false,
            _ => record.loads() == self.started,
        }
    }

    /// Refusal 7: a number above the next unused one; for kinds 1 to 3 also one below it.
    fn out_of_order(&self, record: &Record) -> bool {
        match *record {
            Record::Line { number, .. } => number != self.lines.len(),
            Record::Stop { number, .. } => number != self.stops.len(),
            Record::Car { number, .. } => number != self.cars.len(),
            Record::Rider { number, .. } => number > self.riders,
            _ => false,
        }
    }

    /// Refusal 8: a car, stop or line named but not loaded.
    fn names_unloaded(&self, record: &Record) -> bool {
        let named = Named::by(record);
        named.lines.iter().any(|&line| line >= self.lines.len())
            || named.stops.iter().any(|&stop| stop >= self.stops.len())
            || named.cars.iter().any(|&car| car >= self.cars.len())
    }

    /// Whether a send to the car is taken.
    pub fn free(&self, car: usize) -> bool {
        let state = self.study.car_state(car);
        let free = matches!(state.phase, ElevatorPhase::Idle | ElevatorPhase::Stopped);
        free && !state.disabled
    }

    pub fn car_states(&self) -> Vec<CarState> {
        (0..self.cars.len())
            .map(|car| self.study.car_state(car))
            .collect()
    }

    /// The hall calls of a direction as a set.
    pub fn calls(&self, direction: CallDirection) -> u64 {
        (0..self.stops.len())
            .map(|stop| u64::from(self.study.called(stop, direction)) << stop)
            .sum()
    }

    /// How many hall calls stand.
    pub fn waiting(&self) -> u32 {
        self.calls(CallDirection::Up).count_ones() + self.calls(CallDirection::Down).count_ones()
    }

    /// A tick's lines: its words, a line a car, the world's counters and calls.
    pub fn show(&self, words: &[u32], text: &mut String) {
        let shown: String = words.iter().map(|word| format!("{word:08x} ")).collect();
        writeln!(text, "{shown}").unwrap();
        for state in self.car_states() {
            show_car(&state, text);
        }
        writeln!(
            text,
            "{} {} {} {}",
            number(self.study.total_moves()),
            bits(self.study.reposition_distance()),
            number(self.calls(CallDirection::Up)),
            number(self.calls(CallDirection::Down)),
        )
        .unwrap();
    }
}

impl Named {
    fn by(record: &Record) -> Self {
        let mut named = Self::default();
        match record {
            Record::Line { serves, .. } => named.stops.extend(serves.iter().flatten()),
            Record::Car { line, .. } => named.lines.push(*line),
            Record::Rider {
                phase,
                destination,
                aboard,
                ..
            } => {
                named.stops.extend(destination);
                named.cars.extend(aboard);
                if let Phase::Boarding(car) | Phase::Riding(car) | Phase::Exiting(car) = phase {
                    named.cars.push(*car);
                }
            }
            Record::Send { car, stop, .. } | Record::Destination { car, stop } => {
                named.cars.push(*car);
                named.stops.push(*stop);
            }
            Record::Mode { car, .. }
            | Record::ManualSpeed { car, .. }
            | Record::Command { car, .. }
            | Record::Enable { car, .. } => named.cars.push(*car),
            Record::HallCall { stop, .. } => named.stops.push(*stop),
            Record::Stop { .. } | Record::Tick { .. } | Record::Start => {}
        }
        named
    }
}

/// 16 digits; any NaN is the positive quiet one.
fn bits(x: f64) -> String {
    let bits = if x.is_nan() {
        0x7ff8_0000_0000_0000
    } else {
        x.to_bits()
    };
    format!("{bits:016x}")
}

/// In one digit, 8 or 16.
fn number(n: impl Into<u64>) -> String {
    match n.into() {
        n @ 0..=15 => format!("{n:x}"),
        n @ ..=0xffff_ffff => format!("{n:08x}"),
        n => format!("{n:016x}"),
    }
}

/// The phase's number in the order of elevator.rs.
pub fn phase_number(phase: ElevatorPhase) -> usize {
    match phase {
        ElevatorPhase::Idle => 0,
        ElevatorPhase::MovingToStop(_) => 1,
        ElevatorPhase::Repositioning(_) => 2,
        ElevatorPhase::DoorOpening => 3,
        ElevatorPhase::Loading => 4,
        ElevatorPhase::DoorClosing => 5,
        ElevatorPhase::Stopped => 6,
        _ => unreachable!("elevator.rs has seven phases"),
    }
}

fn door(state: DoorState) -> String {
    match state {
        DoorState::Closed => "0".to_string(),
        DoorState::Opening {
            ticks_remaining,
            open_duration,
            close_duration,
        } => numbers(1, &[ticks_remaining, open_duration, close_duration]),
        DoorState::Open {
            ticks_remaining,
            close_duration,
        } => numbers(2, &[ticks_remaining, close_duration]),
        DoorState::Closing { ticks_remaining } => numbers(3, &[ticks_remaining]),
        _ => unreachable!("door.rs has four states"),
    }
}

fn numbers(state: u32, fields: &[u32]) -> String {
    let fields = fields.iter().map(|&n| format!(",{}", number(n)));
    format!("{state}{}", fields.collect::<String>())
}

/// A car's line: position, velocity, phase with its stop, door, lamps and the repositioning flag,
/// target, destinations, commands, moves, cooldown.
fn show_car(car: &CarState, text: &mut String) {
    let two = |stop: usize| format!("{stop:02x}");
    let marks = [
        car.going_up,
        car.going_down,
        car.going_forward,
        car.repositioning,
    ]
    .into_iter()
    .fold(0, |digit, mark| 2 * digit + u32::from(mark));
    let destinations: String = car.destinations.iter().map(|&s| two(s)).collect();
    let commands: String = car
        .commands
        .iter()
        .map(|&command| {
            let (code, ticks) = code_of(command);
            format!("{code}{ticks:04x}")
        })
        .collect();
    writeln!(
        text,
        "{} {} {}{} {} {marks:x} {} d{destinations} q{commands} {} {}",
        bits(car.position),
        bits(car.velocity),
        phase_number(car.phase),
        car.phase_stop.map_or(String::new(), two),
        door(car.door),
        car.target.map_or("-".to_string(), two),
        number(car.moves),
        car.cooldown.map_or("-".to_string(), number),
    )
    .unwrap();
}
