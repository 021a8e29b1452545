//! A tape's records and their words, as document 01 lays them out.

use elevator_core::components::{CallDirection, LineKind, ServiceMode};
use elevator_core::door::DoorCommand;
use elevator_core::study::{Motion, Phase};

/// 65,535: no list, no destination.
pub const NONE: u32 = 0xffff;
/// 255: no car.
pub const NO_CAR: u32 = 0xff;

pub const MODES: [ServiceMode; 5] = [
    ServiceMode::Normal,
    ServiceMode::Independent,
    ServiceMode::Inspection,
    ServiceMode::Manual,
    ServiceMode::OutOfService,
];

#[derive(Debug, Clone)]
pub enum Record {
    Line {
        number: usize,
        kind: LineKind,
        serves: Option<Vec<usize>>,
    },
    Stop {
        number: usize,
        position: f64,
    },
    Car {
        number: usize,
        line: usize,
        motion: Motion,
        transition_ticks: u32,
        open_ticks: u32,
    },
    Rider {
        number: usize,
        phase: Phase,
        destination: Option<usize>,
        aboard: Option<usize>,
    },
    Send {
        car: usize,
        stop: usize,
        reposition: bool,
    },
    Mode {
        car: usize,
        mode: ServiceMode,
    },
    ManualSpeed {
        car: usize,
        speed: Option<f64>,
    },
    Command {
        car: usize,
        command: DoorCommand,
    },
    HallCall {
        stop: usize,
        direction: CallDirection,
    },
    Destination {
        car: usize,
        stop: usize,
    },
    Enable {
        car: usize,
        enabled: bool,
    },
    Tick {
        dt: f64,
    },
    Start,
}

fn head(kind: u32, n: usize, s: usize, v: u32) -> Vec<u32> {
    vec![kind << 28 | (n as u32) << 24 | (s as u32) << 16 | v]
}

fn float(words: &mut Vec<u32>, x: f64) {
    let bits = x.to_bits();
    words.extend([(bits >> 32) as u32, bits as u32]);
}

fn floats(mut words: Vec<u32>, values: &[f64]) -> Vec<u32> {
    for &x in values {
        float(&mut words, x);
    }
    words
}

pub fn code_of(command: DoorCommand) -> (usize, u32) {
    match command {
        DoorCommand::Open => (0, 0),
        DoorCommand::Close => (1, 0),
        DoorCommand::HoldOpen { ticks } => (2, ticks),
        DoorCommand::CancelHold => (3, 0),
        _ => unreachable!("door.rs has four commands"),
    }
}

/// The phase's code and its car.
fn phase_codes(phase: Phase) -> (u32, Option<usize>) {
    match phase {
        Phase::Waiting => (0, None),
        Phase::Boarding(car) => (1, Some(car)),
        Phase::Riding(car) => (2, Some(car)),
        Phase::Exiting(car) => (3, Some(car)),
        Phase::Walking => (4, None),
        Phase::Arrived => (5, None),
        Phase::Abandoned => (6, None),
        Phase::Resident => (7, None),
    }
}

pub fn phase_of(code: u32, car: usize) -> Phase {
    match code {
        0 => Phase::Waiting,
        1 => Phase::Boarding(car),
        2 => Phase::Riding(car),
        3 => Phase::Exiting(car),
        4 => Phase::Walking,
        5 => Phase::Arrived,
        6 => Phase::Abandoned,
        _ => Phase::Resident,
    }
}

impl Record {
    pub fn words(&self) -> Vec<u32> {
        match self {
            Self::Line {
                number,
                kind,
                serves,
            } => {
                let count = serves.as_ref().map_or(NONE, |list| list.len() as u32);
                let mut words = match *kind {
                    LineKind::Linear => floats(head(1, *number, 0, count), &[0.0, 0.0]),
                    LineKind::Loop {
                        circumference,
                        min_headway,
                    } => floats(head(1, *number, 1, count), &[circumference, min_headway]),
                };
                words.extend(serves.iter().flatten().map(|&stop| stop as u32));
                words
            }
            Self::Stop { number, position } => floats(head(2, 0, *number, 0), &[*position]),
            Self::Car {
                number,
                line,
                motion: m,
                transition_ticks,
                open_ticks,
            } => {
                let mut words = floats(
                    head(3, *number, *line, 0),
                    &[
                        m.position,
                        m.velocity,
                        m.max_speed,
                        m.acceleration,
                        m.deceleration,
                        m.inspection_factor,
                    ],
                );
                words.extend([transition_ticks, open_ticks]);
                words
            }
            Self::Rider {
                number,
                phase,
                destination,
                aboard,
            } => {
                let car = |car: Option<usize>| car.map_or(NO_CAR, |n| n as u32);
                let (code, phase_car) = phase_codes(*phase);
                let mut words = head(4, 0, *number, destination.map_or(NONE, |s| s as u32));
                words.push(code | car(phase_car) << 8 | car(*aboard) << 16);
                words
            }
            Self::Send {
                car,
                stop,
                reposition,
            } => head(5, *car, *stop, u32::from(*reposition)),
            Self::Mode { car, mode } => {
                let code = MODES.iter().position(|m| m == mode).unwrap();
                head(6, *car, 0, code as u32)
            }
            Self::ManualSpeed { car, speed } => floats(
                head(7, *car, 0, u32::from(speed.is_some())),
                &[speed.unwrap_or(0.0)],
            ),
            Self::Command { car, command } => {
                let (code, ticks) = code_of(*command);
                head(8, *car, code, ticks)
            }
            Self::HallCall { stop, direction } => head(
                9,
                0,
                *stop,
                u32::from(matches!(direction, CallDirection::Down)),
            ),
            Self::Destination { car, stop } => head(0xA, *car, *stop, 0),
            Self::Enable { car, enabled } => head(0xB, *car, 0, u32::from(!enabled)),
            Self::Tick { dt } => floats(head(0xC, 0, 0, 0), &[*dt]),
            Self::Start => head(0xD, 0, 0, 0),
        }
    }

    /// Whether what follows names what this record loads, or waits for it: kinds 1 to 3 and D.
    pub fn loads(&self) -> bool {
        matches!(
            self,
            Self::Line { .. } | Self::Stop { .. } | Self::Car { .. } | Self::Start
        )
    }

    /// The next record of words that `check` takes; none at their end.
    pub fn read(words: &mut impl Iterator<Item = u32>) -> Option<Self> {
        let head = words.next()?;
        let mut word = || words.next().expect("a body is cut short");
        let n = (head >> 24 & 0xf) as usize;
        let s = (head >> 16 & 0xff) as usize;
        let v = head & 0xffff;
        let record = match head >> 28 {
            1 => {
                let [circumference, min_headway] = [(); 2].map(|()| read_float(&mut word));
                let kind = if s == 0 {
                    LineKind::Linear
                } else {
                    LineKind::Loop {
                        circumference,
                        min_headway,
                    }
                };
                let serves = (v != NONE).then(|| (0..v).map(|_| word() as usize).collect());
                Self::Line {
                    number: n,
                    kind,
                    serves,
                }
            }
            2 => Self::Stop {
                number: s,
                position: read_float(&mut word),
            },
            3 => {
                let [
                    position,
                    velocity,
                    max_speed,
                    acceleration,
                    deceleration,
                    inspection_factor,
                ] = [(); 6].map(|()| read_float(&mut word));
                Self::Car {
                    number: n,
                    line: s,
                    motion: Motion {
                        position,
                        velocity,
                        max_speed,
                        acceleration,
                        deceleration,
                        inspection_factor,
                    },
                    transition_ticks: word(),
                    open_ticks: word(),
                }
            }
            4 => {
                let [code, phase_car, aboard, _] = word().to_le_bytes().map(u32::from);
                Self::Rider {
                    number: s,
                    phase: phase_of(code, phase_car as usize),
                    destination: (v != NONE).then_some(v as usize),
                    aboard: (aboard != NO_CAR).then_some(aboard as usize),
                }
            }
            5 => Self::Send {
                car: n,
                stop: s,
                reposition: v == 1,
            },
            6 => Self::Mode {
                car: n,
                mode: MODES[v as usize],
            },
            7 => {
                let speed = read_float(&mut word);
                Self::ManualSpeed {
                    car: n,
                    speed: (v == 1).then_some(speed),
                }
            }
            8 => Self::Command {
                car: n,
                command: match s {
                    0 => DoorCommand::Open,
                    1 => DoorCommand::Close,
                    2 => DoorCommand::HoldOpen { ticks: v },
                    _ => DoorCommand::CancelHold,
                },
            },
            9 => Self::HallCall {
                stop: s,
                direction: if v == 0 {
                    CallDirection::Up
                } else {
                    CallDirection::Down
                },
            },
            0xA => Self::Destination { car: n, stop: s },
            0xB => Self::Enable {
                car: n,
                enabled: v == 0,
            },
            0xC => Self::Tick {
                dt: read_float(&mut word),
            },
            0xD => Self::Start,
            kind => panic!("no record of kind {kind}"),
        };
        Some(record)
    }
}

fn read_float(word: &mut impl FnMut() -> u32) -> f64 {
    let high = u64::from(word());
    f64::from_bits(high << 32 | u64::from(word()))
}
