//! Random tapes, whose sends follow the Rust's world.

use elevator_core::components::{CallDirection, LineKind};
use elevator_core::door::DoorCommand;
use elevator_core::study::Motion;
use inputs::Draw;

use crate::player::{Answer, Player};
use crate::record::{MODES, Record, phase_of};

/// A name and the words of its records.
pub struct Tape {
    pub name: String,
    pub words: Vec<u32>,
}

/// Where lengths, speeds and tick lengths of a tape come from.
#[derive(Debug, Clone, Copy, PartialEq)]
enum Scale {
    /// Multiples of 0.25, so that places meet.
    Grid,
    /// Plausible numbers.
    Usual,
    /// About 1e-9, the EPSILON of movement.rs.
    Tiny,
    /// The ranges' ends.
    Large,
}

/// How long a tape is.
#[derive(Clone, Copy)]
pub struct Size {
    pub ticks: [u64; 2],
    pub cars: u64,
    pub stops: u64,
    /// One tape in so many has 16 cars, one 64 stops, one 128 riders, one 8 lines.
    pub full_in: u64,
    /// So many times rarer than usual an order is one that may be refused.
    pub patience: u64,
}

pub const LONG: Size = Size {
    ticks: [10, 60],
    cars: 5,
    stops: 8,
    full_in: 25,
    patience: 1,
};

pub const SHORT: Size = Size {
    ticks: [2, 8],
    cars: 2,
    stops: 4,
    full_in: 1_000_000,
    patience: 1,
};

/// 1 to 16 cars, 1 to 64 stops.
pub const WIDE: Size = Size {
    ticks: [5, 120],
    cars: 16,
    stops: 64,
    full_in: 25,
    patience: 4,
};

/// Thousands of ticks.
pub const ENDLESS: Size = Size {
    ticks: [1000, 7000],
    cars: 4,
    stops: 10,
    full_in: 50,
    patience: 100_000,
};

struct Maker {
    draw: Draw,
    size: Size,
    scale: Scale,
    /// The circumference of most loops.
    circle: f64,
    dt: f64,
    player: Player,
    refused: bool,
    tape: Tape,
}

/// Tape `number` of a seed.
pub fn make(seed: u64, number: u64, size: Size) -> Tape {
    let mut draw = Draw::named(seed.wrapping_add(number << 20), "tape");
    let scale = draw.one_of(&[
        Scale::Grid,
        Scale::Grid,
        Scale::Usual,
        Scale::Usual,
        Scale::Tiny,
        Scale::Large,
    ]);
    let mut maker = Maker {
        draw,
        size,
        scale,
        circle: 0.0,
        dt: 0.0,
        player: Player::new(),
        refused: false,
        tape: Tape {
            name: format!("tape {number} {scale:?}"),
            words: Vec::new(),
        },
    };
    maker.build();
    maker.play();
    maker.tape
}

impl Maker {
    fn take(&mut self, record: Record) {
        if self.refused {
            return;
        }
        self.tape.words.extend(record.words());
        self.refused = matches!(self.player.take(&record), Answer::Refused(_));
    }

    // Numbers.

    /// A length from 0 on.
    fn length(&mut self) -> f64 {
        let draw = &mut self.draw;
        match self.scale {
            Scale::Grid => 0.25 * draw.below(64) as f64,
            Scale::Usual => 40.0 * draw.unit(),
            Scale::Tiny => match draw.below(3) {
                0 => 1e-9 * (0.1 * draw.below(200) as f64),
                1 => 0.7e-9 * draw.below(20) as f64,
                _ => 2e-8 * draw.unit(),
            },
            Scale::Large => match draw.below(4) {
                0 => 1e6,
                1 => 1e6 * (1.0 - 1e-12 * draw.unit()),
                _ => 1e6 * draw.unit(),
            },
        }
    }

    fn circumference(&mut self) -> f64 {
        let length = self.length();
        match self.scale {
            Scale::Grid => length.max(1.0),
            Scale::Usual => length.max(0.5),
            Scale::Tiny => match self.draw.below(3) {
                0 => 1.0,
                1 => 10.0,
                _ => length.max(2e-9),
            },
            Scale::Large => length.max(1.0),
        }
    }

    /// A place for a stop or a car: also on a stop, near one, at the seam, outside the circle.
    fn place(&mut self) -> f64 {
        let c = self.circle;
        let place = match self.draw.below(16) {
            0 | 1 => self.at_stop(),
            2 => self.at_stop() + self.draw.epsilon(),
            3 => self.draw.one_of(&[0.0, -0.0, c, -c]),
            4 => {
                let off = self.length();
                let off = if self.scale == Scale::Tiny {
                    off
                } else {
                    self.draw.epsilon()
                };
                c - off
            }
            5 => f64::from_bits(c.to_bits() - 1),
            6 => -self.length(),
            7 => c + self.length(),
            8 => self.draw.epsilon(),
            9 => self.at_stop() + self.draw.within(2e-6),
            _ => self.length(),
        };
        place.clamp(-1e6, 1e6)
    }

    fn at_stop(&mut self) -> f64 {
        match self.player.stops.len() {
            0 => 0.0,
            n => self.player.stops[self.draw.below(n as u64) as usize],
        }
    }

    /// A speed from 0 on: a few lengths a tape.
    fn speed(&mut self) -> f64 {
        let dt = self.dt;
        let speed = match self.scale {
            Scale::Grid => 0.25 * self.draw.below(17) as f64,
            Scale::Usual => 8.0 * self.draw.unit(),
            Scale::Tiny => self.draw.one_of(&[1.5e-9, 1e-9, 2e-9, 0.5e-9, 4e-9]) / dt,
            Scale::Large => 1000.0 * self.draw.unit(),
        };
        match self.draw.below(16) {
            0 => 1000.0,
            1 => 2e-9 * self.draw.unit() / dt,
            _ => speed,
        }
        .min(1000.0)
    }

    /// A rate of acceleration or deceleration.
    fn rate(&mut self) -> f64 {
        match self.draw.below(24) {
            0 => self.draw.one_of(&[0.0, -0.0]),
            1 => 1000.0,
            2 => self.draw.unit() * 1e-9,
            _ => match self.scale {
                Scale::Grid => 0.25 * (1 + self.draw.below(8)) as f64,
                Scale::Usual => 4.0 * self.draw.unit(),
                Scale::Tiny => (self.speed() / self.dt).min(1000.0),
                Scale::Large => 300.0 * self.draw.unit(),
            },
        }
    }

    fn tick_length(&mut self) -> f64 {
        match self.scale {
            Scale::Grid => self.draw.one_of(&[0.25, 0.5, 0.5, 1.0]),
            Scale::Usual => self
                .draw
                .one_of(&[0.1, 0.05, 1.0 / 60.0, 0.5, 1.0, 1e-3, 1e-12]),
            Scale::Tiny => self
                .draw
                .one_of(&[1.0, 1.0, 1.0, 0.5, 0.25, 1e-12, 1e-9, 5e-324]),
            Scale::Large => self.draw.one_of(&[1.0, 1.0, 0.5, 1.0 / 60.0]),
        }
    }

    // The world.

    fn build(&mut self) {
        self.dt = self.tick_length();
        self.circle = self.circumference();
        let stops = match self.scale {
            Scale::Tiny => (3 * self.size.stops).min(64),
            _ => self.size.stops,
        };
        for number in 0..self.count(stops, 64) {
            let position = self.place();
            self.take(Record::Stop { number, position });
        }
        let lines = if self.draw.once_in(3) { 2 } else { 1 };
        for number in 0..self.count(lines, 8) {
            self.line(number);
        }
        for number in 0..self.count(self.size.cars, 16) {
            self.car(number);
        }
        for number in 0..self.count(4, 128) {
            self.rider(number);
        }
        self.take(Record::Start);
    }

    /// 1 to few, now and then all.
    fn count(&mut self, few: u64, all: usize) -> usize {
        if self.draw.once_in(self.size.full_in) {
            all
        } else {
            1 + self.draw.below(few) as usize
        }
    }

    fn line(&mut self, number: usize) {
        let kind = if self.draw.below(5) < 2 {
            LineKind::Linear
        } else {
            let circumference = if self.draw.once_in(5) {
                self.circumference()
            } else {
                self.circle
            };
            let min_headway = match self.draw.below(10) {
                0..=3 => 0.0,
                4 => -0.0,
                5 => self.length(),
                6 | 7 => 2e-9 * self.draw.unit(),
                _ => 0.05 * self.length(),
            };
            LineKind::Loop {
                circumference,
                min_headway,
            }
        };
        let stops = self.player.stops.len() as u64;
        let serves = match self.draw.below(12) {
            0 | 1 => None,
            2 => Some(Vec::new()),
            3..=5 => Some((0..stops as usize).collect()),
            _ => {
                let count = 1 + self.draw.below(2 * stops).min(63);
                Some(
                    (0..count)
                        .map(|_| self.draw.below(stops) as usize)
                        .collect(),
                )
            }
        };
        self.take(Record::Line {
            number,
            kind,
            serves,
        });
    }

    fn car(&mut self, number: usize) {
        let position = match number {
            0 => self.place(),
            _ if self.draw.once_in(4) => {
                let other = self.draw.below(number as u64) as usize;
                self.player.cars[other].motion.position
            }
            _ => self.place(),
        };
        let max_speed = match self.draw.below(20) {
            0 => self.draw.one_of(&[0.0, -0.0]),
            _ => self.speed(),
        };
        let velocity = match self.draw.below(12) {
            0 | 1 => self.speed(),
            2 => -self.speed(),
            3 => self.draw.one_of(&[-0.0, max_speed, max_speed, -max_speed]),
            _ => 0.0,
        };
        let motion = Motion {
            position,
            velocity,
            max_speed,
            acceleration: self.rate(),
            deceleration: self.rate(),
            inspection_factor: self.draw.one_of(&[1.0, 0.25, 0.5, 0.0, 10.0, -0.0]),
        };
        let lines = self.player.lines.len() as u64;
        let record = Record::Car {
            number,
            line: self.draw.below(lines) as usize,
            motion,
            transition_ticks: self.door_time(),
            open_ticks: self.door_time(),
        };
        self.take(record);
    }

    fn door_time(&mut self) -> u32 {
        match self.draw.below(24) {
            0 => u32::MAX,
            1 => u32::MAX - self.draw.below(100_000) as u32,
            2..=6 => 0,
            7..=16 => 1 + self.draw.below(2) as u32,
            _ => self.draw.below(7) as u32,
        }
    }

    fn rider(&mut self, number: usize) {
        let cars = self.player.cars.len() as u64;
        let code = self.draw.one_of(&[0, 1, 2, 3, 4, 5, 6, 7, 1, 2, 3]);
        let phase = phase_of(code, self.draw.below(cars) as usize);
        let destination = Some(self.any_stop()).filter(|_| self.draw.below(5) > 0);
        let aboard = Some(self.draw.below(cars) as usize).filter(|_| self.draw.below(3) > 0);
        self.take(Record::Rider {
            number,
            phase,
            destination,
            aboard,
        });
    }

    fn any_stop(&mut self) -> usize {
        self.draw.below(self.player.stops.len() as u64) as usize
    }

    fn any_car(&mut self) -> usize {
        self.draw.below(self.player.cars.len() as u64) as usize
    }

    // The ticks.

    fn play(&mut self) {
        for car in 0..self.player.cars.len() {
            match self.draw.below(10) {
                0..=5 => self.send(car),
                6 | 7 => self.drive(car),
                8 => self.command(car),
                _ => {}
            }
        }
        let [least, most] = self.size.ticks;
        for _ in 0..least + self.draw.below(most - least + 1) {
            let orders = match self.draw.below(8) {
                0..=3 => self.draw.below(2),
                4..=6 => self.draw.below(4),
                _ => self.draw.below(10),
            };
            for _ in 0..orders {
                self.order();
            }
            let dt = if self.draw.once_in(30) {
                self.tick_length()
            } else {
                self.dt
            };
            self.take(Record::Tick { dt });
        }
    }

    fn order(&mut self) {
        let car = self.any_car();
        match self.draw.below(40) {
            0..=13 => self.send_free(car),
            14 | 15 => self.mode(car),
            16 | 17 => self.manual_speed(car),
            18..=25 => self.command(car),
            26..=30 => self.hall_call(car),
            31..=34 => self.destination(car),
            35 => {
                let enabled = self.draw.below(5) > 1;
                self.take(Record::Enable { car, enabled });
            }
            36 => self.take(Record::Enable { car, enabled: true }),
            37 => self.drive(car),
            _ => {
                let riders = self.player.riders as u64;
                let number = self.draw.below((riders + 1).min(128)) as usize;
                self.rider(number);
            }
        }
    }

    /// Sends the next free car; now and then one that may not be free.
    fn send_free(&mut self, car: usize) {
        let cars = self.player.cars.len();
        let free = (car..car + cars)
            .map(|n| n % cars)
            .find(|&n| self.player.free(n));
        match free {
            Some(car) => self.send(car),
            None if self.draw.once_in(300 * self.size.patience) => self.send(car),
            None => {}
        }
    }

    fn send(&mut self, car: usize) {
        let stop = self.any_stop();
        let reposition = self.draw.once_in(4);
        self.take(Record::Send {
            car,
            stop,
            reposition,
        });
    }

    fn mode(&mut self, car: usize) {
        let mode = match self.draw.below(3) {
            0 => MODES[0],
            _ => self.draw.one_of(&MODES),
        };
        self.take(Record::Mode { car, mode });
    }

    fn manual_speed(&mut self, car: usize) {
        let speed = match self.draw.below(8) {
            0 => None,
            1 => Some(self.draw.one_of(&[0.0, -0.0, 1000.0, -1000.0])),
            2 | 3 => Some(-self.speed()),
            _ => Some(self.speed()),
        };
        self.take(Record::ManualSpeed { car, speed });
    }

    /// Manual mode with a speed.
    fn drive(&mut self, car: usize) {
        self.take(Record::Mode {
            car,
            mode: MODES[3],
        });
        self.manual_speed(car);
    }

    /// A door command; now and then as many as fit.
    fn command(&mut self, car: usize) {
        let held = self.player.study.car_state(car).commands.len() as u64;
        let past = self.draw.once_in(200 * self.size.patience);
        let room = if past { 9 } else { 8 } - held.min(8);
        let count = match self.draw.below(12) {
            0 => room,
            1 | 2 => self.draw.below(4).min(room),
            _ => room.min(1),
        };
        for _ in 0..count {
            let ticks = match self.draw.below(4) {
                0 => 65_535,
                1 => 0,
                _ => self.draw.below(6) as u32,
            };
            let command = self.draw.one_of(&[
                DoorCommand::Open,
                DoorCommand::Close,
                DoorCommand::HoldOpen { ticks },
                DoorCommand::HoldOpen { ticks },
                DoorCommand::CancelHold,
            ]);
            self.take(Record::Command { car, command });
        }
    }

    /// A call, more often than not where a car goes.
    fn hall_call(&mut self, car: usize) {
        let target = self.player.study.car_state(car).target;
        let stop = match target {
            Some(stop) if self.draw.below(4) > 0 => stop,
            _ => self.any_stop(),
        };
        let direction = self.draw.one_of(&[CallDirection::Up, CallDirection::Down]);
        self.take(Record::HallCall { stop, direction });
    }

    fn destination(&mut self, car: usize) {
        let state = self.player.study.car_state(car);
        let room = state.destinations.len() < 8 || self.draw.once_in(20 * self.size.patience);
        if room {
            let stop = match state.target {
                Some(stop) if self.draw.once_in(2) => stop,
                _ => self.any_stop(),
            };
            self.take(Record::Destination { car, stop });
        }
    }
}
