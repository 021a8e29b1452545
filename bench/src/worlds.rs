//! The worlds that are timed, each as a tape: its loading, then ticks. A line's car that can go is sent
//! to any other stop at once; a loop's cars are sent once, and go on from listed stop to listed stop.
//! So all are moving, passing stops or working their doors all the time.

use elevator_core::components::LineKind;
use elevator_core::study::{Motion, Phase, Study};
use inputs::Draw;
use ticks::player::{Answer, Player};
use ticks::record::Record;

/// The length of the line and of the loop, in metres.
const LENGTH: f64 = 256.0;
/// The length of a tick, in seconds.
const DT: f64 = 0.1;

#[derive(Clone, Copy)]
pub struct World {
    pub on_loop: bool,
    pub cars: usize,
    pub stops: usize,
    pub riders: usize,
}

/// Every world: a line and a loop, 1, 4 and 16 cars, 2, 16 and 64 stops; and the largest with all riders.
pub fn all() -> Vec<World> {
    let mut worlds = Vec::new();
    for on_loop in [false, true] {
        for cars in [1, 4, 16] {
            for stops in [2, 16, 64] {
                worlds.push(World {
                    on_loop,
                    cars,
                    stops,
                    riders: 0,
                });
            }
        }
        worlds.push(World {
            on_loop,
            cars: 16,
            stops: 64,
            riders: 128,
        });
    }
    worlds
}

/// A tape and what it holds.
pub struct Tape {
    pub records: Vec<Record>,
    pub log_words: usize,
}

impl Tape {
    pub fn words(&self) -> Vec<u32> {
        self.records.iter().flat_map(Record::words).collect()
    }

    pub fn bytes(&self) -> Vec<u8> {
        self.words().iter().flat_map(|w| w.to_le_bytes()).collect()
    }
}

impl World {
    pub fn name(&self) -> String {
        let kind = if self.on_loop { "loop" } else { "line" };
        let riders = match self.riders {
            0 => String::new(),
            n => format!(", {n} riders"),
        };
        format!("{kind}, {} cars, {} stops{riders}", self.cars, self.stops)
    }

    /// Its tape of so many ticks, made by the Rust, which says which car can go.
    pub fn tape(&self, ticks: usize) -> Tape {
        let mut draw = Draw::named(1, &self.name());
        let mut player = Player::new();
        let mut tape = Tape {
            records: Vec::new(),
            log_words: 0,
        };
        for record in self.loading(&mut draw) {
            tape.add(&mut player, record);
        }
        let mut sent = vec![0; self.cars];
        for _ in 0..ticks {
            for car in 0..self.cars {
                if player.free(car) {
                    let stop = self.another(&mut draw, sent[car]);
                    sent[car] = stop;
                    let send = Record::Send {
                        car,
                        stop,
                        reposition: false,
                    };
                    tape.add(&mut player, send);
                }
            }
            tape.add(&mut player, Record::Tick { dt: DT });
        }
        tape
    }

    /// Stops and, on a loop, cars at equal distances; the cars of a line begin at stops.
    fn loading(&self, draw: &mut Draw) -> Vec<Record> {
        let mut records = Vec::new();
        let apart = |count: usize, n: usize| LENGTH / count as f64 * n as f64;
        for number in 0..self.stops {
            let position = apart(self.stops, number);
            records.push(Record::Stop { number, position });
        }
        records.push(self.line());
        for number in 0..self.cars {
            let position = if self.on_loop {
                apart(self.cars, number)
            } else {
                apart(self.stops, number % self.stops)
            };
            records.push(Record::Car {
                number,
                line: 0,
                motion: Motion {
                    position,
                    velocity: 0.0,
                    max_speed: 2.4,
                    acceleration: 1.0,
                    deceleration: 1.0,
                    inspection_factor: 0.5,
                },
                transition_ticks: 5,
                open_ticks: 10,
            });
        }
        for number in 0..self.riders {
            let car = number % self.cars;
            records.push(Record::Rider {
                number,
                phase: Phase::Riding(car),
                destination: Some(draw.below(self.stops as u64) as usize),
                aboard: Some(car),
            });
        }
        records.push(Record::Start);
        records
    }

    fn line(&self) -> Record {
        let kind = LineKind::Loop {
            circumference: LENGTH,
            min_headway: 2.0,
        };
        Record::Line {
            number: 0,
            kind: if self.on_loop { kind } else { LineKind::Linear },
            serves: self
                .on_loop
                .then(|| (0..self.stops).step_by(self.listed()).collect()),
        }
    }

    /// Any stop but this one; on a loop one of its list.
    fn another(&self, draw: &mut Draw, stop: usize) -> usize {
        let listed = self.listed();
        let count = self.stops / listed;
        let further = 1 + draw.below(count as u64 - 1) as usize;
        (stop / listed + further) % count * listed
    }

    /// A loop of more than two stops lists every other one, and its cars pass the rest.
    fn listed(&self) -> usize {
        if self.on_loop && self.stops > 2 { 2 } else { 1 }
    }
}

impl Tape {
    fn add(&mut self, player: &mut Player, record: Record) {
        match player.take(&record) {
            Answer::Accepted => {}
            Answer::Ticked(words) => self.log_words += words.len(),
            Answer::Refused(number) => panic!("{record:?} is refused {number}"),
        }
        self.records.push(record);
    }
}

/// Gives the Rust a record of such a tape, but for the tick.
pub fn give(study: &mut Study, record: &Record) {
    match record {
        Record::Line { kind, serves, .. } => study.line(*kind, serves.as_deref()),
        Record::Stop { position, .. } => study.stop(*position),
        Record::Car {
            line,
            motion,
            transition_ticks,
            open_ticks,
            ..
        } => study.car(*line, *motion, *transition_ticks, *open_ticks),
        Record::Rider {
            number,
            phase,
            destination,
            aboard,
        } => study.rider(*number, *phase, *destination, *aboard),
        Record::Start => study.start(),
        Record::Send {
            car,
            stop,
            reposition,
        } => study.send(*car, *stop, *reposition),
        _ => panic!("no tape here has {record:?}"),
    }
}
