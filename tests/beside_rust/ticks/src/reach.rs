//! What a tick reached, told from the world before it, the world after it and its words.

use std::collections::BTreeMap;

use elevator_core::components::{CallDirection, ElevatorPhase, LineKind, ServiceMode, cyclic};
use elevator_core::door::{DoorCommand, DoorState};
use elevator_core::movement;
use elevator_core::study::CarState;

use crate::player::{Player, phase_number};
use crate::record::code_of;

/// EPSILON of movement.rs.
const EPSILON: f64 = 1e-9;

const WORDS: [&str; 11] = [
    "word tick",
    "word passing",
    "word arrived",
    "word repositioned",
    "word idle",
    "word lamps",
    "word opened",
    "word closed",
    "word departed",
    "word cleared",
    "word command",
];

const PHASES: [&str; 7] = [
    "Idle",
    "MovingToStop",
    "Repositioning",
    "DoorOpening",
    "Loading",
    "DoorClosing",
    "Stopped",
];

const COMMANDS: [&str; 4] = ["Open", "Close", "HoldOpen", "CancelHold"];

/// How often each branch was reached.
#[derive(Default)]
pub struct Reach {
    pub counts: BTreeMap<String, u64>,
}

/// What is kept of the world before a tick.
pub struct Before {
    cars: Vec<CarState>,
    calls: [u64; 2],
    distance: f64,
    panics: u64,
}

const DIRECTIONS: [CallDirection; 2] = [CallDirection::Up, CallDirection::Down];

impl Before {
    pub fn of(player: &Player) -> Self {
        Self {
            cars: player.car_states(),
            calls: DIRECTIONS.map(|direction| player.calls(direction)),
            distance: player.study.reposition_distance(),
            panics: player.study.panics(),
        }
    }
}

/// One car's part of a tick.
struct Part<'a> {
    player: &'a Player,
    before: &'a Before,
    number: usize,
    old: &'a CarState,
    new: &'a CarState,
    /// The car's own words.
    words: Vec<u32>,
    /// Positions that the car's movement met.
    met: Vec<f64>,
}

impl Reach {
    fn mark(&mut self, name: impl Into<String>) {
        *self.counts.entry(name.into()).or_default() += 1;
    }

    fn mark_if(&mut self, condition: bool, name: &str) {
        if condition {
            self.mark(name);
        }
    }

    pub fn add(&mut self, other: &Self) {
        for (name, n) in &other.counts {
            *self.counts.entry(name.clone()).or_default() += n;
        }
    }

    /// Each branch counted once.
    pub fn once(&self) -> Self {
        let counts = self.counts.keys().map(|name| (name.clone(), 1)).collect();
        Self { counts }
    }

    /// The branches reached here that `other` has fewer than `wanted` times.
    pub fn below(&self, other: &Self, wanted: u64) -> Vec<String> {
        let known = |name: &String| other.counts.get(name).copied().unwrap_or(0);
        let names = self.counts.keys();
        names.filter(|name| known(name) < wanted).cloned().collect()
    }

    pub fn has_all(&self, names: &[String]) -> bool {
        names.iter().all(|name| self.counts.contains_key(name))
    }

    pub fn refused(&mut self, number: u32) {
        self.mark(format!("refused {number}"));
    }

    /// One tick.
    pub fn tick(&mut self, before: &Before, player: &Player, words: &[u32], dt: f64) {
        let after = player.car_states();
        for word in words {
            self.mark(WORDS[(word >> 28) as usize]);
        }
        let panics = player.study.panics() - before.panics;
        self.mark_if(panics > 0, "range: ends before it begins (the Rust panics)");
        self.mark_if(
            panics > 0 && words.iter().any(|w| w >> 28 == 1),
            "range: ends before it begins, and a passing word in the tick",
        );
        self.mark_if(dt <= 1e-9, "tiny dt");
        let opened: Vec<Option<usize>> = words
            .iter()
            .filter(|&word| word >> 28 == 6)
            .map(|word| before.cars[(word >> 24 & 15) as usize].target)
            .collect();
        self.mark_if(
            (1..opened.len()).any(|i| opened[i].is_some() && opened[..i].contains(&opened[i])),
            "doors: two cars open at one stop",
        );
        let mut met: Vec<f64> = before.cars.iter().map(|car| car.position).collect();
        for (number, (old, new)) in before.cars.iter().zip(&after).enumerate() {
            let part = Part {
                player,
                before,
                number,
                old,
                new,
                words: car_words(words, number),
                met: met.clone(),
            };
            if old.disabled {
                self.mark("disabled car skipped");
            } else {
                self.movement(&part);
                self.commands(&part);
                self.doors(&part);
            }
            met[number] = new.position;
        }
    }

    fn movement(&mut self, part: &Part) {
        let told = &part.player.cars[part.number];
        match told.mode {
            ServiceMode::Manual => return self.manual(part),
            ServiceMode::Normal => {}
            mode => self.mark(format!("moves in mode {mode:?}").as_str()),
        }
        let Some(stop) = part.old.phase_stop else {
            return;
        };
        let target = part.player.stops[stop];
        let arrived = part.has(2) || part.has(3);
        match part.kind() {
            LineKind::Linear => self.linear(part, target, arrived),
            LineKind::Loop { circumference, .. } => {
                self.on_loop(part, target, arrived, circumference)
            }
        }
        let passed = part.words.iter().filter(|w| *w >> 28 == 1).count();
        self.mark_if(passed > 1, "passing: several stops in a tick");
        self.arrival(part, stop, arrived);
        let moved = part.player.study.reposition_distance() != part.before.distance;
        let repositioning = matches!(part.old.phase, ElevatorPhase::Repositioning(_));
        self.mark_if(repositioning && moved, "reposition: distance grows");
        self.mark_if(
            repositioning && !moved && arrived,
            "reposition: arrives with no distance",
        );
    }

    fn linear(&mut self, part: &Part, target: f64, arrived: bool) {
        let (old, new) = (part.old, part.new);
        let at_rest = old.position == target && old.velocity == 0.0;
        self.mark_if(arrived && at_rest, "linear: arrives where it stands");
        self.mark_if(!arrived && new.position > old.position, "linear: up");
        self.mark_if(!arrived && new.position < old.position, "linear: down");
        let away = (target - old.position) * old.velocity < 0.0;
        self.mark_if(away, "linear: brakes, moving away");
        let end = 1e-9 < (new.position - old.position).abs();
        let at_stop = part.player.stops.iter().any(|&p| p == new.position);
        self.mark_if(!arrived && end && at_stop, "linear: a tick ends on a stop");
    }

    fn on_loop(&mut self, part: &Part, target: f64, arrived: bool, c: f64) {
        let (old, new) = (part.old, part.new);
        let wrapped = cyclic::wrap_position(target, c);
        let outside = old.position < 0.0 || old.position >= c;
        self.mark_if(outside, "loop: begins outside [0, c)");
        let seam = !arrived && new.position < old.position;
        if seam {
            let back = new.velocity < 0.0 || old.velocity < 0.0;
            self.mark(if back {
                "loop: seam counted, moving back"
            } else {
                "loop: seam crossed"
            });
            self.mark_if(new.position <= EPSILON, "loop: seam ends within 1e-9 of 0");
            let swept = |p: f64| p > old.position + EPSILON && p < c - EPSILON;
            self.mark_if(
                part.player.stops.iter().any(|&p| p == 0.0) && new.position > EPSILON,
                "loop: seam over a stop at 0",
            );
            self.mark_if(
                swept(target),
                "loop: target skipped in a seam's first range",
            );
            self.mark_if(
                target > -EPSILON && target < new.position - EPSILON,
                "loop: target skipped in a seam's second range",
            );
        } else if !arrived {
            self.mark("loop: forward");
        }
        let Some((leader, clamped)) = part.clamp(target) else {
            self.mark("loop: no other car");
            return;
        };
        self.mark_if(part.ties(), "leader: tie");
        if clamped.to_bits() == wrapped.to_bits() {
            return;
        }
        self.mark("clamp: engaged");
        let held = cyclic::wrap_position(old.position, c);
        self.mark_if(clamped == held, "clamp: held in place");
        self.mark_if(arrived, "clamp: arrives there");
        self.mark_if(part.before.cars[leader].disabled, "clamp: leader disabled");
        let moved = part.met[leader] != part.before.cars[leader].position;
        self.mark_if(moved, "clamp: leader moved this tick");
        let coincident = part.met[leader] == old.position;
        self.mark_if(coincident, "clamp: coincident leader");
    }

    fn arrival(&mut self, part: &Part, stop: usize, arrived: bool) {
        if !arrived {
            return;
        }
        let (old, new) = (part.old, part.new);
        self.mark_if(
            old.destinations.first() == Some(&stop),
            "arrival: front of the queue taken",
        );
        self.mark_if(
            old.destinations.first().is_some_and(|&s| s != stop),
            "arrival: front of the queue is another",
        );
        if part.has(2) && matches!(part.kind(), LineKind::Linear) {
            let lamps = match (new.going_up, new.going_down) {
                (true, true) => "both",
                (true, false) => "up",
                (false, true) => "down",
                (false, false) => "none",
            };
            self.mark(format!("arrival: lamps {lamps}"));
        }
    }

    fn manual(&mut self, part: &Part) {
        let (old, new) = (part.old, part.new);
        let told = &part.player.cars[part.number];
        self.mark_if(told.speed.is_none(), "manual: no speed set");
        let limit = told.motion.max_speed;
        self.mark_if(
            told.speed.is_some_and(|v| v.abs() > limit),
            "manual: speed limited",
        );
        let passed = |stop: usize| part.words.iter().any(|w| w >> 16 & 0xff == stop as u32);
        self.mark_if(
            part.has(1) && old.phase_stop.is_some_and(passed),
            "manual: passes the target",
        );
        let LineKind::Loop { circumference, .. } = part.kind() else {
            self.mark_if(new.position > old.position, "manual: up");
            self.mark_if(new.position < old.position, "manual: down");
            return;
        };
        let forward = new.velocity >= 0.0;
        self.mark_if(
            new.position < old.position && forward,
            "manual: loop, seam crossed",
        );
        self.mark_if(
            new.position < old.position && !forward,
            "manual: loop, back",
        );
        self.mark_if(
            new.position > old.position && !forward,
            "manual: loop, back over the seam",
        );
        let met = part.clamp(0.0).is_some();
        let stopped = old.velocity != 0.0 && new.velocity == 0.0 && told.speed.is_some();
        self.mark_if(met && stopped, "manual: loop, clamp stops the car");
        let outside = old.position < 0.0 || old.position >= circumference;
        self.mark_if(outside, "manual: loop, begins outside [0, c)");
    }

    /// The first command of the queue, by the phase that it finds, and the others.
    fn commands(&mut self, part: &Part) {
        let (old, new) = (part.old, part.new);
        let Some(&first) = old.commands.first() else {
            return;
        };
        let applied = part.words.iter().find(|w| *w >> 28 == 0xA);
        let (code, ticks) = code_of(first);
        let same = |word: &u32| word & 0xff_ffff == (code as u32) << 16 | ticks;
        let kept = new.commands.first() == Some(&first) && !applied.is_some_and(same);
        self.mark(format!(
            "command: {} {} in {}",
            COMMANDS[code],
            if kept { "kept" } else { "applied" },
            PHASES[part.phase_at_doors()],
        ));
        self.mark_if(old.commands.len() > 1, "command: several in the queue");
        self.mark_if(
            !new.commands.is_empty() && new.commands.len() < old.commands.len(),
            "command: some applied, some kept",
        );
        self.mark_if(old.commands.len() == 8, "command: queue of 8");
        let holds: u64 = part
            .words
            .iter()
            .filter(|w| *w >> 28 == 0xA && *w >> 16 & 0xff == 2)
            .map(|w| u64::from(w & 0xffff))
            .sum();
        if let DoorState::Open {
            ticks_remaining, ..
        } = old.door
        {
            self.mark_if(
                u64::from(ticks_remaining) + holds > u64::from(u32::MAX),
                "command: hold saturated",
            );
            let lowered = matches!(new.door, DoorState::Open { ticks_remaining: t, .. } if t + 1 < ticks_remaining);
            let cancels = first == DoorCommand::CancelHold && !kept;
            self.mark_if(cancels && lowered, "command: hold cancelled");
        }
    }

    fn doors(&mut self, part: &Part) {
        let (old, new) = (part.old, part.new);
        let mode = part.player.cars[part.number].mode;
        let open = matches!(new.door, DoorState::Open { .. });
        self.mark_if(
            mode == ServiceMode::Inspection && open && !part.has(6),
            "doors: Inspection keeps an open door",
        );
        let near = part.player.stops.iter().any(|p| {
            let off = (p - new.position).abs();
            off > 0.0 && off < 1e-6
        });
        let asked = part.has(0xA) && !part.has(2);
        let free = matches!(old.phase, ElevatorPhase::Idle | ElevatorPhase::Stopped);
        let opening = matches!(new.door, DoorState::Opening { .. }) || part.has(6);
        self.mark_if(
            asked && free && opening && near,
            "doors: Open within 1e-6 of a stop",
        );
        let line = &part.player.lines[part.player.cars[part.number].line];
        let here = |stop: usize| (part.player.stops[stop] - new.position).abs() < 1e-6;
        let listed = |list: &Vec<usize>| list.iter().any(|&stop| here(stop));
        self.mark_if(
            free && matches!(new.phase, ElevatorPhase::Idle | ElevatorPhase::Stopped)
                && new.commands.contains(&DoorCommand::Open)
                && (0..part.player.stops.len()).any(here)
                && !line.serves.as_ref().is_none_or(listed),
            "doors: Open kept at a stop that the line does not serve",
        );
        if part.has(6) {
            self.opened(part);
        }
        if part.has(7) {
            match (line.kind, &line.serves, new.phase) {
                (LineKind::Linear, ..) => self.mark("closed: linear"),
                (_, None, _) => self.mark("closed: loop without a list ends Stopped"),
                (_, Some(list), _) if list.is_empty() => {
                    self.mark("closed: loop with an empty list ends Stopped");
                }
                _ => self.mark("closed: loop goes on"),
            }
            self.mark_if(part.has(5), "closed: lamps change");
            self.mark_if(old.target.is_none(), "closed: no target");
            self.mark_if(
                part.has(5) && new.going_forward,
                "closed: loop's first time, lamps go out",
            );
        }
    }

    /// Hall calls at the stop of a door that finished opening.
    fn opened(&mut self, part: &Part) {
        let Some(stop) = part.old.target else {
            return self.mark("opened: no target");
        };
        let stood = part.before.calls.map(|calls| calls >> stop & 1 == 1);
        let cleared = |down: u32| {
            let tail = (stop as u32) << 16 | down;
            part.words
                .iter()
                .any(|w| w >> 28 == 9 && w & 0xff_ffff == tail)
        };
        let cleared = [cleared(0), cleared(1)];
        self.mark_if(cleared == [true, false], "opened: clears the up call");
        self.mark_if(cleared == [false, true], "opened: clears the down call");
        self.mark_if(cleared == [true, true], "opened: clears both calls");
        self.mark_if(stood[0] && !cleared[0], "opened: the up call stays");
        self.mark_if(stood[1] && !cleared[1], "opened: the down call stays");
    }
}

/// The words of a car.
fn car_words(words: &[u32], number: usize) -> Vec<u32> {
    let of_car = |word: &&u32| *word >> 28 != 0 && (*word >> 24 & 15) as usize == number;
    words.iter().filter(of_car).copied().collect()
}

impl Part<'_> {
    fn has(&self, kind: u32) -> bool {
        self.words.iter().any(|word| word >> 28 == kind)
    }

    fn kind(&self) -> LineKind {
        self.player.lines[self.player.cars[self.number].line].kind
    }

    /// The forward distances of the other cars of the line.
    fn gaps(&self) -> Vec<(f64, usize)> {
        let LineKind::Loop { circumference, .. } = self.kind() else {
            return Vec::new();
        };
        let line = self.player.cars[self.number].line;
        (0..self.met.len())
            .filter(|&other| other != self.number && self.player.cars[other].line == line)
            .map(|other| {
                let from = self.old.position;
                let gap = cyclic::forward_distance(from, self.met[other], circumference);
                (gap, other)
            })
            .collect()
    }

    /// The leader, and where its clamp puts the target.
    fn clamp(&self, target: f64) -> Option<(usize, f64)> {
        let LineKind::Loop {
            circumference,
            min_headway,
        } = self.kind()
        else {
            return None;
        };
        let (_, leader) = self.gaps().into_iter().min_by(|a, b| a.0.total_cmp(&b.0))?;
        let clamped = movement::headway_clamp_target(
            self.old.position,
            self.met[leader],
            target,
            min_headway,
            circumference,
        );
        Some((leader, clamped))
    }

    /// Whether two cars are nearest alike.
    fn ties(&self) -> bool {
        let gaps = self.gaps();
        let least = gaps.iter().map(|gap| gap.0).fold(f64::INFINITY, f64::min);
        gaps.iter().filter(|gap| gap.0 == least).count() > 1
    }

    /// The number of the phase in which movement leaves the car to the doors.
    fn phase_at_doors(&self) -> usize {
        if self.has(2) {
            phase_number(ElevatorPhase::DoorOpening)
        } else if self.has(3) {
            phase_number(ElevatorPhase::Idle)
        } else {
            phase_number(self.old.phase)
        }
    }
}
