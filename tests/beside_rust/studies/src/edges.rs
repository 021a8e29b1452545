//! More stops, where a word hangs on the last bit of a car's place or speed.

use elevator_core::components::LineKind;
use elevator_core::study::CarState;
use inputs::Draw;
use ticks::player::Player;

use crate::study::study;
use crate::tapes::{Words, bytes_of};

/// From a place to a stop: where movement and doors turn.
const OFFSETS: [f64; 6] = [1e-9, 1e-9, -1e-9, -1e-9, 1e-6, -1e-6];

/// Where a circle's seam, 1e-9 and 1e-6 are met exactly.
const PLACES: [f64; 8] = [0.0, -0.0, 1e-9, -1e-9, 1e-6, -1e-6, -1e-20, -5e-324];

/// Adds stops, and sends some cars to them. No list names them: on a line with a list a car that is
/// not sent to one moves as before.
pub fn add_stops(records: &mut Vec<Words>, draw: &mut Draw) {
    match draw.below(4) {
        0 => add_at_ends(records, draw),
        1 => {
            let old = stop_count(records);
            add_at_ends(records, draw);
            send_to_new(records, old, draw);
        }
        2 => add_where_cars_brake(records, draw),
        _ => add_beside_a_door(records, draw),
    }
}

fn is_kind(record: &[u32], kind: u32) -> bool {
    record[0] >> 28 == kind
}

/// Stops come first on a tape.
fn stop_count(records: &[Words]) -> usize {
    records.iter().filter(|record| is_kind(record, 2)).count()
}

fn add_stop(records: &mut Vec<Words>, place: f64) {
    let number = stop_count(records);
    let head = 2 << 28 | (number as u32) << 16;
    let [high, low] = halves(place.clamp(-1e6, 1e6));
    records.insert(number, vec![head, high, low]);
}

fn halves(x: f64) -> [u32; 2] {
    [(x.to_bits() >> 32) as u32, x.to_bits() as u32]
}

fn set_stop(send: &mut Words, stop: usize) {
    send[0] = send[0] & 0xff00_ffff | (stop as u32) << 16;
}

/// About places where ticks of the tape end.
fn add_at_ends(records: &mut Vec<Words>, draw: &mut Draw) {
    let mut ends = Vec::new();
    study(&bytes_of(records), |player, _| {
        ends.extend((0..player.cars.len()).map(|car| player.study.place(car)[0]));
    });
    let old = stop_count(records);
    for _ in old..64.min(old + 12) {
        let place = match draw.below(6) {
            0 => draw.one_of(&PLACES),
            _ if ends.is_empty() => 0.0,
            _ => draw.one_of(&ends) + draw.one_of(&OFFSETS),
        };
        add_stop(records, place);
    }
}

fn send_to_new(records: &mut [Words], old: usize, draw: &mut Draw) {
    let new = stop_count(records) - old;
    for send in records.iter_mut().filter(|record| is_kind(record, 5)) {
        if new > 0 && draw.once_in(6) {
            set_stop(send, old + draw.below(new as u64) as usize);
        }
    }
}

/// A moving car after a tick, and the farthest target for which it would brake in the next.
#[derive(Clone, Copy)]
struct Trip {
    car: usize,
    stop: usize,
    ticks: u64,
    brakes_for: f64,
}

/// One to three targets at which a car just brakes or just does not.
fn add_where_cars_brake(records: &mut Vec<Words>, draw: &mut Draw) {
    let mut trips = Vec::new();
    study(&bytes_of(records), |player, _| {
        for (car, state) in player.car_states().iter().enumerate() {
            trips.extend(trip(player, car, state));
        }
    });
    if trips.is_empty() {
        return;
    }
    for number in stop_count(records)..64.min(stop_count(records) + 3) {
        let trip = draw.one_of(&trips);
        if let Some(send) = send_of(records, &trip) {
            set_stop(&mut records[send], number);
            add_stop(records, draw.near(trip.brakes_for));
        }
    }
}

fn trip(player: &Player, car: usize, state: &CarState) -> Option<Trip> {
    let told = &player.cars[car];
    let v = state.velocity;
    let distance = v * v / (2.0 * told.motion.deceleration.max(1e-9)) + 1e-9;
    let place = state.position + distance.copysign(v);
    Some(Trip {
        car,
        stop: state.phase_stop.filter(|_| v != 0.0)?,
        ticks: player.ticks,
        brakes_for: match player.lines[told.line].kind {
            LineKind::Linear => place,
            LineKind::Loop { circumference, .. } => place.rem_euclid(circumference),
        },
    })
}

/// The place of the send that began a trip.
fn send_of(records: &[Words], trip: &Trip) -> Option<usize> {
    let mut ticks = 0;
    let before = records.iter().take_while(|record| {
        ticks += u64::from(is_kind(record, 0xC));
        ticks < trip.ticks
    });
    let head = 5 << 28 | (trip.car as u32) << 24 | (trip.stop as u32) << 16;
    let sends = before
        .enumerate()
        .filter(|(_, record)| record[0] & !1 == head);
    sends.last().map(|(at, _)| at)
}

/// A stop 1e-6 from a car that is told to open before anything else, in its line's list or not.
fn add_beside_a_door(records: &mut Vec<Words>, draw: &mut Draw) {
    let number = stop_count(records);
    let start = records.iter().position(|record| is_kind(record, 0xD));
    let cars = records.iter().filter(|record| is_kind(record, 3)).count();
    let Some(start) = start.filter(|_| number < 64 && cars > 0) else {
        return;
    };
    let car = draw.below(cars as u64) as u32;
    let exact = draw.one_of(&[1e-6, -1e-6]);
    let near = draw.near(exact);
    let off = draw.one_of(&[exact, near]);
    let [place, stop] = draw.one_of(&[[off, 0.0], [0.0, off]]);
    records.insert(start + 1, vec![0xC000_0000, 0x3ff0_0000, 0]);
    records.insert(start + 1, vec![0x8000_0000 | car << 24]);
    let mut loaded = records.iter_mut().filter(|record| is_kind(record, 3));
    let record = loaded.nth(car as usize).unwrap();
    record[1..3].copy_from_slice(&halves(place));
    let line = record[0] >> 16 & 0xff;
    if draw.once_in(2) {
        serve(records, line, number);
    }
    add_stop(records, stop);
}

/// Puts a stop into a line's list, if it has one and there is room.
fn serve(records: &mut [Words], line: u32, stop: usize) {
    let head = |record: &&mut Words| is_kind(record, 1) && record[0] >> 24 & 0xf == line;
    if let Some(record) = records.iter_mut().find(head)
        && record[0] & 0xffff < 64
    {
        record[0] += 1;
        record.push(stop as u32);
    }
}
