//! Tapes that do not hang on a seed: a small tape with one record of it changed to each end of each field, or cut.

use crate::damage::{ENDS, NUMBERS, floats};
use crate::tapes::{Tape, Words, bytes_of};

/// 0.5, 1, 2 and 10 as floats' high halves; the low halves are 0.
const HALF: u32 = 0x3fe0_0000;
const ONE: u32 = 0x3ff0_0000;
const TWO: u32 = 0x4000_0000;
const TEN: u32 = 0x4024_0000;

/// A record of each kind, some kinds twice, in an order in which all are accepted.
fn records() -> Vec<Words> {
    let car = [0, 0, 0, 0, TWO, 0, ONE, 0, ONE, 0, HALF, 0, 1, 2];
    let with = |head: u32, body: &[u32]| [&[head], body].concat();
    vec![
        with(0x2000_0000, &[0, 0]),
        with(0x2001_0000, &[ONE, 0]),
        with(0x1000_ffff, &[0, 0, 0, 0]),
        with(0x1101_0002, &[TEN, 0, ONE, 0, 0, 1]),
        with(0x3000_0000, &car),
        with(0x3101_0000, &car),
        with(0x4000_0001, &[0x0000_0002]),
        with(0x4001_ffff, &[0x00ff_ff00]),
        vec![0xD000_0000],
        vec![0x5001_0000],
        vec![0x6100_0002],
        with(0x7000_0001, &[HALF, 0]),
        with(0x7100_0000, &[0, 0]),
        vec![0x8002_0003],
        vec![0x8100_0000],
        vec![0x9001_0000],
        vec![0xA001_0000],
        vec![0xB100_0001],
        with(0xC000_0000, &[HALF, 0]),
        with(0xC000_0000, &[ONE, 0]),
        with(0xC000_0000, &[ONE, 0]),
    ]
}

pub fn tapes() -> Vec<Tape> {
    let records = records();
    let mut tapes = Vec::new();
    for at in 0..records.len() {
        let before = bytes_of(&records[..at]);
        let after = bytes_of(&records[at + 1..]);
        for changed in changes(&records[at]) {
            let record = bytes_of(&[changed]);
            tapes.push([&before[..], &record, &after].concat());
            tapes.push([&before[..], &record].concat());
        }
        let record = bytes_of(&records[at..=at]);
        for end in 0..record.len() {
            tapes.push([&before[..], &record[..end]].concat());
        }
    }
    let kind = "a field at its limit";
    tapes
        .into_iter()
        .map(|bytes| Tape { kind, bytes })
        .collect()
}

/// The record with one thing changed.
fn changes(record: &Words) -> Vec<Words> {
    let with = |at: usize, word: u32| {
        let mut changed = record.clone();
        changed[at] = word;
        changed
    };
    let head = record[0];
    let mut changed: Vec<Words> = Vec::new();
    for kind in 0..16 {
        changed.push(with(0, head & 0x0fff_ffff | kind << 28));
        changed.push(with(0, head & 0xf0ff_ffff | kind << 24));
    }
    for number in NUMBERS {
        changed.push(with(0, head & 0xff00_ffff | (number & 0xff) << 16));
        changed.push(with(0, head & 0xffff_0000 | number));
    }
    for &at in floats(record) {
        for x in ENDS {
            let mut float = with(at, (x.to_bits() >> 32) as u32);
            float[at + 1] = x.to_bits() as u32;
            changed.push(float);
        }
    }
    let plain = |at: &usize| !floats(record).iter().any(|&f| f == *at || f + 1 == *at);
    for at in (1..record.len()).filter(plain) {
        changed.extend((0..32).map(|bit| with(at, record[at] ^ 1 << bit)));
    }
    match head >> 28 {
        1 => changed.extend([0, 1, 63, 64, 65, 66].map(|count| with_list(record, count))),
        4 => changed.extend(riders().map(|body| with(1, body))),
        _ => {}
    }
    changed
}

/// A line that serves stop 0 so many times.
fn with_list(line: &Words, count: usize) -> Words {
    let mut changed = line.clone();
    changed[0] = line[0] & 0xffff_0000 | count as u32;
    changed.resize(5, 0);
    changed.resize(5 + count, 0);
    changed
}

/// Bodies of a rider: any phase, the ends of its cars.
fn riders() -> impl Iterator<Item = u32> {
    let cars = [0, 2, 16, 255];
    (0..10).flat_map(move |phase| {
        cars.into_iter()
            .flat_map(move |car| cars.map(|aboard| phase | car << 8 | aboard << 16))
    })
}
