//! The random tapes, as bytes: whole ones, ones with changed records and ones with damaged bytes.

use inputs::Draw;
use ticks::check::check;
use ticks::tapes::{self, ENDLESS, LONG, SHORT, Size, WIDE};

use crate::{damage, edges};

pub struct Tape {
    pub kind: &'static str,
    pub bytes: Vec<u8>,
}

/// A record's words.
pub type Words = Vec<u32>;

/// Tape `number` of a seed.
pub fn make(seed: u64, number: u64) -> Tape {
    let mut draw = Draw::named(seed.wrapping_add(number << 20), "study");
    let (size, size_name) = size(&mut draw);
    let mut records = split(&tapes::make(seed, number, size).words);
    let kind = match draw.below(20) {
        0..=7 => size_name,
        8..=11 => {
            edges::add_stops(&mut records, &mut draw);
            "stops where ticks end"
        }
        12..=15 => {
            damage::change_records(&mut records, &mut draw);
            "records changed"
        }
        _ => "bytes damaged",
    };
    let mut bytes = bytes_of(&records);
    if kind == "bytes damaged" {
        damage::damage_bytes(&mut bytes, &mut draw);
    }
    Tape { kind, bytes }
}

fn size(draw: &mut Draw) -> (Size, &'static str) {
    match draw.below(40) {
        0 | 1 => (ENDLESS, "whole, thousands of ticks"),
        2..=8 => (WIDE, "whole, to 16 cars and 64 stops"),
        9..=11 => (SHORT, "whole, a few ticks"),
        _ => (LONG, "whole, some ticks"),
    }
}

fn split(words: &[u32]) -> Vec<Words> {
    let mut records = Vec::new();
    let mut rest = words;
    while !rest.is_empty() {
        let (record, after) = rest.split_at(check(rest).expect("a record of the right form"));
        records.push(record.to_vec());
        rest = after;
    }
    records
}

pub fn bytes_of(records: &[Words]) -> Vec<u8> {
    let words = records.iter().flatten();
    words.flat_map(|word| word.to_le_bytes()).collect()
}
