//! What document 01 asks of a record's words: refusals 1 to 4.

use crate::record::{NO_CAR, NONE};

/// A record's head.
struct Head {
    kind: u32,
    n: u32,
    s: u32,
    v: u32,
}

/// How many words the record at the start of `words` has, or its refusal.
pub fn check(words: &[u32]) -> Result<usize, u32> {
    let head = Head::of(*words.first().ok_or(1u32)?);
    if !(1..=0xD).contains(&head.kind) {
        return Err(2);
    }
    // A line's count is looked at before the body is measured.
    if head.kind == 1 && head.v > 64 && head.v != NONE {
        return Err(3);
    }
    let length = 1 + head.body_length();
    let body = words.get(1..length).ok_or(1u32)?;
    if !head.codes_hold(body) {
        return Err(3);
    }
    if !head.ranges_hold(body) {
        return Err(4);
    }
    Ok(length)
}

impl Head {
    fn of(word: u32) -> Self {
        Self {
            kind: word >> 28,
            n: word >> 24 & 0xf,
            s: word >> 16 & 0xff,
            v: word & 0xffff,
        }
    }

    fn body_length(&self) -> usize {
        match self.kind {
            1 if self.v == NONE => 4,
            1 => 4 + self.v as usize,
            2 | 7 | 0xC => 2,
            3 => 14,
            4 => 1,
            _ => 0,
        }
    }

    /// Each field has one of its codes, and each bit that is not used is 0.
    fn codes_hold(&self, body: &[u32]) -> bool {
        let Self { kind, n, s, v } = *self;
        match kind {
            1 => {
                let raw_zero = body[..4].iter().all(|&word| word == 0);
                let list = body[4..].iter().all(|&stop| stop < 64);
                n < 8 && (s == 1 || s == 0 && raw_zero) && list
            }
            2 => n == 0 && s < 64 && v == 0,
            3 => s < 8 && v == 0,
            4 => n == 0 && s < 128 && (v < 64 || v == NONE) && rider_holds(body[0]),
            5 => s < 64 && v < 2,
            6 => s == 0 && v < 5,
            7 => s == 0 && (v == 1 || v == 0 && body == [0, 0]),
            8 => s == 2 || s < 4 && v == 0,
            9 => n == 0 && s < 64 && v < 2,
            0xA => s < 64 && v == 0,
            0xB => s == 0 && v < 2,
            _ => n == 0 && s == 0 && v == 0,
        }
    }

    /// Each float is finite and in its range.
    fn ranges_hold(&self, body: &[u32]) -> bool {
        let within = |at: usize, least: f64, most: f64| {
            let x = float(body, at);
            x.is_finite() && least <= x && x <= most
        };
        match self.kind {
            1 if self.s == 1 => within(0, 0.0, 1e6) && float(body, 0) > 0.0 && within(2, 0.0, 1e6),
            2 => within(0, -1e6, 1e6),
            3 => {
                within(0, -1e6, 1e6)
                    && within(2, -1e3, 1e3)
                    && [4, 6, 8].into_iter().all(|at| within(at, 0.0, 1e3))
                    && within(10, 0.0, 10.0)
            }
            7 => self.v == 0 || within(0, -1e3, 1e3),
            0xC => within(0, 0.0, 1.0) && float(body, 0) > 0.0,
            _ => true,
        }
    }
}

/// A rider's body word: its phase, the phase's car, the car aboard.
fn rider_holds(word: u32) -> bool {
    let [phase, phase_car, aboard, top] = word.to_le_bytes().map(u32::from);
    let phase_car_holds = match phase {
        1..=3 => phase_car < 16,
        _ => phase_car == NO_CAR,
    };
    phase < 8 && phase_car_holds && (aboard < 16 || aboard == NO_CAR) && top == 0
}

fn float(body: &[u32], at: usize) -> f64 {
    f64::from_bits(u64::from(body[at]) << 32 | u64::from(body[at + 1]))
}
