//! The argument tuples, drawn from a seed.

use std::f64::consts::PI;

/// SplitMix64.
pub struct Draw {
    state: u64,
}

/// Values at which a formula may turn.
const TURNS: [f64; 26] = [
    0.0,
    -0.0,
    1.0,
    -1.0,
    0.5,
    -0.5,
    2.0,
    10.0,
    1e-9,
    -1e-9,
    2e-9,
    5e-10,
    1e-20,
    -1e-20,
    1e6,
    -1e6,
    f64::EPSILON,
    f64::MIN_POSITIVE,
    -f64::MIN_POSITIVE,
    5e-324,
    -5e-324,
    f64::MAX,
    f64::MIN,
    f64::INFINITY,
    f64::NEG_INFINITY,
    f64::NAN,
];

/// The tick lengths that a simulation would use.
const STEPS: [f64; 6] = [1.0, 0.5, 0.25, 0.1, 1.0 / 60.0, 1e-3];

impl Draw {
    pub fn new(seed: u64) -> Self {
        Self { state: seed }
    }

    /// The draws for one function: they do not depend on which others are compared.
    pub fn named(seed: u64, name: &str) -> Self {
        let start = name.bytes().fold(seed, |h, b| {
            (h ^ u64::from(b)).wrapping_mul(0x100_0000_01b3)
        });
        Self::new(start)
    }

    pub fn word(&mut self) -> u64 {
        self.state = self.state.wrapping_add(0x9e37_79b9_7f4a_7c15);
        let mut z = self.state;
        z = (z ^ (z >> 30)).wrapping_mul(0xbf58_476d_1ce4_e5b9);
        z = (z ^ (z >> 27)).wrapping_mul(0x94d0_49bb_1331_11eb);
        z ^ (z >> 31)
    }

    /// 0 to n - 1.
    pub fn below(&mut self, n: u64) -> u64 {
        self.word() % n
    }

    /// True once in n.
    pub fn once_in(&mut self, n: u64) -> bool {
        self.below(n) == 0
    }

    pub fn one_of<T: Copy>(&mut self, values: &[T]) -> T {
        values[self.below(values.len() as u64) as usize]
    }

    /// In [0, 1).
    pub fn unit(&mut self) -> f64 {
        (self.word() >> 11) as f64 / (1u64 << 53) as f64
    }

    /// In [-limit, limit).
    pub fn within(&mut self, limit: f64) -> f64 {
        (2.0 * self.unit() - 1.0) * limit
    }

    fn signed(&mut self, x: f64) -> f64 {
        if self.once_in(2) { -x } else { x }
    }

    /// x or one of its six nearest neighbours.
    pub fn near(&mut self, x: f64) -> f64 {
        let steps = self.below(7).wrapping_sub(3);
        f64::from_bits(x.to_bits().wrapping_add(steps))
    }

    /// About 1e-9, the EPSILON of movement.rs.
    pub fn epsilon(&mut self) -> f64 {
        let e = match self.below(4) {
            0 => 1e-9,
            1 => self.near(1e-9),
            2 => 2e-9 * self.unit(),
            _ => self.one_of(&[5e-10, 2e-9, 1e-10, 1e-8]),
        };
        self.signed(e)
    }

    /// A multiple of 0.25, small.
    fn grid(&mut self) -> f64 {
        (self.below(81) as f64 - 40.0) * 0.25
    }

    /// Any float: bit patterns, subnormals, turning values and plain ones.
    pub fn any(&mut self) -> f64 {
        match self.below(8) {
            0 | 1 => f64::from_bits(self.word()),
            2 => {
                let turn = self.one_of(&TURNS);
                self.signed(turn)
            }
            3 => {
                let turn = self.one_of(&TURNS);
                self.near(turn)
            }
            4 => f64::from_bits(self.word() & 0x800f_ffff_ffff_ffff),
            5 => self.epsilon(),
            6 => self.grid(),
            _ => self.within(1e6),
        }
    }

    /// A pair, often equal, neighbours or opposite.
    pub fn two(&mut self) -> [f64; 2] {
        let x = self.any();
        let y = match self.below(8) {
            0 => x,
            1 => -x,
            2 => self.near(x),
            _ => self.any(),
        };
        [x, y]
    }

    /// x, lo, hi with lo <= hi.
    pub fn limits(&mut self) -> [f64; 3] {
        loop {
            let [x, lo] = self.two();
            let hi = match self.below(6) {
                0 => lo,
                1 => -lo,
                2 => x,
                _ => self.any(),
            };
            if lo <= hi {
                return [x, lo, hi];
            }
            if hi <= lo {
                return [x, hi, lo];
            }
        }
    }

    /// A pair for total_cmp. The one NaN is positive: ours does not tell NaNs apart.
    pub fn ordered(&mut self) -> [f64; 2] {
        self.two().map(|x| if x.is_nan() { f64::NAN } else { x })
    }

    /// a, b, c for a * b + c: also where the sum almost cancels.
    pub fn product_and_sum(&mut self) -> [f64; 3] {
        let [a, b] = self.two();
        let c = match self.below(4) {
            0 => self.near(-(a * b)),
            1 => -(a * b),
            _ => self.any(),
        };
        [a, b, c]
    }

    /// A circle's length; now and then one that is no circle.
    pub fn circumference(&mut self) -> f64 {
        match self.below(8) {
            0 => self.any(),
            1 | 2 => self.grid().abs().max(0.25),
            3 => 100.0 * (1.0 + self.below(10) as f64),
            4 => PI * 100.0 * self.unit(),
            5 => 10f64.powf(self.within(6.0)),
            _ => 1e6 * (1.0 - self.unit()),
        }
    }

    /// A place on or about a circle.
    pub fn place(&mut self, c: f64) -> f64 {
        match self.below(10) {
            0 => self.one_of(&[0.0, -0.0, c, -c]),
            1 => self.near(c),
            2 => {
                let turns = self.below(9) as f64 - 4.0;
                self.near(turns * c)
            }
            3 => self.one_of(&[-1e-20, -5e-324, -1e-300, -1e-9, 1e-20, 5e-324, 1e-9]),
            4 => self.any(),
            5 => self.grid(),
            6 => self.within(1e6),
            _ => c * self.unit(),
        }
    }

    /// A second place: also the first one and about 1e-9 from it.
    fn place_beside(&mut self, first: f64, c: f64) -> f64 {
        match self.below(6) {
            0 => first,
            1 => self.near(first),
            2 => first + self.epsilon(),
            _ => self.place(c),
        }
    }

    /// p, circumference.
    pub fn wrap_position(&mut self) -> [f64; 2] {
        let c = self.circumference();
        [self.place(c), c]
    }

    /// from, to, circumference.
    pub fn two_places(&mut self) -> [f64; 3] {
        let c = self.circumference();
        let from = self.place(c);
        [from, self.place_beside(from, c), c]
    }

    /// trailer, leader, intended target, headway, circumference.
    pub fn headway_clamp_target(&mut self) -> [f64; 5] {
        let [trailer, leader, c] = self.two_places();
        let intended = match self.below(3) {
            0 => self.place_beside(trailer, c),
            1 => self.place_beside(leader, c),
            _ => self.place(c),
        };
        let headway = match self.below(8) {
            0 => self.any(),
            1 => 0.0,
            // The gap, or what the gap leaves behind the target.
            2 => self.near(leader - trailer),
            3 => self.near(leader - intended),
            4 => self.grid().abs(),
            5 => c,
            _ => c * self.unit(),
        };
        [trailer, leader, intended, headway, c]
    }

    /// velocity, deceleration.
    pub fn braking_distance(&mut self) -> [f64; 2] {
        if self.once_in(2) {
            return self.two();
        }
        [self.within(1000.0), self.rate()]
    }

    /// 0 to 1,000, small ones often.
    fn rate(&mut self) -> f64 {
        match self.below(6) {
            0 => self.grid().abs(),
            1 => self.one_of(&[0.0, 1e-9, 1000.0, 1.0]),
            2 => 1000.0 * self.unit(),
            _ => 5.0 * self.unit(),
        }
    }

    /// Above 0, to 1.
    fn dt(&mut self) -> f64 {
        if self.once_in(2) {
            self.one_of(&STEPS)
        } else {
            1.0 - self.unit()
        }
    }

    fn velocity(&mut self, max_speed: f64) -> f64 {
        match self.below(8) {
            0 => self.signed(0.0),
            1 => self.epsilon(),
            2 => self.signed(max_speed),
            3 => self.grid(),
            4 => self.within(1000.0),
            _ => self.within(max_speed),
        }
    }

    pub fn position(&mut self) -> f64 {
        match self.below(4) {
            0 => self.grid(),
            1 => self.within(1e6),
            _ => self.within(100.0),
        }
    }

    /// How far off the target is: also where a branch of the tick turns.
    fn distance(&mut self, velocity: f64, max_speed: f64, deceleration: f64, dt: f64) -> f64 {
        match self.below(8) {
            0 => self.signed(0.0),
            1 => self.epsilon(),
            // The stopping distance.
            2 | 3 => {
                let stop = velocity * velocity / (2.0 * deceleration.max(1e-9));
                let d = stop + self.one_of(&[0.0, 1e-9, -1e-9, 5e-10, 0.1]);
                let d = self.near(d);
                self.signed(d)
            }
            // The landing place of a tick at this velocity.
            4 => velocity * dt + self.one_of(&[0.0, 1e-9, -1e-9, 5e-10]),
            // Some ticks at full speed.
            5 => 4.0 * self.within(1.0) * max_speed * dt,
            6 => self.grid(),
            _ => self.within(100.0),
        }
    }

    /// Puts any floats in the place of some arguments: all of them, one or none.
    fn disturb<const N: usize>(&mut self, tuple: [f64; N]) -> [f64; N] {
        match self.below(8) {
            0 => tuple.map(|_| self.any()),
            1 | 2 => {
                let mut changed = tuple;
                changed[self.below(N as u64) as usize] = self.any();
                changed
            }
            _ => tuple,
        }
    }

    /// position, velocity, target, max speed, acceleration, deceleration, dt.
    pub fn tick_movement(&mut self) -> [f64; 7] {
        let tuple = self.car_on_line();
        self.disturb(tuple)
    }

    /// As tick_movement, all in the ranges of a simulation.
    pub fn car_on_line(&mut self) -> [f64; 7] {
        let [velocity, max_speed, acceleration, deceleration, dt] = self.car();
        let position = self.position();
        let target = if self.once_in(6) {
            self.position()
        } else {
            position + self.distance(velocity, max_speed, deceleration, dt)
        };
        [
            position,
            velocity,
            target,
            max_speed,
            acceleration,
            deceleration,
            dt,
        ]
    }

    /// velocity, max speed, acceleration, deceleration, dt.
    fn car(&mut self) -> [f64; 5] {
        let max_speed = self.rate();
        let velocity = self.velocity(max_speed);
        [velocity, max_speed, self.rate(), self.rate(), self.dt()]
    }

    /// As tick_movement, then the circumference.
    pub fn tick_movement_cyclic(&mut self) -> [f64; 8] {
        let tuple = self.car_on_loop();
        let mut tuple = self.disturb(tuple);
        if self.once_in(16) {
            tuple[7] = self.circumference();
        }
        tuple
    }

    pub fn car_on_loop(&mut self) -> [f64; 8] {
        let c = loop {
            let c = self.circumference();
            if c > 0.0 && c <= 1e6 {
                break c;
            }
        };
        let [velocity, max_speed, acceleration, deceleration, dt] = self.car();
        let position = match self.below(4) {
            // Just before the seam, so that a tick crosses it.
            0 => c - self.unit() * (velocity * dt).abs(),
            _ => self.place(c),
        };
        let target = match self.below(3) {
            0 => self.place(c),
            1 => self.place_beside(position, c),
            _ => position + self.distance(velocity, max_speed, deceleration, dt).abs(),
        };
        [
            position,
            velocity,
            target,
            max_speed,
            acceleration,
            deceleration,
            dt,
            c,
        ]
    }

    /// target, velocity, max speed, acceleration, deceleration, dt. The max speed is not
    /// negative; the others may be any floats.
    pub fn manual_velocity(&mut self) -> [f64; 6] {
        let [velocity, max_speed, acceleration, deceleration, dt] = self.car();
        let target = match self.below(8) {
            0 => self.signed(0.0),
            1 => self.near(velocity),
            // One step of the ramp, exactly or nearly.
            2 => {
                let step = self.signed(acceleration * dt);
                self.near(velocity + step)
            }
            3 => {
                let step = self.signed(deceleration * dt);
                self.near(velocity + step)
            }
            4 => self.within(1000.0),
            _ => self.velocity(max_speed),
        };
        let mut tuple = self.disturb([target, velocity, max_speed, acceleration, deceleration, dt]);
        // The Rust's clamp panics unless -max_speed <= max_speed.
        if tuple[2].is_nan() || tuple[2] < 0.0 {
            tuple[2] = max_speed;
        }
        tuple
    }

    /// A time in ticks.
    fn ticks(&mut self) -> u32 {
        match self.below(4) {
            0 => self.below(4) as u32,
            1 => u32::MAX - self.below(3) as u32,
            2 => self.below(1000) as u32,
            _ => self.word() as u32,
        }
    }

    /// state, ticks remaining, open duration, close duration; 0 where the state has no such field.
    pub fn door(&mut self) -> [u32; 4] {
        let state = self.below(4) as u32;
        let fields = [self.ticks(), self.ticks(), self.ticks()];
        match state {
            0 => [0, 0, 0, 0],
            1 => [1, fields[0], fields[1], fields[2]],
            2 => [2, fields[0], 0, fields[2]],
            _ => [3, fields[0], 0, 0],
        }
    }

    /// transition ticks, open ticks.
    pub fn door_times(&mut self) -> [u32; 2] {
        [self.ticks(), self.ticks()]
    }

    /// Times of a door whose cycle is short.
    pub fn short_door_times(&mut self) -> [u32; 2] {
        [self.below(8) as u32, self.below(8) as u32]
    }
}

/// Arguments as a running simulation has them: what the benchmark times.
impl Draw {
    fn between(&mut self, low: f64, high: f64) -> f64 {
        low + (high - low) * self.unit()
    }

    /// velocity, max speed, acceleration, deceleration, dt.
    fn usual_car(&mut self) -> [f64; 5] {
        let max_speed = self.between(0.5, 10.0);
        [
            self.within(max_speed),
            max_speed,
            self.between(0.2, 3.0),
            self.between(0.2, 3.0),
            self.one_of(&STEPS),
        ]
    }

    /// p, circumference; p up to a circle off.
    pub fn usual_wrap(&mut self) -> [f64; 2] {
        let c = self.between(10.0, 1000.0);
        [self.between(-c, 2.0 * c), c]
    }

    /// from, to, circumference.
    pub fn usual_places(&mut self) -> [f64; 3] {
        let c = self.between(10.0, 1000.0);
        [self.between(0.0, c), self.between(0.0, c), c]
    }

    /// trailer, leader, intended target, headway, circumference.
    pub fn usual_headway(&mut self) -> [f64; 5] {
        let [trailer, leader, c] = self.usual_places();
        [
            trailer,
            leader,
            self.between(0.0, c),
            self.between(0.0, c / 4.0),
            c,
        ]
    }

    /// position, velocity, target, max speed, acceleration, deceleration, dt.
    pub fn usual_tick(&mut self) -> [f64; 7] {
        let [velocity, max_speed, acceleration, deceleration, dt] = self.usual_car();
        let position = self.between(0.0, 100.0);
        let target = position + self.within(20.0);
        [
            position,
            velocity,
            target,
            max_speed,
            acceleration,
            deceleration,
            dt,
        ]
    }

    /// As usual_tick, then the circumference.
    pub fn usual_tick_cyclic(&mut self) -> [f64; 8] {
        let [position, target, c] = self.usual_places();
        let [velocity, max_speed, acceleration, deceleration, dt] = self.usual_car();
        [
            position,
            velocity.abs(),
            target,
            max_speed,
            acceleration,
            deceleration,
            dt,
            c,
        ]
    }

    /// target, velocity, max speed, acceleration, deceleration, dt.
    pub fn usual_manual(&mut self) -> [f64; 6] {
        let [velocity, max_speed, acceleration, deceleration, dt] = self.usual_car();
        [
            self.within(max_speed),
            velocity,
            max_speed,
            acceleration,
            deceleration,
            dt,
        ]
    }

    /// velocity, deceleration.
    pub fn usual_braking(&mut self) -> [f64; 2] {
        let [velocity, _, _, deceleration, _] = self.usual_car();
        [velocity, deceleration]
    }

    /// Two floats of like size.
    pub fn usual_two(&mut self) -> [f64; 2] {
        [self.within(100.0), self.within(100.0)]
    }
}
