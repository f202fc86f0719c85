//! Chance from a seed: plain numbers, event words, drives that get somewhere, sightings, wanted speeds, cars and damaged
//! records.

use crate::exercise::neutral_places;
use crate::paper::{
    held_desired, Car, ForeBack, Key, Mode, Second, UpDown, CLOCK_END, LONGEST_GAP, NOT_READY, OLD_GAP, TEST_PERIOD,
};

/// splitmix64.
pub struct Random(u64);

impl Random {
    pub fn new(seed: u64) -> Random {
        Random(seed)
    }

    pub fn next(&mut self) -> u64 {
        self.0 = self.0.wrapping_add(0x9E37_79B9_7F4A_7C15);
        let mut z = self.0;
        z = (z ^ z >> 30).wrapping_mul(0xBF58_476D_1CE4_E5B9);
        z = (z ^ z >> 27).wrapping_mul(0x94D0_49BB_1331_11EB);
        z ^ z >> 31
    }

    pub fn word(&mut self) -> u32 {
        (self.next() >> 32) as u32
    }

    /// 0 to `end` - 1.
    pub fn below(&mut self, end: u32) -> u32 {
        (u64::from(self.word()) * u64::from(end) >> 32) as u32
    }

    /// `low` to `high`.
    pub fn between(&mut self, low: i32, high: i32) -> i32 {
        low + self.below((high - low + 1) as u32) as i32
    }

    /// True once in `n` times.
    pub fn once_in(&mut self, n: u32) -> bool {
        self.below(n) == 0
    }

    pub fn pick<T: Copy>(&mut self, from: &[T]) -> T {
        from[self.below(from.len() as u32) as usize]
    }

    /// At or beside one of these numbers, or anywhere, but within 0 to `top`.
    fn near(&mut self, numbers: &[i32], top: i32) -> i32 {
        if self.once_in(4) {
            return self.between(0, top);
        }
        (self.pick(numbers) + self.between(-1, 1)).clamp(0, top)
    }
}

// ---------------------------------------------------------------- Event words

fn word(kind: u32, content: i32) -> u32 {
    kind << 28 | content as u32
}

/// Any kind with values at the edges of its ranges, inside and outside.
fn edge_word(random: &mut Random) -> u32 {
    let kind = 1 + random.below(10);
    let content = match kind {
        1 | 2 => random.between(0, 7),
        3 => random.between(0, 3),
        4 | 5 => random.near(&[0, 4, 8, 90, 225, 255], 255),
        6 => random.near(&[0, 200, 2000, 5000, 8191], 8191),
        7 => random.near(&[0, 20, 25, 30], 31),
        8 => random.near(&[0, 200, 1200, 1300, 2000, 2047], 2047),
        9 => random.near(&[0, 254], 255) | random.near(&[0, 200, 5000, 8191], 8191) << 8,
        _ => random.between(0, 1),
    };
    word(kind, content)
}

/// A word from the file's dark side: edges, unnamed bits, bad kinds or wholly random.
pub fn noise_word(random: &mut Random) -> u32 {
    match random.below(8) {
        0..=3 => edge_word(random),
        4 | 5 => edge_word(random) | 1 << random.below(28),
        6 => random.pick(&[0, 11, 12, 13, 14, 15]) << 28 | random.word() >> random.pick(&[4, 20, 31]),
        _ => random.word(),
    }
}

/// A pupil who knows the car and gets somewhere: most words are accepted, levers are held, tests come due.
pub struct Driver {
    /// One word in so many is noise; 0 for none.
    noise: u32,
    /// Ticks still to come in this run.
    ticks: u32,
}

impl Driver {
    pub fn new(random: &mut Random) -> Driver {
        Driver { noise: random.pick(&[0, 200, 30, 8, 2]), ticks: 0 }
    }

    /// One word in `noise` is noise.
    pub fn with_noise(noise: u32) -> Driver {
        Driver { noise, ticks: 0 }
    }

    pub fn word(&mut self, random: &mut Random, car: &Car) -> u32 {
        if car.now == CLOCK_END {
            self.ticks = 0;
        }
        if self.noise > 0 && random.once_in(self.noise) {
            noise_word(random)
        } else if self.ticks > 0 {
            self.ticks -= 1;
            tick_word(random, car)
        } else if car.key == Key::On {
            self.word_on(random, car)
        } else {
            self.word_off(random, car)
        }
    }

    fn word_off(&mut self, random: &mut Random, car: &Car) -> u32 {
        match random.below(12) {
            0..=7 if car.key == Key::Out => word(1, 1),
            0..=7 => word(1, if random.once_in(6) { 2 } else { 6 }),
            8 => word(1, random.between(0, 2)),
            9 => up_down_word(random, car),
            10 => fore_back_word(random, car),
            _ => self.run(random, car),
        }
    }

    fn word_on(&mut self, random: &mut Random, car: &Car) -> u32 {
        if car.brake > 0 && random.once_in(3) {
            return word(4, 0);
        }
        if car.speed == 0 && car.gas == 0 && random.once_in(4) {
            return word(5, 225);
        }
        match random.below(26) {
            0 if car.speed == 0 => word(1, random.between(0, 1)),
            1..=3 => gas_word(random, car),
            4 => brake_word(random, car),
            5..=7 => fore_back_word(random, car),
            8..=11 => {
                self.ticks = random.pick(&[0, 0, 1, 2, 3, 4, 5, 9, 30]);
                up_down_word(random, car)
            }
            12 => word(6, random.near(&[car.speed, car.speed + 30, 5000], 5000)),
            13 => word(7, random.pick(&[20, 25, 30])),
            14 => word(8, random.near(&[200, 500, 1000, 1200, 1300, 2000], 2000)),
            15 | 16 if car.cruise => word(8, random.near(&[200, 1200, 1200, 1300, 2000], 2000)),
            17..=20 if car.ready => radar_word(random, car),
            _ => self.run(random, car),
        }
    }

    /// Starts a run of ticks, now and then past a radar test.
    fn run(&mut self, random: &mut Random, car: &Car) -> u32 {
        self.ticks = match random.below(32) {
            0 => TEST_PERIOD as u32 + random.below(20),
            1 | 2 => random.below(200),
            3..=8 => random.below(20),
            _ => random.below(4),
        };
        tick_word(random, car)
    }
}

fn tick_word(random: &mut Random, car: &Car) -> u32 {
    let is_test = car.now + 1 == car.tested + TEST_PERIOD;
    let ready = if is_test { !random.once_in(3) } else { car.ready != random.once_in(500) };
    word(10, i32::from(ready))
}

fn gas_word(random: &mut Random, car: &Car) -> u32 {
    if car.brake > 0 {
        return word(4, 0);
    }
    word(5, if random.below(3) > 0 { 0 } else { random.near(&[8, 75, 90, 112, 225], 225) })
}

fn brake_word(random: &mut Random, car: &Car) -> u32 {
    if car.gas > 0 {
        return word(5, 0);
    }
    word(4, random.near(&[0, 0, 4, 150, 225], 225))
}

fn fore_back_word(random: &mut Random, car: &Car) -> u32 {
    if random.once_in(20) {
        word(3, random.between(0, 2))
    } else if car.up_down.is_out() {
        word(2, 0)
    } else if car.fore_back != ForeBack::Neutral {
        word(3, 0)
    } else {
        word(3, if random.once_in(8) { 2 } else { 1 })
    }
}

fn up_down_word(random: &mut Random, car: &Car) -> u32 {
    if random.once_in(20) {
        word(2, random.between(0, 4))
    } else if car.fore_back != ForeBack::Neutral {
        word(3, 0)
    } else if car.up_down.is_out() {
        let other_of_its_side = [0, 2, 1, 4, 3][car.up_down as usize];
        word(2, random.pick(&[0, 0, other_of_its_side]))
    } else {
        word(2, random.between(1, 4))
    }
}

fn radar_word(random: &mut Random, car: &Car) -> u32 {
    let warnings = [15 * car.speed / 360, 8 * car.speed / 360];
    let range = random.near(&[car.secure_distance(), warnings[0], warnings[1], 0, 1, 254], 254);
    let ahead = random.near(&[car.ahead, car.ahead, car.speed, car.desired, 0, 200, 5000], 5000);
    word(9, range | ahead << 8)
}

/// `count` words for a lesson from this car.
pub fn lesson_words(random: &mut Random, driver: &mut Driver, mut car: Car, count: usize) -> Vec<u32> {
    let mut words = Vec::with_capacity(count);
    for _ in 0..count {
        let word = driver.word(random, &car);
        car = car.drive(word).unwrap_or(car);
        words.push(word);
    }
    words
}

/// `count` accepted words from this car.
pub fn accepted_words(random: &mut Random, mut car: Car, count: usize) -> Vec<u32> {
    let mut driver = Driver::with_noise(0);
    let mut words = Vec::with_capacity(count);
    while words.len() < count {
        let word = driver.word(random, &car);
        if let Ok(next) = car.drive(word) {
            car = next;
            words.push(word);
        }
    }
    words
}

/// Runs of words, each a walk, ticks, noise or random words.
pub fn event_words(random: &mut Random, mut car: Car, count: usize) -> Vec<u32> {
    let mut words = Vec::with_capacity(count);
    while words.len() < count {
        let widest = random.pick(&[10, 300, 3000, 30_000]);
        let length = (1 + random.below(widest) as usize).min(count - words.len());
        let run = run_of_words(random, car, length);
        car = run.iter().fold(car, |car, &word| car.drive(word).unwrap_or(car));
        words.extend(run);
    }
    words
}

fn run_of_words(random: &mut Random, car: Car, length: usize) -> Vec<u32> {
    match random.below(8) {
        0 => (0..length).map(|_| random.word()).collect(),
        1 => (0..length).map(|_| noise_word(random)).collect(),
        2 => vec![word(10, i32::from(car.ready)); length],
        3 => lesson_words(random, &mut Driver::with_noise(0), car, length),
        _ => {
            let mut driver = Driver::new(random);
            lesson_words(random, &mut driver, car, length)
        }
    }
}

/// Words for a fresh car that stands for so many of them, then has its key turned on and gains speed by so many ticks.
pub fn late_start(random: &mut Random, still: usize, ticks: usize) -> Vec<u32> {
    let mut words: Vec<u32> = (0..still).map(|_| standing_word(random)).collect();
    words.extend([word(1, 1), word(1, 6), word(5, 225)]);
    words.extend(std::iter::repeat_n(word(10, 1), ticks));
    words
}

/// A word that leaves a car with its key out standing there: a tick, or a refused word.
fn standing_word(random: &mut Random) -> u32 {
    match random.below(4) {
        0 => random.word() >> 4,
        1 => word(5, random.between(0, 255)),
        _ => word(10, random.between(0, 1)),
    }
}

/// A speed mark for a lesson: a v that occurs, or one beside it, an edge, or any.
pub fn mark(random: &mut Random, seconds: &[Second]) -> u32 {
    match random.below(8) {
        0 => random.pick(&[0, 1, 5000, 5001, u32::MAX]),
        1 => random.below(5001),
        2 => random.word(),
        _ if seconds.is_empty() => random.below(3),
        _ => {
            let Second { before, after, .. } = random.pick(seconds);
            (random.pick(&[before, after]) + random.below(3)).saturating_sub(1)
        }
    }
}

pub fn good_settings(random: &mut Random) -> u32 {
    word(13, random.pick(&[1, 2, 5, 6, 9, 10, 13, 14]))
}

/// A word with bits 0-3 and the kind of a settings word, one or two bits from it, or any word.
pub fn settings_word(random: &mut Random) -> u32 {
    let settings = word(13, random.between(0, 15));
    match random.below(8) {
        0..=3 => settings,
        4 | 5 => settings ^ 1 << random.below(32),
        6 => settings ^ 1 << random.below(32) ^ 1 << random.below(32),
        _ => random.word(),
    }
}

// ---------------------------------------------------------------- Sightings

/// A sighting's kind, now and then one that there is not, and its floats' bits.
pub fn sighting(random: &mut Random) -> [u32; 3] {
    let kind = match random.below(16) {
        0 => 1,
        1 => 2,
        2 => random.pick(&[3, 4, 256, 1 << 16, 1 << 31, u32::MAX]),
        _ => 0,
    };
    [kind, metres(random), kmh(random)]
}

/// At a whole number of metres or beside it, where a free road starts, anywhere up to there, or any float.
fn metres(random: &mut Random) -> u32 {
    match random.below(8) {
        0 => any_float(random),
        1 => beside(random, 255.0),
        2 => (random.below(300 << 12) as f32 / 4096.0).to_bits(),
        _ => {
            let whole = random.below(260);
            beside(random, whole as f32)
        }
    }
}

/// At a whole number of tenths or beside it, at the highest speed, anywhere up to there, or any float.
fn kmh(random: &mut Random) -> u32 {
    match random.below(8) {
        0 => any_float(random),
        1 => beside(random, 500.0),
        2 => (random.below(520 << 12) as f32 / 4096.0).to_bits(),
        _ => {
            let tenths = random.below(5010);
            beside(random, tenths as f32 / 10.0)
        }
    }
}

/// The float, or one of the two next to it on either side.
fn beside(random: &mut Random, float: f32) -> u32 {
    float.to_bits().saturating_add_signed(random.between(-2, 2))
}

/// Any bits, zero or a float close to it, one that is no number, one round the greatest and the infinite, or one below
/// zero.
fn any_float(random: &mut Random) -> u32 {
    let sign = random.below(2) << 31;
    match random.below(5) {
        0 => random.word(),
        1 => sign | random.word() >> random.pick(&[8, 9, 20, 30, 31]),
        2 => sign | 0x7F80_0000 | random.word() >> random.pick(&[9, 20, 31]),
        3 => sign | (0x7F7F_FFFE + random.below(5)),
        _ => {
            let whole = random.below(600);
            1 << 31 | beside(random, whole as f32)
        }
    }
}

// ---------------------------------------------------------------- Moves

/// A wanted D: one of those that are reached, or one beside it, an edge, or any.
pub fn wanted(random: &mut Random, reached: &[u32]) -> u32 {
    match random.below(8) {
        0 => random.pick(&[0, 1, 10, 1000, 1001, 2000, 2001, u32::MAX]),
        1 => random.below(2003),
        2 => random.word(),
        _ if reached.is_empty() => random.below(2003),
        3 => (random.pick(reached) + random.below(3)).saturating_sub(1),
        _ => random.pick(reached),
    }
}

/// Words from a fresh car to one with cruise on and both levers in neutral: a walk, and before it as many words that leave
/// the car standing as `count` has room for.
pub fn neutral_walk(random: &mut Random, fresh: Car, count: usize) -> Vec<u32> {
    let walk = loop {
        let mut driver = Driver::new(random);
        let mut words = lesson_words(random, &mut driver, fresh, 300);
        let places = neutral_places(fresh, &words);
        if !places.is_empty() {
            words.truncate(random.pick(&places));
            break words;
        }
    };
    let mut words: Vec<u32> = (walk.len()..count).map(|_| standing_word(random)).collect();
    words.extend(walk);
    words
}

// ---------------------------------------------------------------- Cars

pub fn fresh_car(random: &mut Random) -> Car {
    let mode = if random.once_in(4) { 1 } else { 2 };
    let towing = u32::from(random.once_in(3));
    Car::fresh(mode, random.below(2), towing).expect("good settings")
}

/// A car that a list of words reaches.
pub fn reached_car(random: &mut Random) -> Car {
    let mut driver = Driver::new(random);
    let mut car = fresh_car(random);
    for _ in 0..random.below(800) {
        car = car.drive(driver.word(random, &car)).unwrap_or(car);
    }
    car
}

/// A good car put together field by field; most such cars no list of words reaches.
pub fn made_car(random: &mut Random) -> Car {
    let mut car = fresh_car(random);
    car.limit = random.near(&[0, 200, 2000, 5000], 5000);
    car.gap = random.pick(&[20, 25]);
    car.now = random.near(&[0, 3, 600, 43_200, CLOCK_END - 600, CLOCK_END - 3, CLOCK_END], CLOCK_END);
    match random.below(4) {
        0 => car.up_down = UpDown::new(random.below(5)).expect("a place of L"),
        1 => car.fore_back = ForeBack::new(random.below(3)).expect("a place of M"),
        _ => {}
    }
    if random.once_in(8) {
        car.key = random.pick(&[Key::Out, Key::In]);
        return car;
    }
    car.key = Key::On;
    car.tested =
        random.near(&[car.now, car.now - 300, car.now - TEST_PERIOD + 1], car.now).max(car.now - TEST_PERIOD + 1);
    let top = car.ceiling();
    car.desired = random.near(&[0, 10, 200, 500, 1200, top], top);
    car.hand_set = if car.towing || random.once_in(2) { 0 } else { random.near(&[1200, 1600, 2000], 2000).max(1200) };
    make_cruise(random, &mut car);
    make_pedals(random, &mut car);
    car.speed = random.near(&[0, 200, 216, car.desired, car.desired + 40, 2000, 5000], 5000);
    make_limiter(random, &mut car);
    make_radar(random, &mut car);
    car
}

fn make_cruise(random: &mut Random, car: &mut Car) {
    car.cruise = car.fore_back != ForeBack::Backward && random.below(3) > 0;
    if !car.cruise {
        return;
    }
    car.desired = car.desired.max(1);
    if car.up_down.is_out() {
        let held = random.near(&[0, 2, 4, 50], car.now.min(300));
        let top = car.ceiling();
        car.lever_base = random.near(&[0, 10, 100, 550, 1000, top - 10, top], top);
        car.lever_time = car.now - held;
        if held_desired(top, car.up_down, car.lever_base, held) == 0 {
            car.lever_base = 1;
        }
        car.desired = held_desired(top, car.up_down, car.lever_base, held);
    }
}

fn make_pedals(random: &mut Random, car: &mut Car) {
    match random.below(4) {
        0 => car.gas = random.near(&[8, 90, 225], 225),
        1 if !car.cruise => car.brake = random.near(&[4, 225], 225),
        _ => {}
    }
}

fn make_limiter(random: &mut Random, car: &mut Car) {
    car.button = car.fore_back != ForeBack::Backward && random.once_in(2);
    car.limiter = car.button && car.gas <= 90 && random.below(3) > 0;
    if car.limiter {
        car.limit = random.near(&[car.speed, car.speed + 36, car.speed + 43, 5000], 5000).max(car.speed);
    }
}

fn make_radar(random: &mut Random, car: &mut Car) {
    car.ahead = random.near(&[0, 200, car.speed, car.desired, 5000], 5000);
    car.ahead_before = random.near(&[0, car.ahead, 5000], 5000);
    car.ready = random.below(4) > 0;
    car.range = NOT_READY;
    if car.ready {
        let (near, nearer) = (15 * car.speed / 360, 8 * car.speed / 360);
        car.range = random.near(&[0, 1, car.secure_distance(), near, nearer, 254], 254);
    }
}

pub fn good_car(random: &mut Random) -> Car {
    match random.below(4) {
        0 => fresh_car(random),
        1 => reached_car(random),
        _ => made_car(random),
    }
}

/// The car with another clock, often near its end, and the times that count as many seconds before it.
pub fn moved_in_time(random: &mut Random, car: &Car) -> Car {
    let held = car.cruise && car.up_down.is_out();
    let times = [(held, car.lever_time), (car.key == Key::On, car.tested)];
    let counted = times.into_iter().filter(|&(counts, _)| counts);
    let least = counted.map(|(_, time)| car.now - time).max().unwrap_or(0);
    let first = if random.once_in(3) { least.max(CLOCK_END - 50) } else { least };
    let now = random.between(first, CLOCK_END);
    let [lever_time, tested] = times.map(|(counts, time)| if counts { now - (car.now - time) } else { time });
    Car { now, lever_time, tested, ..*car }
}

/// A good car with cruise on behind another, L and M neutral, for runs of ticks.
pub fn following_car(random: &mut Random) -> Car {
    loop {
        let car = made_car(random);
        let neutral = !car.up_down.is_out() && car.fore_back == ForeBack::Neutral;
        if car.mode == Mode::Adaptive && car.is_ahead() && neutral && car.now < 1000 {
            return car;
        }
    }
}

/// A good car with cruise on and both levers in neutral.
pub fn neutral_car(random: &mut Random) -> Car {
    loop {
        let car = good_car(random);
        if car.has_neutral_cruise() {
            return car;
        }
    }
}

// ---------------------------------------------------------------- Records

/// Where a field stands in the record, and its greatest value.
#[derive(Clone, Copy)]
pub struct Field {
    pub name: &'static str,
    pub place: usize,
    pub low: u32,
    pub width: u32,
    top: u32,
}

const fn field(name: &'static str, place: usize, low: u32, width: u32, top: u32) -> Field {
    Field { name, place, low, width, top }
}

pub const FIELDS: [Field; 24] = [
    field("mode", 0, 0, 2, 2),
    field("signs", 0, 2, 1, 1),
    field("key", 0, 3, 2, 2),
    field("L", 0, 5, 3, 4),
    field("M", 0, 8, 2, 2),
    field("H", 0, 10, 1, 1),
    field("S", 0, 11, 1, 1),
    field("C", 0, 12, 1, 1),
    field("P", 0, 13, 1, 1),
    field("towing", 0, 14, 1, 1),
    field("b", 1, 0, 8, 225),
    field("g", 1, 8, 8, 225),
    field("v", 2, 0, 13, 5000),
    field("Z", 3, 0, 13, 5000),
    field("D", 4, 0, 11, 2000),
    field("E", 4, 11, 11, 2000),
    field("T", 5, 0, 17, 86_400),
    field("B", 6, 0, 11, 2000),
    field("R", 7, 0, 8, 255),
    field("W", 7, 8, 13, 5000),
    field("Y", 8, 0, 13, 5000),
    field("G", 9, 0, 5, 30),
    field("now", 10, 0, 17, 86_400),
    field("Q", 11, 0, 17, 86_400),
];

impl Field {
    /// The field's value in a record.
    pub fn read(&self, record: &[u32]) -> u32 {
        record[self.place] >> self.low & ((1 << self.width) - 1)
    }

    /// The top of its range: with towing 1000 for D and B, and 0 for E.
    fn top(&self, record: &[u32; 12]) -> u32 {
        let towing = record[0] >> 14 & 1 == 1;
        match self.name {
            "D" | "B" if towing => 1000,
            "E" if towing => 0,
            _ => self.top,
        }
    }

    /// Another value for this field: at an edge, just outside, beside the present one, or anywhere.
    pub fn change(&self, random: &mut Random, record: &mut [u32; 12]) {
        let all_ones = (1 << self.width) - 1;
        let present = self.read(record);
        let top = self.top(record);
        let value = match random.below(8) {
            0 => 0,
            1 => 1,
            2 => top,
            3 => top + 1,
            4 => all_ones,
            5 => present.wrapping_sub(1),
            6 => present + 1,
            _ => random.word(),
        };
        record[self.place] &= !(all_ones << self.low);
        record[self.place] |= (value & all_ones) << self.low;
    }
}

/// A record that gives this good car: the one it is written as, or where G is 25 now and then the one that holds 30.
pub fn record(random: &mut Random, car: &Car) -> [u32; 12] {
    let mut record = car.write();
    if car.gap == LONGEST_GAP && random.once_in(2) {
        record[9] = record[9] & !31 | OLD_GAP as u32;
    }
    record
}

/// A record of a good car with damage; some damage leaves it accepted.
pub fn damaged_record(random: &mut Random) -> Vec<u32> {
    let car = good_car(random);
    let mut record = record(random, &car);
    let place = random.below(12) as usize;
    match random.below(12) {
        0..=2 => random.pick(&FIELDS).change(random, &mut record),
        3 => {
            random.pick(&FIELDS).change(random, &mut record);
            random.pick(&FIELDS).change(random, &mut record);
        }
        4 => record[place] ^= 1 << random.below(32),
        5 => record.swap(place, random.below(12) as usize),
        6 => record[place] ^= (1 + random.below(15)) << 28,
        7 => record[place] ^= (1 + random.below(15)) << 24,
        8 => record[place] = random.word(),
        9 => record.fill_with(|| random.word()),
        10 => record[place] = made_car(random).write()[place],
        _ => return of_wrong_length(random, &record),
    }
    record.to_vec()
}

fn of_wrong_length(random: &mut Random, record: &[u32; 12]) -> Vec<u32> {
    let length = random.pick(&[0, 1, 2, 3, 4, 5, 6, 7, 8, 9, 10, 11, 13, 14, 24, 100]);
    (0..length).map(|place| if place < 12 { record[place] } else { random.word() }).collect()
}
