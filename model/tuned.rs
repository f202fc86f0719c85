//! The same lesson tuned for speed: 32-bit fields, the figures kept between words and worked out again only when
//! something they rest on has changed, no division where a multiplication does. Every word takes the whole step.

use crate::paper::{self, ForeBack, Key, Lesson, Mode, UpDown};

const CLOCK_END: u32 = paper::CLOCK_END as u32;
const TEST_PERIOD: u32 = paper::TEST_PERIOD as u32;
const NOT_READY: u32 = paper::NOT_READY as u32;

/// For each kind the bits that must be 0 in `word | NO_KIND`; kinds that do not exist have that bit among them.
const NO_KIND: u32 = 1 << 31;
const UNNAMED: [u32; 16] = {
    let named = [0, 3, 3, 2, 8, 8, 13, 5, 11, 21, 1];
    let mut unnamed = [NO_KIND; 16];
    let mut kind = 1;
    while kind <= 10 {
        unnamed[kind] = 0x0FFF_FFFF >> named[kind] << named[kind];
        kind += 1;
    }
    unnamed
};

/// The car by the paper's letters, with what is kept between words.
struct Car {
    adaptive: bool,
    signs: bool,
    /// The ceiling on D and B.
    top: u32,
    key: u32,
    l: u32,
    m: u32,
    b: u32,
    g: u32,
    h: bool,
    s: bool,
    c: bool,
    p: u32,
    v: u32,
    z: u32,
    d: u32,
    e: u32,
    t: u32,
    base: u32,
    r: u32,
    w: u32,
    y: u32,
    gap: u32,
    now: u32,
    q: u32,
    /// The acceleration by the pedal that is down.
    pedal: i32,
    /// The answer word of this car, with refusal 0.
    answer: u32,
    /// What a tick adds to v.
    rise: i32,
    /// The next time at which a tick is a radar test or the clock has ended.
    stop: u32,
}

/// The lesson from a good car. 19: answer buffer shorter than the words.
pub fn lesson(from: &paper::Car, words: &[u32], answers: &mut [u32]) -> Result<Lesson, u32> {
    if answers.len() < words.len() {
        return Err(19);
    }
    let mut car = Car::enter(from);
    let mut refused = 0;
    for (&word, answer) in words.iter().zip(answers) {
        let refusal = car.step(word);
        refused += usize::from(refusal != 0);
        *answer = car.answer | refusal;
    }
    Ok(Lesson { car: car.leave(from), accepted: words.len() - refused, refused })
}

impl Car {
    fn enter(from: &paper::Car) -> Car {
        let mut car = Car {
            adaptive: from.mode == Mode::Adaptive,
            signs: from.signs,
            top: from.ceiling() as u32,
            key: from.key as u32,
            l: from.up_down as u32,
            m: from.fore_back as u32,
            b: from.brake as u32,
            g: from.gas as u32,
            h: from.button,
            s: from.limiter,
            c: from.cruise,
            p: from.ready as u32,
            v: from.speed as u32,
            z: from.limit as u32,
            d: from.desired as u32,
            e: from.hand_set as u32,
            t: from.lever_time as u32,
            base: from.lever_base as u32,
            r: from.range as u32,
            w: from.ahead as u32,
            y: from.ahead_before as u32,
            gap: from.gap as u32,
            now: from.now as u32,
            q: from.tested as u32,
            pedal: 0,
            answer: 0,
            rise: 0,
            stop: 0,
        };
        car.set_pedal();
        car.set_clock();
        car.refresh();
        car
    }

    fn leave(&self, from: &paper::Car) -> paper::Car {
        paper::Car {
            mode: from.mode,
            signs: from.signs,
            towing: from.towing,
            key: [Key::Out, Key::In, Key::On][self.key as usize],
            up_down: [UpDown::Neutral, UpDown::Up5, UpDown::Up7, UpDown::Down5, UpDown::Down7][self.l as usize],
            fore_back: [ForeBack::Neutral, ForeBack::Forward, ForeBack::Backward][self.m as usize],
            brake: self.b as i32,
            gas: self.g as i32,
            button: self.h,
            limiter: self.s,
            cruise: self.c,
            ready: self.p == 1,
            speed: self.v as i32,
            limit: self.z as i32,
            desired: self.d as i32,
            hand_set: self.e as i32,
            lever_time: self.t as i32,
            lever_base: self.base as i32,
            range: self.r as i32,
            ahead: self.w as i32,
            ahead_before: self.y as i32,
            gap: self.gap as i32,
            now: self.now as i32,
            tested: self.q as i32,
        }
    }

    /// One word: the refusal, or 0 with the car moved on.
    #[inline(always)]
    fn step(&mut self, word: u32) -> u32 {
        let kind = word >> 28;
        if (word | NO_KIND) & UNNAMED[kind as usize] != 0 {
            return if UNNAMED[kind as usize] == NO_KIND { 1 } else { 2 };
        }
        match kind {
            1 => self.key_word(word & 3, word >> 2 & 1),
            2 => self.up_down_word(word & 7),
            3 => self.fore_back_word(word & 3),
            4 => self.brake_word(word & 255),
            5 => self.gas_word(word & 255),
            6 => self.button_word(word & 0x1FFF),
            7 => self.gap_word(word & 31),
            8 => self.sign_word(word & 0x7FF),
            9 => self.radar_word(word & 255, word >> 8 & 0x1FFF),
            _ => self.tick_word(word & 1),
        }
    }

    fn key_word(&mut self, key: u32, ready: u32) -> u32 {
        if key > 2 {
            return 3;
        }
        if key == self.key {
            return 5;
        }
        if self.v > 0 {
            return 6;
        }
        if key ^ self.key == 2 {
            return 7;
        }
        let on = key == 2;
        if ready == 1 && !on {
            return 15;
        }
        self.key = key;
        (self.b, self.g, self.pedal) = (0, 0, 0);
        (self.h, self.s, self.c) = (false, false, false);
        (self.d, self.e, self.t, self.base) = (0, 0, 0, 0);
        (self.w, self.y) = (0, 0);
        self.p = ready;
        self.r = if ready == 1 { 0 } else { NOT_READY };
        self.q = if on { self.now } else { 0 };
        self.set_clock();
        self.refresh();
        0
    }

    fn up_down_word(&mut self, l: u32) -> u32 {
        if l > 4 {
            return 3;
        }
        if l == self.l {
            return 5;
        }
        if l != 0 && self.l != 0 && (l > 2) != (self.l > 2) {
            return 7;
        }
        if self.m != 0 {
            return 8;
        }
        self.l = l;
        if l == 0 {
            (self.t, self.base) = (0, 0);
        } else if self.c {
            self.d = match l {
                1 => (self.d + 10).min(self.top),
                2 => (self.d / 100 * 100 + 100).min(self.top),
                3 => self.d.saturating_sub(10).max(10),
                _ => (self.d.saturating_sub(1) / 100 * 100).max(10),
            };
            (self.t, self.base) = (self.now, self.d);
        } else {
            self.d = self.v.min(self.top);
        }
        if self.d >= 1200 {
            self.e = self.d;
        }
        self.refresh();
        0
    }

    fn fore_back_word(&mut self, m: u32) -> u32 {
        if m > 2 {
            return 3;
        }
        if m == self.m {
            return 5;
        }
        if m != 0 && self.m != 0 {
            return 7;
        }
        if self.l != 0 {
            return 8;
        }
        self.m = m;
        if m == 1 && self.key == 2 && self.b == 0 && (self.c || self.v >= 200 || self.d > 0) {
            self.c = true;
            if self.d == 0 {
                self.d = self.v.min(self.top);
            }
            self.refresh();
        } else if m == 2 {
            (self.c, self.h, self.s) = (false, false, false);
            self.refresh();
        }
        0
    }

    fn brake_word(&mut self, b: u32) -> u32 {
        if b > 225 {
            return 3;
        }
        if self.key != 2 {
            return 4;
        }
        if b == self.b {
            return 5;
        }
        if self.g > 0 {
            return 9;
        }
        self.b = b;
        if b > 0 {
            self.c = false;
            (self.t, self.base) = (0, 0);
        }
        self.set_pedal();
        self.refresh();
        0
    }

    fn gas_word(&mut self, g: u32) -> u32 {
        if g > 225 {
            return 3;
        }
        if self.key != 2 {
            return 4;
        }
        if g == self.g {
            return 5;
        }
        if self.b > 0 {
            return 9;
        }
        self.g = g;
        if g > 90 {
            self.s = false;
        }
        self.set_pedal();
        self.refresh();
        0
    }

    fn button_word(&mut self, limit: u32) -> u32 {
        if limit > 5000 {
            return 3;
        }
        if self.key != 2 {
            return 4;
        }
        if self.h {
            return 10;
        }
        if self.m == 2 {
            return 11;
        }
        if self.g > 90 {
            return 12;
        }
        if self.v > limit {
            return 13;
        }
        (self.h, self.s, self.z) = (true, true, limit);
        0
    }

    fn gap_word(&mut self, gap: u32) -> u32 {
        if gap == 30 {
            return 24;
        }
        if gap != 20 && gap != 25 {
            return 3;
        }
        if self.key != 2 {
            return 4;
        }
        self.gap = gap;
        self.refresh();
        0
    }

    fn sign_word(&mut self, sign: u32) -> u32 {
        if sign > 2000 {
            return 3;
        }
        if self.key != 2 {
            return 4;
        }
        if sign >= 200 && self.signs && self.adaptive && self.c && self.g == 0 && self.l | self.m == 0 {
            if sign <= 1300 {
                self.d = sign;
            } else if self.d < 1200 {
                self.d = 1200;
            } else if self.e > 0 {
                self.d = self.e;
            }
            self.d = self.d.min(self.top);
            self.refresh();
        }
        0
    }

    fn radar_word(&mut self, range: u32, ahead: u32) -> u32 {
        if range > 254 || ahead > 5000 {
            return 3;
        }
        if self.key != 2 {
            return 4;
        }
        if self.p == 0 {
            return 14;
        }
        self.y = self.w;
        (self.r, self.w) = (range, ahead);
        if self.adaptive && self.c {
            self.refresh();
        }
        0
    }

    fn tick_word(&mut self, ready: u32) -> u32 {
        let test = self.now == self.stop && self.key == 2 && self.now + 1 == self.q + TEST_PERIOD;
        if ready != self.p && !test {
            return 15;
        }
        if self.now == CLOCK_END {
            return 16;
        }
        let (old_v, old_d) = (self.v, self.d);
        let v = (old_v as i32 + self.rise).clamp(0, 5000) as u32;
        self.v = if self.s { v.min(self.z) } else { v };
        self.now += 1;
        if test {
            self.q = self.now;
            self.p = ready;
            if ready == 0 {
                self.r = NOT_READY;
            } else if self.r == NOT_READY {
                self.r = 0;
            }
            self.set_clock();
        }
        if self.c {
            if self.l != 0 {
                self.hold();
            }
            if self.g == 0 && old_v <= self.d {
                self.v = self.v.min(self.d);
            }
        }
        if self.v != old_v || self.d != old_d || test {
            self.refresh();
        }
        0
    }

    /// D while L is held with cruise on.
    fn hold(&mut self) {
        let held = self.now - self.t;
        if held < 2 {
            return;
        }
        let whole_tens = self.base / 100 * 100;
        self.d = match self.l {
            1 => (self.base + (held - 1) * 10).min(self.top),
            2 => (whole_tens + held / 2 * 100).min(self.top),
            3 => self.base.saturating_sub((held - 1) * 10).max(10),
            _ => whole_tens.saturating_sub(held / 2 * 100).max(10),
        };
    }

    /// After b or g changed. The gas gives at most 30 by itself.
    fn set_pedal(&mut self) {
        self.pedal = if self.b > 0 { -((self.b * 4 / 15) as i32) } else { (self.g * 2 / 15) as i32 };
    }

    /// After key, P or Q changed.
    fn set_clock(&mut self) {
        self.stop = if self.key == 2 { CLOCK_END.min(self.q + TEST_PERIOD - 1) } else { CLOCK_END };
    }

    /// After anything changed on which the figures rest. `R < k*v/360` is `(R + 1)*360 <= k*v`.
    fn refresh(&mut self) {
        let (mut a, mut warnings) = (self.pedal, 0);
        if self.b > 0 && self.v == 0 {
            a = 0;
        } else if self.c {
            let mut target = self.d;
            let mut close = false;
            if self.adaptive && self.r.wrapping_sub(1) < 254 {
                let near = (self.r + 1) * 360;
                warnings = u32::from(near <= 15 * self.v) << 5 | u32::from(near <= 8 * self.v) << 6;
                close = self.g <= 90
                    && if self.w | self.v == 0 { self.r < 2 } else { near <= self.gap_in_use() * self.v };
                target = target.min(self.w);
            }
            a = if close {
                if self.v > 0 {
                    -30
                } else {
                    0
                }
            } else {
                let towards = if self.v < target {
                    ((target - self.v) * 5 / 18).clamp(1, 10) as i32
                } else if self.v == target {
                    0
                } else {
                    -(((self.v - target) * 5 / 18).clamp(1, 30) as i32)
                };
                if self.g == 0 {
                    towards
                } else {
                    towards.max(self.pedal)
                }
            };
        }
        self.rise = a * 18 / 5;
        self.answer = 12 << 28 | warnings | ((a + 60) as u32) << 7 | self.d << 14;
    }

    /// The tenths of a second that the secure distance lasts.
    fn gap_in_use(&self) -> u32 {
        if self.w > 200 {
            self.gap
        } else if self.w == 0 || self.w < self.y {
            25
        } else {
            30
        }
    }
}
