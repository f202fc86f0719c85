//! The plain model: document 01 in its own order, with its check numbers and rule letters as labels, as the requests of
//! document 02 have changed it so far.

use std::collections::BTreeMap;

/// The end of the clock.
pub const CLOCK_END: i32 = 86_400;
/// Seconds between radar tests.
pub const TEST_PERIOD: i32 = 600;
/// The range of a radar that is not ready.
pub const NOT_READY: i32 = 255;
/// The gap that no car offers any more, and the one of the car that a record with it gives.
pub const OLD_GAP: i32 = 30;
pub const LONGEST_GAP: i32 = 25;

// ---------------------------------------------------------------- The car and a fresh one

#[derive(Clone, Copy, PartialEq, Eq, Debug)]
pub enum Mode {
    Normal = 1,
    Adaptive = 2,
}

#[derive(Clone, Copy, PartialEq, Eq, Debug)]
pub enum Key {
    Out,
    In,
    On,
}

/// L, the up-down lever.
#[derive(Clone, Copy, PartialEq, Eq, Debug)]
pub enum UpDown {
    Neutral,
    Up5,
    Up7,
    Down5,
    Down7,
}

/// M, the fore-back lever.
#[derive(Clone, Copy, PartialEq, Eq, Debug)]
pub enum ForeBack {
    Neutral,
    Forward,
    Backward,
}

impl Mode {
    pub fn new(number: u32) -> Option<Mode> {
        match number {
            1 => Some(Mode::Normal),
            2 => Some(Mode::Adaptive),
            _ => None,
        }
    }
}

impl Key {
    pub fn new(number: u32) -> Option<Key> {
        match number {
            0 => Some(Key::Out),
            1 => Some(Key::In),
            2 => Some(Key::On),
            _ => None,
        }
    }
}

impl UpDown {
    pub fn new(number: u32) -> Option<UpDown> {
        match number {
            0 => Some(UpDown::Neutral),
            1 => Some(UpDown::Up5),
            2 => Some(UpDown::Up7),
            3 => Some(UpDown::Down5),
            4 => Some(UpDown::Down7),
            _ => None,
        }
    }

    pub fn is_out(self) -> bool {
        self != UpDown::Neutral
    }

    fn is_up(self) -> bool {
        matches!(self, UpDown::Up5 | UpDown::Up7)
    }

    fn is_down(self) -> bool {
        matches!(self, UpDown::Down5 | UpDown::Down7)
    }
}

impl ForeBack {
    pub fn new(number: u32) -> Option<ForeBack> {
        match number {
            0 => Some(ForeBack::Neutral),
            1 => Some(ForeBack::Forward),
            2 => Some(ForeBack::Backward),
            _ => None,
        }
    }

    fn is_out(self) -> bool {
        self != ForeBack::Neutral
    }
}

/// The car, each field with the paper's letter.
#[derive(Clone, Copy, PartialEq, Eq, Debug)]
pub struct Car {
    pub mode: Mode,
    pub signs: bool,
    pub towing: bool,
    pub key: Key,
    /// L
    pub up_down: UpDown,
    /// M
    pub fore_back: ForeBack,
    /// b
    pub brake: i32,
    /// g
    pub gas: i32,
    /// H
    pub button: bool,
    /// S
    pub limiter: bool,
    /// C
    pub cruise: bool,
    /// P
    pub ready: bool,
    /// v
    pub speed: i32,
    /// Z
    pub limit: i32,
    /// D
    pub desired: i32,
    /// E, the last hand-set desired
    pub hand_set: i32,
    /// T
    pub lever_time: i32,
    /// B
    pub lever_base: i32,
    /// R
    pub range: i32,
    /// W
    pub ahead: i32,
    /// Y, the reading before W
    pub ahead_before: i32,
    /// G
    pub gap: i32,
    pub now: i32,
    /// Q, the time of the last radar test
    pub tested: i32,
}

impl Car {
    /// The fresh car of a settings word, kind 13 (bits 0-1 mode, bit 2 signs, bit 3 towing). 17: another kind, an unnamed
    /// bit set or a mode not 1 or 2.
    pub fn start(settings: u32) -> Result<Car, u32> {
        if settings >> 28 != 13 || settings & 0x0FFF_FFF0 != 0 {
            return Err(17);
        }
        Car::fresh(settings & 3, settings >> 2 & 1, settings >> 3 & 1)
    }

    /// A fresh car is made from its settings. 17: settings outside their values.
    pub fn fresh(mode: u32, signs: u32, towing: u32) -> Result<Car, u32> {
        let mode = Mode::new(mode).ok_or(17u32)?;
        if signs > 1 || towing > 1 {
            return Err(17);
        }
        Ok(Car {
            mode,
            signs: signs == 1,
            towing: towing == 1,
            key: Key::Out,
            up_down: UpDown::Neutral,
            fore_back: ForeBack::Neutral,
            brake: 0,
            gas: 0,
            button: false,
            limiter: false,
            cruise: false,
            ready: false,
            speed: 0,
            limit: 0,
            desired: 0,
            hand_set: 0,
            lever_time: 0,
            lever_base: 0,
            range: NOT_READY,
            ahead: 0,
            ahead_before: 0,
            gap: 20,
            now: 0,
            tested: 0,
        })
    }

    /// The ceiling on D and B: 2000, with towing 1000.
    pub fn ceiling(&self) -> i32 {
        if self.towing {
            1000
        } else {
            2000
        }
    }
}

// ---------------------------------------------------------------- Event words

#[derive(Clone, Copy, PartialEq, Eq, Debug)]
pub enum Event {
    Key { key: Key, ready: bool },
    UpDown(UpDown),
    ForeBack(ForeBack),
    Brake(i32),
    Gas(i32),
    Button { limit: i32 },
    Gap(i32),
    Sign(i32),
    Radar { range: i32, ahead: i32 },
    Tick { ready: bool },
}

/// `width` bits of the word from bit `low` up.
fn bits(word: u32, low: u32, width: u32) -> u32 {
    word >> low & ((1 << width) - 1)
}

/// The number, if it is at most `top`.
fn at_most(number: u32, top: u32) -> Option<i32> {
    (number <= top).then_some(number as i32)
}

/// One bit's value.
fn flag(number: u32) -> Option<bool> {
    at_most(number, 1).map(|bit| bit == 1)
}

/// G of a car.
fn is_gap(number: i32) -> bool {
    matches!(number, 20 | LONGEST_GAP)
}

impl Event {
    /// The event of a word, by checks 1 to 3 and 24.
    pub fn read(word: u32) -> Result<Event, u32> {
        // 1: no such kind.
        let kind = word >> 28;
        let named_bits = match kind {
            1 => 3,
            2 => 3,
            3 => 2,
            4 | 5 => 8,
            6 => 13,
            7 => 5,
            8 => 11,
            9 => 21,
            10 => 1,
            _ => return Err(1),
        };
        // 2: an unnamed bit set.
        if bits(word, 0, 28) >> named_bits != 0 {
            return Err(2);
        }
        let (value, second) = match kind {
            1 => (bits(word, 0, 2), bits(word, 2, 1)),
            9 => (bits(word, 0, 8), bits(word, 8, 13)),
            _ => (bits(word, 0, named_bits), 0),
        };
        Event::of(kind, value, second)
    }

    /// The event of one of the ten kinds and its values, by checks 3 and 24. The second value is the ready bit of a key and
    /// the speed of a radar reading.
    pub fn of(kind: u32, value: u32, second: u32) -> Result<Event, u32> {
        // 3: a value outside its field's range.
        let event = match kind {
            1 => Key::new(value).zip(flag(second)).map(|(key, ready)| Event::Key { key, ready }),
            2 => UpDown::new(value).map(Event::UpDown),
            3 => ForeBack::new(value).map(Event::ForeBack),
            4 => at_most(value, 225).map(Event::Brake),
            5 => at_most(value, 225).map(Event::Gas),
            6 => at_most(value, 5000).map(|limit| Event::Button { limit }),
            7 => at_most(value, 30).filter(|&gap| is_gap(gap) || gap == OLD_GAP).map(Event::Gap),
            8 => at_most(value, 2000).map(Event::Sign),
            9 => at_most(value, 254).zip(at_most(second, 5000)).map(|(range, ahead)| Event::Radar { range, ahead }),
            _ => flag(value).map(|ready| Event::Tick { ready }),
        };
        let event = event.ok_or(3u32)?;
        // 24: the gap choice 30.
        if event == Event::Gap(OLD_GAP) {
            return Err(24);
        }
        Ok(event)
    }

    /// The event's word.
    pub fn word(self) -> u32 {
        let word = |kind: u32, content: u32| kind << 28 | content;
        match self {
            Event::Key { key, ready } => word(1, key as u32 | u32::from(ready) << 2),
            Event::UpDown(lever) => word(2, lever as u32),
            Event::ForeBack(lever) => word(3, lever as u32),
            Event::Brake(brake) => word(4, brake as u32),
            Event::Gas(gas) => word(5, gas as u32),
            Event::Button { limit } => word(6, limit as u32),
            Event::Gap(gap) => word(7, gap as u32),
            Event::Sign(sign) => word(8, sign as u32),
            Event::Radar { range, ahead } => word(9, range as u32 | (ahead as u32) << 8),
            Event::Tick { ready } => word(10, u32::from(ready)),
        }
    }

    /// Is a refusal one of these, given whatever the car?
    pub fn is_unread(refusal: u32) -> bool {
        matches!(refusal, 1..=3 | 24)
    }
}

// ---------------------------------------------------------------- From file, pupil, radar, clock and caller

impl Car {
    /// Checks 4 to 16 in rising number: the first that holds.
    pub fn refusal(&self, event: Event) -> Option<u32> {
        let key_on = self.key == Key::On;

        // 4: key not on (kinds 4 to 9).
        let needs_key = matches!(
            event,
            Event::Brake(_)
                | Event::Gas(_)
                | Event::Button { .. }
                | Event::Gap(_)
                | Event::Sign(_)
                | Event::Radar { .. }
        );
        if needs_key && !key_on {
            return Some(4);
        }
        // 5: value already held (kinds 1 to 5).
        let already_held = match event {
            Event::Key { key, .. } => key == self.key,
            Event::UpDown(lever) => lever == self.up_down,
            Event::ForeBack(lever) => lever == self.fore_back,
            Event::Brake(brake) => brake == self.brake,
            Event::Gas(gas) => gas == self.gas,
            _ => false,
        };
        if already_held {
            return Some(5);
        }
        // 6: key moved while v > 0.
        if matches!(event, Event::Key { .. }) && self.speed > 0 {
            return Some(6);
        }
        // 7: key from 0 to 2 or 2 to 0; L from up to down or back; M between forward and backward.
        let passes_over = match event {
            Event::Key { key, .. } => matches!((self.key, key), (Key::Out, Key::On) | (Key::On, Key::Out)),
            Event::UpDown(lever) => self.up_down.is_up() && lever.is_down() || self.up_down.is_down() && lever.is_up(),
            Event::ForeBack(lever) => self.fore_back.is_out() && lever.is_out(),
            _ => false,
        };
        if passes_over {
            return Some(7);
        }
        // 8: L moved while M is out of neutral, or M while L is.
        let other_lever_out = match event {
            Event::UpDown(_) => self.fore_back.is_out(),
            Event::ForeBack(_) => self.up_down.is_out(),
            _ => false,
        };
        if other_lever_out {
            return Some(8);
        }
        // 9: brake while g > 0, gas while b > 0.
        let other_pedal_down = match event {
            Event::Brake(_) => self.gas > 0,
            Event::Gas(_) => self.brake > 0,
            _ => false,
        };
        if other_pedal_down {
            return Some(9);
        }
        // Button: 10 H = 1; 11 M = 2; 12 g > 90; 13 v above the limit given.
        if let Event::Button { limit } = event {
            if self.button {
                return Some(10);
            }
            if self.fore_back == ForeBack::Backward {
                return Some(11);
            }
            if self.gas > 90 {
                return Some(12);
            }
            if self.speed > limit {
                return Some(13);
            }
        }
        // 14: a reading while P = 0.
        if matches!(event, Event::Radar { .. }) && !self.ready {
            return Some(14);
        }
        // 15: a key word with ready 1 and a key other than 2; or a tick whose ready differs from P, unless key is
        // on and now + 1 = Q + 600.
        let false_ready = match event {
            Event::Key { key, ready } => ready && key != Key::On,
            Event::Tick { ready } => ready != self.ready && !self.is_test(self.now + 1),
            _ => false,
        };
        if false_ready {
            return Some(15);
        }
        // 16: a tick at 86,400.
        if matches!(event, Event::Tick { .. }) && self.now == CLOCK_END {
            return Some(16);
        }
        None
    }

    /// Is a radar test due at this time?
    fn is_test(&self, time: i32) -> bool {
        self.key == Key::On && time == self.tested + TEST_PERIOD
    }

    /// One event word for a good car: the next car, or the number of the first check that holds.
    pub fn drive(&self, word: u32) -> Result<Car, u32> {
        let event = Event::read(word)?;
        match self.refusal(event) {
            Some(refusal) => Err(refusal),
            None => Ok(self.after(event)),
        }
    }
}

// ---------------------------------------------------------------- Rules of each event

impl Car {
    /// The car after an accepted event.
    fn after(self, event: Event) -> Car {
        let mut car = match event {
            Event::Key { key, ready } => self.key_moved(key, ready),
            Event::UpDown(lever) => self.up_down_moved(lever),
            Event::ForeBack(lever) => self.fore_back_moved(lever),
            Event::Brake(brake) => self.braked(brake),
            Event::Gas(gas) => self.gassed(gas),
            Event::Button { limit } => self.button_pressed(limit),
            Event::Gap(gap) => Car { gap, ..self },
            Event::Sign(sign) => self.sign_seen(sign),
            Event::Radar { range, ahead } => self.radar_read(range, ahead),
            Event::Tick { ready } => self.ticked(ready),
        };
        // T and B are 0 unless C = 1 and L is out.
        if !(car.cruise && car.up_down.is_out()) {
            car.lever_time = 0;
            car.lever_base = 0;
        }
        car
    }

    fn key_moved(self, key: Key, ready: bool) -> Car {
        let mut car = Car {
            key,
            brake: 0,
            gas: 0,
            speed: 0,
            button: false,
            limiter: false,
            cruise: false,
            desired: 0,
            hand_set: 0,
            lever_time: 0,
            lever_base: 0,
            ahead: 0,
            ahead_before: 0,
            ..self
        };
        if key == Key::On {
            car.ready = ready;
            car.range = if ready { 0 } else { NOT_READY };
            car.tested = car.now;
        } else {
            car.ready = false;
            car.range = NOT_READY;
            car.tested = 0;
        }
        car
    }

    fn up_down_moved(mut self, lever: UpDown) -> Car {
        self.up_down = lever;
        if lever.is_out() && !self.cruise {
            self.desired = self.speed.min(self.ceiling());
        }
        if lever.is_out() && self.cruise {
            let whole_tens = self.desired / 100 * 100;
            let greatest_multiple_below = (self.desired - 1).div_euclid(100) * 100;
            self.desired = match lever {
                UpDown::Neutral => self.desired,
                UpDown::Up5 => (self.desired + 10).min(self.ceiling()),
                UpDown::Up7 => (whole_tens + 100).min(self.ceiling()),
                UpDown::Down5 => (self.desired - 10).max(10),
                UpDown::Down7 => greatest_multiple_below.max(10),
            };
            self.lever_time = self.now;
            self.lever_base = self.desired;
        }
        if self.desired >= 1200 {
            self.hand_set = self.desired;
        }
        self
    }

    fn fore_back_moved(mut self, lever: ForeBack) -> Car {
        self.fore_back = lever;
        match lever {
            ForeBack::Neutral => {}
            ForeBack::Forward => {
                let key_on = self.key == Key::On;
                if key_on && self.brake == 0 && (self.cruise || self.speed >= 200 || self.desired > 0) {
                    self.cruise = true;
                    if self.desired == 0 {
                        self.desired = self.speed.min(self.ceiling());
                    }
                }
            }
            ForeBack::Backward => {
                self.cruise = false;
                self.button = false;
                self.limiter = false;
            }
        }
        self
    }

    fn braked(mut self, brake: i32) -> Car {
        self.brake = brake;
        if brake > 0 {
            self.cruise = false;
        }
        self
    }

    fn gassed(mut self, gas: i32) -> Car {
        self.gas = gas;
        if gas > 90 {
            self.limiter = false;
        }
        self
    }

    fn button_pressed(mut self, limit: i32) -> Car {
        self.button = true;
        self.limiter = true;
        self.limit = limit;
        self
    }

    fn sign_seen(mut self, sign: i32) -> Car {
        let levers_neutral = !self.up_down.is_out() && !self.fore_back.is_out();
        if self.signs && self.mode == Mode::Adaptive && self.cruise && self.gas == 0 && levers_neutral {
            if (200..=1300).contains(&sign) {
                self.desired = sign;
            } else if sign > 1300 {
                if self.desired < 1200 {
                    self.desired = 1200;
                } else if self.hand_set > 0 {
                    self.desired = self.hand_set;
                }
            }
            // With towing a sign's D is cut to 1000.
            if sign >= 200 {
                self.desired = self.desired.min(self.ceiling());
            }
        }
        self
    }

    fn radar_read(mut self, range: i32, ahead: i32) -> Car {
        self.ahead_before = self.ahead;
        self.range = range;
        self.ahead = ahead;
        self
    }

    /// The secure distance N.
    pub fn secure_distance(&self) -> i32 {
        if self.ahead > 200 {
            self.gap * self.speed / 360
        } else if self.ahead == 0 && self.speed == 0 {
            2
        } else if self.ahead == 0 || self.ahead < self.ahead_before {
            25 * self.speed / 360
        } else {
            30 * self.speed / 360
        }
    }

    /// "Ahead": mode 2, C = 1, R in 1..254.
    pub fn is_ahead(&self) -> bool {
        self.mode == Mode::Adaptive && self.cruise && (1..=254).contains(&self.range)
    }

    /// "Close": ahead and R < N.
    pub fn is_close(&self) -> bool {
        self.is_ahead() && self.range < self.secure_distance()
    }

    pub fn visual_warning(&self) -> bool {
        self.is_ahead() && self.range < 15 * self.speed / 360
    }

    pub fn acoustic_warning(&self) -> bool {
        self.is_ahead() && self.range < 8 * self.speed / 360
    }

    /// Acceleration a, first that fits.
    pub fn acceleration(&self) -> i32 {
        let by_gas = self.gas * 30 / 225;
        if self.key != Key::On {
            return 0;
        }
        if self.brake > 0 {
            return if self.speed == 0 { 0 } else { -(self.brake * 60 / 225) };
        }
        if !self.cruise {
            return by_gas.min(30);
        }
        if self.gas > 90 {
            return by_gas.min(30);
        }
        if self.is_close() {
            return if self.speed > 0 { -30 } else { 0 };
        }
        let target = if self.is_ahead() { self.desired.min(self.ahead) } else { self.desired };
        let towards_target = if self.speed < target {
            ((target - self.speed) * 10 / 36).max(1).min(10)
        } else if self.speed == target {
            0
        } else {
            -((self.speed - target) * 10 / 36).max(1).min(30)
        };
        if self.gas == 0 {
            towards_target
        } else {
            by_gas.max(towards_target).min(30)
        }
    }

    fn ticked(mut self, ready: bool) -> Car {
        let acceleration = self.acceleration();
        let old_speed = self.speed;
        self.now += 1;
        if self.is_test(self.now) {
            self.tested = self.now;
            self.ready = ready;
            if !ready {
                self.range = NOT_READY;
            } else if self.range == NOT_READY {
                self.range = 0;
            }
        }
        let held = self.now - self.lever_time;
        // A tick with cruise off keeps D.
        if self.cruise && self.up_down.is_out() && held >= 2 {
            self.desired = held_desired(self.ceiling(), self.up_down, self.lever_base, held);
        }
        self.speed = (old_speed + acceleration * 36 / 10).clamp(0, 5000);
        if self.limiter {
            self.speed = self.speed.min(self.limit);
        }
        if self.cruise && self.gas == 0 && old_speed <= self.desired {
            self.speed = self.speed.min(self.desired);
        }
        self
    }
}

/// D with cruise on and L out: the tick's formula for h = `held`, or B for h below 2. `top` is the ceiling.
pub fn held_desired(top: i32, lever: UpDown, base: i32, held: i32) -> i32 {
    if held < 2 {
        return base;
    }
    let whole_tens = base / 100 * 100;
    match lever {
        UpDown::Neutral => base,
        UpDown::Up5 => (base + (held - 1) * 10).min(top),
        UpDown::Up7 => (whole_tens + (held / 2) * 100).min(top),
        UpDown::Down5 => (base - (held - 1) * 10).max(10),
        UpDown::Down7 => (whole_tens - (held / 2) * 100).max(10),
    }
}

// ---------------------------------------------------------------- Standing rules

impl Car {
    /// Does an accepted record give this car? Ranges, the T and B rule, T <= now and (a) to (f), as far as one car
    /// shows them. The ranges of the enums and of the one-bit fields hold by their types.
    pub fn good(&self) -> bool {
        self.in_range()
            && self.lever_rule()
            && self.lever_time <= self.now
            && self.rule_a()
            && self.rule_b()
            && self.rule_c()
            && self.rule_d()
            && self.rule_e()
            && self.rule_f()
    }

    fn in_range(&self) -> bool {
        (0..=225).contains(&self.brake)
            && (0..=225).contains(&self.gas)
            && (0..=5000).contains(&self.speed)
            && (0..=5000).contains(&self.limit)
            && (0..=self.ceiling()).contains(&self.desired)
            && (self.hand_set == 0 || (!self.towing && (1200..=2000).contains(&self.hand_set)))
            && self.lever_time >= 0
            && (0..=self.ceiling()).contains(&self.lever_base)
            && (0..=255).contains(&self.range)
            && (0..=5000).contains(&self.ahead)
            && (0..=5000).contains(&self.ahead_before)
            && is_gap(self.gap)
            && (0..=CLOCK_END).contains(&self.now)
            && self.tested >= 0
    }

    /// T and B are 0 unless C = 1 and L is out.
    fn lever_rule(&self) -> bool {
        (self.cruise && self.up_down.is_out()) || (self.lever_time == 0 && self.lever_base == 0)
    }

    /// (a) b or g is 0. Key not on: b, g, v, D, E, H, S, C, T, B, P, W, Y, Q are 0, R = 255.
    fn rule_a(&self) -> bool {
        let all_off = self.brake == 0
            && self.gas == 0
            && self.speed == 0
            && self.desired == 0
            && self.hand_set == 0
            && !self.button
            && !self.limiter
            && !self.cruise
            && self.lever_time == 0
            && self.lever_base == 0
            && !self.ready
            && self.ahead == 0
            && self.ahead_before == 0
            && self.tested == 0
            && self.range == NOT_READY;
        (self.brake == 0 || self.gas == 0) && (self.key == Key::On || all_off)
    }

    /// (b) L or M is neutral.
    fn rule_b(&self) -> bool {
        !self.up_down.is_out() || !self.fore_back.is_out()
    }

    /// (c) C = 1: b = 0, M not backward, 1 <= D <= 2000, with towing 1000.
    fn rule_c(&self) -> bool {
        let desired = 1..=self.ceiling();
        !self.cruise || (self.brake == 0 && self.fore_back != ForeBack::Backward && desired.contains(&self.desired))
    }

    /// (d) S = 1: H = 1, g <= 90, v <= Z. H = 1: key on, M not backward.
    fn rule_d(&self) -> bool {
        (!self.limiter || (self.button && self.gas <= 90 && self.speed <= self.limit))
            && (!self.button || (self.key == Key::On && self.fore_back != ForeBack::Backward))
    }

    /// (e) R = 255 exactly when P = 0. Key on: Q <= now < Q + 600.
    fn rule_e(&self) -> bool {
        (self.range == NOT_READY) == !self.ready
            && (self.key != Key::On || (self.tested <= self.now && self.now < self.tested + TEST_PERIOD))
    }

    /// (f) C = 1, L out: D is the tick's formula with h = now - T, or B for h below 2.
    fn rule_f(&self) -> bool {
        !(self.cruise && self.up_down.is_out())
            || self.desired == held_desired(self.ceiling(), self.up_down, self.lever_base, self.now - self.lever_time)
    }
}

// ---------------------------------------------------------------- The record

/// How many bits of each word hold fields; those between them and the place are 0.
const NAMED_BITS: [u32; 12] = [15, 16, 13, 13, 22, 17, 11, 21, 13, 5, 17, 17];

impl Car {
    pub fn write(&self) -> [u32; 12] {
        let word = |place: u32, content: u32| 11 << 28 | place << 24 | content;
        let settings_and_levers = self.mode as u32
            | (self.signs as u32) << 2
            | (self.key as u32) << 3
            | (self.up_down as u32) << 5
            | (self.fore_back as u32) << 8
            | (self.button as u32) << 10
            | (self.limiter as u32) << 11
            | (self.cruise as u32) << 12
            | (self.ready as u32) << 13
            | (self.towing as u32) << 14;
        [
            word(0, settings_and_levers),
            word(1, self.brake as u32 | (self.gas as u32) << 8),
            word(2, self.speed as u32),
            word(3, self.limit as u32),
            word(4, self.desired as u32 | (self.hand_set as u32) << 11),
            word(5, self.lever_time as u32),
            word(6, self.lever_base as u32),
            word(7, self.range as u32 | (self.ahead as u32) << 8),
            word(8, self.ahead_before as u32),
            word(9, self.gap as u32),
            word(10, self.now as u32),
            word(11, self.tested as u32),
        ]
    }

    /// The car of an accepted record, or none. One that holds the gap 30 gives a car with 25.
    pub fn read(record: &[u32]) -> Option<Car> {
        let words: &[u32; 12] = record.try_into().ok()?;
        for (place, &word) in words.iter().enumerate() {
            let mark_holds = bits(word, 28, 4) == 11;
            let place_holds = bits(word, 24, 4) == place as u32;
            let rest_is_zero = bits(word, 0, 24) >> NAMED_BITS[place] == 0;
            if !(mark_holds && place_holds && rest_is_zero) {
                return None;
            }
        }
        let number = |place: usize, low, width| bits(words[place], low, width) as i32;
        let flag = |low| bits(words[0], low, 1) == 1;
        let car = Car {
            mode: Mode::new(bits(words[0], 0, 2))?,
            signs: flag(2),
            towing: flag(14),
            key: Key::new(bits(words[0], 3, 2))?,
            up_down: UpDown::new(bits(words[0], 5, 3))?,
            fore_back: ForeBack::new(bits(words[0], 8, 2))?,
            button: flag(10),
            limiter: flag(11),
            cruise: flag(12),
            ready: flag(13),
            brake: number(1, 0, 8),
            gas: number(1, 8, 8),
            speed: number(2, 0, 13),
            limit: number(3, 0, 13),
            desired: number(4, 0, 11),
            hand_set: number(4, 11, 11),
            lever_time: number(5, 0, 17),
            lever_base: number(6, 0, 11),
            range: number(7, 0, 8),
            ahead: number(7, 8, 13),
            ahead_before: number(8, 0, 13),
            gap: match number(9, 0, 5) {
                OLD_GAP => LONGEST_GAP,
                gap => gap,
            },
            now: number(10, 0, 17),
            tested: number(11, 0, 17),
        };
        car.good().then_some(car)
    }
}

// ---------------------------------------------------------------- A lesson

/// The car after a lesson and its counts.
#[derive(Clone, Copy, PartialEq, Eq, Debug)]
pub struct Lesson {
    pub car: Car,
    pub accepted: usize,
    pub refused: usize,
}

impl Car {
    /// The answer word: kind 12, the refusal or 0, and the figures of the car afterwards.
    pub fn answer(&self, refusal: u32) -> u32 {
        12 << 28
            | refusal
            | (self.visual_warning() as u32) << 5
            | (self.acoustic_warning() as u32) << 6
            | ((self.acceleration() + 60) as u32) << 7
            | (self.desired as u32) << 14
    }

    /// A lesson from a good car. 19: answer buffer shorter than the words; nothing runs.
    pub fn lesson(&self, words: &[u32], answers: &mut [u32]) -> Result<Lesson, u32> {
        if answers.len() < words.len() {
            return Err(19);
        }
        let mut lesson = Lesson { car: *self, accepted: 0, refused: 0 };
        for (&word, answer) in words.iter().zip(answers) {
            let refusal = match lesson.car.drive(word) {
                Ok(next) => {
                    lesson.car = next;
                    lesson.accepted += 1;
                    0
                }
                Err(refusal) => {
                    lesson.refused += 1;
                    refusal
                }
            };
            *answer = lesson.car.answer(refusal);
        }
        Ok(lesson)
    }
}

// ---------------------------------------------------------------- A clean copy of a lesson

impl Car {
    /// The accepted words of a lesson from a good car, in order, and the car after them.
    pub fn accepted(&self, words: &[u32]) -> (Vec<u32>, Car) {
        let mut car = *self;
        let mut accepted = Vec::new();
        for &word in words {
            if let Ok(next) = car.drive(word) {
                car = next;
                accepted.push(word);
            }
        }
        (accepted, car)
    }

    /// Puts the accepted words of a lesson from a good car, in order, into the buffer, and gives their number; words
    /// past the copy keep their contents. 19: a buffer shorter than the accepted words, left untouched. A copy from
    /// settings runs from their fresh car, so that 17 is looked at before.
    pub fn copy(&self, words: &[u32], buffer: &mut [u32]) -> Result<usize, u32> {
        let (accepted, _) = self.accepted(words);
        buffer.get_mut(..accepted.len()).ok_or(19u32)?.copy_from_slice(&accepted);
        Ok(accepted.len())
    }
}

// ---------------------------------------------------------------- The event that passed a mark

/// A second of a lesson, an accepted tick: its number among the events, counted from 1, and v before and after it.
#[derive(Clone, Copy, Debug)]
pub struct Second {
    pub event: usize,
    pub before: u32,
    pub after: u32,
}

/// What a lesson says of a speed mark.
#[derive(Clone, Copy, PartialEq, Eq, Debug)]
pub struct Passing {
    /// The number of the event at which v first went from below the mark to the mark or above; none is never.
    pub event: Option<usize>,
    /// How many seconds ended at or above the mark.
    pub seconds: usize,
}

impl Passing {
    pub fn of(seconds: &[Second], mark: u32) -> Passing {
        let first = seconds.iter().find(|second| second.before < mark && second.after >= mark);
        Passing {
            event: first.map(|second| second.event),
            seconds: seconds.iter().filter(|second| second.after >= mark).count(),
        }
    }
}

impl Car {
    /// The seconds of a lesson from a good car, and the car after it. Refused events are counted in the numbering.
    pub fn seconds(&self, words: &[u32]) -> (Vec<Second>, Car) {
        let mut car = *self;
        let mut seconds = Vec::new();
        for (event, &word) in (1..).zip(words) {
            let Ok(next) = car.drive(word) else {
                continue;
            };
            if matches!(Event::read(word), Ok(Event::Tick { .. })) {
                seconds.push(Second { event, before: car.speed as u32, after: next.speed as u32 });
            }
            car = next;
        }
        (seconds, car)
    }

    /// A lesson from a good car and a speed mark.
    pub fn passing(&self, words: &[u32], mark: u32) -> Passing {
        Passing::of(&self.seconds(words).0, mark)
    }
}

// ---------------------------------------------------------------- Scene engine sightings

/// What the scene engine's camera sees; a float is its 32 bits.
#[derive(Clone, Copy, PartialEq, Eq, Debug)]
pub enum Sighting {
    Vehicle { metres: u32, kmh: u32 },
    Free,
    Fault,
}

/// The radar event of a sighting.
#[derive(Clone, Copy, PartialEq, Eq, Debug)]
pub struct Reading {
    pub range: u32,
    pub ahead: u32,
}

/// What a float's bits stand for, exactly: `whole` over 2 to the power of `halvings`, not below zero.
#[derive(Clone, Copy)]
struct Exact {
    whole: u128,
    halvings: u32,
}

impl Exact {
    /// 22: a float that is no number, infinite or below zero. Minus zero is zero.
    fn of(float: u32) -> Result<Exact, u32> {
        let is_negative = bits(float, 31, 1) == 1;
        let exponent = bits(float, 23, 8);
        let fraction = bits(float, 0, 23);
        let (number, power) = match exponent {
            255 => return Err(22),
            0 => (fraction, -149),
            _ => (1 << 23 | fraction, exponent as i32 - 150),
        };
        if is_negative && number > 0 {
            return Err(22);
        }
        // The greatest one is below 2 to the power of 128.
        let doublings = power.max(0);
        Ok(Exact { whole: u128::from(number) << doublings, halvings: (doublings - power) as u32 })
    }

    /// The whole number at or below so many times it; ten times only what is at most 500. What is halved has few bits, so
    /// that nothing is left of it after more halvings than a shift can make.
    fn floor(self, times: u128) -> u128 {
        (self.whole * times).checked_shr(self.halvings).unwrap_or(0)
    }

    fn is_above_500(self) -> bool {
        let floor = self.floor(1);
        floor > 500 || floor == 500 && self.whole > 500 << self.halvings
    }
}

impl Sighting {
    /// The sighting of the library's number for its kind.
    pub fn new(kind: u32, metres: u32, kmh: u32) -> Option<Sighting> {
        match kind {
            0 => Some(Sighting::Vehicle { metres, kmh }),
            1 => Some(Sighting::Free),
            2 => Some(Sighting::Fault),
            _ => None,
        }
    }

    /// The radar event; a fault gives none. 22 as above, looked at first. 23: a speed above 500 km/h.
    pub fn reading(self) -> Result<Option<Reading>, u32> {
        let free_road = Reading { range: 0, ahead: 0 };
        let (metres, kmh) = match self {
            Sighting::Vehicle { metres, kmh } => (Exact::of(metres)?, Exact::of(kmh)?),
            Sighting::Free => return Ok(Some(free_road)),
            Sighting::Fault => return Ok(None),
        };
        if kmh.is_above_500() {
            return Err(23);
        }
        let range = metres.floor(1).max(1);
        if range >= 255 {
            return Ok(Some(free_road));
        }
        Ok(Some(Reading { range: range as u32, ahead: kmh.floor(10) as u32 }))
    }
}

impl Reading {
    /// Kind 9: the range in bits 0-7, the speed in bits 8-20.
    pub fn word(self) -> u32 {
        9 << 28 | self.range | self.ahead << 8
    }
}

impl Car {
    /// A sighting for a good car: the next car, or none for a fault, which is no event. 22 and 23 come before the event's
    /// checks.
    pub fn see(&self, sighting: Sighting) -> Result<Option<Car>, u32> {
        match sighting.reading()? {
            Some(reading) => self.drive(reading.word()).map(Some),
            None => Ok(None),
        }
    }
}

// ---------------------------------------------------------------- Fewest moves of the lever

/// The most words that a list of moves has.
pub const MOST_MOVES: usize = 6;

/// The up-down lever words in rising order.
const LEVER_WORDS: [u32; 5] = [0x2000_0000, 0x2000_0001, 0x2000_0002, 0x2000_0003, 0x2000_0004];

/// A list of moves: its words, 0 past them, and their count. A refusal gives count 0 and six zeros.
#[derive(Clone, Copy, PartialEq, Eq, Debug, Default)]
pub struct Moves {
    pub count: usize,
    pub words: [u32; MOST_MOVES],
}

impl Moves {
    pub fn list(&self) -> &[u32] {
        &self.words[..self.count]
    }

    fn and(mut self, word: u32) -> Moves {
        self.words[self.count] = word;
        self.count += 1;
        self
    }
}

impl Car {
    /// Of all lists of at most six up-down lever words, all accepted, that end in neutral with the wanted D, one with the
    /// fewest words, among equals the one whose words come first. 25: cruise off or a lever out of neutral. 26: there is
    /// no such list.
    pub fn moves(&self, wanted: u32) -> Result<Moves, u32> {
        self.endings()?.find(|&(desired, _)| desired == wanted).map(|(_, moves)| moves).ok_or(26)
    }

    /// The same for every wanted D that is not refused with 26.
    pub fn reached(&self) -> Result<BTreeMap<u32, Moves>, u32> {
        let mut reached = BTreeMap::new();
        for (desired, moves) in self.endings()? {
            reached.entry(desired).or_insert(moves);
        }
        Ok(reached)
    }

    /// The lists that end in neutral, with the D of each; the shorter ones first, those of one length in rising order.
    fn endings(&self) -> Result<impl Iterator<Item = (u32, Moves)> + '_, u32> {
        if !self.has_neutral_cruise() {
            return Err(25);
        }
        let lists = (0..=MOST_MOVES).flat_map(|count| self.lever_lists(count));
        let ending = lists.filter(|(_, car)| !car.up_down.is_out());
        Ok(ending.map(|(moves, car)| (car.desired as u32, moves)))
    }

    /// The lists of so many up-down lever words, all accepted, in rising order of their words from the first on, and the
    /// car behind each.
    fn lever_lists(&self, count: usize) -> Vec<(Moves, Car)> {
        if count == 0 {
            return vec![(Moves::default(), *self)];
        }
        let mut lists = Vec::new();
        for (moves, car) in self.lever_lists(count - 1) {
            let accepted = LEVER_WORDS.into_iter().filter_map(|word| car.drive(word).ok().map(|next| (word, next)));
            lists.extend(accepted.map(|(word, next)| (moves.and(word), next)));
        }
        lists
    }

    /// Is cruise on, and are both levers in neutral?
    pub fn has_neutral_cruise(&self) -> bool {
        self.cruise && !self.up_down.is_out() && !self.fore_back.is_out()
    }
}

// ---------------------------------------------------------------- The cab, alike, and the program

/// What the program and the library show of a car.
#[derive(Clone, Copy, PartialEq, Eq, Debug)]
pub struct Figures {
    pub speed: i32,
    pub desired: i32,
    pub acceleration: i32,
    pub visual: bool,
    pub acoustic: bool,
    pub distance: i32,
}

impl Car {
    pub fn figures(&self) -> Figures {
        Figures {
            speed: self.speed,
            desired: self.desired,
            acceleration: self.acceleration(),
            visual: self.visual_warning(),
            acoustic: self.acoustic_warning(),
            distance: self.secure_distance(),
        }
    }

    /// Cars count as alike exactly when key, L, M, v, D, C and S and B, E, G, Z, H, b, g, R, W, Y, P, the settings and two
    /// times agree: as seconds before each car's now, T only when the lever is out and cruise on, Q only with the key on.
    pub fn alike(&self, other: &Car) -> bool {
        let shown = |car: &Car| (car.key, car.up_down, car.fore_back, car.speed, car.desired, car.cruise, car.limiter);
        let kept = |car: &Car| (car.lever_base, car.hand_set, car.gap, car.limit, car.button, car.brake, car.gas);
        let radar = |car: &Car| (car.range, car.ahead, car.ahead_before, car.ready);
        let held = self.up_down.is_out() && self.cruise;
        shown(self) == shown(other)
            && kept(self) == kept(other)
            && radar(self) == radar(other)
            && (self.mode, self.signs, self.towing) == (other.mode, other.signs, other.towing)
            && (!held || self.now - self.lever_time == other.now - other.lever_time)
            && (self.key != Key::On || self.now - self.tested == other.now - other.tested)
    }
}
