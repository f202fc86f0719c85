//! Cars as their fields, good or not, and calls on them by the model: what the test programs and the outside vectors hold.

use crate::paper::{Car, Lesson, Moves, Reading, Sighting};
use crate::random::{Field, FIELDS};
use std::collections::BTreeMap;

/// What a buffer holds before a call.
pub const UNUSED: u32 = 0xDEAD_BEEF;

// ---------------------------------------------------------------- Fields

/// The fields' names in document 01's order.
pub const NAMES: [&str; 24] = [
    "mode", "signs", "towing", "key", "L", "M", "b", "g", "H", "S", "C", "P", "v", "Z", "D", "E", "T", "B", "R", "W",
    "Y", "G", "now", "Q",
];

/// A car as its fields in document 01's order.
#[derive(Clone, Copy, PartialEq, Eq, Debug)]
pub struct Fields(pub [u32; 24]);

/// The field's place in a record.
fn place(name: &str) -> &'static Field {
    FIELDS.iter().find(|field| field.name == name).expect("a field of the record")
}

/// The field's number in document 01's order.
fn number(name: &str) -> Option<usize> {
    NAMES.iter().position(|&other| other == name)
}

impl Fields {
    pub fn of(car: &Car) -> Fields {
        Fields::of_record(&car.write()).expect("a record written by the model")
    }

    /// The fields of twelve words with the marks, places and zero bits of a record, accepted or not.
    pub fn of_record(words: &[u32]) -> Option<Fields> {
        if words.len() != 12 {
            return None;
        }
        let fields = Fields(NAMES.map(|name| place(name).read(words)));
        fields.record().filter(|record| record == words).map(|_| fields)
    }

    /// The fields in their places of a record, accepted or not; none if one has no room there.
    pub fn record(&self) -> Option<[u32; 12]> {
        let mut record = [0; 12];
        (0..).zip(&mut record).for_each(|(place, word)| *word = 11 << 28 | place << 24);
        for (name, value) in NAMES.iter().zip(self.0) {
            if value >> place(name).width != 0 {
                return None;
            }
            record[place(name).place] |= value << place(name).low;
        }
        Some(record)
    }

    /// The car, if an accepted record gives it; one with G = 30 none does.
    pub fn car(&self) -> Option<Car> {
        Car::read(&self.record()?).filter(|car| Fields::of(car) == *self)
    }

    /// The fields with one changed; none if it has no such name.
    pub fn with(mut self, name: &str, value: u32) -> Option<Fields> {
        self.0[number(name)?] = value;
        Some(self)
    }

    /// A field's value.
    pub fn value(&self, name: &str) -> Option<u32> {
        Some(self.0[number(name)?])
    }

    /// The fields with their names.
    pub fn text(&self) -> String {
        let fields: Vec<String> = NAMES.iter().zip(self.0).map(|(name, value)| format!("{name}={value}")).collect();
        fields.join(" ")
    }
}

// ---------------------------------------------------------------- Settings

/// Mode, signs and towing, each any number.
#[derive(Clone, Copy)]
pub struct Settings(pub [u32; 3]);

impl Settings {
    pub fn of(car: &Car) -> Settings {
        Settings([car.mode as u32, u32::from(car.signs), u32::from(car.towing)])
    }

    pub fn car(&self) -> Result<Car, u32> {
        let [mode, signs, towing] = self.0;
        Car::fresh(mode, signs, towing)
    }
}

// ---------------------------------------------------------------- Calls

pub enum Call {
    Fresh(Settings),
    /// Sets all fields, without any check.
    Set(Fields),
    /// Changes some fields, without any check.
    Change(Vec<(String, u32)>),
    Read(Vec<u32>),
    Drive(u32),
    Lesson {
        room: usize,
        words: Vec<u32>,
    },
    Record {
        length: usize,
    },
    Sight(Sighting),
}

/// What a call gives; of another kind's numbers 0.
#[derive(Default)]
pub struct Outcome {
    pub refusal: u32,
    /// The answer word that a lesson of the word driven gives.
    pub answer: u32,
    /// Are the cars before and after the word driven alike?
    pub alike: bool,
    /// The word of a sighting's event.
    pub event: Option<u32>,
    /// Of a copy, the number written.
    pub accepted: usize,
    pub refused: usize,
    pub buffer: Vec<u32>,
    /// The car afterwards; none after a refused fresh car, reading or copy.
    pub car: Option<Fields>,
}

impl Outcome {
    /// Of a sighting: is it a fault of the engine, which gives no event?
    pub fn is_fault(&self) -> bool {
        self.refusal == 0 && self.event.is_none()
    }
}

impl Call {
    /// The call on the car at hand. None: there is no car to call it on.
    pub fn run(&self, car: Option<Fields>) -> Option<Outcome> {
        match self {
            Call::Fresh(settings) => Some(made(settings.car())),
            Call::Set(fields) => Some(Outcome { car: Some(*fields), ..Outcome::default() }),
            Call::Read(words) => Some(made(Car::read(words).ok_or(18))),
            Call::Change(changes) => {
                let changed = changes.iter().try_fold(car?, |car, (name, value)| car.with(name, *value))?;
                Some(Outcome { car: Some(changed), ..Outcome::default() })
            }
            Call::Drive(word) => Some(driven(car?, *word)),
            Call::Lesson { room, words } => Some(taught(car?, *room, words)),
            Call::Record { length } => Some(kept(car?, *length)),
            Call::Sight(sighting) => Some(seen(car?, *sighting)),
        }
    }
}

fn made(car: Result<Car, u32>) -> Outcome {
    Outcome { refusal: car.err().unwrap_or(0), car: car.ok().map(|car| Fields::of(&car)), ..Outcome::default() }
}

fn driven(fields: Fields, word: u32) -> Outcome {
    let Some(car) = fields.car() else {
        return Outcome { refusal: 18, alike: true, car: Some(fields), ..Outcome::default() };
    };
    let driven = car.drive(word);
    let (refusal, after) = (driven.err().unwrap_or(0), driven.unwrap_or(car));
    Outcome {
        refusal,
        answer: after.answer(refusal),
        alike: car.alike(&after),
        car: Some(Fields::of(&after)),
        ..Outcome::default()
    }
}

fn taught(fields: Fields, room: usize, words: &[u32]) -> Outcome {
    let mut buffer = vec![UNUSED; room];
    match fields.car().ok_or(18).and_then(|car| car.lesson(words, &mut buffer)) {
        Ok(Lesson { car, accepted, refused }) => {
            Outcome { accepted, refused, buffer, car: Some(Fields::of(&car)), ..Outcome::default() }
        }
        Err(refusal) => Outcome { refusal, buffer, car: Some(fields), ..Outcome::default() },
    }
}

fn kept(fields: Fields, length: usize) -> Outcome {
    let mut buffer = vec![UNUSED; length];
    let refusal = match fields.car() {
        None => 18,
        Some(_) if length < 12 => 20,
        Some(car) => {
            buffer[..12].copy_from_slice(&car.write());
            0
        }
    };
    Outcome { refusal, buffer, car: Some(fields), ..Outcome::default() }
}

fn seen(fields: Fields, sighting: Sighting) -> Outcome {
    let Some(car) = fields.car() else {
        return Outcome { refusal: 18, car: Some(fields), ..Outcome::default() };
    };
    let seen = car.see(sighting);
    Outcome {
        refusal: seen.err().unwrap_or(0),
        event: sighting.reading().ok().flatten().map(Reading::word),
        car: Some(Fields::of(&seen.ok().flatten().unwrap_or(car))),
        ..Outcome::default()
    }
}

/// The calls one after another, with no car before the first.
pub fn run_all(calls: &[Call]) -> Vec<Option<Outcome>> {
    let mut car = None;
    let run = |call: &Call| {
        let outcome = call.run(car);
        car = outcome.as_ref().and_then(|outcome| outcome.car);
        outcome
    };
    calls.iter().map(run).collect()
}

// ---------------------------------------------------------------- Copies

/// A clean copy of a lesson from settings.
pub struct Copy {
    pub settings: Settings,
    pub room: usize,
    pub words: Vec<u32>,
}

impl Copy {
    pub fn run(&self) -> Outcome {
        copied(self.settings.car(), self.room, &self.words)
    }
}

/// A clean copy of a lesson from a car that is there, or was refused.
pub fn copied(car: Result<Car, u32>, room: usize, words: &[u32]) -> Outcome {
    let mut buffer = vec![UNUSED; room];
    match car.and_then(|car| Ok((car.copy(words, &mut buffer)?, car.accepted(words).1))) {
        Ok((accepted, car)) => Outcome { accepted, buffer, car: Some(Fields::of(&car)), ..Outcome::default() },
        Err(refusal) => Outcome { refusal, buffer, ..Outcome::default() },
    }
}

// ---------------------------------------------------------------- Marks

/// A lesson and a speed mark.
pub struct Mark {
    pub mark: u32,
    pub start: Start,
    pub words: Vec<u32>,
}

/// What the lesson starts from.
pub enum Start {
    Fresh(Settings),
    Record(Vec<u32>),
}

impl Start {
    /// Its car. 17, 18: there is none.
    pub fn car(&self) -> Result<Car, u32> {
        match self {
            Start::Fresh(settings) => settings.car(),
            Start::Record(words) => Car::read(words).ok_or(18),
        }
    }

    /// The record that is lent, accepted or not; none where there is no fresh car.
    pub fn record(&self) -> Option<Vec<u32>> {
        match self {
            Start::Fresh(_) => self.car().ok().map(|car| car.write().to_vec()),
            Start::Record(words) => Some(words.clone()),
        }
    }
}

// ---------------------------------------------------------------- Sightings

/// What a sighting's kind and floats are converted to: the refusal, and the event's word, 0 for none. 1: no such kind.
pub fn converted([kind, metres, kmh]: [u32; 3]) -> (u32, u32) {
    match Sighting::new(kind, metres, kmh).ok_or(1).and_then(Sighting::reading) {
        Ok(reading) => (0, reading.map_or(0, Reading::word)),
        Err(refusal) => (refusal, 0),
    }
}

// ---------------------------------------------------------------- Moves

/// A record, accepted or not, and the D wanted of its car.
pub struct Goal {
    pub record: Vec<u32>,
    pub wanted: u32,
}

impl Goal {
    pub fn run(&self) -> (u32, Moves) {
        moved(Car::read(&self.record), self.wanted)
    }
}

/// The refusal, and the moves of a car to a wanted D. 18: there is no good car.
pub fn moved(car: Option<Car>, wanted: u32) -> (u32, Moves) {
    match car.ok_or(18).and_then(|car| car.moves(wanted)) {
        Ok(moves) => (0, moves),
        Err(refusal) => (refusal, Moves::default()),
    }
}

/// The moves of one car to all it reaches, or why there are none.
pub struct Reached(Result<BTreeMap<u32, Moves>, u32>);

impl Reached {
    pub fn of(car: Option<Car>) -> Reached {
        Reached(car.ok_or(18).and_then(|car| car.reached()))
    }

    /// The same as `moved`.
    pub fn moved(&self, wanted: u32) -> (u32, Moves) {
        match &self.0 {
            Ok(reached) => reached.get(&wanted).map_or((26, Moves::default()), |&moves| (0, moves)),
            Err(refusal) => (*refusal, Moves::default()),
        }
    }

    /// Every D that is reached.
    pub fn desired(&self) -> Vec<u32> {
        self.0.iter().flatten().map(|(&desired, _)| desired).collect()
    }
}

// ---------------------------------------------------------------- Pairs

/// Two records of twelve words, one behind the other.
#[derive(Clone, Copy)]
pub struct Pair(pub [u32; 24]);

impl Pair {
    pub fn of(first: Fields, second: Fields) -> Option<Pair> {
        [first.record()?, second.record()?].concat().try_into().ok().map(Pair)
    }

    fn cars(&self) -> [Option<Car>; 2] {
        [&self.0[..12], &self.0[12..]].map(Car::read)
    }

    /// Are their cars alike? None: one is no record of a car.
    pub fn alike(&self) -> Option<bool> {
        match self.cars() {
            [Some(first), Some(second)] => Some(first.alike(&second)),
            _ => None,
        }
    }

    /// Drives a word on both. Gives the two refusals.
    pub fn drive(&mut self, word: u32) -> [u32; 2] {
        let mut refusals = [18; 2];
        for (number, car) in self.cars().into_iter().enumerate() {
            match car.ok_or(18).and_then(|car| car.drive(word)) {
                Ok(after) => {
                    self.0[12 * number..][..12].copy_from_slice(&after.write());
                    refusals[number] = 0;
                }
                Err(refusal) => refusals[number] = refusal,
            }
        }
        refusals
    }
}
