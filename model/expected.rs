//! What each test program has to print for its input, by the model.

use crate::calls::{copied, moved, Call, Fields, Outcome, Pair, Settings, UNUSED};
use crate::exercise::{bytes_of, words_of, Given};
use crate::inputs::{any_pairs, MARK, WANTED};
use crate::paper::{Car, Event, Figures, Moves, Passing, Reading, Sighting};
use std::io::Write;

/// Lines of numbers, each with a blank behind it.
#[derive(Default)]
struct Page(Vec<u8>);

impl Page {
    fn numbers(&mut self, numbers: &[u32]) -> &mut Page {
        numbers.iter().for_each(|number| write!(self.0, "{number} ").expect("room for text"));
        self
    }

    fn end(&mut self) {
        self.0.push(b'\n');
    }

    /// A line whose last number has no blank behind it.
    fn tight(&mut self, numbers: &[u32]) {
        self.numbers(numbers).0.pop();
        self.end();
    }
}

// ---------------------------------------------------------------- Words, cars, records, the cab and the programs

pub fn event_words(input: &[u8]) -> Result<Vec<u8>, String> {
    let mut page = Page::default();
    let input = words_of(input);
    let split = input.split_first().and_then(|(&count, rest)| rest.split_at_checked(count as usize));
    let (words, events) = split.ok_or("event_words: fewer words than it says")?;
    for &word in words {
        match Event::read(word) {
            Ok(event) => page.tight(&[0, u32::from(event.word() == word)]),
            Err(refusal) => page.tight(&[refusal, 1]),
        }
    }
    for event in events.chunks(3) {
        let &[kind @ 1..=10, value, second] = event else {
            return Err(String::from("event_words: an event of no kind or of fewer than three words"));
        };
        let written = Event::of(kind, value, second).map(Event::word);
        page.tight(&[written.err().unwrap_or(0), written.unwrap_or(0)]);
    }
    Ok(page.0)
}

/// The cars of `car_figures`: 24 words each, a flag set exactly when its word is 1.
pub fn cars_of(words: &[u32]) -> Vec<Fields> {
    words.chunks_exact(24).map(|fields| car_of(fields.try_into().expect("24 words"))).collect()
}

fn car_of(mut fields: [u32; 24]) -> Fields {
    for flag in [1, 2, 8, 9, 10, 11] {
        fields[flag] = u32::from(fields[flag] == 1);
    }
    Fields(fields)
}

pub fn car_figures(input: &[u8]) -> Result<Vec<u8>, String> {
    let mut page = Page::default();
    for settings in 0..36 {
        page.tight(&[Car::fresh(settings / 9, settings / 3 % 3, settings % 3).err().unwrap_or(0)]);
    }
    for fields in cars_of(&words_of(input)) {
        let (refusal, figures) = figures_of(fields.car());
        let Figures { speed, desired, acceleration, visual, acoustic, distance } = figures;
        let (visual, acoustic) = (u8::from(visual), u8::from(acoustic));
        writeln!(page.0, "{refusal} {speed} {desired} {acceleration} {visual} {acoustic} {distance}")
            .expect("room for text");
    }
    Ok(page.0)
}

/// 18 and zeros where there is no good car.
fn figures_of(car: Option<Car>) -> (u32, Figures) {
    let none = Figures { speed: 0, desired: 0, acceleration: 0, visual: false, acoustic: false, distance: 0 };
    car.map_or((18, none), |car| (0, car.figures()))
}

pub fn record_words(input: &[u8]) -> Result<Vec<u8>, String> {
    let mut page = Page::default();
    for case in words_of(input).chunks(14) {
        let count = case[0] as usize;
        if case.len() < 14 || !(11..=13).contains(&count) {
            return Err(format!("record_words: no record of {count} words"));
        }
        match Car::read(&case[1..=count]) {
            Some(car) => {
                page.numbers(&[0]).numbers(&Fields::of(&car).0);
                page.tight(&[u32::from(car.write() == case[1..13])]);
            }
            None => page.tight(&[18]),
        }
    }
    Ok(page.0)
}

pub fn cab_words(input: &[u8]) -> Result<Vec<u8>, String> {
    let mut page = Page::default();
    let words = words_of(input);
    let [count, mode, signs, towing, words @ ..] = &words[..] else {
        return Err(String::from("cab_words: no settings"));
    };
    if words.len() != *count as usize {
        return Err(format!("cab_words: {} words for {count}", words.len()));
    }
    let mut car = match Car::fresh(*mode, *signs, *towing) {
        Ok(car) => car,
        Err(refusal) => return Ok(format!("{refusal}\n").into_bytes()),
    };
    for &word in words {
        let driven = car.drive(word);
        car = driven.unwrap_or(car);
        page.tight(&[driven.err().unwrap_or(0), car.speed as u32, car.desired as u32]);
    }
    Ok(page.0)
}

pub fn lesson(input: &[u8]) -> Result<Vec<u8>, String> {
    Ok(Given::listing(input).output)
}

pub fn clean(input: &[u8]) -> Result<Vec<u8>, String> {
    Ok(Given::clean(input).output)
}

pub fn mark(input: &[u8]) -> Result<Vec<u8>, String> {
    Ok(Given::mark(input, MARK).output)
}

pub fn moves(input: &[u8]) -> Result<Vec<u8>, String> {
    Ok(Given::moves(input, WANTED).output)
}

// ---------------------------------------------------------------- calls

/// The input of `calls`, `cruise_calls`, `copies`, `marks` or `levers` call by call, up to the 0 that ends it; `length` is
/// that of the first call.
fn split(mut words: &[u32], length: impl Fn(&[u32]) -> Option<usize>) -> Option<Vec<&[u32]>> {
    let mut calls = Vec::new();
    while *words.first()? != 0 {
        let (call, rest) = words.split_at_checked(length(words)?)?;
        calls.push(call);
        words = rest;
    }
    Some(calls)
}

/// The length of a lesson's call, whose two sizes are at most these.
fn lesson_length(before: usize, sizes: &[u32], most: u32) -> Option<usize> {
    let sizes_fit = sizes.len() == 2 && sizes.iter().all(|&size| size <= most);
    sizes_fit.then(|| before + 2 + sizes[1] as usize)
}

/// The calls of the input of `calls`.
pub fn split_calls(words: &[u32]) -> Result<Vec<&[u32]>, String> {
    let length = |words: &[u32]| match words[0] {
        1 => Some(4),
        2 => Some(25),
        3 => Some(2),
        4 => lesson_length(1, words.get(1..3)?, 32),
        5 => (*words.get(1)? <= 32).then_some(2),
        6 => (*words.get(1)? <= 2).then_some(4),
        _ => None,
    };
    split(words, length).ok_or_else(|| String::from("calls: an input that it does not read, or only in part"))
}

fn call_of(words: &[u32]) -> Call {
    match words[0] {
        1 => Call::Fresh(Settings([words[1], words[2], words[3]])),
        2 => Call::Set(car_of(words[1..].try_into().expect("24 words"))),
        3 => Call::Drive(words[1]),
        4 => Call::Lesson { room: words[1] as usize, words: words[3..].to_vec() },
        5 => Call::Record { length: words[1] as usize },
        _ => Call::Sight(Sighting::new(words[1], words[2], words[3]).expect("a kind of sighting")),
    }
}

pub fn calls(input: &[u8]) -> Result<Vec<u8>, String> {
    let mut page = Page::default();
    let mut car = Car::fresh(1, 0, 0).ok().map(|car| Fields::of(&car));
    for call in split_calls(&words_of(input))?.into_iter().map(call_of) {
        let outcome = call.run(car).ok_or("calls: no car")?;
        call_lines(&mut page, &call, &outcome);
        // A refused fresh car leaves the program's.
        car = outcome.car.or(car);
    }
    Ok(page.0)
}

fn call_lines(page: &mut Page, call: &Call, outcome: &Outcome) {
    match call {
        Call::Set(_) | Call::Change(_) | Call::Read(_) => {}
        Call::Fresh { .. } => page.numbers(&[outcome.refusal]).end(),
        Call::Drive(_) => page.numbers(&[outcome.refusal, outcome.answer, u32::from(outcome.alike)]).end(),
        Call::Lesson { .. } => {
            page.numbers(&[outcome.refusal, outcome.accepted as u32, outcome.refused as u32]).end();
            page.numbers(&outcome.buffer).end();
        }
        Call::Record { .. } => {
            page.numbers(&[outcome.refusal]).end();
            page.numbers(&outcome.buffer).end();
        }
        Call::Sight(_) => page.numbers(&[outcome.refusal, u32::from(outcome.is_fault())]).end(),
    }
    if let Some(car) = outcome.car {
        page.numbers(&car.0).end();
    }
}

// ---------------------------------------------------------------- cruise_calls

/// The calls of the input of `cruise_calls`.
pub fn split_cruise_calls(words: &[u32]) -> Result<Vec<&[u32]>, String> {
    let length = |words: &[u32]| {
        let lent = *words.get(1).filter(|&&lent| lent <= 13)?;
        match words[0] {
            1 => Some(2 + lent as usize),
            2 => Some(5),
            3 => Some(3),
            4 => lesson_length(2, words.get(2..4)?, 16),
            5 => Some(5),
            _ => None,
        }
    };
    split(words, length).ok_or_else(|| String::from("cruise_calls: an input that it does not read, or only in part"))
}

pub fn cruise_calls(input: &[u8]) -> Result<Vec<u8>, String> {
    let mut page = Page::default();
    let mut words = [UNUSED; 13];
    for call in split_cruise_calls(&words_of(input))? {
        let before = words;
        let lent = call[1] as usize;
        lend(&mut page, call, &mut words[..lent]);
        if call[0] > 1 {
            page.numbers(&words).end();
        }
        questions(&mut page, &words[..lent], &before[..lent]);
    }
    Ok(page.0)
}

fn lend(page: &mut Page, call: &[u32], words: &mut [u32]) {
    let car = Car::read(words);
    match call[0] {
        1 => words.copy_from_slice(&call[2..]),
        2 => {
            let made =
                Car::fresh(call[2], call[3], call[4]).and_then(|car| if words.len() < 12 { Err(20) } else { Ok(car) });
            page.numbers(&[store(words, made.map(Some))]).end();
        }
        3 => {
            let driven = car.ok_or(18).and_then(|car| car.drive(call[2]));
            page.numbers(&[store(words, driven.map(Some))]).end();
        }
        5 => {
            let sighting = Sighting::new(call[2], call[3], call[4]).ok_or(1u32);
            let seen = car.ok_or(18).and_then(|car| car.see(sighting?));
            page.numbers(&[store(words, seen)]).end();
        }
        _ => {
            let mut answers = [UNUSED; 16];
            let taught = car.ok_or(18).and_then(|car| car.lesson(&call[4..], &mut answers[..call[2] as usize]));
            let counts = taught.map_or([0, 0], |lesson| [lesson.accepted as u32, lesson.refused as u32]);
            page.numbers(&[store(words, taught.map(|lesson| Some(lesson.car)))]).numbers(&counts).end();
            page.numbers(&answers).end();
        }
    }
}

/// Stores the record of a car that was not refused; a fault has none, and the words are kept. Gives the refusal.
fn store(words: &mut [u32], car: Result<Option<Car>, u32>) -> u32 {
    if let Ok(Some(car)) = car {
        words[..12].copy_from_slice(&car.write());
    }
    car.err().unwrap_or(0)
}

/// The test's answer about the words, the figures', and that of alike with the words before.
fn questions(page: &mut Page, words: &[u32], before: &[u32]) {
    let car = Car::read(words);
    let (refusal, figures) = figures_of(car);
    let a = figures.acceleration;
    page.numbers(&[refusal, refusal, figures.speed as u32, figures.desired as u32]);
    page.numbers(&[u32::from(a < 0), a.unsigned_abs(), u32::from(figures.visual), u32::from(figures.acoustic)]);
    page.numbers(&[figures.distance as u32]);
    match (car, Car::read(before)) {
        (Some(car), Some(before)) => page.numbers(&[0, u32::from(car.alike(&before))]).end(),
        _ => page.numbers(&[18, 0]).end(),
    }
}

// ---------------------------------------------------------------- copies

/// The greatest size of `copies`, and of a lesson of `marks`.
const MOST_WORDS: u32 = 3072;

/// The calls of the input of `copies`.
fn split_copies(words: &[u32]) -> Result<Vec<&[u32]>, String> {
    let length = |words: &[u32]| match words[0] {
        1 => lesson_length(4, words.get(4..6)?, MOST_WORDS),
        2 => lesson_length(25, words.get(25..27)?, MOST_WORDS),
        3 => Some(3 + words.get(2)?.div_ceil(4) as usize),
        _ => None,
    };
    split(words, length).ok_or_else(|| String::from("copies: an input that it does not read, or only in part"))
}

pub fn copies(input: &[u8]) -> Result<Vec<u8>, String> {
    let mut page = Page::default();
    for call in split_copies(&words_of(input))? {
        match call[0] {
            1 => {
                let outcome = copied(Car::fresh(call[1], call[2], call[3]), call[4] as usize, &call[6..]);
                // The call's, and the same by the library's function.
                copy_lines(&mut page, &outcome);
                copy_lines(&mut page, &outcome);
            }
            2 => {
                let fields = car_of(call[1..25].try_into().expect("24 words"));
                let outcome = copied(fields.car().ok_or(18), call[25] as usize, &call[27..]);
                copy_lines(&mut page, &outcome);
                page.numbers(&outcome.car.unwrap_or(fields).0).end();
            }
            _ => clean_lines(&mut page, &bytes_of(&call[3..])[..call[2] as usize]),
        }
    }
    Ok(page.0)
}

fn copy_lines(page: &mut Page, outcome: &Outcome) {
    page.numbers(&[outcome.refusal, outcome.accepted as u32]).end();
    page.numbers(&outcome.buffer).end();
}

/// The same, however the file is cut.
fn clean_lines(page: &mut Page, file: &[u8]) {
    let clean = Given::clean(file);
    let words = words_of(&clean.output);
    page.numbers(&[clean.told, words.len() as u32]).end();
    page.numbers(&words).end();
}

// ---------------------------------------------------------------- marks

/// The greatest record of `marks` and `levers` in words; the greatest piece of a file and the greatest file in bytes.
const MOST_LENT: u32 = 13;
const MOST_CUT: u32 = 4096;
const MOST_BYTES: u32 = 4112;

/// The calls of the input of `marks`.
fn split_marks(words: &[u32]) -> Result<Vec<&[u32]>, String> {
    let length = |words: &[u32]| match words[0] {
        1 => marked_length(3 + *words.get(2).filter(|&&lent| lent <= MOST_LENT)? as usize, words),
        2 => marked_length(26, words),
        3 => file_length(words),
        _ => None,
    };
    split(words, length).ok_or_else(|| String::from("marks: an input that it does not read, or only in part"))
}

/// The length of a call with an exercise file, behind the size of its pieces and its own.
fn file_length(words: &[u32]) -> Option<usize> {
    match words.get(2..4)? {
        [1..=MOST_CUT, bytes @ 0..=MOST_BYTES] => Some(4 + bytes.div_ceil(4) as usize),
        _ => None,
    }
}

/// The length of a call whose count of words stands at this place, before the words.
fn marked_length(at: usize, words: &[u32]) -> Option<usize> {
    let count = words.get(at).filter(|&&count| count <= MOST_WORDS)?;
    Some(at + 1 + *count as usize)
}

pub fn marks(input: &[u8]) -> Result<Vec<u8>, String> {
    let mut page = Page::default();
    for call in split_marks(&words_of(input))? {
        match call[0] {
            1 => {
                let (record, words) = call[3..].split_at(call[2] as usize);
                let (refusal, [event, seconds], _) = marked(Car::read(record), &words[1..], call[1]);
                page.numbers(&[refusal, event, seconds]).end();
            }
            2 => {
                let fields = car_of(call[1..25].try_into().expect("24 words"));
                let (refusal, [event, seconds], car) = marked(fields.car(), &call[27..], call[25]);
                page.numbers(&[refusal, event, seconds]).end();
                page.numbers(&car.map_or(fields, |car| Fields::of(&car)).0).end();
                page.numbers(&[refusal, event]).end();
                page.numbers(&[refusal, seconds]).end();
            }
            // The same, however the file is cut.
            _ => page.0.extend(Given::mark(&bytes_of(&call[4..])[..call[3] as usize], call[1]).output),
        }
    }
    Ok(page.0)
}

/// The refusal, the event, 0 for never, and the seconds, with the car afterwards. 18 and zeros where there is no good
/// car.
fn marked(car: Option<Car>, words: &[u32], mark: u32) -> (u32, [u32; 2], Option<Car>) {
    let Some(car) = car else {
        return (18, [0, 0], None);
    };
    let (seconds, after) = car.seconds(words);
    let Passing { event, seconds } = Passing::of(&seconds, mark);
    (0, [event.unwrap_or(0), seconds].map(|number| number as u32), Some(after))
}

// ---------------------------------------------------------------- levers

/// The calls of the input of `levers`.
fn split_levers(words: &[u32]) -> Result<Vec<&[u32]>, String> {
    let length = |words: &[u32]| match words[0] {
        1 => Some(3 + *words.get(2).filter(|&&lent| lent <= MOST_LENT)? as usize),
        2 => Some(26),
        3 => file_length(words),
        _ => None,
    };
    split(words, length).ok_or_else(|| String::from("levers: an input that it does not read, or only in part"))
}

pub fn levers(input: &[u8]) -> Result<Vec<u8>, String> {
    let mut page = Page::default();
    for call in split_levers(&words_of(input))? {
        match call[0] {
            1 => moves_line(&mut page, Car::read(&call[3..]), call[1]),
            2 => moves_line(&mut page, car_of(call[1..25].try_into().expect("24 words")).car(), call[25]),
            // The same, however the file is cut.
            _ => page.0.extend(Given::moves(&bytes_of(&call[4..])[..call[3] as usize], call[1]).output),
        }
    }
    Ok(page.0)
}

fn moves_line(page: &mut Page, car: Option<Car>, wanted: u32) {
    let (refusal, Moves { count, words }) = moved(car, wanted);
    page.numbers(&[refusal, count as u32]).numbers(&words).end();
}

// ---------------------------------------------------------------- alikes

/// The calls of the input of `alikes`.
fn split_alikes(words: &[u32]) -> Result<Vec<&[u32]>, String> {
    let length = |words: &[u32]| match words[0] {
        1 => Some(1 + 24),
        2 => Some(1 + 48),
        3 => Some(2),
        _ => None,
    };
    split(words, length).ok_or_else(|| String::from("alikes: an input that it does not read, or only in part"))
}

pub fn alikes(input: &[u8]) -> Result<Vec<u8>, String> {
    let mut page = Page::default();
    let mut pair = Pair([UNUSED; 24]);
    let by_hand = any_pairs()?;
    let mut by_hand = by_hand.iter();
    for call in split_alikes(&words_of(input))? {
        match call[0] {
            1 => {
                pair = Pair(call[1..].try_into().expect("24 words"));
                pair_line(&mut page, &pair);
            }
            // The model has no car that no record gives: such pairs have answers worked out by hand.
            2 => {
                let [first, second, ..] = &cars_of(&call[1..])[..] else {
                    return Err(String::from("alikes: no two cars"));
                };
                let &(_, alike) = by_hand
                    .next()
                    .filter(|(cars, _)| cars == &[*first, *second])
                    .ok_or("alikes: a pair of cars with no answer worked out by hand")?;
                page.numbers(&[u32::from(alike)]).end();
            }
            _ => {
                let refusals = pair.drive(call[1]);
                page.numbers(&refusals);
                pair_line(&mut page, &pair);
            }
        }
    }
    match by_hand.next() {
        None => Ok(page.0),
        Some(_) => Err(String::from("alikes: a pair worked out by hand is missing")),
    }
}

fn pair_line(page: &mut Page, pair: &Pair) {
    match pair.alike() {
        Some(alike) => page.numbers(&[0, u32::from(alike)]).end(),
        None => page.numbers(&[18, 0]).end(),
    }
}

// ---------------------------------------------------------------- sightings

pub fn sightings(input: &[u8]) -> Result<Vec<u8>, String> {
    let mut page = Page::default();
    for case in words_of(input).chunks(3) {
        let &[kind, metres, kmh] = case else {
            return Err(String::from("sightings: a sighting of fewer than three words"));
        };
        match Sighting::new(kind, metres, kmh) {
            None => page.numbers(&[1, 0]).end(),
            Some(sighting) => sighting_line(&mut page, sighting),
        }
    }
    Ok(page.0)
}

/// The library's function, the call that gives the event, and the one that gives its word.
fn sighting_line(page: &mut Page, sighting: Sighting) {
    let seen = sighting.reading();
    let refusal = seen.err().unwrap_or(0);
    let reading = seen.ok().flatten();
    let is_event = u32::from(reading.is_some());
    let word = reading.map_or(0, Reading::word);
    let Reading { range, ahead } = reading.unwrap_or(Reading { range: 0, ahead: 0 });
    page.numbers(&[refusal, word, refusal, is_event, range, ahead, refusal, is_event, word]).end();
}
