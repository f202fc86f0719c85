//! The comparison of the library with the model, case by case. Each case grows from one 64-bit seed, so that it can
//! be run again alone.

use crate::calls::{converted, Reached};
use crate::library::{self, GUARD};
use crate::paper::{Car, Lesson, Moves, Passing, Sighting, CLOCK_END, MOST_MOVES};
use crate::random::{self, Driver, Random, FIELDS};
use crate::tuned;
use std::fmt::Write;

// ---------------------------------------------------------------- Cases

#[derive(Clone, Copy, PartialEq, Eq)]
pub enum Kind {
    Fresh,
    Walk,
    Lesson,
    Damaged,
    Cars,
    Alike,
    Tuned,
    Copy,
    Mark,
    Sighting,
    See,
    Moves,
}

const KINDS: [(Kind, &str); 12] = [
    (Kind::Fresh, "fresh"),
    (Kind::Walk, "walk"),
    (Kind::Lesson, "lesson"),
    (Kind::Damaged, "damaged"),
    (Kind::Cars, "cars"),
    (Kind::Alike, "alike"),
    (Kind::Tuned, "tuned"),
    (Kind::Copy, "copy"),
    (Kind::Mark, "mark"),
    (Kind::Sighting, "sighting"),
    (Kind::See, "see"),
    (Kind::Moves, "moves"),
];

/// One round of cases; a run is many rounds.
const ROUND: [Kind; 17] = [
    Kind::Fresh,
    Kind::Walk,
    Kind::Lesson,
    Kind::Damaged,
    Kind::Cars,
    Kind::Alike,
    Kind::Tuned,
    Kind::Copy,
    Kind::Mark,
    Kind::Sighting,
    Kind::See,
    Kind::Moves,
    Kind::Walk,
    Kind::Lesson,
    Kind::Damaged,
    Kind::Cars,
    Kind::Walk,
];
const ROUNDS: u64 = 8_000;

impl Kind {
    pub fn named(name: &str) -> Option<Kind> {
        KINDS.iter().find(|kind| kind.1 == name).map(|kind| kind.0)
    }

    fn name(self) -> &'static str {
        KINDS[self as usize].1
    }
}

/// The whole comparison: true when model and library agree everywhere.
pub fn run(seed: u64) -> bool {
    let mut tally = Tally::default();
    let mut seeds = Random::new(seed);
    for _ in 0..ROUNDS {
        for kind in ROUND {
            let case_seed = seeds.next();
            if let Err(difference) = run_case(kind, case_seed, &mut tally, false) {
                println!("DIFFERENCE after {} cases", tally.cases.iter().sum::<u64>());
                difference.print(kind, case_seed);
                return false;
            }
        }
    }
    tally.print(seed);
    true
}

/// One case again, with every call shown: true when model and library agree in it.
pub fn replay(kind: Kind, seed: u64) -> bool {
    match run_case(kind, seed, &mut Tally::default(), true) {
        Ok(()) => {
            println!("no difference in case {} {seed:#018x}", kind.name());
            true
        }
        Err(difference) => {
            println!("DIFFERENCE");
            difference.print(kind, seed);
            false
        }
    }
}

fn run_case(kind: Kind, seed: u64, tally: &mut Tally, shown: bool) -> Result<(), Difference> {
    let random = &mut Random::new(seed);
    let bench = &mut Bench { tally, shown };
    bench.tally.cases[kind as usize] += 1;
    match kind {
        Kind::Fresh => fresh_case(bench, random),
        Kind::Walk => walk_case(bench, random),
        Kind::Lesson => lesson_case(bench, random),
        Kind::Damaged => damaged_case(bench, random),
        Kind::Cars => cars_case(bench, random),
        Kind::Alike => alike_case(bench, random),
        Kind::Tuned => tuned_case(bench, random),
        Kind::Copy => copy_case(bench, random),
        Kind::Mark => mark_case(bench, random),
        Kind::Sighting => sighting_case(bench, random),
        Kind::See => see_case(bench, random),
        Kind::Moves => moves_case(bench, random),
    }
}

/// Fresh cars of all small settings words and random ones, into buffers of any length.
fn fresh_case(bench: &mut Bench, random: &mut Random) -> Result<(), Difference> {
    for small in 0..64 {
        let settings = if small < 32 { 0xD000_0000 | small } else { random::settings_word(random) };
        let length = random.pick(&[0, 0, 1, 5, 11, 12, 12, 13, 14, 40]);
        let mut record = Buffer::random(random, length);
        let car = bench.fresh(settings, &mut record)?;
        if length == 12 && car.is_some() {
            bench.test(car, &record)?;
            bench.figures(car, &record)?;
        }
    }
    Ok(())
}

/// A long walk word by word, the record compared after each.
fn walk_case(bench: &mut Bench, random: &mut Random) -> Result<(), Difference> {
    let mut driver = Driver::new(random);
    let mut car = random::good_car(random);
    let mut record = Buffer::record(random, &car);
    for _ in 0..500 + random.below(4000) {
        let word = driver.word(random, &car);
        car = bench.drive(Some(car), &mut record, word)?.unwrap_or(car);
        if random.once_in(50) {
            bench.test(Some(car), &record)?;
            bench.figures(Some(car), &record)?;
        }
    }
    Ok(())
}

/// Lessons one after another on one record.
fn lesson_case(bench: &mut Bench, random: &mut Random) -> Result<(), Difference> {
    let mut driver = Driver::new(random);
    let mut car = random::good_car(random);
    let mut record = Buffer::record(random, &car);
    for _ in 0..6 {
        let count = random.pick(&[0, 1, 2, 10, 100, 700, 3000]);
        let words = random::lesson_words(random, &mut driver, car, count);
        car = bench.lesson_anywhere(random, Some(car), &mut record, &words)?.unwrap_or(car);
        bench.test(Some(car), &record)?;
    }
    Ok(())
}

/// Damaged records, of wrong lengths too, handed to every function.
fn damaged_case(bench: &mut Bench, random: &mut Random) -> Result<(), Difference> {
    for _ in 0..40 {
        let words = random::damaged_record(random);
        let car = bench.read(&words);
        let mut record = Buffer::holding(random, &words);
        bench.test(car, &record)?;
        bench.figures(car, &record)?;
        let other_car = random::good_car(random);
        let other = Buffer::record(random, &other_car);
        bench.alike(car, &record, Some(other_car), &other)?;
        bench.alike(Some(other_car), &other, car, &record)?;
        bench.alike(car, &record, car, &record)?;
        let word = any_word(random, car);
        let car = bench.drive(car, &mut record, word)?;
        let words: Vec<u32> = (0..random.below(5)).map(|_| any_word(random, car)).collect();
        bench.lesson_anywhere(random, car, &mut record, &words)?;
    }
    Ok(())
}

/// Cars put together field by field, good and bad, with a few words and a lesson from each.
fn cars_case(bench: &mut Bench, random: &mut Random) -> Result<(), Difference> {
    for _ in 0..40 {
        let car = random::made_car(random);
        let mut words = random::record(random, &car);
        for _ in 0..random.below(3) {
            random.pick(&FIELDS).change(random, &mut words);
        }
        let mut car = bench.read(&words);
        let mut record = Buffer::holding(random, &words);
        bench.test(car, &record)?;
        bench.figures(car, &record)?;
        let mut driver = Driver::new(random);
        for _ in 0..8 {
            let word = car.map_or(10 << 28, |car| driver.word(random, &car));
            car = bench.drive(car, &mut record, word)?;
            bench.test(car, &record)?;
        }
        let words = car.map_or(vec![10 << 28; 3], |car| random::lesson_words(random, &mut driver, car, 40));
        car = bench.lesson_anywhere(random, car, &mut record, &words)?;
        bench.figures(car, &record)?;
    }
    Ok(())
}

/// Pairs of cars that differ in one field, each field in turn, and a pair of any two.
fn alike_case(bench: &mut Bench, random: &mut Random) -> Result<(), Difference> {
    let car = random::good_car(random);
    let record = Buffer::record(random, &car);
    for field in FIELDS {
        let mut words = car.write();
        for _ in 0..8 {
            words = car.write();
            field.change(random, &mut words);
            if words != car.write() && Car::read(&words).is_some() {
                break;
            }
        }
        bench.show(|| format!("field {} changed", field.name));
        let other_car = bench.read(&words);
        let other = Buffer::holding(random, &words);
        bench.alike(Some(car), &record, other_car, &other)?;
        bench.alike(other_car, &other, Some(car), &record)?;
    }
    let other_car = random::good_car(random);
    let other = Buffer::record(random, &other_car);
    bench.alike(Some(car), &record, Some(other_car), &other)?;
    stay_alike(bench, random, car)
}

/// A car and one that differs in its times alone, driven by one list of words: alike before it and after each word that
/// both accept or both refuse, with one number; a word is refused to one alone with 16 and at 86,400 only.
fn stay_alike(bench: &mut Bench, random: &mut Random, car: Car) -> Result<(), Difference> {
    let mut driver = Driver::new(random);
    let mut cars = [car, random::moved_in_time(random, &car)];
    let mut records = cars.map(|car| Buffer::record(random, &car));
    for _ in 0..200 {
        bench.alike(Some(cars[0]), &records[0], Some(cars[1]), &records[1])?;
        let word = driver.word(random, &cars[0]);
        let refusals = cars.map(|car| car.drive(word).err());
        for (car, record) in cars.iter_mut().zip(&mut records) {
            *car = bench.drive(Some(*car), record, word)?.unwrap_or(*car);
        }
        match refusals {
            [a, b] if a == b && cars[0].alike(&cars[1]) => {}
            [Some(16), None] if cars[0].now == CLOCK_END => return bench.parted(),
            [None, Some(16)] if cars[1].now == CLOCK_END => return bench.parted(),
            _ => return bench.apart(word, refusals, cars),
        }
    }
    Ok(())
}

/// The tuned lesson against the plain one.
fn tuned_case(bench: &mut Bench, random: &mut Random) -> Result<(), Difference> {
    let mut driver = Driver::new(random);
    let mut car = random::good_car(random);
    for _ in 0..6 {
        let count = random.pick(&[0, 1, 10, 300, 3000]);
        let words = random::lesson_words(random, &mut driver, car, count);
        let mut answers = answer_buffer(random, count);
        car = bench.tuned_lesson(car, &words, &mut answers)?;
    }
    Ok(())
}

/// Clean copies of a lesson from settings, some of them bad, into buffers of any length.
fn copy_case(bench: &mut Bench, random: &mut Random) -> Result<(), Difference> {
    let settings = if random.once_in(4) { random::settings_word(random) } else { random::good_settings(random) };
    let car = Car::start(settings).unwrap_or_else(|_| random::fresh_car(random));
    let count = some_count(random);
    let words = match random.below(4) {
        0 => random::accepted_words(random, car, count),
        _ => random::event_words(random, car, count),
    };
    let accepted = car.accepted(&words).0.len();
    let (all, start) = amid(random, &words);
    for _ in 0..6 {
        let mut copy = copy_buffer(random, accepted, count);
        bench.copy(settings, &all, start, count, &mut copy)?;
    }
    let mut copy = Buffer::random(random, accepted);
    if bench.copy(settings, &all, start, count, &mut copy)? {
        bench.copy_again(settings, &words, copy.lend().unwrap_or(&[]))?;
    }
    Ok(())
}

/// Marks of a lesson, whole and cut in two, from a record that is now and then damaged or of a wrong length.
fn mark_case(bench: &mut Bench, random: &mut Random) -> Result<(), Difference> {
    let (car, words) = marked_lesson(random);
    let record = match random.below(4) {
        0 => random::damaged_record(random),
        _ => random::record(random, &car).to_vec(),
    };
    let found = bench.read(&record);
    let record = Buffer::holding(random, &record);
    let (seconds, _) = found.unwrap_or(car).seconds(&words);
    let (all, start) = amid(random, &words);
    for _ in 0..6 {
        let mark = random::mark(random, &seconds);
        let passing = found.map(|_| Passing::of(&seconds, mark));
        bench.mark(passing, &record, &all, start, words.len(), mark)?;
    }
    if found.is_some() {
        let mark = random::mark(random, &seconds);
        let cut = random.below(words.len() as u32 + 1) as usize;
        bench.mark_halves(record.expected(), words.split_at(cut), mark)?;
    }
    Ok(())
}

/// Sightings, each by itself.
fn sighting_case(bench: &mut Bench, random: &mut Random) -> Result<(), Difference> {
    for _ in 0..500 {
        bench.sighting(random::sighting(random))?;
    }
    Ok(())
}

/// Sightings along a walk, and on records that are damaged or of a wrong length.
fn see_case(bench: &mut Bench, random: &mut Random) -> Result<(), Difference> {
    let mut driver = Driver::new(random);
    let mut car = random::good_car(random);
    let mut record = Buffer::record(random, &car);
    for _ in 0..200 {
        car = bench.see(Some(car), &mut record, random::sighting(random))?.unwrap_or(car);
        for _ in 0..random.below(3) {
            let word = driver.word(random, &car);
            car = bench.drive(Some(car), &mut record, word)?.unwrap_or(car);
        }
    }
    for _ in 0..20 {
        let words = random::damaged_record(random);
        let car = bench.read(&words);
        bench.see(car, &mut Buffer::holding(random, &words), random::sighting(random))?;
    }
    Ok(())
}

/// Moves of cars of every sort, most of them with cruise on and both levers in neutral, and of records that are damaged or
/// of a wrong length, to a D that is reached or not.
fn moves_case(bench: &mut Bench, random: &mut Random) -> Result<(), Difference> {
    for _ in 0..10 {
        let car = if random.once_in(4) { random::good_car(random) } else { random::neutral_car(random) };
        let record = match random.below(4) {
            0 => random::damaged_record(random),
            _ => random::record(random, &car).to_vec(),
        };
        let car = bench.read(&record);
        let record = Buffer::holding(random, &record);
        let reached = Reached::of(car);
        for _ in 0..8 {
            let wanted = random::wanted(random, &reached.desired());
            bench.moves(&reached, &record, wanted)?;
        }
    }
    Ok(())
}

/// A lesson of any sort from a good car, or one that passes its marks round the edge of a part.
fn marked_lesson(random: &mut Random) -> (Car, Vec<u32>) {
    if random.once_in(3) {
        let still = random.pick(&[1, 2]) * PART - random.below(10) as usize;
        let ticks = random.pick(&[1, 2, 9, 60, 1200]);
        return (random::fresh_car(random), random::late_start(random, still, ticks));
    }
    let car = random::good_car(random);
    let count = some_count(random);
    (car, random::event_words(random, car, count))
}

/// A sensible word where there is a car to know, else noise.
fn any_word(random: &mut Random, car: Option<Car>) -> u32 {
    match car {
        Some(car) if random.once_in(2) => Driver::with_noise(0).word(random, &car),
        _ => random::noise_word(random),
    }
}

/// A buffer for answers: shorter than the words, equal or longer.
fn answer_buffer(random: &mut Random, count: usize) -> Buffer {
    let room = match random.below(8) {
        0 => random.below(count as u32 + 1) as usize,
        1 => count.saturating_sub(1),
        2..=4 => count,
        _ => count + random.below(20) as usize,
    };
    Buffer::random(random, room)
}

/// How many words of a lesson the library works off at a time for a copy or a mark.
const PART: usize = 1024;

/// How many words such a lesson has: a few, some thousands, or as many as whole parts have, and two less or more.
fn some_count(random: &mut Random) -> usize {
    match random.below(4) {
        0 => random.below(20) as usize,
        1 => random.below(5000) as usize,
        _ => random.pick(&[1, 2, 3]) * PART + random.below(5) as usize - 2,
    }
}

/// A buffer for a copy: of lengths round the accepted words' and round the lesson's, shorter, between, and longer.
fn copy_buffer(random: &mut Random, accepted: usize, count: usize) -> Buffer {
    let room = match random.below(10) {
        0 => 0,
        1 => random.below(accepted as u32 + 1) as usize,
        2 | 3 => accepted.saturating_sub(1),
        4 => accepted,
        5 => accepted + 1,
        6 => accepted + random.below((count - accepted) as u32 + 1) as usize,
        7 | 8 => (count + random.below(3) as usize).saturating_sub(1),
        _ => count + random.below(3000) as usize,
    };
    Buffer::random(random, room)
}

// ---------------------------------------------------------------- Buffers

/// Guard words on each side of a buffer.
const MARGIN: usize = 4;

/// Words lent to the library between guards, and what they should be by the model.
struct Buffer {
    words: Vec<u32>,
    expected: Vec<u32>,
    is_null: bool,
}

impl Buffer {
    /// A buffer with these contents. An empty one is now and then a null pointer.
    fn holding(random: &mut Random, contents: &[u32]) -> Buffer {
        let mut words = vec![GUARD; MARGIN];
        words.extend_from_slice(contents);
        words.resize(contents.len() + 2 * MARGIN, GUARD);
        Buffer { expected: words.clone(), words, is_null: contents.is_empty() && random.once_in(2) }
    }

    /// A buffer with a record that gives this car.
    fn record(random: &mut Random, car: &Car) -> Buffer {
        let record = random::record(random, car);
        Buffer::holding(random, &record)
    }

    fn random(random: &mut Random, length: usize) -> Buffer {
        let contents: Vec<u32> = (0..length).map(|_| random.word()).collect();
        Buffer::holding(random, &contents)
    }

    fn length(&self) -> usize {
        self.words.len() - 2 * MARGIN
    }

    fn lend(&self) -> Option<&[u32]> {
        (!self.is_null).then_some(&self.words[MARGIN..MARGIN + self.length()])
    }

    fn lend_mut(&mut self) -> Option<&mut [u32]> {
        let end = MARGIN + self.length();
        (!self.is_null).then_some(&mut self.words[MARGIN..end])
    }

    fn expected(&self) -> &[u32] {
        &self.expected[MARGIN..MARGIN + self.length()]
    }

    fn expected_mut(&mut self) -> &mut [u32] {
        let end = MARGIN + self.length();
        &mut self.expected[MARGIN..end]
    }

    /// From now on the first twelve words should be this car's record.
    fn expect(&mut self, car: &Car) {
        self.expected_mut()[..12].copy_from_slice(&car.write());
    }

    fn is_as_expected(&self) -> bool {
        self.words == self.expected
    }

    /// The first word that is not as expected, counted from the first guard.
    fn wrong_place(&self) -> Option<usize> {
        self.words.iter().zip(&self.expected).position(|(found, expected)| found != expected)
    }

    fn guards_hold(&self) -> bool {
        self.words[..MARGIN] == [GUARD; MARGIN] && self.words[MARGIN + self.length()..] == [GUARD; MARGIN]
    }
}

/// Words somewhere in a longer array, and their place there.
fn amid(random: &mut Random, words: &[u32]) -> (Buffer, usize) {
    let start = random.pick(&[0, 0, 1, 7]);
    let mut all: Vec<u32> = (0..start).map(|_| random.word()).collect();
    all.extend_from_slice(words);
    all.extend((0..random.pick(&[0, 0, 1, 9])).map(|_| random.word()));
    (Buffer::holding(random, &all), start)
}

fn hex(words: &[u32]) -> String {
    words.iter().map(|word| format!("{word:08X}")).collect::<Vec<_>>().join(" ")
}

/// What is found in a buffer after a call.
fn found(buffer: &Buffer) -> String {
    let contents = hex(&buffer.words[MARGIN..MARGIN + buffer.length()]);
    contents + complaint(buffer.guards_hold(), " GUARDS OVERWRITTEN")
}

/// Nothing while it holds, else the complaint.
fn complaint(holds: bool, text: &'static str) -> &'static str {
    if holds {
        ""
    } else {
        text
    }
}

/// A buffer as a call's input.
fn input(words: &[u32], is_null: bool) -> String {
    let null = if is_null { " (null)" } else { "" };
    format!("length {}{null} {}", words.len(), hex(words))
}

/// These numbers with a guard before, between and after.
fn between_guards<const N: usize>(numbers: &[u32]) -> [u32; N] {
    let mut cells = [GUARD; N];
    for (place, number) in numbers.iter().enumerate() {
        cells[2 * place + 1] = *number;
    }
    cells
}

// ---------------------------------------------------------------- Calls, made on both sides

/// The first place where the two sides differ.
struct Difference {
    call: String,
    model: String,
    other: String,
}

impl Difference {
    fn print(&self, kind: Kind, seed: u64) {
        let program = std::env::args().next().unwrap_or_default();
        let other = if kind == Kind::Tuned { "tuned:" } else { "library:" };
        println!("case:    {} {seed:#018x}", kind.name());
        println!("call:    {}", self.call);
        println!("model:   {}", self.model);
        println!("{other:8} {}", self.other);
        println!("replay:  {program} replay {} {seed:#018x}", kind.name());
    }
}

/// Where calls are made and counted, and shown when a case is replayed.
struct Bench<'a> {
    tally: &'a mut Tally,
    shown: bool,
}

impl Bench<'_> {
    fn show(&self, text: impl FnOnce() -> String) {
        if self.shown {
            println!("{}", text());
        }
    }

    /// Shows the call in a replay; a difference unless both sides are the same.
    fn judge(
        &self,
        same: bool,
        call: impl Fn() -> String,
        model: impl Fn() -> String,
        other: impl Fn() -> String,
    ) -> Result<(), Difference> {
        self.show(|| format!("{}\n  model gives {}", call(), model()));
        if same {
            Ok(())
        } else {
            Err(Difference { call: call(), model: model(), other: other() })
        }
    }

    /// The model's car of a record, if it accepts it.
    fn read(&mut self, words: &[u32]) -> Option<Car> {
        let car = Car::read(words);
        self.tally.records[usize::from(car.is_some())] += 1;
        car
    }

    /// The record as it is before a call on the car that it gives; one that is not this car's own is counted.
    fn lent(&mut self, call: Call, car: Option<Car>, record: &Buffer) -> Vec<u32> {
        let record = record.expected();
        self.tally.old_gaps[call as usize] += u64::from(car.is_some_and(|car| car.write() != record));
        record.to_vec()
    }

    fn fresh(&mut self, settings: u32, record: &mut Buffer) -> Result<Option<Car>, Difference> {
        let before = input(record.expected(), record.is_null);
        let (refusal, car) = match Car::start(settings) {
            Err(refusal) => (refusal, None),
            Ok(_) if record.length() < 12 => (20, None),
            Ok(car) => (0, Some(car)),
        };
        if let Some(car) = car {
            record.expect(&car);
        }
        let given = library::fresh(settings, record.lend_mut());
        self.tally.count(Call::Fresh, refusal);
        self.judge(
            given == refusal && record.is_as_expected(),
            || format!("cruise_fresh settings {settings:08X} record {before}"),
            || format!("{refusal} record {}", hex(record.expected())),
            || format!("{given} record {}", found(record)),
        )?;
        Ok(car)
    }

    /// One word for the car that the record holds, none if it is not accepted. Gives the car afterwards.
    fn drive(&mut self, car: Option<Car>, record: &mut Buffer, word: u32) -> Result<Option<Car>, Difference> {
        let before = self.lent(Call::Drive, car, record);
        let (refusal, next) = match car.ok_or(18).and_then(|car| car.drive(word)) {
            Ok(next) => (0, Some(next)),
            Err(refusal) => (refusal, car),
        };
        if let (0, Some(next)) = (refusal, next) {
            record.expect(&next);
        }
        let given = library::drive(record.lend_mut(), word);
        self.tally.count(Call::Drive, refusal);
        self.judge(
            given == refusal && record.is_as_expected(),
            || format!("cruise_drive word {word:08X} record {}", input(&before, record.is_null)),
            || format!("{refusal} record {}", hex(record.expected())),
            || format!("{given} record {}", found(record)),
        )?;
        Ok(next)
    }

    /// A lesson somewhere in a longer array, with room for answers of any length. Gives the car afterwards.
    fn lesson_anywhere(
        &mut self,
        random: &mut Random,
        car: Option<Car>,
        record: &mut Buffer,
        words: &[u32],
    ) -> Result<Option<Car>, Difference> {
        let (all, start) = amid(random, words);
        let mut answers = answer_buffer(random, words.len());
        self.lesson(car, record, &all, start, words.len(), &mut answers)
    }

    fn lesson(
        &mut self,
        car: Option<Car>,
        record: &mut Buffer,
        all: &Buffer,
        start: usize,
        count: usize,
        answers: &mut Buffer,
    ) -> Result<Option<Car>, Difference> {
        let before = self.lent(Call::Lesson, car, record);
        let kept = answers.expected().to_vec();
        let words = all.lend().map(|all| &all[start..start + count]);
        let lesson = car.ok_or(18).and_then(|car| car.lesson(words.unwrap_or(&[]), answers.expected_mut()));
        let (refusal, next, counts) = match lesson {
            Ok(Lesson { car, accepted, refused }) => (0, Some(car), [accepted, refused]),
            Err(refusal) => (refusal, car, [0, 0]),
        };
        if let Ok(Lesson { car, .. }) = lesson {
            record.expect(&car);
        }
        let (given, out) = library::lesson(record.lend_mut(), words, answers.lend_mut());
        let guard = GUARD as usize;
        let same_counts = out == [guard, counts[0], guard, counts[1], guard];
        self.tally.count(Call::Lesson, refusal);
        if refusal == 0 {
            self.tally.count_answers(&answers.expected()[..count]);
        }
        let same = given == refusal
            && same_counts
            && record.is_as_expected()
            && answers.is_as_expected()
            && all.is_as_expected();
        let place = answers.wrong_place();
        let part = |buffer: &[u32]| place.map_or(String::from("as expected"), |place| format!("{:08X}", buffer[place]));
        self.judge(
            same,
            || {
                format!(
                    "cruise_lesson words {} (from {start} of the caller's) room {} record {}{}",
                    count,
                    kept.len(),
                    input(&before, record.is_null),
                    lesson_place(place, words.unwrap_or(&[]), car, self.shown),
                )
            },
            || {
                format!(
                    "{refusal} accepted {} refused {} answer {} record {}",
                    counts[0],
                    counts[1],
                    part(&answers.expected),
                    hex(record.expected()),
                )
            },
            || {
                format!(
                    "{given} accepted {} refused {}{} answer {}{} record {}{}",
                    out[1],
                    out[3],
                    complaint(out[0] == guard && out[2] == guard && out[4] == guard, " GUARDS OVERWRITTEN"),
                    part(&answers.words),
                    complaint(answers.guards_hold(), " GUARDS OVERWRITTEN"),
                    found(record),
                    complaint(all.is_as_expected(), " CALLER'S WORDS CHANGED"),
                )
            },
        )?;
        Ok(next)
    }

    fn test(&mut self, car: Option<Car>, record: &Buffer) -> Result<(), Difference> {
        let before = self.lent(Call::Test, car, record);
        let refusal = if car.is_some() { 0 } else { 18 };
        let given = library::test(record.lend());
        self.tally.count(Call::Test, refusal);
        self.judge(
            given == refusal && record.is_as_expected(),
            || format!("cruise_test record {}", input(&before, record.is_null)),
            || format!("{refusal}"),
            || format!("{given} record {}", found(record)),
        )
    }

    fn figures(&mut self, car: Option<Car>, record: &Buffer) -> Result<(), Difference> {
        let before = self.lent(Call::Figures, car, record);
        let refusal = if car.is_some() { 0 } else { 18 };
        let expected: [u32; 13] = match car.map(|car| car.figures()) {
            None => between_guards(&[0; 6]),
            Some(figures) => between_guards(&[
                figures.speed as u32,
                figures.desired as u32,
                figures.acceleration as u32,
                figures.visual as u32,
                figures.acoustic as u32,
                figures.distance as u32,
            ]),
        };
        let (given, out) = library::figures(record.lend());
        self.tally.count(Call::Figures, refusal);
        self.judge(
            given == refusal && out == expected && record.is_as_expected(),
            || format!("cruise_figures record {}", input(&before, record.is_null)),
            || format!("{refusal} {}", figure_text(&expected)),
            || format!("{given} {} record {}", figure_text(&out), found(record)),
        )
    }

    fn alike(
        &mut self,
        a: Option<Car>,
        a_record: &Buffer,
        b: Option<Car>,
        b_record: &Buffer,
    ) -> Result<(), Difference> {
        let befores = [(a, a_record), (b, b_record)].map(|(car, record)| self.lent(Call::Alike, car, record));
        let (refusal, alike) = match (a, b) {
            (Some(a), Some(b)) => (0, u32::from(a.alike(&b))),
            _ => (18, 0),
        };
        let (given, out) = library::alike(a_record.lend(), b_record.lend());
        self.tally.count(Call::Alike, refusal);
        self.tally.alike += u64::from(alike);
        self.judge(
            given == refusal
                && out == between_guards(&[alike])
                && a_record.is_as_expected()
                && b_record.is_as_expected(),
            || {
                let [a, b] = [input(&befores[0], a_record.is_null), input(&befores[1], b_record.is_null)];
                format!("cruise_alike a {a}\n        b {b}")
            },
            || format!("{refusal} alike {alike}"),
            || {
                let guards = complaint(out[0] == GUARD && out[2] == GUARD, " GUARDS OVERWRITTEN");
                format!("{given} alike {}{guards} a {} b {}", out[1], found(a_record), found(b_record))
            },
        )
    }

    /// Alike cars of which one has reached the clock's end.
    fn parted(&mut self) -> Result<(), Difference> {
        self.tally.parted += 1;
        Ok(())
    }

    /// Alike cars that a word took apart: what document 02, §9, says cannot be.
    fn apart(&mut self, word: u32, refusals: [Option<u32>; 2], cars: [Car; 2]) -> Result<(), Difference> {
        self.judge(
            false,
            || format!("word {word:08X} on two alike cars"),
            || String::from("alike afterwards, or 16 to one alone at 86,400"),
            || format!("{refusals:?} {cars:?}"),
        )
    }

    fn tuned_lesson(&mut self, car: Car, words: &[u32], answers: &mut Buffer) -> Result<Car, Difference> {
        let expected = car.lesson(words, answers.expected_mut());
        let end = MARGIN + answers.length();
        let given = tuned::lesson(&car, words, &mut answers.words[MARGIN..end]);
        self.tally.tuned_words += words.len() as u64;
        let place = answers.wrong_place();
        let part = |buffer: &[u32]| place.map(|place| format!("{:08X}", buffer[place]));
        self.judge(
            given == expected && place.is_none(),
            || {
                let place = lesson_place(place, words, Some(car), self.shown);
                format!("tuned::lesson words {} room {} {car:?}{place}", words.len(), answers.length())
            },
            || format!("{expected:?} answer {:?}", part(&answers.expected)),
            || format!("{given:?} answer {:?}", part(&answers.words)),
        )?;
        Ok(expected.map_or(car, |lesson| lesson.car))
    }

    /// A clean copy of a lesson from settings: was it written?
    fn copy(
        &mut self,
        settings: u32,
        all: &Buffer,
        start: usize,
        count: usize,
        copy: &mut Buffer,
    ) -> Result<bool, Difference> {
        let words = all.lend().map(|all| &all[start..start + count]);
        let copied = Car::start(settings).and_then(|car| car.copy(words.unwrap_or(&[]), copy.expected_mut()));
        let (refusal, written) = (copied.err().unwrap_or(0), copied.unwrap_or(0));
        let (given, out) = library::copy(settings, words, copy.lend_mut());
        let guard = GUARD as usize;
        self.tally.count(Call::Copy, refusal);
        self.tally.copied_words += written as u64;
        let part = |buffer: &[u32]| match copy.wrong_place() {
            Some(place) => format!("word {:08X} at {}", buffer[place], place as isize - MARGIN as isize),
            None => String::from("words as expected"),
        };
        self.judge(
            given == refusal && out == [guard, written, guard] && copy.is_as_expected() && all.is_as_expected(),
            || {
                let words = word_count(words.unwrap_or(&[]), self.shown);
                format!(
                    "cruise_copy settings {settings:08X} room {} (from {start} of the caller's) {words}",
                    copy.length()
                )
            },
            || format!("{refusal} written {written} {}", part(&copy.expected)),
            || {
                format!(
                    "{given} written {}{} {}{}{}",
                    out[1],
                    complaint(out[0] == guard && out[2] == guard, " GUARDS OVERWRITTEN"),
                    part(&copy.words),
                    complaint(copy.guards_hold(), " GUARDS OVERWRITTEN"),
                    complaint(all.is_as_expected(), " CALLER'S WORDS CHANGED"),
                )
            },
        )?;
        Ok(copied.is_ok())
    }

    /// Of the library alone: driving the copy refuses nothing and ends in the car that the lesson ends in, and copying
    /// the copy changes nothing.
    fn copy_again(&mut self, settings: u32, words: &[u32], copy: &[u32]) -> Result<(), Difference> {
        let (_, _, record) = driven(settings, words);
        let (refusal, refused, copy_record) = driven(settings, copy);
        self.judge(
            (refusal, refused, copy_record) == (0, 0, record),
            || format!("cruise_lesson of a copy, settings {settings:08X} {}", word_count(copy, self.shown)),
            || format!("0 refused 0 record {} as after the lesson", hex(&record)),
            || format!("{refusal} refused {refused} record {}", hex(&copy_record)),
        )?;
        let mut again = vec![GUARD; copy.len()];
        let (refusal, out) = library::copy(settings, Some(copy), Some(&mut again));
        self.judge(
            refusal == 0 && out[1] == copy.len() && again == copy,
            || format!("cruise_copy of a copy, settings {settings:08X} {}", word_count(copy, self.shown)),
            || format!("0 written {}, the same words", copy.len()),
            || format!("{refusal} written {}{}", out[1], complaint(again == copy, ", OTHER WORDS")),
        )
    }

    /// A mark of a lesson, and what the model says of it; none where the record is not accepted.
    fn mark(
        &mut self,
        passing: Option<Passing>,
        record: &Buffer,
        all: &Buffer,
        start: usize,
        count: usize,
        mark: u32,
    ) -> Result<(), Difference> {
        let words = all.lend().map(|all| &all[start..start + count]);
        let before = self.lent(Call::Mark, Car::read(record.expected()), record);
        let refusal = if passing.is_some() { 0 } else { 18 };
        let Passing { event, seconds } = passing.unwrap_or(Passing { event: None, seconds: 0 });
        let (given, out) = library::mark(record.lend(), words, mark);
        let guard = GUARD as usize;
        self.tally.count(Call::Mark, refusal);
        self.tally.count_mark(event, passing.map_or(0, |_| count));
        self.judge(
            given == refusal
                && out == [guard, event.unwrap_or(0), guard, seconds, guard]
                && record.is_as_expected()
                && all.is_as_expected(),
            || {
                let words = word_count(words.unwrap_or(&[]), self.shown);
                let record = input(&before, record.is_null);
                format!("cruise_mark mark {mark} record {record} (from {start} of the caller's) {words}")
            },
            || format!("{refusal} event {} seconds {seconds}", event.unwrap_or(0)),
            || {
                format!(
                    "{given} event {} seconds {}{} record {}{}",
                    out[1],
                    out[3],
                    complaint(out[0] == guard && out[2] == guard && out[4] == guard, " GUARDS OVERWRITTEN"),
                    found(record),
                    complaint(all.is_as_expected(), " CALLER'S WORDS CHANGED"),
                )
            },
        )
    }

    /// Of the library alone: a lesson in two parts, the second from the record that the first leaves, has the seconds
    /// and the find of the whole one, the find counted on in the second part.
    fn mark_halves(&mut self, record: &[u32], halves: (&[u32], &[u32]), mark: u32) -> Result<(), Difference> {
        let (first, second) = halves;
        let whole = marked(record, &[first, second].concat(), mark);
        let mut after = record.to_vec();
        library::lesson(Some(&mut after), Some(first), Some(&mut vec![0; first.len()]));
        let [before, behind] = [marked(record, first, mark), marked(&after, second, mark)];
        let event = before.0.or(behind.0.map(|event| first.len() + event));
        let joined = (event, before.1 + behind.1);
        self.judge(
            joined == whole,
            || {
                let words = [first, second].map(|words| word_count(words, self.shown)).join(" and ");
                format!("cruise_mark mark {mark} record {} of two parts, {words}", hex(record))
            },
            || format!("{whole:?}, as the whole lesson"),
            || format!("{joined:?}"),
        )
    }

    fn sighting(&mut self, numbers: [u32; 3]) -> Result<(), Difference> {
        let [kind, metres, kmh] = numbers;
        let (refusal, word) = converted(numbers);
        let (given, out) = library::sighting(kind, metres, kmh);
        self.tally.count(Call::Sighting, refusal);
        self.tally.count_sighting(refusal, word);
        self.judge(
            given == refusal && out == between_guards(&[word]),
            || format!("cruise_sighting {}", sighting_text(numbers)),
            || format!("{refusal} word {word:08X}"),
            || {
                let guards = complaint(out[0] == GUARD && out[2] == GUARD, " GUARDS OVERWRITTEN");
                format!("{given} word {:08X}{guards}", out[1])
            },
        )
    }

    /// A sighting for the car that the record holds, none if it is not accepted. Gives the car afterwards.
    fn see(&mut self, car: Option<Car>, record: &mut Buffer, numbers: [u32; 3]) -> Result<Option<Car>, Difference> {
        let [kind, metres, kmh] = numbers;
        let before = self.lent(Call::See, car, record);
        let sighting = Sighting::new(kind, metres, kmh).ok_or(1u32);
        let seen = car.ok_or(18).and_then(|car| car.see(sighting?));
        // A fault leaves the record as it is.
        if let Ok(Some(next)) = seen {
            record.expect(&next);
        }
        let (refusal, next) = (seen.err().unwrap_or(0), seen.ok().flatten().or(car));
        let given = library::see(record.lend_mut(), kind, metres, kmh);
        self.tally.count(Call::See, refusal);
        self.tally.faults_driven += u64::from(refusal == 0 && sighting == Ok(Sighting::Fault));
        self.judge(
            given == refusal && record.is_as_expected(),
            || format!("cruise_see {} record {}", sighting_text(numbers), input(&before, record.is_null)),
            || format!("{refusal} record {}", hex(record.expected())),
            || format!("{given} record {}", found(record)),
        )?;
        Ok(next)
    }

    /// Moves to a wanted D, and those of the model to all that the record's car reaches.
    fn moves(&mut self, reached: &Reached, record: &Buffer, wanted: u32) -> Result<(), Difference> {
        let before = self.lent(Call::Moves, Car::read(record.expected()), record);
        let (refusal, moves) = reached.moved(wanted);
        let given = library::moves(record.lend(), wanted);
        self.tally.count(Call::Moves, refusal);
        self.tally.lists[moves.count] += u64::from(refusal == 0);
        self.judge(
            given == moves_given(refusal, moves) && record.is_as_expected(),
            || format!("cruise_moves wanted {wanted} record {}", input(&before, record.is_null)),
            || moves_text(moves_given(refusal, moves)),
            || format!("{} record {}", moves_text(given), found(record)),
        )?;
        if refusal == 0 {
            self.moves_driven(record.expected(), wanted, moves.list())?;
        }
        Ok(())
    }

    /// Of the library alone: it accepts each of these words one after another, and then has the wanted D and the up-down
    /// lever in neutral.
    fn moves_driven(&mut self, record: &[u32], wanted: u32, words: &[u32]) -> Result<(), Difference> {
        let mut after = record.to_vec();
        let refusals: Vec<u32> = words.iter().map(|&word| library::drive(Some(&mut after), word)).collect();
        let (refusal, figures) = library::figures(Some(&after));
        let lever = after[0] >> 5 & 7;
        self.judge(
            refusals.iter().all(|&refusal| refusal == 0) && (refusal, figures[3], lever) == (0, wanted, 0),
            || format!("cruise_drive of {} record {}", hex(words), hex(record)),
            || format!("0 for each, D {wanted}, L 0"),
            || format!("{refusals:?}, D {}, L {lever}", figures[3]),
        )
    }
}

/// What the library gives for moves: the refusal, and the cells for the words and for the count.
type MovesGiven = (u32, [u32; MOST_MOVES + 2], [usize; 3]);

/// What it should give: the words and their count, and the guards.
pub fn moves_given(refusal: u32, Moves { count, words }: Moves) -> MovesGiven {
    let mut cells = [GUARD; MOST_MOVES + 2];
    cells[1..=MOST_MOVES].copy_from_slice(&words);
    (refusal, cells, [GUARD as usize, count, GUARD as usize])
}

pub fn moves_text((refusal, cells, count): MovesGiven) -> String {
    let guard = GUARD as usize;
    let holds = cells[0] == GUARD && cells[MOST_MOVES + 1] == GUARD && count[0] == guard && count[2] == guard;
    let guards = complaint(holds, " GUARDS OVERWRITTEN");
    format!("{refusal} count {} words {}{guards}", count[1], hex(&cells[1..=MOST_MOVES]))
}

/// A sighting as a call's input: the floats' bits and what they stand for.
pub fn sighting_text([kind, metres, kmh]: [u32; 3]) -> String {
    let float = |bits| format!("{bits:08X} ({:?})", f32::from_bits(bits));
    format!("kind {kind} metres {} kmh {}", float(metres), float(kmh))
}

/// The event and the seconds of a mark, by the library.
fn marked(record: &[u32], words: &[u32], mark: u32) -> (Option<usize>, usize) {
    let (_, out) = library::mark(Some(record), Some(words), mark);
    (Some(out[1]).filter(|&event| event > 0), out[3])
}

/// A lesson from the fresh car of its settings, by the library: the refusal, the count refused and the record.
fn driven(settings: u32, words: &[u32]) -> (u32, usize, [u32; 12]) {
    let mut record = [0; 12];
    library::fresh(settings, Some(&mut record));
    let (refusal, counts) = library::lesson(Some(&mut record), Some(words), Some(&mut vec![0; words.len()]));
    (refusal, counts[3], record)
}

/// How many words, and in a replay all of them.
fn word_count(words: &[u32], shown: bool) -> String {
    let all = if shown { format!(" {}", hex(words)) } else { String::new() };
    format!("words {}{all}", words.len())
}

fn figure_text(cells: &[u32; 13]) -> String {
    let [speed, desired, acceleration, visual, acoustic, distance] = [1, 3, 5, 7, 9, 11].map(|cell| cells[cell]);
    let guards = complaint(cells.iter().step_by(2).all(|&cell| cell == GUARD), " GUARDS OVERWRITTEN");
    format!(
        "speed {speed} desired {desired} acceleration {} visual {visual} acoustic {acoustic} distance {distance}{guards}",
        acceleration as i32
    )
}

/// The first wrong answer's place in the lesson, its word and the model's car before it; in a replay all words too.
fn lesson_place(place: Option<usize>, words: &[u32], car: Option<Car>, shown: bool) -> String {
    let mut text = String::new();
    if shown {
        write!(text, "\n        words {}", hex(words)).expect("room for text");
    }
    let at = place.and_then(|place| place.checked_sub(MARGIN)).filter(|&at| at < words.len());
    if let (Some(at), Some(car)) = (at, car) {
        let car = words[..at].iter().fold(car, |car, &word| car.drive(word).unwrap_or(car));
        write!(text, "\n        first at position {at}, word {:08X}, record there {}", words[at], hex(&car.write()))
            .expect("room for text");
    }
    text
}

// ---------------------------------------------------------------- Counts

#[derive(Clone, Copy)]
enum Call {
    Fresh,
    Drive,
    Lesson,
    Test,
    Figures,
    Alike,
    Copy,
    Mark,
    Sighting,
    See,
    Moves,
}

const CALL_NAMES: [&str; 11] =
    ["fresh", "drive", "lesson", "test", "figures", "alike", "copy", "mark", "sighting", "see", "moves"];
/// The refusals that a function gives, 0 for none; 21 is the programs'.
const REFUSALS: usize = 27;

#[derive(Default)]
struct Tally {
    cases: [u64; KINDS.len()],
    /// Calls answered, by function and refusal.
    calls: [[u64; REFUSALS]; CALL_NAMES.len()],
    /// Calls on accepted records that hold the gap 30, by function.
    old_gaps: [u64; CALL_NAMES.len()],
    /// Words of lessons that ran, by refusal.
    answers: [u64; REFUSALS],
    /// Records that the model refused and accepted.
    records: [u64; 2],
    alike: u64,
    /// Pairs of alike cars that came to the clock's end one before the other.
    parted: u64,
    tuned_words: u64,
    copied_words: u64,
    /// Words of the lessons that were asked for a mark.
    marked_words: u64,
    /// Marks that were passed, and those of them at one of the two words on each side of a part's edge.
    passed: [u64; 2],
    /// Sightings converted to a car ahead, to a free road, and faults.
    sightings: [u64; 3],
    faults_driven: u64,
    /// Lists of moves, by how many words they have.
    lists: [u64; MOST_MOVES + 1],
}

impl Tally {
    fn count(&mut self, call: Call, refusal: u32) {
        self.calls[call as usize][refusal as usize] += 1;
    }

    fn count_answers(&mut self, answers: &[u32]) {
        for answer in answers {
            self.answers[(answer & 31) as usize] += 1;
        }
    }

    fn count_mark(&mut self, event: Option<usize>, words: usize) {
        self.marked_words += words as u64;
        self.passed[0] += u64::from(event.is_some());
        self.passed[1] += u64::from(event.is_some_and(|event| event > 2 && (event + 1) % PART < 4));
    }

    fn count_sighting(&mut self, refusal: u32, word: u32) {
        if refusal == 0 {
            let sort = match (word, word & 0xFF) {
                (0, _) => 2,
                (_, 0) => 1,
                _ => 0,
            };
            self.sightings[sort] += 1;
        }
    }

    fn print(&self, seed: u64) {
        println!("no difference, seed {seed}");
        for ((_, name), count) in KINDS.iter().zip(self.cases) {
            println!("  {count:>9} cases {name}");
        }
        let drives = self.calls[Call::Drive as usize];
        let driven = drives.iter().sum::<u64>() - drives[18];
        let in_lessons: u64 = self.answers.iter().sum();
        println!("  {driven:>9} words driven singly, {in_lessons} in lessons, {} in tuned lessons", self.tuned_words);
        println!("  {:>9} records made by hand accepted, {} refused", self.records[1], self.records[0]);
        println!("  {:>9} pairs of cars alike, {} parted at the clock's end", self.alike, self.parted);
        println!("  {:>9} words written in copies", self.copied_words);
        let [passed, at_edges] = self.passed;
        println!(
            "  {:>9} words in lessons with a mark, {passed} passed, {at_edges} at a part's edge",
            self.marked_words
        );
        let [cars, free_roads, faults] = self.sightings;
        println!(
            "  {cars:>9} sightings of a car, {free_roads} of a free road, {faults} faults; {} faults driven",
            self.faults_driven
        );
        println!("  {:>9} lists of moves, {}", self.lists.iter().sum::<u64>(), lists_text(&self.lists));
        print!("{:>8}", "answer");
        CALL_NAMES.iter().for_each(|name| print!("{name:>10}"));
        println!("{:>14}", "lesson words");
        for refusal in (0..REFUSALS).filter(|&refusal| refusal != 21) {
            print!("{refusal:>8}");
            self.calls.iter().for_each(|counts| print!("{:>10}", counts[refusal]));
            println!("{:>14}", self.answers[refusal]);
        }
        print!("{:>8}", "gap 30");
        self.old_gaps.iter().for_each(|count| print!("{count:>10}"));
        println!();
    }
}

/// How many lists have how many words; no list has one.
pub fn lists_text(lists: &[u64; MOST_MOVES + 1]) -> String {
    let counts = lists.iter().enumerate().filter(|&(words, count)| words != 1 || *count > 0);
    counts.map(|(words, count)| format!("{count} of {words} words")).collect::<Vec<_>>().join(", ")
}
