//! Measurements: the library, the plain model and the tuned one over the same words, in turn, in one run.

use crate::calls::{converted, moved};
use crate::library;
use crate::paper::{Car, Key, Moves, Passing, Second, Sighting};
use crate::random::{self, Driver, Random};
use crate::tuned;
use std::hint::black_box;
use std::time::Instant;

const LESSONS: usize = 20;
const LESSON_WORDS: usize = 50_000;
const RUNS: usize = 15;

/// 1,000,000 words in lessons, each from its own record, so that no clock ends too soon.
struct Workload {
    name: &'static str,
    lessons: Vec<Lesson>,
}

impl Workload {
    /// How many words its lessons have together.
    fn words(&self) -> usize {
        self.lessons.iter().map(|lesson| lesson.words.len()).sum()
    }
}

struct Lesson {
    record: [u32; 12],
    words: Vec<u32>,
    /// How many of the words are accepted.
    accepted: usize,
    /// A speed mark, and what the model says of it.
    mark: u32,
    passing: Passing,
}

impl Lesson {
    fn of((car, words): (Car, Vec<u32>)) -> Lesson {
        Lesson::marked(car, words, |_| 0)
    }

    fn marked(car: Car, words: Vec<u32>, choose: impl Fn(&[Second]) -> u32) -> Lesson {
        let (seconds, _) = car.seconds(&words);
        let mark = choose(&seconds);
        let accepted = car.accepted(&words).0.len();
        Lesson { record: car.write(), accepted, words, mark, passing: Passing::of(&seconds, mark) }
    }

    fn car(&self) -> Car {
        Car::read(&self.record).expect("a good record")
    }

    /// The settings word of its car.
    fn settings(&self) -> u32 {
        let first = self.record[0];
        0xD000_0000 | first & 7 | (first >> 14 & 1) << 3
    }

    fn with_mark(&self, choose: fn(&[Second]) -> u32) -> Lesson {
        Lesson::marked(self.car(), self.words.clone(), choose)
    }

    /// The lesson as far as the event that passes its mark.
    fn up_to_find(&self) -> Lesson {
        let event = self.passing.event.expect("a mark that is passed");
        Lesson::marked(self.car(), self.words[..event].to_vec(), |_| self.mark)
    }
}

/// One way to do the work on one lesson; gives a number made from all it did.
type Way = fn(&Lesson, &mut [u32]) -> u32;

pub fn run(start: Instant) {
    print_first_answer(start);
    let workloads = [
        workload("mixed walk", mixed_walk),
        workload("accepted walk", accepted_walk),
        workload("ticks only", ticks_only),
        workload("random words", random_words),
    ];
    println!("\nlessons of {LESSON_WORDS} words, ns per word, median of {RUNS} runs in turn");
    print_table(&workloads, &[("library", library_lesson), ("model", model_lesson), ("tuned", tuned_lesson)]);
    println!("\none call for each word, ns per word, median of {RUNS} runs in turn");
    println!(
        "library: cruise_drive; record: the model reads the record, drives, writes it; value: the model's drive alone"
    );
    print_table(
        &workloads,
        &[("library", library_drive), ("record", model_record_drive), ("value", model_value_drive)],
    );
    println!("\none record, ns per call, median of {RUNS} runs in turn: read and tested (cruise_test), and its figures (cruise_figures)");
    print_pairs("test", &workloads, &[("library", library_test), ("model", model_test)]);
    print_pairs("figures", &workloads, &[("library", library_figures), ("model", model_figures)]);
    println!("\none sighting, ns per call, median of {RUNS} runs in turn");
    println!(
        "converted (cruise_sighting), then driven (cruise_see); both: cruise_sighting, and cruise_drive of its word"
    );
    let sightings = [workload("cars ahead", cars_ahead), workload("any floats", any_floats)];
    print_pairs("sighting", &sightings, &[("library", library_sighting), ("model", model_sighting)]);
    print_table(&sightings, &[("library", library_see), ("model", model_see), ("both", library_sighting_and_drive)]);
    println!("\ncopies of lessons from a fresh car, ns per word, median of {RUNS} runs in turn");
    println!(
        "copy: cruise_copy with room for all words; exact: with room for the accepted alone; lesson: cruise_lesson"
    );
    let [mixed, accepted, ticks, random] = workloads;
    let copied = [mixed, accepted, workload("ticks", fresh_ticks), workload("random words", fresh_random)];
    print_copies(&copied);
    println!("\nmoves of the lever, ns per call, median of {RUNS} runs in turn: cruise_moves, and the model, which tries list by list");
    let goals = goal_rows();
    print_pairs("moves", &goals, &[("library", library_moves), ("model", model_moves)]);
    print_slowest(&goals);
    println!("\nmarks, ns per word, median of {RUNS} runs in turn: cruise_mark beside cruise_lesson on the same words");
    println!("up to the find: the words as far as the event that passes the mark, and no more");
    print_marks(&mark_rows(&copied, &ticks, &random));
}

/// One lesson of a workload by one way, for a tool that counts instructions while `counted` runs.
pub fn run_once(workload: &str, way: &str) -> Option<()> {
    let words = match workload {
        "mixed" => mixed_walk,
        "accepted" => accepted_walk,
        "ticks" => ticks_only,
        "random" => random_words,
        "fresh-ticks" => fresh_ticks,
        "fresh-random" => fresh_random,
        "half" => half_way_walk,
        _ => return None,
    };
    let lesson = Lesson::of(words(&mut Random::new(7)));
    let (way, lesson): (Way, Lesson) = match way {
        "library" => (library_lesson, lesson),
        "tuned" => (tuned_lesson, lesson),
        "drive" => (library_drive, lesson),
        "test" => (library_test, lesson),
        "figures" => (library_figures, lesson),
        "copy" => (library_copy, lesson),
        "exact" => (library_exact_copy, lesson),
        "never" => (library_mark, lesson.with_mark(never)),
        "often" => (library_mark, lesson.with_mark(often)),
        "mark" => (library_mark, lesson.with_mark(half_way)),
        "found" => (library_mark, lesson.with_mark(half_way).up_to_find()),
        "found-lesson" => (library_lesson, lesson.with_mark(half_way).up_to_find()),
        _ => return None,
    };
    println!("{} words: {:08X}", lesson.words.len(), counted(way, &lesson, &mut [0; LESSON_WORDS]));
    Some(())
}

#[inline(never)]
fn counted(way: Way, lesson: &Lesson, answers: &mut [u32]) -> u32 {
    black_box(way(black_box(lesson), answers))
}

/// From the start of main to the first answer word of a lesson; the loading of the program is not in it.
fn print_first_answer(start: Instant) {
    let mut record = [0; 12];
    let mut answers = [0];
    library::fresh(0xD000_0006, Some(&mut record));
    library::lesson(Some(&mut record), Some(&[0x1000_0001]), Some(&mut answers));
    let elapsed = start.elapsed();
    println!("from the start of main to the first answer {:08X} of cruise_lesson: {elapsed:?}", answers[0]);
}

// ---------------------------------------------------------------- Workloads

fn workload(name: &'static str, words: fn(&mut Random) -> (Car, Vec<u32>)) -> Workload {
    let mut random = Random::new(7);
    let lessons = (0..LESSONS).map(|_| Lesson::of(words(&mut random))).collect();
    Workload { name, lessons }
}

/// A sensible walk with some refusals.
fn mixed_walk(random: &mut Random) -> (Car, Vec<u32>) {
    let car = random::fresh_car(random);
    let words = random::lesson_words(random, &mut Driver::with_noise(12), car, LESSON_WORDS);
    (car, words)
}

/// The same sort of walk with refused words left out, but for the last.
fn accepted_walk(random: &mut Random) -> (Car, Vec<u32>) {
    let car = random::fresh_car(random);
    let words = random::accepted_words(random, car, LESSON_WORDS);
    (car, last_refused(words))
}

/// The words with a last one that is refused, so that room for the accepted ones is less than for all.
fn last_refused(mut words: Vec<u32>) -> Vec<u32> {
    words[LESSON_WORDS - 1] = 0;
    words
}

/// Mode 2, cruise on behind a car, and accepted ticks alone; the radar stays ready.
fn ticks_only(random: &mut Random) -> (Car, Vec<u32>) {
    let car = random::following_car(random);
    let words = vec![0xA000_0001; LESSON_WORDS];
    let lesson = car.lesson(&words, &mut vec![0; LESSON_WORDS]);
    assert!(lesson.is_ok_and(|lesson| lesson.refused == 0));
    (car, words)
}

fn random_words(random: &mut Random) -> (Car, Vec<u32>) {
    (random::reached_car(random), (0..LESSON_WORDS).map(|_| random.word()).collect())
}

/// Key in, key on with the radar ready, and accepted ticks, but for the last word.
fn fresh_ticks(random: &mut Random) -> (Car, Vec<u32>) {
    let mut words = vec![0xA000_0001; LESSON_WORDS];
    words[..2].copy_from_slice(&[0x1000_0001, 0x1000_0006]);
    (random::fresh_car(random), last_refused(words))
}

fn fresh_random(random: &mut Random) -> (Car, Vec<u32>) {
    (random::fresh_car(random), (0..LESSON_WORDS).map(|_| random.word()).collect())
}

/// Floats, not event words: each and the next one are the metres and the km/h of a sighting. Of a car that is near and
/// not too fast; and any bits.
fn cars_ahead(random: &mut Random) -> (Car, Vec<u32>) {
    let float = |random: &mut Random| (random.below(250 << 12) as f32 / 4096.0).to_bits();
    (random::following_car(random), (0..LESSON_WORDS).map(|_| float(random)).collect())
}

fn any_floats(random: &mut Random) -> (Car, Vec<u32>) {
    (random::following_car(random), (0..LESSON_WORDS).map(|_| random.word()).collect())
}

/// The mark that this walk first passes half way.
const HALF_WAY: i32 = 500;

/// A sensible walk with some refusals in which, up to its middle, the gas let go or the brake takes the place of every
/// word that would pass the mark.
fn half_way_walk(random: &mut Random) -> (Car, Vec<u32>) {
    let start = random::fresh_car(random);
    let mut driver = Driver::with_noise(12);
    let mut car = start;
    let mut words = Vec::with_capacity(LESSON_WORDS);
    while words.len() < LESSON_WORDS {
        let word = driver.word(random, &car);
        let passes = car.drive(word).is_ok_and(|next| next.speed >= HALF_WAY);
        let word = match (passes && words.len() < LESSON_WORDS / 2, car.gas) {
            (false, _) => word,
            (true, 0) => 0x4000_00E1,
            (true, _) => 0x5000_0000,
        };
        car = car.drive(word).unwrap_or(car);
        words.push(word);
    }
    (start, words)
}

// ---------------------------------------------------------------- Moves

/// The steps between the Ds and between the wanted ones, of which neither goes into tens or hundreds.
const DESIRED_STEP: usize = 83;
const WANTED_STEP: usize = 41;

/// Cars with cruise on and both levers in neutral, each with wanted Ds for words: taken regularly from all pairs, the same
/// that no list gives, all that one gives, and tens to tens.
fn goal_rows() -> Vec<Workload> {
    let every = |_: &Car| (0..=2002).step_by(WANTED_STEP).collect::<Vec<u32>>();
    let reached = |car: &Car| car.reached().map_or(Vec::new(), |reached| reached.into_keys().collect());
    let none = |car: &Car| every(car).into_iter().filter(|&wanted| car.moves(wanted).is_err()).collect();
    let tens = |_: &Car| (10..=2000).step_by(30).collect();
    vec![
        goals("every pair", (1..=2000).step_by(DESIRED_STEP), every),
        goals("no list", (1..=2000).step_by(DESIRED_STEP), none),
        goals("with a list", (1..=2000).step_by(DESIRED_STEP), reached),
        goals("tens to tens", (10..=2000).step_by(70), tens),
    ]
}

fn goals(name: &'static str, desired: impl Iterator<Item = i32>, wanted: impl Fn(&Car) -> Vec<u32>) -> Workload {
    let car = |desired| {
        let fresh = Car::fresh(1, 0, 0).expect("good settings");
        Car { key: Key::On, cruise: true, desired, ..fresh }
    };
    let lessons = desired.map(car).map(|car| Lesson::of((car, wanted(&car)))).collect();
    Workload { name, lessons }
}

// ---------------------------------------------------------------- Marks

/// One above the highest v.
fn never(seconds: &[Second]) -> u32 {
    seconds.iter().map(|second| second.before.max(second.after)).max().unwrap_or(0) + 1
}

/// The highest v, which is passed late.
fn highest(seconds: &[Second]) -> u32 {
    never(seconds) - 1
}

/// The one that is passed most often.
fn often(seconds: &[Second]) -> u32 {
    let mut passings = vec![0; never(seconds) as usize + 1];
    for second in seconds.iter().filter(|second| second.before < second.after) {
        passings[second.before as usize + 1..=second.after as usize].iter_mut().for_each(|count| *count += 1);
    }
    (0..).zip(passings).max_by_key(|&(_, count)| count).map_or(0, |(mark, _)| mark)
}

fn half_way(_: &[Second]) -> u32 {
    HALF_WAY as u32
}

fn marked(workload: &Workload, choose: fn(&[Second]) -> u32) -> Workload {
    Workload { name: workload.name, lessons: workload.lessons.iter().map(|lesson| lesson.with_mark(choose)).collect() }
}

fn up_to_find(workload: &Workload) -> Workload {
    Workload { name: workload.name, lessons: workload.lessons.iter().map(Lesson::up_to_find).collect() }
}

/// Which mark, and the workload with it.
fn mark_rows(copied: &[Workload; 4], ticks: &Workload, random: &Workload) -> Vec<(&'static str, Workload)> {
    let [mixed, accepted, standing, _] = copied;
    let half = marked(&workload("half-way walk", half_way_walk), half_way);
    vec![
        ("never passed", marked(mixed, never)),
        ("passed often", marked(mixed, often)),
        ("never passed", marked(accepted, never)),
        ("passed often", marked(accepted, often)),
        ("never passed", marked(ticks, never)),
        ("never passed", marked(standing, never)),
        ("0, counts each tick", marked(standing, |_| 0)),
        ("never passed", marked(random, never)),
        ("up to the find", up_to_find(&half)),
        ("passed half way", half),
        ("the highest, to the find", up_to_find(&marked(mixed, highest))),
    ]
}

// ---------------------------------------------------------------- Ways

fn library_lesson(lesson: &Lesson, answers: &mut [u32]) -> u32 {
    let mut record = lesson.record;
    let (refusal, counts) = library::lesson(Some(&mut record), Some(&lesson.words), Some(answers));
    refusal ^ counts[1] as u32 ^ record[10]
}

fn model_lesson(lesson: &Lesson, answers: &mut [u32]) -> u32 {
    let taught = Car::read(&lesson.record).ok_or(18).and_then(|car| car.lesson(&lesson.words, answers));
    taught.map_or(0, |lesson| lesson.accepted as u32 ^ lesson.car.write()[10])
}

fn tuned_lesson(lesson: &Lesson, answers: &mut [u32]) -> u32 {
    let taught = Car::read(&lesson.record).ok_or(18).and_then(|car| tuned::lesson(&car, &lesson.words, answers));
    taught.map_or(0, |lesson| lesson.accepted as u32 ^ lesson.car.write()[10])
}

fn library_drive(lesson: &Lesson, _: &mut [u32]) -> u32 {
    let mut record = lesson.record;
    lesson.words.iter().fold(0, |sum, &word| sum + library::drive(Some(&mut record), word)) ^ record[10]
}

/// The same job in the model: read the record, drive, write the record.
fn model_record_drive(lesson: &Lesson, _: &mut [u32]) -> u32 {
    let mut record = lesson.record;
    let mut drive = |word| match Car::read(black_box(&record)).ok_or(18).and_then(|car| car.drive(word)) {
        Ok(next) => {
            record = next.write();
            0
        }
        Err(refusal) => refusal,
    };
    let sum = lesson.words.iter().fold(0, |sum, &word| sum + drive(word));
    sum ^ record[10]
}

/// The model's car carried from word to word, with no record.
fn model_value_drive(lesson: &Lesson, _: &mut [u32]) -> u32 {
    let mut car = Car::read(&lesson.record).expect("a good record");
    let mut drive = |word| match car.drive(word) {
        Ok(next) => {
            car = next;
            0
        }
        Err(refusal) => refusal,
    };
    let sum = lesson.words.iter().fold(0, |sum, &word| sum + drive(word));
    sum ^ car.write()[10]
}

/// The vehicles of a lesson of floats: kind, metres, km/h.
fn vehicles(lesson: &Lesson) -> impl Iterator<Item = [u32; 3]> + '_ {
    let next = lesson.words.iter().cycle().skip(1);
    lesson.words.iter().zip(next).map(|(&metres, &kmh)| [0, metres, kmh])
}

fn library_sighting(lesson: &Lesson, _: &mut [u32]) -> u32 {
    vehicles(lesson).fold(0, |sum: u32, [kind, metres, kmh]| {
        let (refusal, out) = library::sighting(kind, metres, kmh);
        sum.wrapping_add(refusal ^ out[1])
    })
}

fn model_sighting(lesson: &Lesson, _: &mut [u32]) -> u32 {
    vehicles(lesson).fold(0, |sum: u32, numbers| {
        let (refusal, word) = converted(black_box(numbers));
        sum.wrapping_add(refusal ^ word)
    })
}

fn library_see(lesson: &Lesson, _: &mut [u32]) -> u32 {
    let mut record = lesson.record;
    let see = |sum, [kind, metres, kmh]: [u32; 3]| sum + library::see(Some(&mut record), kind, metres, kmh);
    vehicles(lesson).fold(0, see) ^ record[7]
}

/// The same by two calls.
fn library_sighting_and_drive(lesson: &Lesson, _: &mut [u32]) -> u32 {
    let mut record = lesson.record;
    let see = |sum, [kind, metres, kmh]: [u32; 3]| match library::sighting(kind, metres, kmh) {
        (0, out) => sum + library::drive(Some(&mut record), out[1]),
        (refusal, _) => sum + refusal,
    };
    vehicles(lesson).fold(0, see) ^ record[7]
}

/// The same job in the model: read the record, see, write the record.
fn model_see(lesson: &Lesson, _: &mut [u32]) -> u32 {
    let mut record = lesson.record;
    let see = |sum, [_, metres, kmh]: [u32; 3]| {
        let car = Car::read(black_box(&record)).ok_or(18u32);
        match car.and_then(|car| car.see(Sighting::Vehicle { metres, kmh })) {
            Ok(next) => {
                record = next.map_or(record, |next| next.write());
                sum
            }
            Err(refusal) => sum + refusal,
        }
    };
    vehicles(lesson).fold(0, see) ^ record[7]
}

/// Moves to each word of the lesson as a wanted D.
fn library_moves(lesson: &Lesson, _: &mut [u32]) -> u32 {
    lesson.words.iter().fold(0, |sum: u32, &wanted| {
        let (refusal, words, count) = library::moves(Some(black_box(&lesson.record)), wanted);
        let first = words[1] ^ words[6];
        sum.wrapping_add(refusal).wrapping_add(first ^ count[1] as u32)
    })
}

fn model_moves(lesson: &Lesson, _: &mut [u32]) -> u32 {
    lesson.words.iter().fold(0, |sum: u32, &wanted| {
        let (refusal, Moves { count, words }) = moved(Car::read(black_box(&lesson.record)), wanted);
        let first = words[0] ^ words[5];
        sum.wrapping_add(refusal).wrapping_add(first ^ count as u32)
    })
}

/// A record read and tested once for each word; the words only say how often.
fn library_test(lesson: &Lesson, _: &mut [u32]) -> u32 {
    lesson.words.iter().fold(0, |sum, _| sum + library::test(Some(black_box(&lesson.record))))
}

fn model_test(lesson: &Lesson, _: &mut [u32]) -> u32 {
    lesson.words.iter().fold(0, |sum, _| sum + if Car::read(black_box(&lesson.record)).is_some() { 0 } else { 18 })
}

/// A record's figures, as one number.
fn library_figures(lesson: &Lesson, _: &mut [u32]) -> u32 {
    lesson.words.iter().fold(0, |sum: u32, _| {
        let (refusal, out) = library::figures(Some(black_box(&lesson.record)));
        let [speed, desired, acceleration, visual, acoustic, distance] = [1, 3, 5, 7, 9, 11].map(|cell| out[cell]);
        let shown = [refusal, speed, desired, acceleration, visual, acoustic, distance];
        shown.iter().fold(sum, |sum, &figure| sum.wrapping_add(figure))
    })
}

fn model_figures(lesson: &Lesson, _: &mut [u32]) -> u32 {
    lesson.words.iter().fold(0, |sum: u32, _| {
        let f = Car::read(black_box(&lesson.record)).expect("a good record").figures();
        let (visual, acoustic) = (u32::from(f.visual), u32::from(f.acoustic));
        let shown = [f.speed as u32, f.desired as u32, f.acceleration as u32, visual, acoustic, f.distance as u32];
        shown.iter().fold(sum, |sum, &figure| sum.wrapping_add(figure))
    })
}

/// A clean copy of a lesson from a fresh car: the number written, or the refusal.
fn library_copy(lesson: &Lesson, copy: &mut [u32]) -> u32 {
    let (refusal, out) = library::copy(lesson.settings(), Some(&lesson.words), Some(copy));
    refusal ^ out[1] as u32
}

fn library_exact_copy(lesson: &Lesson, copy: &mut [u32]) -> u32 {
    library_copy(lesson, &mut copy[..lesson.accepted])
}

/// The lesson itself: the number accepted.
fn library_accepted(lesson: &Lesson, answers: &mut [u32]) -> u32 {
    let mut record = lesson.record;
    let (refusal, counts) = library::lesson(Some(&mut record), Some(&lesson.words), Some(answers));
    refusal ^ counts[1] as u32
}

/// A mark of the lesson: 0 where the library says of it what the model does.
fn library_mark(lesson: &Lesson, _: &mut [u32]) -> u32 {
    let (refusal, out) = library::mark(Some(&lesson.record), Some(&lesson.words), lesson.mark);
    let Passing { event, seconds } = lesson.passing;
    refusal | u32::from((out[1], out[3]) != (event.unwrap_or(0), seconds))
}

/// The lesson itself: 0 where it runs.
fn library_refusal(lesson: &Lesson, answers: &mut [u32]) -> u32 {
    let mut record = lesson.record;
    library::lesson(Some(&mut record), Some(&lesson.words), Some(answers)).0
}

// ---------------------------------------------------------------- Measuring

fn print_pairs(name: &str, workloads: &[Workload], ways: &[(&str, Way); 2]) {
    for workload in workloads {
        let [library, model] = medians(workload, ways);
        println!("{name:<9}{:<14}{library:>10.2}{model:>10.2}{:>10.2}", workload.name, library / model);
    }
}

/// How often the moves to one wanted D are asked for in a row, and in how many rows.
const CALLS: u32 = 20;
const ROWS: usize = 5;

/// The pair whose quickest row is the slowest.
fn print_slowest(workloads: &[Workload]) {
    let mut slowest = (0.0, String::new());
    for lesson in workloads.iter().flat_map(|workload| &workload.lessons) {
        for &wanted in &lesson.words {
            let rows = (0..ROWS).map(|_| row_of_moves(&lesson.record, wanted));
            let quickest = rows.fold(f64::INFINITY, f64::min);
            if quickest > slowest.0 {
                let (refusal, Moves { count, .. }) = moved(Some(lesson.car()), wanted);
                let given = if refusal == 0 { format!("{count} words") } else { format!("refused {refusal}") };
                slowest = (quickest, format!("from D {} to {wanted}, {given}", lesson.car().desired));
            }
        }
    }
    println!("the slowest of them in {:.2}, {}", slowest.0, slowest.1);
}

/// A row's time in ns per call.
fn row_of_moves(record: &[u32; 12], wanted: u32) -> f64 {
    let start = Instant::now();
    for _ in 0..CALLS {
        black_box(library::moves(Some(black_box(record)), black_box(wanted)));
    }
    start.elapsed().as_nanos() as f64 / f64::from(CALLS)
}

fn print_copies(workloads: &[Workload]) {
    let ways: [(&str, Way); 3] = [("copy", library_copy), ("exact", library_exact_copy), ("lesson", library_accepted)];
    let [copy, exact, lesson] = ways.map(|(name, _)| name);
    print!("{:<14}{copy:>10}{exact:>10}{lesson:>10}", "workload");
    println!("{:>18}{:>18}", format!("{copy}/{lesson}"), format!("{exact}/{lesson}"));
    for workload in workloads {
        let [copy, exact, lesson] = medians(workload, &ways);
        print!("{:<14}{copy:>10.2}{exact:>10.2}{lesson:>10.2}", workload.name);
        println!("{:>18.2}{:>18.2}", copy / lesson, exact / lesson);
    }
}

fn print_marks(rows: &[(&str, Workload)]) {
    print!("{:<15}{:<26}{:>10}{:>10}", "workload", "mark", "words", "found at");
    println!("{:>10}{:>10}{:>14}", "mark", "lesson", "mark/lesson");
    for (mark, workload) in rows {
        let [marked, lesson] = medians(workload, &[("mark", library_mark), ("lesson", library_refusal)]);
        let events = workload.lessons.iter().filter_map(|lesson| lesson.passing.event);
        let found = events.clone().sum::<usize>().checked_div(events.count());
        let found = found.map_or(String::from("never"), |event| event.to_string());
        print!("{:<15}{mark:<26}{:>10}{found:>10}", workload.name, workload.words() / LESSONS);
        println!("{marked:>10.2}{lesson:>10.2}{:>14.2}", marked / lesson);
    }
}

fn print_table(workloads: &[Workload], ways: &[(&str, Way); 3]) {
    let [first, second, third] = ways.map(|(name, _)| name);
    print!("{:<14}{first:>10}{second:>10}{third:>10}", "workload");
    print!("{:>18}{:>18}", format!("{first}/{second}"), format!("{first}/{third}"));
    println!("{:>26}", format!("{first}, M words/s"));
    for workload in workloads {
        let [first, second, third] = medians(workload, ways);
        print!("{:<14}{first:>10.2}{second:>10.2}{third:>10.2}", workload.name);
        println!("{:>18.2}{:>18.2}{:>26.1}", first / second, first / third, 1000.0 / first);
    }
}

/// The median time of each way in ns per word, the ways taking turns; all must come to the same number.
fn medians<const WAYS: usize>(workload: &Workload, ways: &[(&str, Way); WAYS]) -> [f64; WAYS] {
    let mut answers = vec![0; LESSON_WORDS];
    let mut times = [[0.0; RUNS]; WAYS];
    for run in 0..RUNS {
        let sums: [u32; WAYS] = std::array::from_fn(|way| {
            let start = Instant::now();
            let sum = once(workload, ways[way].1, &mut answers);
            times[way][run] = start.elapsed().as_nanos() as f64 / workload.words() as f64;
            sum
        });
        assert!(sums.iter().all(|&sum| sum == sums[0]), "the ways differ: {sums:?}");
    }
    times.map(|mut times| {
        times.sort_by(f64::total_cmp);
        times[RUNS / 2]
    })
}

fn once(workload: &Workload, way: Way, answers: &mut [u32]) -> u32 {
    let one = |lesson: &Lesson| black_box(way(black_box(lesson), answers));
    workload.lessons.iter().map(one).fold(0, u32::wrapping_add)
}
