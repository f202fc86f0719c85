//! The test programs' inputs from a folder of outside vectors. What the folder does not have is kept from the input as
//! it stands.

use crate::calls::{run_all, Call, Copy, Fields, Goal, Mark, Outcome, Pair, Settings, Start, NAMES, UNUSED};
use crate::exercise::{bytes_of, last_car, neutral_places, opened, words_of, Given};
use crate::expected::{split_calls, split_cruise_calls};
use crate::outside::{listed_passing, Folder, Listed};
use crate::paper::{Car, Event, Passing, Sighting};
use std::fs;
use std::ops::Range;

/// A file of the repository, from its top.
pub fn read(path: &str) -> Result<Vec<u8>, String> {
    fs::read(path).map_err(|error| format!("{path}: {error}"))
}

/// A program's input as it stands.
pub fn stdin(name: &str) -> Result<Vec<u8>, String> {
    read(&format!("crates/{name}/stdin"))
}

/// Gap words added by hand: 30, its neighbours, 30 with an unnamed bit, no gap and the two that there are.
const GAP_WORDS: [u32; 7] = [0x7000_001E, 0x7000_001D, 0x7000_001F, 0x7000_003E, 0x7000_0000, 0x7000_0014, 0x7000_0019];

/// The event words of two exercise files and those added by hand, behind their number; then the events to be written.
pub fn event_words(folder: &Folder) -> Result<Vec<u8>, String> {
    let files = ["every-kind-every-low-bit.bin", "random-words.bin"];
    let (true, Some(written)) = (files.iter().all(|name| folder.has(name)), folder.written()?) else {
        return stdin("event_words");
    };
    let mut words = Vec::new();
    for name in files {
        words.extend(words_of(&folder.bytes(name)?.unwrap_or_default()).into_iter().skip(1));
    }
    words.extend(GAP_WORDS);
    let events = written.into_iter().filter(has_bit).flatten();
    Ok(bytes_of(&[words.len() as u32].into_iter().chain(words).chain(events).collect::<Vec<_>>()))
}

/// Is the ready bit of an event, if it has one, a bit?
fn has_bit(&[kind, value, second]: &[u32; 3]) -> bool {
    match kind {
        1 => second < 2,
        10 => value < 2,
        _ => true,
    }
}

/// The longest exercise file.
pub fn lesson(folder: &Folder) -> Result<Vec<u8>, String> {
    folder.bytes("clock-end.bin")?.map_or_else(|| stdin("lesson"), Ok)
}

/// The longest one of every folder.
pub fn clean(folder: &Folder) -> Result<Vec<u8>, String> {
    folder.bytes("pages-cycle.bin")?.map_or_else(|| stdin("clean"), Ok)
}

/// A long exercise file of every folder: short ones do not have every sort of event.
const DRIVEN_IN_THE_CAB: &str = "pages-whole.bin";

/// The words of an exercise file, behind their number and the settings.
pub fn cab_words(folder: &Folder) -> Result<Vec<u8>, String> {
    let Some(file) = folder.bytes(DRIVEN_IN_THE_CAB)? else {
        return stdin("cab_words");
    };
    let words = words_of(&file);
    let car = started(DRIVEN_IN_THE_CAB, &words)?;
    let count = words.len() as u32 - 1;
    Ok(bytes_of(&[&[count], &Settings::of(&car).0[..], &words[1..]].concat()))
}

/// The fresh car of an exercise file's first word.
fn started(name: &str, words: &[u32]) -> Result<Car, String> {
    let car = words.first().and_then(|&settings| Car::start(settings).ok());
    car.ok_or_else(|| format!("{name}: no settings word"))
}

/// All records, each behind its number of words and with zeros up to thirteen.
pub fn record_words(folder: &Folder) -> Result<Vec<u8>, String> {
    let Some(records) = folder.records()? else {
        return stdin("record_words");
    };
    let mut words = Vec::new();
    for record in records {
        words.push(record.len() as u32);
        words.extend_from_slice(&record);
        words.resize(words.len().next_multiple_of(14), 0);
    }
    Ok(bytes_of(&words))
}

// ---------------------------------------------------------------- car_figures

/// Document 01's car of the visual warning, the first of the cars added by hand.
const TABLE_CAR: Fields = Fields([2, 0, 0, 2, 0, 0, 0, 0, 0, 0, 1, 1, 500, 0, 500, 0, 0, 0, 19, 300, 0, 20, 0, 0]);

/// The cars of the records that have a record's form, the cars after the words that calls drive, but for those that a good
/// car refuses, and the cars added by hand, which are kept.
pub fn car_figures(folder: &Folder) -> Result<Vec<u8>, String> {
    let cars = figure_cars(folder)?;
    Ok(bytes_of(&cars.iter().flat_map(|car| car.0).collect::<Vec<_>>()))
}

fn figure_cars(folder: &Folder) -> Result<Vec<Fields>, String> {
    let words = words_of(&stdin("car_figures")?);
    let present: Vec<Fields> = words.chunks_exact(24).map(|car| Fields(car.try_into().expect("24 words"))).collect();
    let (Some(records), Some(calls)) = (folder.records()?, folder.calls("calls")?) else {
        return Ok(present);
    };
    let by_hand = present.iter().position(|car| *car == TABLE_CAR).ok_or("car_figures: no car of the table")?;
    let mut cars: Vec<Fields> = records.iter().filter_map(|record| Fields::of_record(record)).collect();
    for (call, outcome) in chosen_calls(&calls) {
        if matches!(call, Call::Drive(_)) && matches!(outcome.refusal, 0 | 18) {
            cars.extend(outcome.car);
        }
    }
    cars.extend(&present[by_hand..]);
    Ok(cars)
}

/// The calls that have a car, with what they give. Of the readings, with the calls up to the next fresh car or reading,
/// only those before a word of the up-down lever: the others are `calls`'s alone, for want of room here.
fn chosen_calls(calls: &[Call]) -> Vec<(&Call, Outcome)> {
    let mut is_chosen = true;
    let mut chosen = Vec::new();
    for (number, (call, outcome)) in calls.iter().zip(run_all(calls)).enumerate() {
        is_chosen = match call {
            Call::Fresh(_) => true,
            Call::Read(_) => calls.get(number + 1).is_some_and(drives_up_down),
            _ => is_chosen,
        };
        chosen.extend(outcome.filter(|_| is_chosen).map(|outcome| (call, outcome)));
    }
    chosen
}

fn drives_up_down(call: &Call) -> bool {
    matches!(call, Call::Drive(word) if word >> 28 == 2)
}

// ---------------------------------------------------------------- calls

/// How many calls of the input, the last ones, are the edges': 149 cars with two words each.
const EDGE_CALLS: usize = 3 * 149;

/// The calls, sightings added by hand, then the calls of the edges.
pub fn calls(folder: &Folder) -> Result<Vec<u8>, String> {
    let present = words_of(&stdin("calls")?);
    let present = split_calls(&present)?;
    let edges = present.len().checked_sub(EDGE_CALLS).ok_or("calls: no edges")?;
    let mut words = match folder.calls("calls")? {
        Some(calls) => [encoded(&calls), sights()?].concat(),
        None => present[..edges].concat(),
    };
    match folder.calls("edges")? {
        None => words.extend(present[edges..].concat()),
        Some(calls) if calls.len() == EDGE_CALLS => words.extend(encoded(&calls)),
        Some(calls) => return Err(format!("edges.in: {} calls, and not {EDGE_CALLS}", calls.len())),
    }
    words.push(0);
    Ok(bytes_of(&words))
}

/// Calls as `calls` reads them; those that have no car are left out.
fn encoded(calls: &[Call]) -> Vec<u32> {
    let mut words = Vec::new();
    for (call, outcome) in calls.iter().zip(run_all(calls)) {
        match (call, outcome) {
            (_, None) => {}
            (Call::Fresh(settings), _) => words.extend([1].into_iter().chain(settings.0)),
            (Call::Drive(word), _) => words.extend([3, *word]),
            (Call::Lesson { room, words: events }, _) => {
                words.extend([4, *room as u32, events.len() as u32]);
                words.extend(events);
            }
            (Call::Record { length }, _) => words.extend([5, *length as u32]),
            (Call::Sight(sighting), _) => words.extend(sight(numbers(*sighting))),
            // A car as it stands; a refused reading leaves none.
            (Call::Set(_) | Call::Change(_) | Call::Read(_), Some(outcome)) => {
                words.extend(outcome.car.iter().flat_map(|car| [2].into_iter().chain(car.0)));
            }
        }
    }
    words
}

/// A sighting's kind and floats; a free road and a fault have none.
fn numbers(sighting: Sighting) -> [u32; 3] {
    match sighting {
        Sighting::Vehicle { metres, kmh } => [0, metres, kmh],
        Sighting::Free => [1, 0, 0],
        Sighting::Fault => [2, 0, 0],
    }
}

fn sight([kind, metres, kmh]: [u32; 3]) -> [u32; 4] {
    [6, kind, metres, kmh]
}

/// Floats as their bits; 0.1 as stored, and the ones next to 255 and 500.
const TWENTY: u32 = 0x41A0_0000;
const HUNDRED: u32 = 0x42C8_0000;
const BELOW_255: u32 = 0x437E_FFFF;
const AT_255: u32 = 0x437F_0000;
const AT_500: u32 = 0x43FA_0000;
const ABOVE_500: u32 = 0x43FA_0001;
const TENTH: u32 = 0x3DCC_CCCD;
const MINUS_ONE: u32 = 0xBF80_0000;
const INFINITE: u32 = 0x7F80_0000;
const NO_NUMBER: u32 = 0x7FC0_0000;

/// Sightings added by hand, for cars of every sort: a vehicle near and far, one that 23 and two that 22 refuses; a free
/// road and a fault with floats that a vehicle is refused for.
const SIGHTINGS: [[u32; 3]; 8] = [
    [0, TWENTY, HUNDRED],
    [0, BELOW_255, TENTH],
    [0, AT_255, AT_500],
    [0, TWENTY, ABOVE_500],
    [0, MINUS_ONE, ABOVE_500],
    [0, NO_NUMBER, HUNDRED],
    [1, INFINITE, NO_NUMBER],
    [2, NO_NUMBER, ABOVE_500],
];

/// Cars with the radar ready and not ready, with the key out, and one that is not good: R is 255 and the radar ready.
fn sighted_cars() -> Result<[Fields; 4], String> {
    let no_range = TABLE_CAR.with("R", 255).ok_or("no field R")?;
    let not_ready = no_range.with("P", 0).ok_or("no field P")?;
    let key_out = Car::fresh(1, 0, 0).map_err(|refusal| format!("no fresh car: {refusal}"))?;
    Ok([TABLE_CAR, not_ready, Fields::of(&key_out), no_range])
}

fn sights() -> Result<Vec<u32>, String> {
    let sights = || SIGHTINGS.into_iter().flat_map(sight);
    let on_car = |car: Fields| [2].into_iter().chain(car.0).chain(sights());
    Ok(sighted_cars()?.into_iter().flat_map(on_car).collect())
}

// ---------------------------------------------------------------- cruise_calls

/// Pairs of cars for alike at the end of the input, two calls each, added by hand.
const PAIR_CALLS: usize = 2 * 8;
/// Behind each lesson that ran and whose number among these, from 0, is a multiple of this come calls that lend too few
/// words or too many.
const LESSONS_BETWEEN: usize = 100;
/// Of the lessons with too little room for answers those whose number among these, from 0, is a multiple of this, for want
/// of room for more.
const SHORT_LESSONS_BETWEEN: usize = 3;
const TICK: u32 = 0xA000_0001;
/// How many cars with the visual warning alone, and how many with both.
const WARNINGS: usize = 10;
/// Of the refused sightings those whose number among these, from 0, is a multiple of this, for want of room for more.
const SIGHTS_BETWEEN: usize = 16;

/// Fresh cars in buffers of all sizes, which are kept; the calls; sightings and records with the gap 30 added by hand; some
/// of the records; cars with warnings; and pairs of cars, which are kept.
pub fn cruise_calls(folder: &Folder) -> Result<Vec<u8>, String> {
    let (Some(records), Some(calls)) = (folder.records()?, folder.calls("calls")?) else {
        return stdin("cruise_calls");
    };
    let present = words_of(&stdin("cruise_calls")?);
    let present = split_cruise_calls(&present)?;
    let pairs = present.len().checked_sub(PAIR_CALLS).ok_or("cruise_calls: no pairs of cars")?;
    let mut words = present[..first_call(&present).ok_or("cruise_calls: no calls")?].concat();
    words.extend(lent_calls(&calls)?);
    words.extend(lent_sights()?);
    words.extend(old_gap_calls()?);
    for record in chosen_records(&records) {
        words.extend(set(record));
    }
    for record in warnings(&figure_cars(folder)?) {
        words.extend(set(&record));
    }
    words.extend(present[pairs..].concat());
    words.push(0);
    Ok(bytes_of(&words))
}

/// The call that sets the words lent.
fn set(words: &[u32]) -> Vec<u32> {
    [&[1, words.len() as u32], words].concat()
}

/// Where the calls start: at the words set anew before the last fresh car before a word driven or a lesson.
fn first_call(present: &[&[u32]]) -> Option<usize> {
    let first = present.iter().position(|call| call[0] > 2)?;
    present[..first].iter().rposition(|call| call[..2] == [1, 13])
}

/// Calls as `cruise_calls` reads them: all thirteen words are set anew before a car is made; a car without check and one
/// that is read are set as records; record calls, most lessons with too little room and most refused sightings are left
/// out.
fn lent_calls(calls: &[Call]) -> Result<Vec<u32>, String> {
    let mut words = Vec::new();
    let mut ran = 0;
    let mut short = 0;
    let mut not_seen = 0;
    for (call, outcome) in chosen_calls(calls) {
        match call {
            Call::Fresh(settings) => {
                if outcome.refusal == 0 {
                    words.extend(set(&[UNUSED; 13]));
                }
                words.extend([2, 12].into_iter().chain(settings.0));
            }
            Call::Drive(word) => words.extend([3, 12, *word]),
            Call::Lesson { room, words: events } => {
                let is_short = outcome.refusal == 19;
                if !is_short || short % SHORT_LESSONS_BETWEEN == 0 {
                    words.extend([4, 12, *room as u32, events.len() as u32]);
                    words.extend(events);
                }
                short += usize::from(is_short);
                if outcome.refusal == 0 {
                    words.extend(if ran % LESSONS_BETWEEN == 0 { wrongly_lent() } else { Vec::new() });
                    ran += 1;
                }
            }
            Call::Set(_) | Call::Change(_) => {
                let record =
                    outcome.car.and_then(|car| car.record()).ok_or("cruise_calls: a car that no record shows")?;
                words.extend(set(&record));
            }
            Call::Read(record) => words.extend(set(record)),
            Call::Record { .. } => {}
            Call::Sight(sighting) => {
                let is_refused = outcome.refusal > 0;
                if !is_refused || not_seen % SIGHTS_BETWEEN == 0 {
                    words.extend(lent_sight(12, numbers(*sighting)));
                }
                not_seen += usize::from(is_refused);
            }
        }
    }
    Ok(words)
}

fn lent_sight(lent: u32, [kind, metres, kmh]: [u32; 3]) -> [u32; 5] {
    [5, lent, kind, metres, kmh]
}

/// Kinds that no sighting has, with floats of a good one, of one that 22 refuses and of one that 23 does.
const OTHER_KINDS: [[u32; 3]; 6] = [
    [3, TWENTY, HUNDRED],
    [3, NO_NUMBER, HUNDRED],
    [4, TWENTY, ABOVE_500],
    [0x8000_0000, TWENTY, HUNDRED],
    [0xFFFF_FFFF, TWENTY, HUNDRED],
    [0xFFFF_FFFF, MINUS_ONE, INFINITE],
];

/// On the good cars that `calls` has for them, of other kinds too where the radar is ready; and some that are refused
/// with 18, with 0, 11 and 13 words lent and on the car that is not good.
fn lent_sights() -> Result<Vec<u32>, String> {
    let [ready, not_ready, key_out, bad] = sighted_cars()?;
    let mut words = Vec::new();
    for car in [not_ready, key_out, ready] {
        words.extend(set_car(car)?);
        words.extend(SIGHTINGS.into_iter().flat_map(|sighting| lent_sight(12, sighting)));
    }
    words.extend(OTHER_KINDS.into_iter().flat_map(|sighting| lent_sight(12, sighting)));
    for lent in [0, 11, 13, 12] {
        if lent == 12 {
            words.extend(set_car(bad)?);
        }
        let not_driven = [SIGHTINGS[0], SIGHTINGS[4], SIGHTINGS[7], OTHER_KINDS[0], OTHER_KINDS[4]];
        words.extend(not_driven.into_iter().flat_map(|sighting| lent_sight(lent, sighting)));
    }
    Ok(words)
}

fn set_car(car: Fields) -> Result<Vec<u32>, &'static str> {
    car.record().map(|record| set(&record)).ok_or("cruise_calls: a car that no record shows")
}

/// A car that is close with G 30 and not with 25, where the next second is a faster one.
fn old_gap_car(gap: u32) -> Result<Fields, String> {
    changed(TABLE_CAR, &[("D", 600), ("W", 600), ("R", 34), ("G", gap)])
}

/// Words that the car with its radar ready refuses, 30 among them, and some that it takes.
const REFUSED_THERE: [u32; 4] = [0x7000_001E, 0x7000_001F, 0xA000_0000, 0x4000_0000];
const TAKEN_THERE: [u32; 3] = [TICK, 0x7000_0014, 0x8000_0000];

/// On a record that holds the gap 30: behind the one that it is written as, calls that keep it; one call that stores a car
/// on each of some more; cars that refuse a sighting; and records with other damage.
fn old_gap_calls() -> Result<Vec<u32>, String> {
    let old = set_car(old_gap_car(30)?)?;
    let mut words = [set_car(old_gap_car(25)?)?, old.clone()].concat();
    for word in REFUSED_THERE {
        words.extend([3, 12, word]);
    }
    for sighting in [SIGHTINGS[3], SIGHTINGS[5], SIGHTINGS[7], OTHER_KINDS[0]] {
        words.extend(lent_sight(12, sighting));
    }
    words.extend([4, 12, 1, 2, TICK, TICK]);
    words.extend([3, 11, TICK, 3, 13, TICK, 4, 13, 1, 1, TICK]);
    words.extend(lent_sight(11, SIGHTINGS[0]));
    let mut storing: Vec<Vec<u32>> = TAKEN_THERE.map(|word| vec![3, 12, word]).into();
    storing.extend([vec![4, 12, 0, 0], vec![4, 12, 1, 0], [&[4, 12, 4, 4], &REFUSED_THERE[..]].concat()]);
    storing.push(vec![4, 12, 3, 3, REFUSED_THERE[0], TICK, REFUSED_THERE[0]]);
    storing.extend([SIGHTINGS[0], SIGHTINGS[6]].map(|sighting| lent_sight(12, sighting).to_vec()));
    for call in storing {
        words.extend(&old);
        words.extend(call);
    }
    let [_, not_ready, key_out, bad] = sighted_cars()?;
    for car in [not_ready, key_out] {
        words.extend(set_car(changed(car, &[("G", 30)])?)?);
        words.extend(lent_sight(12, SIGHTINGS[0]));
    }
    words.extend(set_car(changed(bad, &[("G", 30)])?)?);
    for damage in [1, 1 << 5, 1 << 24, 1 << 28] {
        let mut damaged = old.clone();
        damaged[2 + 9] ^= damage;
        words.extend(damaged);
    }
    Ok(words)
}

/// A tick, a lesson with room for its answers and one without, with 0, 11 and 13 words lent.
fn wrongly_lent() -> Vec<u32> {
    [0, 11, 13].iter().flat_map(|&lent| [3, lent, TICK, 4, lent, 2, 2, TICK, TICK, 4, lent, 1, 2, TICK, TICK]).collect()
}

/// Of the records 40 accepted, 60 refused ones of twelve words, 12 of eleven and 12 of thirteen, at even steps of each
/// kind; the kinds mixed by how far each has come.
fn chosen_records(records: &[Vec<u32>]) -> Vec<&[u32]> {
    let kind = |record: &[u32]| match record.len() {
        12 if Car::read(record).is_some() => 0,
        12 => 1,
        11 => 2,
        _ => 3,
    };
    let mut chosen = Vec::new();
    for (number, count) in [40, 60, 12, 12].into_iter().enumerate() {
        let of_kind: Vec<&[u32]> = records.iter().map(Vec::as_slice).filter(|record| kind(record) == number).collect();
        for step in 0..count.min(of_kind.len()) {
            let at = step * of_kind.len() / count;
            chosen.push((at, of_kind.len(), of_kind[at]));
        }
    }
    // A stable sort: the kinds in their order where they have come equally far.
    chosen.sort_by(|a, b| (a.0 * b.1).cmp(&(b.0 * a.1)));
    chosen.into_iter().map(|(_, _, record)| record).collect()
}

/// The records of the first cars with the visual warning alone, and of the first with both.
fn warnings(cars: &[Fields]) -> Vec<[u32; 12]> {
    let good: Vec<Car> = cars.iter().filter_map(Fields::car).collect();
    let with = |acoustic| {
        let warned = move |car: &&Car| car.visual_warning() && car.acoustic_warning() == acoustic;
        good.iter().filter(warned).take(WARNINGS).map(Car::write)
    };
    with(false).chain(with(true)).collect()
}

// ---------------------------------------------------------------- copies

/// The exercise file copied from its settings: its words are more than are worked off at a time.
const LONG_COPY: &str = "walk-5.bin";
/// How many lessons with a refused word are copied from their car again, with room for exactly the accepted words; there
/// is no room here for more.
const EXACT_COPIES: usize = 40;
/// How many bytes of an exercise file are taken at most: a page, a word and three bytes. Only the last one has more.
const FILE_BYTES: usize = 4096 + 7;
/// The exercise files whose clean files are made, and the size of the pieces they are cut into.
const CUT_FILES: [(&str, u32); 14] = [
    ("example.bin", 1),
    ("settings-alone.bin", 3),
    ("nothing.bin", 1),
    ("cut-first.bin", 2),
    ("cut-later.bin", 3),
    ("bad-settings-0.bin", 1),
    ("bad-settings-1.bin", 3),
    ("bad-settings-2.bin", 4),
    ("bad-settings-3.bin", 5),
    ("bad-settings-4.bin", 8),
    ("every-kind-every-low-bit.bin", 5),
    ("random-words.bin", 7),
    ("walk-1.bin", 1),
    ("pages-cut.bin", 4096),
];

/// The copies, and two of a long lesson; the lessons of the calls as copies from the car at hand; exercise files.
pub fn copies(folder: &Folder) -> Result<Vec<u8>, String> {
    let needed = ["copy.in", "calls.in", LONG_COPY].into_iter().chain(CUT_FILES.map(|(name, _)| name));
    if !needed.into_iter().all(|name| folder.has(name)) {
        return stdin("copies");
    }
    let mut words = Vec::new();
    for copy in folder.copies()?.into_iter().flatten().chain(long_copies(folder)?) {
        words.extend([1].into_iter().chain(copy.settings.0));
        words.extend(copied(copy.room, &copy.words));
    }
    words.extend(car_copies(&folder.calls("calls")?.unwrap_or_default()));
    for (name, cut) in CUT_FILES {
        let mut file = folder.bytes(name)?.unwrap_or_default();
        file.truncate(FILE_BYTES);
        words.push(3);
        words.extend(cut_file(file, cut));
    }
    words.push(0);
    Ok(bytes_of(&words))
}

/// A copy's room and its words behind their number.
fn copied(room: usize, events: &[u32]) -> Vec<u32> {
    [&[room as u32, events.len() as u32], events].concat()
}

/// A long lesson with room for exactly its accepted words, and for one less.
fn long_copies(folder: &Folder) -> Result<[Copy; 2], String> {
    let words = words_of(&folder.bytes(LONG_COPY)?.unwrap_or_default());
    let car = started(LONG_COPY, &words)?;
    let accepted = car.accepted(&words[1..]).0.len();
    let copy = |room| Copy { settings: Settings::of(&car), room, words: words[1..].to_vec() };
    Ok([copy(accepted), copy(accepted.saturating_sub(1))])
}

/// The lessons of the calls, each as a copy from the car at hand, good or not, with the lesson's room; some with room
/// for exactly the accepted words too.
fn car_copies(calls: &[Call]) -> Vec<u32> {
    let mut words = Vec::new();
    let mut exact = 0;
    let mut car = None;
    for (call, outcome) in calls.iter().zip(run_all(calls)) {
        if let (Call::Lesson { room, words: events }, Some(fields)) = (call, car) {
            words.extend(car_copy(fields, *room, events));
            if let Some(accepted) = some_accepted(fields, events).filter(|_| exact < EXACT_COPIES) {
                words.extend(car_copy(fields, accepted, events));
                exact += 1;
            }
        }
        car = outcome.and_then(|outcome| outcome.car);
    }
    words
}

/// The number of accepted words, if the car is good and a word is refused.
fn some_accepted(fields: Fields, events: &[u32]) -> Option<usize> {
    let accepted = fields.car()?.accepted(events).0.len();
    (accepted < events.len()).then_some(accepted)
}

fn car_copy(fields: Fields, room: usize, events: &[u32]) -> Vec<u32> {
    [&[2], &fields.0[..], &copied(room, events)].concat()
}

/// An exercise file as words, the last one filled up, behind the size of its pieces and its length in bytes.
fn cut_file(mut file: Vec<u8>, cut: u32) -> Vec<u32> {
    let length = file.len();
    file.resize(length.next_multiple_of(4), 0);
    [&[cut, length as u32], &words_of(&file)[..]].concat()
}

// ---------------------------------------------------------------- marks

/// The exercise file that lessons with more words than are worked off at a time, 1024, are cut from.
const LONG_MARKED: &str = "pages-whole";
/// At which of its words each of some lessons first passes its mark, and how many words they have.
const EDGES: [usize; 4] = [1023, 1024, 1025, 1026];
const EDGE_WORDS: usize = 1028;
/// The same of a longer one, which passes it amid its second part; the first of these at which one does.
const LONG_EDGES: Range<usize> = 1100..2000;
const LONG_WORDS: usize = 2100;
/// The exercise file that goes up and down between two speeds, and the events of two lessons of it, of two parts and of
/// three.
const CYCLE: &str = "pages-cycle";
const CYCLE_EVENTS: [Range<usize>; 2] = [100..1200, 100..2200];

/// Which mark a file is asked for.
#[derive(Clone, Copy)]
enum Chosen {
    Zero,
    /// The first v above 0.
    First,
    /// The highest v.
    Top,
    /// One above the highest.
    Never,
}

/// The exercise files, each with the size of the pieces it is cut into and its mark.
const MARKED_FILES: [(&str, u32, Chosen); 18] = [
    ("example", 1, Chosen::Top),
    ("example", 3, Chosen::Never),
    ("settings-alone", 3, Chosen::First),
    ("settings-alone", 4, Chosen::Zero),
    ("nothing", 1, Chosen::Zero),
    ("cut-first", 2, Chosen::First),
    ("cut-later", 3, Chosen::Zero),
    ("bad-settings-0", 1, Chosen::Zero),
    ("bad-settings-3", 5, Chosen::First),
    ("bad-settings-4", 8, Chosen::Never),
    ("random-words", 7, Chosen::Zero),
    ("walk-1", 1, Chosen::Top),
    ("walk-1", 5, Chosen::Zero),
    ("walk-1", 6, Chosen::First),
    ("walk-2", 3, Chosen::First),
    ("walk-2", 4095, Chosen::Never),
    ("walk-3", 4096, Chosen::Top),
    ("pages-cut", 4096, Chosen::Top),
];

/// The outside marks; records that are too short or too long; cars that are not good; the gap 30; lessons with more words
/// than are worked off at a time; exercise files.
pub fn marks(folder: &Folder) -> Result<Vec<u8>, String> {
    let files = MARKED_FILES.map(|(name, ..)| name).into_iter().chain([LONG_MARKED, CYCLE]);
    let files = files.map(|name| format!("{name}.bin"));
    if !["mark.in", "calls.in"].map(String::from).into_iter().chain(files).all(|name| folder.has(&name)) {
        return stdin("marks");
    }
    let marks = folder.marks()?.unwrap_or_default();
    let mut words: Vec<u32> = marks.iter().chain(&long_marks(folder)?).flat_map(lent_and_on_car).collect();
    words.extend(wrongly_lent_marks(&marks));
    words.extend(bad_car_marks(&folder.calls("calls")?.unwrap_or_default()));
    words.extend(old_gap_marks()?);
    for at in EDGES {
        words.extend(lent(&passed_at(folder, at, EDGE_WORDS)?));
    }
    for (name, cut, chosen) in MARKED_FILES {
        words.extend(marked_file(folder, name, cut, chosen)?);
    }
    words.push(0);
    Ok(bytes_of(&words))
}

/// A mark passed in the second part of a lesson; one that v is at or above from the start on, so never passed; and one
/// that v goes below first, and is at or above in each part.
fn long_marks(folder: &Folder) -> Result<[Mark; 3], String> {
    let [shorter, longer] = CYCLE_EVENTS;
    let lowest = folder.listed(CYCLE)?[longer.clone()].iter().map(|event| event.speed).min().unwrap_or(0);
    let amid = LONG_EDGES.into_iter().find_map(|at| passed_at(folder, at, LONG_WORDS).ok());
    Ok([
        amid.ok_or_else(|| format!("{LONG_MARKED}: no lesson first passes a mark amid its second part"))?,
        cut_lesson(folder, CYCLE, shorter, lowest)?,
        cut_lesson(folder, CYCLE, longer, lowest + 1)?,
    ])
}

fn lent_and_on_car(mark: &Mark) -> Vec<u32> {
    [lent(mark), on_car(mark)].concat()
}

/// By the library's function.
fn lent(Mark { mark, start, words }: &Mark) -> Vec<u32> {
    start.record().map_or(Vec::new(), |record| lent_mark(&record, *mark, words))
}

/// By the calls on the car that the record shows, good or not.
fn on_car(Mark { mark, start, words }: &Mark) -> Vec<u32> {
    let fields = start.record().and_then(|record| Fields::of_record(&record));
    fields.map_or(Vec::new(), |fields| car_mark(fields, *mark, words))
}

fn lent_mark(record: &[u32], mark: u32, events: &[u32]) -> Vec<u32> {
    [&[1, mark, record.len() as u32], record, &[events.len() as u32], events].concat()
}

fn car_mark(fields: Fields, mark: u32, events: &[u32]) -> Vec<u32> {
    [&[2], &fields.0[..], &[mark, events.len() as u32], events].concat()
}

/// The first mark whose record is accepted, with 0, 11 and 13 words lent.
fn wrongly_lent_marks(marks: &[Mark]) -> Vec<u32> {
    let Some(Mark { mark, start, words }) = marks.iter().find(|mark| mark.start.car().is_ok()) else {
        return Vec::new();
    };
    let record: Vec<u32> = start.record().into_iter().flatten().chain([UNUSED]).collect();
    [0, 11, 13].iter().flat_map(|&lent| lent_mark(&record[..lent], *mark, words)).collect()
}

/// The lessons of the calls on cars that are not good, with a mark that counts each accepted tick.
fn bad_car_marks(calls: &[Call]) -> Vec<u32> {
    let mut words = Vec::new();
    let mut car = None;
    for (call, outcome) in calls.iter().zip(run_all(calls)) {
        let bad = car.filter(|fields: &Fields| fields.car().is_none());
        if let (Call::Lesson { words: events, .. }, Some(fields)) = (call, bad) {
            words.extend(car_mark(fields, 0, events));
        }
        car = outcome.and_then(|outcome| outcome.car);
    }
    words
}

/// A mark that the car passes with G 25 and not with 30, for both as records and as cars.
fn old_gap_marks() -> Result<Vec<u32>, String> {
    let mut words = Vec::new();
    for gap in [25, 30] {
        let fields = old_gap_car(gap)?;
        let record = fields.record().ok_or("marks: a car that no record shows")?;
        words.extend(lent_and_on_car(&Mark { mark: 501, start: Start::Record(record.to_vec()), words: vec![TICK; 4] }));
    }
    Ok(words)
}

/// A lesson of so many events of a long exercise file that first passes its mark at its event `at`.
fn passed_at(folder: &Folder, at: usize, count: usize) -> Result<Mark, String> {
    let events = folder.listed(LONG_MARKED)?;
    let mark = |part: &Range<usize>| events[part.start + at - 1].speed;
    let mut parts = (0..(events.len() + 1).saturating_sub(count)).map(|from| from..from + count);
    let passing = parts.find(|part| listed_passing(&events, part.clone(), mark(part)).event == Some(at));
    let part = passing.ok_or_else(|| format!("{LONG_MARKED}: no lesson first passes a mark at {at}"))?;
    cut_lesson(folder, LONG_MARKED, part.clone(), mark(&part))
}

/// A lesson that is some events of an exercise file. The car is the model's; the passing is held to the listing.
fn cut_lesson(folder: &Folder, name: &str, part: Range<usize>, mark: u32) -> Result<Mark, String> {
    folder.hold_passings(name, part.clone(), &[mark])?;
    let words = words_of(&folder.bytes(&format!("{name}.bin"))?.unwrap_or_default());
    let (_, car) = started(name, &words)?.seconds(&words[1..=part.start]);
    Ok(Mark { mark, start: Start::Record(car.write().to_vec()), words: words[1..][part].to_vec() })
}

fn marked_file(folder: &Folder, name: &str, cut: u32, chosen: Chosen) -> Result<Vec<u32>, String> {
    let mut file = folder.bytes(&format!("{name}.bin"))?.unwrap_or_default();
    file.truncate(FILE_BYTES);
    let mut events = folder.listed(name)?;
    events.truncate((file.len() / 4).saturating_sub(1));
    let mark = chosen_mark(&events, chosen);
    folder.hold_passings(name, 0..events.len(), &[mark])?;
    Ok([&[3, mark], &cut_file(file, cut)[..]].concat())
}

fn chosen_mark(events: &[Listed], chosen: Chosen) -> u32 {
    let mut speeds = events.iter().map(|event| event.speed);
    match chosen {
        Chosen::Zero => 0,
        Chosen::First => speeds.find(|&speed| speed > 0).unwrap_or(1),
        Chosen::Top => speeds.max().unwrap_or(0),
        Chosen::Never => speeds.max().unwrap_or(0) + 1,
    }
}

// ---------------------------------------------------------------- levers

/// Of how many outside cars the call is asked too, for want of room for more.
const GOALS_ON_CARS: usize = 100;

/// Cars added by hand: what they are beside the table's car, their D, and what is wanted of them.
const HAND_GOALS: [(&[(&str, u32)], u32, &[u32]); 24] = [
    // Lists of two words, of three and of none; 26, also for numbers that are its D in 11, 16 and 31 bits.
    (ALONE, 570, &[580, 600, 610, 500, 490, 570, 575, 570 + (1 << 11), 570 + (1 << 16), 570 + (1 << 31)]),
    // Two or four lists are as short, of up to six words; the last two Ds take eight and more.
    (ALONE, 590, &[600]),
    (ALONE, 510, &[500]),
    (ALONE, 500, &[700, 710, 800, 300, 290, 200, 790, 770]),
    // The floor of both moves down, which is above some D.
    (ALONE, 1, &[0, 1, 2, 10, 11, 20, 100, 300]),
    (ALONE, 5, &[10, 15, 20]),
    (ALONE, 10, &[0, 1, 10]),
    (ALONE, 60, &[10]),
    (ALONE, 100, &[10, 90]),
    // The ceiling.
    (ALONE, 1900, &[2000, 1990, 2001]),
    (ALONE, 1985, &[1995, 2000]),
    (ALONE, 1995, &[2000, 2001, u32::MAX]),
    (ALONE, 2000, &[0, 1900, 1990, 2000, 2001, 2010, u32::MAX]),
    (ALONE, 1000, &[1000, 1001, 1100]),
    (TOWING, 900, &[1000, 990, 1001, 1100]),
    (TOWING, 995, &[1000, 1005, u32::MAX]),
    (TOWING, 1000, &[0, 900, 990, 1000, 1001, 1010, 1100, 2000, u32::MAX]),
    (TOWING, 1, &[0, 1, 10]),
    // Cruise off, or a lever out.
    (&[("C", 0)], 500, WANTED_THERE),
    (&[("L", 1), ("B", 500)], 500, WANTED_THERE),
    (&[("L", 4), ("C", 0)], 500, WANTED_THERE),
    (&[("M", 1)], 500, WANTED_THERE),
    (&[("M", 2), ("C", 0)], 500, WANTED_THERE),
    (&[("towing", 1), ("M", 1)], 500, WANTED_THERE),
];

const ALONE: &[(&str, u32)] = &[];
const TOWING: &[(&str, u32)] = &[("towing", 1)];
/// What a car has, what a list would give, and what none would.
const WANTED_THERE: &[u32] = &[500, 510, u32::MAX];

/// Cars that are not good, each the table's with a few fields changed.
const BAD_CARS: [&[(&str, u32)]; 14] = [
    &[("D", 0)],
    &[("D", 2001)],
    &[("D", u32::MAX)],
    &[("towing", 1), ("D", 1001)],
    &[("towing", 1), ("E", 1200)],
    &[("L", 5)],
    &[("M", 3)],
    &[("B", 500)],
    &[("L", 1)],
    &[("key", 1)],
    &[("b", 1)],
    &[("G", 30)],
    &[("Q", 1)],
    &[("mode", 0)],
];

/// Where an exercise file ends.
#[derive(Clone, Copy)]
enum End {
    /// Where it does, or where there is no more room.
    Whole,
    /// Behind the first event after which cruise is on and both levers are in neutral, or so many bytes further on.
    First(usize),
    /// Behind the last one for which there is room.
    Last,
}

/// The D wanted of an exercise file's last car.
#[derive(Clone, Copy)]
enum Aim {
    /// Its own.
    Held,
    /// The least, or the greatest, that a list of so many words gives.
    Least(usize),
    Greatest(usize),
    /// One above the ceiling.
    Above,
    /// Any, where there is no car.
    Any,
}

/// The exercise files, each with its end, the size of the pieces it is cut into and the D wanted.
const LEVER_FILES: [(&str, End, u32, Aim); 30] = [
    ("settings-alone", End::Whole, 3, Aim::Held),
    ("settings-alone", End::Whole, 4, Aim::Above),
    ("settings-bit-3", End::Whole, 4, Aim::Held),
    ("nothing", End::Whole, 1, Aim::Any),
    ("cut-first", End::Whole, 2, Aim::Any),
    ("cut-later", End::Whole, 3, Aim::Held),
    ("bad-settings-0", End::Whole, 1, Aim::Any),
    ("bad-settings-1", End::Whole, 3, Aim::Any),
    ("bad-settings-2", End::Whole, 4, Aim::Any),
    ("bad-settings-3", End::Whole, 5, Aim::Any),
    ("bad-settings-4", End::Whole, 7, Aim::Any),
    ("example", End::Whole, 1, Aim::Held),
    ("example", End::Whole, 4096, Aim::Above),
    ("walk-1", End::First(0), 1, Aim::Greatest(3)),
    ("walk-1", End::First(0), 2, Aim::Least(2)),
    ("walk-1", End::First(0), 3, Aim::Greatest(6)),
    ("walk-1", End::First(0), 4, Aim::Least(6)),
    ("walk-1", End::First(0), 5, Aim::Held),
    ("walk-1", End::First(0), 7, Aim::Above),
    ("walk-1", End::First(1), 1, Aim::Held),
    ("walk-1", End::First(2), 5, Aim::Least(2)),
    ("walk-1", End::First(3), 4096, Aim::Above),
    ("walk-2", End::First(0), 5, Aim::Greatest(4)),
    ("walk-2", End::First(0), 7, Aim::Least(5)),
    ("walk-6", End::First(0), 4096, Aim::Greatest(5)),
    ("walk-1", End::Whole, 2, Aim::Held),
    ("random-words", End::Whole, 7, Aim::Held),
    ("walk-3", End::Last, 4095, Aim::Least(3)),
    ("walk-4", End::Last, 3, Aim::Least(4)),
    ("pages-cycle", End::Last, 4096, Aim::Greatest(2)),
];

/// The outside records and what is wanted of them, by the library's function and by the call on their cars; records that
/// are too short or too long; cars added by hand; cars that are not good; the gap 30; exercise files.
pub fn levers(folder: &Folder) -> Result<Vec<u8>, String> {
    let files = LEVER_FILES.map(|(name, ..)| format!("{name}.bin"));
    if !["moves.in", "calls.in"].map(String::from).into_iter().chain(files).all(|name| folder.has(&name)) {
        return stdin("levers");
    }
    let goals = folder.goals()?.unwrap_or_default();
    let mut words: Vec<u32> = goals.iter().flat_map(|goal| lent_goal(&goal.record, goal.wanted)).collect();
    for Goal { record, wanted } in goals.iter().take(GOALS_ON_CARS) {
        words.extend(Fields::of_record(record).map_or(Vec::new(), |fields| car_goal(fields, *wanted)));
    }
    words.extend(wrongly_lent_goals(&goals));
    for (changes, desired, wanted) in HAND_GOALS {
        let fields = changed(changed(TABLE_CAR, &[("D", desired)])?, changes)?;
        words.extend(wanted.iter().flat_map(|&wanted| both_goals(fields, wanted)));
    }
    let bad_cars: Result<Vec<Fields>, String> = BAD_CARS.iter().map(|changes| changed(TABLE_CAR, changes)).collect();
    for fields in bad_cars?.into_iter().chain(bad_cars_of(&folder.calls("calls")?.unwrap_or_default())) {
        let wanted = fields.value("D").ok_or("no field D")?;
        words.extend([wanted, u32::MAX].into_iter().flat_map(|wanted| both_goals(fields, wanted)));
    }
    for gap in [25, 30] {
        let fields = old_gap_car(gap)?;
        words.extend([600, 610, 605].into_iter().flat_map(|wanted| both_goals(fields, wanted)));
    }
    for (name, end, cut, aim) in LEVER_FILES {
        words.extend(lever_file(folder, name, end, cut, aim)?);
    }
    words.push(0);
    Ok(bytes_of(&words))
}

/// By the library's function.
fn lent_goal(record: &[u32], wanted: u32) -> Vec<u32> {
    [&[1, wanted, record.len() as u32], record].concat()
}

/// By the call on a car, good or not.
fn car_goal(fields: Fields, wanted: u32) -> Vec<u32> {
    [&[2], &fields.0[..], &[wanted]].concat()
}

/// By both, where a record shows the car.
fn both_goals(fields: Fields, wanted: u32) -> Vec<u32> {
    let lent = fields.record().map_or(Vec::new(), |record| lent_goal(&record, wanted));
    [lent, car_goal(fields, wanted)].concat()
}

/// The first goal that a list of words reaches, with 0, 11 and 13 words lent.
fn wrongly_lent_goals(goals: &[Goal]) -> Vec<u32> {
    let Some(Goal { record, wanted }) = goals.iter().find(|goal| goal.run().1.count > 0) else {
        return Vec::new();
    };
    let record: Vec<u32> = record.iter().copied().chain([UNUSED]).collect();
    [0, 11, 13].iter().flat_map(|&lent| lent_goal(&record[..lent], *wanted)).collect()
}

/// The cars of the calls that are not good, each once.
fn bad_cars_of(calls: &[Call]) -> Vec<Fields> {
    let mut bad: Vec<Fields> = Vec::new();
    for fields in run_all(calls).into_iter().filter_map(|outcome| outcome?.car) {
        if fields.car().is_none() && !bad.contains(&fields) {
            bad.push(fields);
        }
    }
    bad
}

fn lever_file(folder: &Folder, name: &str, end: End, cut: u32, aim: Aim) -> Result<Vec<u32>, String> {
    let mut file = folder.bytes(&format!("{name}.bin"))?.unwrap_or_default();
    file.truncate(FILE_BYTES);
    let neutral = opened(&words_of(&file)).map_or(Vec::new(), |(car, events)| neutral_places(car, events));
    let behind = |events: &usize| 4 + 4 * events;
    let length = match end {
        End::Whole => Some(file.len()),
        End::First(more) => neutral.first().map(|events| behind(events) + more),
        End::Last => neutral.last().map(behind),
    };
    file.truncate(length.ok_or_else(|| format!("{name}: no car with cruise on and both levers in neutral"))?);
    let wanted = aimed(last_car(&words_of(&file)), aim);
    let wanted = wanted.ok_or_else(|| format!("{name}: a last car that has no such D"))?;
    Ok([&[3, wanted], &cut_file(file, cut)[..]].concat())
}

/// The D wanted of a last car; none if it has no such D.
fn aimed(car: Option<Car>, aim: Aim) -> Option<u32> {
    let by_words = |count| {
        let reached = car?.reached().ok()?.into_iter();
        Some(reached.filter(move |(_, moves)| moves.count == count).map(|(desired, _)| desired))
    };
    match aim {
        Aim::Held => Some(car?.desired as u32),
        Aim::Least(count) => by_words(count)?.min(),
        Aim::Greatest(count) => by_words(count)?.max(),
        Aim::Above => Some(car?.ceiling() as u32 + 1),
        Aim::Any => Some(WANTED),
    }
}

// ---------------------------------------------------------------- alikes

/// The words that are driven on each outside pair of alike cars: both ticks, of which 15 refuses one but for a test's
/// second, between words of every kind.
const DRIVEN: [u32; 40] = [
    0xA000_0000, 0xA000_0001, 0x2000_0002, 0xA000_0000, 0xA000_0001, 0xA000_0000, 0xA000_0001, 0x2000_0001, 0xA000_0000,
    0xA000_0001, 0x2000_0000, 0x3000_0001, 0xA000_0000, 0xA000_0001, 0x3000_0000, 0x8000_0514, 0x8000_0515, 0x9003_E814,
    0x7000_0019, 0xA000_0000, 0xA000_0001, 0x4000_00E1, 0xA000_0000, 0xA000_0001, 0x4000_0000, 0x5000_005B, 0xA000_0000,
    0xA000_0001, 0x5000_0000, 0x6000_0FA0, 0x3000_0002, 0xA000_0000, 0xA000_0001, 0x3000_0000, 0x2000_0003, 0x2000_0004,
    0xA000_0000, 0xA000_0001, 0x1000_0001, 0x1000_0006,
];

/// On how many of them, for want of room for more.
const DRIVEN_PAIRS: usize = 80;

/// The outside pairs, and words on those whose cars are alike; pairs at the clock's end, two cars that differ in the lever
/// time alone and a car by both its records, with words; pairs of cars as they stand.
pub fn alikes(folder: &Folder) -> Result<Vec<u8>, String> {
    let Some(pairs) = folder.pairs()? else {
        return stdin("alikes");
    };
    let mut words = Vec::new();
    let mut driven_pairs = 0;
    for pair in pairs {
        let is_driven = pair.alike() == Some(true) && driven_pairs < DRIVEN_PAIRS;
        driven_pairs += usize::from(is_driven);
        words.extend(driven_pair(&pair, if is_driven { &DRIVEN } else { &[] }));
    }
    for pair in ticked_pairs()? {
        words.extend(driven_pair(&pair, &[TICK; 4]));
    }
    words.extend(driven_pair(&pair_of(old_gap_car(30)?, old_gap_car(25)?)?, &[REFUSED_THERE[0], TICK, TICK]));
    for ([first, second], _) in any_pairs()? {
        words.push(2);
        words.extend(first.0.into_iter().chain(second.0));
    }
    words.push(0);
    Ok(bytes_of(&words))
}

fn driven_pair(pair: &Pair, driven: &[u32]) -> Vec<u32> {
    [1].into_iter().chain(pair.0).chain(driven.iter().flat_map(|&word| [3, word])).collect()
}

/// A car with some fields changed.
fn changed(car: Fields, changes: &[(&str, u32)]) -> Result<Fields, String> {
    let change = |car: Fields, &(name, value): &(&str, u32)| car.with(name, value);
    changes.iter().try_fold(car, change).ok_or_else(|| String::from("no such field"))
}

/// The table's car with its lever held at up5 since now, which is 0.
const HELD: [(&str, u32); 2] = [("L", 1), ("B", 500)];

/// Alike cars with one, two or no seconds left, and two cars of which one had held the lever a second longer.
fn ticked_pairs() -> Result<Vec<Pair>, String> {
    let held = changed(TABLE_CAR, &HELD)?;
    let late = |now: u32| changed(held, &[("now", now), ("T", now), ("Q", now)]);
    let pairs = [
        [late(86_399)?, late(86_400)?],
        [late(86_400)?, late(86_398)?],
        [late(86_400)?, late(86_400)?],
        [changed(held, &[("now", 1), ("T", 1)])?, changed(held, &[("now", 1)])?],
    ];
    pairs.into_iter().map(|[first, second]| pair_of(first, second)).collect()
}

fn pair_of(first: Fields, second: Fields) -> Result<Pair, String> {
    Pair::of(first, second).ok_or_else(|| String::from("alikes: a car that no record shows"))
}

/// Now, T and Q of two cars with the lever held and the key on, and whether they are alike: worked out by hand.
const TIMES: [([u32; 3], [u32; 3], bool); 8] = [
    // T five seconds after now in both.
    ([0, 5, 0], [10, 15, 10], true),
    // Five seconds after now, and five before it.
    ([0, 5, 0], [10, 5, 10], false),
    ([10, 10, 5], [0, 0, 5], false),
    // The greatest and the least of times, no second ago.
    ([u32::MAX, u32::MAX, u32::MAX], [0, 0, 0], true),
    // 4294967295 seconds before now, and one after it: sums of 32 bits are the same.
    ([u32::MAX, 0, u32::MAX], [0, 1, 0], false),
    ([u32::MAX, u32::MAX, 0], [0, 0, 1], false),
    // Sums of 2^32, and none.
    ([1 << 31, 1 << 31, 1 << 31], [1 << 31, 1 << 31, 1 << 31], true),
    ([1 << 31, 0, 1 << 31], [0, 1 << 31, 0], false),
];

/// What of the car with its lever held has its times counted no more, and which of T and Q that is.
const UNCOUNTED: [(&str, u32, &str); 6] =
    [("L", 0, "T"), ("C", 0, "T"), ("key", 0, "Q"), ("key", 1, "Q"), ("key", 3, "Q"), ("key", u32::MAX, "Q")];

/// A car's times.
const TIME_NAMES: [&str; 3] = ["now", "T", "Q"];

/// Pairs of cars as they stand, most of which no record gives, and whether they are alike: worked out by hand. One field
/// changed, of a car whose times count and of one whose do not; then the times.
pub fn any_pairs() -> Result<Vec<([Fields; 2], bool)>, String> {
    let held = changed(TABLE_CAR, &HELD)?;
    let still = changed(TABLE_CAR, &[("key", 0), ("C", 0)])?;
    let mut pairs = vec![([held, held], true), ([still, still], true)];
    for (name, value) in NAMES.into_iter().zip(held.0) {
        // A flag is another one; any other value is one more.
        let other = if ["signs", "towing", "H", "S", "C", "P"].contains(&name) { 1 - value } else { value + 1 };
        pairs.push(([held, changed(held, &[(name, other)])?], false));
    }
    for name in NAMES {
        let first = changed(still, &[(name, 0)])?;
        pairs.push(([first, changed(still, &[(name, 1)])?], TIME_NAMES.contains(&name)));
    }
    let timed = |times: [u32; 3]| changed(held, &[("now", times[0]), ("T", times[1]), ("Q", times[2])]);
    for (first, second, alike) in TIMES {
        pairs.push(([timed(first)?, timed(second)?], alike));
        pairs.push(([timed(second)?, timed(first)?], alike));
    }
    for (name, value, time) in UNCOUNTED {
        let first = changed(held, &[(name, value)])?;
        for other in ["T", "Q"] {
            pairs.push(([first, changed(first, &[(other, 7)])?], other == time));
        }
    }
    Ok(pairs)
}

// ---------------------------------------------------------------- sightings

/// Floats that a vehicle is refused for with 22: no numbers of both signs, infinite ones and some below zero.
const BAD_FLOATS: [u32; 8] =
    [0x7F80_0001, NO_NUMBER, 0xFFFF_FFFF, INFINITE, 0xFF80_0000, 0x8000_0001, MINUS_ONE, 0xFF7F_FFFF];

/// The outside sightings; free roads and faults with floats that a vehicle is refused for; other kinds with floats of
/// every sort.
pub fn sightings(folder: &Folder) -> Result<Vec<u8>, String> {
    let Some(sightings) = folder.sightings()? else {
        return stdin("sightings");
    };
    let mut words: Vec<u32> = sightings.into_iter().flat_map(numbers).collect();
    for kind in [1, 2, 3, 4, 0x8000_0000, 0xFFFF_FFFF] {
        words.extend([kind, TWENTY, HUNDRED, kind, TWENTY, ABOVE_500]);
        for float in BAD_FLOATS {
            words.extend([kind, float, HUNDRED, kind, TWENTY, float, kind, float, float, kind, float, ABOVE_500]);
        }
    }
    Ok(bytes_of(&words))
}

// ---------------------------------------------------------------- mark

/// The mark that the program is asked for.
pub const MARK: u32 = 1990;
/// How many words that no car takes stand before the events of its exercise file, which pass the mark early and many
/// times, so that the find is some pages from the start.
const NOT_TAKEN: usize = 3100;
/// The exercise file that they are from.
const ANY_WORDS: &str = "random-words";

/// A settings word, refused words, a long exercise file's events and a cut word. The listing of that file says when the
/// mark is passed, since a refused word changes no car.
pub fn mark(folder: &Folder) -> Result<Vec<u8>, String> {
    let Some(file) = folder.bytes(&format!("{CYCLE}.bin"))?.filter(|_| folder.has(&format!("{ANY_WORDS}.bin"))) else {
        return stdin("mark");
    };
    let words = words_of(&file);
    let not_taken = not_taken(&folder.listed(ANY_WORDS)?);
    let events = [&not_taken, &words[1..]].concat();
    let listed = listed_passing(&folder.listed(CYCLE)?, 0..words.len() - 1, MARK);
    let moved = Passing { event: listed.event.map(|event| event + not_taken.len()), ..listed };
    if started(CYCLE, &words)?.passing(&events, MARK) != moved {
        return Err(format!("mark: the model does not pass {MARK} as {CYCLE}.txt does, {moved:?}"));
    }
    Ok([bytes_of(&words[..1]), bytes_of(&events), vec![1, 0]].concat())
}

/// Words whose refusals are the words' own, whatever the car.
fn not_taken(events: &[Listed]) -> Vec<u32> {
    let refused = events.iter().filter(|event| Event::is_unread(event.refusal)).map(|event| event.word);
    refused.cycle().take(NOT_TAKEN).collect()
}

// ---------------------------------------------------------------- moves

/// The D that the program is asked for.
pub const WANTED: u32 = 610;
/// The exercise file that is its input, whose last car has the D 570, and what it prints: both worked out by hand.
const LEVER: &str = "crates/vectors/data/lever.bin";
const LEVER_MOVES: &str = "20000002\n20000001\n20000000\n";

pub fn moves(_: &Folder) -> Result<Vec<u8>, String> {
    let file = read(LEVER)?;
    let model = Given::moves(&file, WANTED).output;
    if model != LEVER_MOVES.as_bytes() {
        let model = String::from_utf8_lossy(&model);
        return Err(format!("{LEVER}: the model gives {model:?}, and not {LEVER_MOVES:?}"));
    }
    Ok(file)
}
