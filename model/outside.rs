//! A folder of outside vectors: its inputs, and its answers held to the model's.

use crate::calls::{run_all, Call, Copy, Fields, Goal, Mark, Outcome, Pair, Settings, Start};
use crate::exercise::{bytes_of, is_refused, words_of, Given};
use crate::paper::{Car, Event, Moves, Passing, Sighting};
use crate::parts::Parts;
use std::collections::BTreeSet;
use std::fs;
use std::ops::Range;
use std::path::PathBuf;

pub struct Folder {
    path: PathBuf,
    /// The files' names in order.
    pub names: Vec<String>,
}

impl Folder {
    pub fn open(path: &str) -> Result<Folder, String> {
        let told = |error| format!("{path}: {error}");
        let mut names = Vec::new();
        for entry in fs::read_dir(path).map_err(told)? {
            names.push(entry.map_err(told)?.file_name().to_string_lossy().into_owned());
        }
        names.sort();
        Ok(Folder { path: PathBuf::from(path), names })
    }

    pub fn has(&self, name: &str) -> bool {
        self.names.iter().any(|other| other == name)
    }

    /// The file's contents, if the folder has it.
    pub fn bytes(&self, name: &str) -> Result<Option<Vec<u8>>, String> {
        if !self.has(name) {
            return Ok(None);
        }
        fs::read(self.path.join(name)).map(Some).map_err(|error| format!("{name}: {error}"))
    }

    fn text(&self, name: &str) -> Result<Option<String>, String> {
        let bytes = self.bytes(name)?;
        bytes.map(|bytes| String::from_utf8(bytes).map_err(|_| format!("{name}: no text"))).transpose()
    }

    /// The answers to an input that the folder has.
    fn answers(&self, name: &str) -> Result<String, String> {
        self.text(name)?.ok_or_else(|| format!("{name}: no such file"))
    }

    /// The calls of NAME.in.
    pub fn calls(&self, name: &str) -> Result<Option<Vec<Call>>, String> {
        self.lines(&format!("{name}.in"), read_call)
    }

    /// The copies of copy.in.
    pub fn copies(&self) -> Result<Option<Vec<Copy>>, String> {
        self.lines("copy.in", read_copy)
    }

    /// The marks of mark.in.
    pub fn marks(&self) -> Result<Option<Vec<Mark>>, String> {
        self.lines("mark.in", read_mark)
    }

    /// The sightings of sighting.in.
    pub fn sightings(&self) -> Result<Option<Vec<Sighting>>, String> {
        self.lines("sighting.in", read_sighting)
    }

    /// The records and wanted speeds of moves.in.
    pub fn goals(&self) -> Result<Option<Vec<Goal>>, String> {
        self.lines("moves.in", read_goal)
    }

    /// The pairs of records of alike.in.
    pub fn pairs(&self) -> Result<Option<Vec<Pair>>, String> {
        self.lines("alike.in", read_pair)
    }

    /// The events of write.in, each its kind and its values, the second 0 where it has one.
    pub fn written(&self) -> Result<Option<Vec<[u32; 3]>>, String> {
        self.lines("write.in", read_written)
    }

    /// A file's lines, each as it is read.
    fn lines<T>(&self, name: &str, read: fn(&str) -> Option<T>) -> Result<Option<Vec<T>>, String> {
        let Some(text) = self.text(name)? else {
            return Ok(None);
        };
        let line = |(number, line)| read(line).ok_or_else(|| format!("{name}, line {number}: no call: {line}"));
        (1..).zip(text.lines()).map(line).collect::<Result<_, String>>().map(Some)
    }

    /// The records of records.txt.
    pub fn records(&self) -> Result<Option<Vec<Vec<u32>>>, String> {
        let Some(text) = self.text("records.txt")? else {
            return Ok(None);
        };
        let record = |line: &str| hex_words(line.split(" : ").next().unwrap_or(""));
        let records: Option<Vec<_>> = text.lines().map(record).collect();
        records.map(Some).ok_or_else(|| String::from("records.txt: a record that is no list of words"))
    }

    /// The events of NAME.bin as NAME.txt lists them.
    pub fn listed(&self, name: &str) -> Result<Vec<Listed>, String> {
        let words = words_of(&self.bytes(&format!("{name}.bin"))?.unwrap_or_default());
        let listing = self.answers(&format!("{name}.txt"))?;
        let events = words.iter().skip(1).zip(listing.lines().skip(1)).map(|(&word, line)| read_listed(word, line));
        events.collect::<Option<_>>().ok_or_else(|| format!("{name}.txt: a line that is no event's"))
    }
}

/// An event in a listing: its word, and what its line shows.
pub struct Listed {
    pub word: u32,
    pub refusal: u32,
    pub speed: u32,
}

fn hex_words(text: &str) -> Option<Vec<u32>> {
    hex_parts(&text.split_whitespace().collect::<Vec<_>>())
}

fn hex_parts(parts: &[&str]) -> Option<Vec<u32>> {
    parts.iter().map(|part| hex_word(part)).collect()
}

fn hex_word(text: &str) -> Option<u32> {
    u32::from_str_radix(text, 16).ok()
}

fn read_call(line: &str) -> Option<Call> {
    let (kind, rest) = line.split_once(' ')?;
    let parts: Vec<&str> = rest.split_whitespace().collect();
    match (kind, &parts[..]) {
        ("fresh", [mode, signs]) => read_settings([mode, signs, "0"]).map(Call::Fresh),
        ("fresh", [mode, signs, towing]) => read_settings([mode, signs, towing]).map(Call::Fresh),
        ("car", changes) => changes.iter().map(|change| read_change(change)).collect::<Option<_>>().map(Call::Change),
        ("read", _) => hex_words(rest).map(Call::Read),
        ("drive", [word]) => hex_word(word).map(Call::Drive),
        ("lesson", [room, words @ ..]) => Some(Call::Lesson { room: room.parse().ok()?, words: hex_parts(words)? }),
        ("record", [length]) => Some(Call::Record { length: length.parse().ok()? }),
        ("sight", _) => read_sighting(rest).map(Call::Sight),
        _ => None,
    }
}

fn read_settings([mode, signs, towing]: [&str; 3]) -> Option<Settings> {
    Some(Settings([mode.parse().ok()?, signs.parse().ok()?, towing.parse().ok()?]))
}

/// The settings, the buffer's length and the words.
fn read_copy(line: &str) -> Option<Copy> {
    match &line.split_whitespace().collect::<Vec<_>>()[..] {
        [mode, signs, towing, room, words @ ..] => Some(Copy {
            settings: read_settings([mode, signs, towing])?,
            room: room.parse().ok()?,
            words: hex_parts(words)?,
        }),
        _ => None,
    }
}

/// The mark, settings or a record, and behind a colon the words.
fn read_mark(line: &str) -> Option<Mark> {
    let (start, words) = line.split_once(':')?;
    let (mark, start) = match &start.split_whitespace().collect::<Vec<_>>()[..] {
        [mark, "fresh", mode, signs, towing] => {
            (mark.parse().ok()?, Start::Fresh(read_settings([mode, signs, towing])?))
        }
        [mark, "rec", record @ ..] => (mark.parse().ok()?, Start::Record(hex_parts(record)?)),
        _ => return None,
    };
    Some(Mark { mark, start, words: hex_words(words)? })
}

/// The record and the wanted D.
fn read_goal(line: &str) -> Option<Goal> {
    let (record, wanted) = line.rsplit_once(' ')?;
    Some(Goal { record: hex_words(record)?, wanted: wanted.parse().ok()? })
}

fn read_pair(line: &str) -> Option<Pair> {
    hex_words(line)?.try_into().ok().map(Pair)
}

/// A vehicle's floats are their bits.
fn read_sighting(line: &str) -> Option<Sighting> {
    match &line.split_whitespace().collect::<Vec<_>>()[..] {
        ["vehicle", metres, kmh] => Some(Sighting::Vehicle { metres: hex_word(metres)?, kmh: hex_word(kmh)? }),
        ["free"] => Some(Sighting::Free),
        ["fault"] => Some(Sighting::Fault),
        _ => None,
    }
}

/// The names of the kinds of events, from 1 on.
const EVENTS: [&str; 10] = ["key", "updown", "foreback", "brake", "gas", "button", "gap", "sign", "radar", "tick"];

fn read_written(line: &str) -> Option<[u32; 3]> {
    let (name, values) = line.split_once(' ')?;
    let (kind, _) = (1..).zip(EVENTS).find(|(_, event)| *event == name)?;
    let values: Vec<u32> = values.split(' ').map(|value| value.parse().ok()).collect::<Option<_>>()?;
    match (kind, &values[..]) {
        (1 | 9, &[value, second]) => Some([kind, value, second]),
        (2..=8 | 10, &[value]) => Some([kind, value, 0]),
        _ => None,
    }
}

fn read_listed(word: u32, line: &str) -> Option<Listed> {
    let mut figures = line.split(' ').skip(1).map(|figure| figure.parse().ok());
    Some(Listed { word, refusal: figures.next()??, speed: figures.next()?? })
}

fn read_change(text: &str) -> Option<(String, u32)> {
    let (name, value) = text.split_once('=')?;
    Some((String::from(name), value.parse().ok()?))
}

// ---------------------------------------------------------------- Answers held to the model's

impl Folder {
    /// Holds every answer that the folder gives to the model's. Gives the number of lines.
    pub fn hold(&self) -> Result<usize, String> {
        let mut lines = self.hold_calls("calls")?
            + self.hold_calls("edges")?
            + self.hold_records()?
            + self.hold_copies()?
            + self.hold_marks()?
            + self.hold_sightings()?
            + self.hold_moves()?
            + self.hold_pairs()?
            + self.hold_written()?;
        for name in self.names.iter().filter_map(|name| name.strip_suffix(".bin")) {
            lines += self.hold_listing(name)?;
        }
        Ok(lines)
    }

    fn hold_calls(&self, name: &str) -> Result<usize, String> {
        let Some(calls) = self.calls(name)? else {
            return Ok(0);
        };
        let given = self.answers(&format!("{name}.txt"))?;
        let asked = self.answers(&format!("{name}.in"))?;
        let mut model = Vec::new();
        for (number, ((call, outcome), line)) in (1..).zip(calls.iter().zip(run_all(&calls)).zip(asked.lines())) {
            model.push(format!("call {number} {line}"));
            model.extend(call_answers(call, outcome));
        }
        hold_lines(&format!("{name}.txt"), &given, &model)
    }

    fn hold_records(&self) -> Result<usize, String> {
        let Some(records) = self.records()? else {
            return Ok(0);
        };
        let model: Vec<String> =
            records.iter().map(|record| format!("{} : {}", hex(record), reading(record))).collect();
        hold_lines("records.txt", &self.answers("records.txt")?, &model)
    }

    fn hold_copies(&self) -> Result<usize, String> {
        let Some(copies) = self.copies()? else {
            return Ok(0);
        };
        let model: Vec<String> = copies.iter().map(|copy| copy_answer(&copy.run())).collect();
        hold_lines("copy.txt", &self.answers("copy.txt")?, &model)
    }

    fn hold_marks(&self) -> Result<usize, String> {
        let Some(marks) = self.marks()? else {
            return Ok(0);
        };
        let model: Vec<String> = marks.iter().map(mark_answer).collect();
        hold_lines("mark.txt", &self.answers("mark.txt")?, &model)
    }

    fn hold_sightings(&self) -> Result<usize, String> {
        let Some(sightings) = self.sightings()? else {
            return Ok(0);
        };
        let model: Vec<String> = sightings.iter().map(|&sighting| sighting_answer(sighting)).collect();
        hold_lines("sighting.txt", &self.answers("sighting.txt")?, &model)
    }

    fn hold_moves(&self) -> Result<usize, String> {
        let Some(goals) = self.goals()? else {
            return Ok(0);
        };
        let model: Vec<String> = goals.iter().map(moves_answer).collect();
        hold_lines("moves.txt", &self.answers("moves.txt")?, &model)
    }

    fn hold_pairs(&self) -> Result<usize, String> {
        let Some(pairs) = self.pairs()? else {
            return Ok(0);
        };
        let model: Vec<String> = pairs.iter().map(pair_answer).collect();
        hold_lines("alike.txt", &self.answers("alike.txt")?, &model)
    }

    fn hold_written(&self) -> Result<usize, String> {
        let Some(events) = self.written()? else {
            return Ok(0);
        };
        let model: Vec<String> = events.iter().map(|&event| written_answer(event)).collect();
        hold_lines("write.txt", &self.answers("write.txt")?, &model)
    }

    /// Holds NAME.txt to the model's listing of NAME.bin, and its refusals 1 to 3 and 24, which come before all others, to
    /// the model's readings of the words; and the model's clean file of NAME.bin and what it says of marks to NAME.txt.
    fn hold_listing(&self, name: &str) -> Result<usize, String> {
        let file = self.bytes(&format!("{name}.bin"))?.unwrap_or_default();
        let answers = format!("{name}.txt");
        let given = self.answers(&answers)?;
        let model = String::from_utf8(Given::listing(&file).output).expect("a text");
        let lines = hold_lines(&answers, &given, &model.lines().map(String::from).collect::<Vec<_>>())?;
        if given != model {
            return Err(difference(&answers, "folder", "other blanks or ends of lines", "the listing's"));
        }
        for (word, line) in words_of(&file).iter().zip(given.lines()).skip(1) {
            let refusal =
                line.split(' ').nth(1).and_then(|refusal| refusal.parse().ok()).filter(|&n| Event::is_unread(n));
            let read = Event::read(*word).err();
            if read != refusal {
                let what = format!("{answers}, word {word:08X}");
                return Err(difference(&what, "folder", line, &format!("refusal {}", read.unwrap_or(0))));
            }
        }
        hold_clean(&answers, &file, &given)?;
        let events = self.listed(name)?;
        let speeds: BTreeSet<u32> = events.iter().flat_map(|event| [event.speed, event.speed + 1]).collect();
        let marks: Vec<u32> = speeds.into_iter().chain([0, 5000, 5001, u32::MAX]).collect();
        self.hold_passings(name, 0..events.len(), &marks)?;
        Ok(lines)
    }

    /// Holds what the model says of marks in some events of NAME.bin to NAME.txt.
    pub fn hold_passings(&self, name: &str, part: Range<usize>, marks: &[u32]) -> Result<(), String> {
        let words = words_of(&self.bytes(&format!("{name}.bin"))?.unwrap_or_default());
        let Some(fresh) = words.first().and_then(|&settings| Car::start(settings).ok()) else {
            return Ok(());
        };
        let (words, events) = (&words[1..], self.listed(name)?);
        let (_, car) = fresh.seconds(&words[..part.start]);
        let (seconds, _) = car.seconds(&words[part.clone()]);
        for &mark in marks {
            let [folder, model] = [listed_passing(&events, part.clone(), mark), Passing::of(&seconds, mark)];
            if folder != model {
                let what = format!("{name}.txt, mark {mark} in the events behind {}", part.start);
                return Err(difference(&what, "folder", &format!("{folder:?}"), &format!("{model:?}")));
            }
        }
        Ok(())
    }
}

/// What some of a listing's events say of a mark: a second is a tick with no refusal.
pub fn listed_passing(events: &[Listed], part: Range<usize>, mark: u32) -> Passing {
    let mut passing = Passing { event: None, seconds: 0 };
    let mut speed = part.start.checked_sub(1).map_or(0, |last| events[last].speed);
    for (number, event) in (1..).zip(&events[part]) {
        if event.word >> 28 == 10 && event.refusal == 0 && event.speed >= mark {
            passing.seconds += 1;
            if speed < mark {
                passing.event = passing.event.or(Some(number));
            }
        }
        speed = event.speed;
    }
    passing
}

/// Holds the model's clean file to a listing: the settings word and the words whose line shows no refusal; 17 and 21 as
/// the listing ends in them.
fn hold_clean(name: &str, file: &[u8], listing: &str) -> Result<(), String> {
    let clean = Given::clean(file);
    let last = listing.lines().last().unwrap_or_default();
    let told = last.strip_prefix("refused ").and_then(|refusal| refusal.parse().ok()).unwrap_or(0);
    if told != clean.told {
        return Err(difference(&format!("{name}, the clean file"), "folder", last, &format!("refusal {}", clean.told)));
    }
    let kept = words_of(file).into_iter().zip(listing.lines()).filter(|(_, line)| !is_refused(line));
    let kept: Vec<u32> = kept.map(|(word, _)| word).collect();
    match Parts::Words.difference(&bytes_of(&kept), &clean.output) {
        None => Ok(()),
        Some((place, [folder, model])) => {
            Err(difference(&format!("{name}, the clean file, {place}"), "folder", &folder, &model))
        }
    }
}

/// A copy's answer as a folder gives it.
fn copy_answer(outcome: &Outcome) -> String {
    let Outcome { refusal, accepted, buffer, .. } = outcome;
    format!("refusal {refusal} written {accepted} buffer {}", hex(buffer))
}

/// A mark's answer as a folder gives it.
fn mark_answer(mark: &Mark) -> String {
    match mark.start.car() {
        Ok(car) => {
            let Passing { event, seconds } = car.passing(&mark.words, mark.mark);
            let first = event.map_or(String::from("never"), |event| event.to_string());
            format!("refusal 0 first {first} seconds {seconds}")
        }
        Err(refusal) => format!("refused {refusal}"),
    }
}

/// A sighting's answer as a folder gives it.
fn sighting_answer(sighting: Sighting) -> String {
    match sighting.reading() {
        Ok(Some(reading)) => format!("word {:08X}", reading.word()),
        Ok(None) => String::from("no event"),
        Err(refusal) => format!("refused {refusal}"),
    }
}

/// The answer to a wanted D as a folder gives it.
fn moves_answer(goal: &Goal) -> String {
    let (refusal, Moves { count, words }) = goal.run();
    format!("refusal {refusal} count {count} words {}", hex(&words))
}

/// A pair's answer as a folder gives it.
fn pair_answer(pair: &Pair) -> String {
    match pair.alike() {
        Some(alike) => u32::from(alike).to_string(),
        None => String::from("refused 18"),
    }
}

/// An event's word as a folder gives it.
fn written_answer([kind, value, second]: [u32; 3]) -> String {
    match Event::of(kind, value, second) {
        Ok(event) => format!("{:08X}", event.word()),
        Err(refusal) => format!("refused {refusal}"),
    }
}

/// A call's answer and the car afterwards, as a folder gives them.
fn call_answers(call: &Call, outcome: Option<Outcome>) -> Vec<String> {
    let Some(outcome) = outcome else {
        return vec![String::from("no car"), String::from("car none")];
    };
    let Outcome { refusal, answer, event, accepted, refused, .. } = outcome;
    let mut lines = match call {
        Call::Drive(_) => vec![format!("refusal {refusal} answer {answer:08X}")],
        Call::Lesson { .. } => vec![format!("refusal {refusal} accepted {accepted} refused {refused}")],
        Call::Sight(_) => vec![match event {
            Some(word) => format!("word {word:08X} refusal {refusal}"),
            None if outcome.is_fault() => String::from("no event"),
            None => format!("refusal {refusal}"),
        }],
        _ => vec![format!("refusal {refusal}")],
    };
    if matches!(call, Call::Lesson { .. } | Call::Record { .. }) {
        lines.push(format!("buffer {}", hex(&outcome.buffer)));
    }
    lines.push(outcome.car.map_or(String::from("car none"), |car| format!("car {}", car.text())));
    lines
}

/// What reading a record gives, as a folder tells it.
fn reading(record: &[u32]) -> String {
    match Car::read(record) {
        Some(car) => format!("car {}", Fields::of(&car).text()),
        None => String::from("refused 18"),
    }
}

fn hex(words: &[u32]) -> String {
    words.iter().map(|word| format!("{word:08X}")).collect::<Vec<_>>().join(" ")
}

/// Holds a folder's lines to the model's. A blank at a line's end is passed over.
fn hold_lines(name: &str, given: &str, model: &[String]) -> Result<usize, String> {
    let given: Vec<&str> = given.lines().map(str::trim_end).collect();
    let mut call = String::new();
    for number in 0..given.len().max(model.len()) {
        let given = given.get(number).copied().unwrap_or("(no line)");
        let model = model.get(number).map_or("(no line)", |line| line.trim_end());
        if given.starts_with("call ") {
            call = format!(", {given}");
        }
        if given != model {
            return Err(difference(&format!("{name}, line {}{call}", number + 1), "folder", given, model));
        }
    }
    Ok(given.len())
}

/// A difference told: where, what one side has, and what the model has.
pub fn difference(place: &str, side: &str, given: &str, model: &str) -> String {
    format!("DIFFERENCE in {place}\n{:8} {given}\n{:8} {model}", format!("{side}:"), "model:")
}
