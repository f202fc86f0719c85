//! What the programs give for an exercise file: `lesson` its listing (document 01, "The cab, alike, and the program"),
//! `clean` its clean file, the settings word and the accepted words (document 02, §2), `mark` the event that passed a
//! speed mark and the seconds at or above it (§5), `moves` the lever words that reach a wanted speed from its last car
//! (§13).

use crate::paper::{Car, Moves, Passing};
use std::io::Write;

const HEAD: &str = "n refusal speed desired accel visual acoustic";

/// What a program gives for a file, and how much of its output is due while the file still comes.
pub struct Given {
    pub output: Vec<u8>,
    /// The refusal told on standard error, 0 for none.
    pub told: u32,
    /// The length of the output after each whole word; 0 before the first.
    due: Vec<usize>,
}

/// What a file comes to, in order.
enum Part<'a> {
    Settings(u32),
    Event {
        number: usize,
        word: u32,
        refusal: u32,
        car: &'a Car,
    },
    /// 17: a first word that is missing, cut or no settings word. 21: a later word that is cut.
    Refused(u32),
}

/// The words of a file; bytes past the last whole word are passed over.
pub fn words_of(bytes: &[u8]) -> Vec<u32> {
    bytes.chunks_exact(4).map(|bytes| u32::from_le_bytes(bytes.try_into().expect("four bytes"))).collect()
}

pub fn bytes_of(words: &[u32]) -> Vec<u8> {
    words.iter().flat_map(|word| word.to_le_bytes()).collect()
}

/// The fresh car of a file's words, and the words behind the settings word.
pub fn opened(words: &[u32]) -> Option<(Car, &[u32])> {
    let (&settings, events) = words.split_first()?;
    Some((Car::start(settings).ok()?, events))
}

/// The car behind a file's words, if it has a fresh one.
pub fn last_car(words: &[u32]) -> Option<Car> {
    let (car, events) = opened(words)?;
    Some(car.accepted(events).1)
}

/// After how many of the words cruise is on and both levers are in neutral.
pub fn neutral_places(mut car: Car, words: &[u32]) -> Vec<usize> {
    let mut places = Vec::new();
    for (count, &word) in (1..).zip(words) {
        car = car.drive(word).unwrap_or(car);
        if car.has_neutral_cruise() {
            places.push(count);
        }
    }
    places
}

impl Given {
    pub fn listing(file: &[u8]) -> Given {
        Given::of(file, Given::put_line)
    }

    pub fn clean(file: &[u8]) -> Given {
        Given::of(file, Given::put_word)
    }

    /// All of it is due at the file's end.
    pub fn mark(file: &[u8], mark: u32) -> Given {
        Given::at_end(file, |start| match start {
            None => String::from("refused 17\n"),
            Some((car, words)) => {
                let cut = if file.len() % 4 > 0 { "refused 21\n" } else { "" };
                passing_lines(car.passing(words, mark)) + cut
            }
        })
    }

    /// All of it is due at the file's end.
    pub fn moves(file: &[u8], wanted: u32) -> Given {
        Given::at_end(file, |start| match start {
            None => refused_line(17),
            Some(_) if file.len() % 4 > 0 => refused_line(21),
            Some((car, words)) => car.accepted(words).1.moves(wanted).map_or_else(refused_line, move_lines),
        })
    }

    /// A text for the fresh car and the words behind the settings word; none where that is missing, cut or refused.
    fn at_end(file: &[u8], text: impl Fn(Option<(Car, &[u32])>) -> String) -> Given {
        let words = words_of(file);
        let start = opened(&words);
        let events = start.map_or(0, |(_, words)| words.len());
        Given { output: text(start).into_bytes(), told: 0, due: vec![0; events + 2] }
    }

    fn of(file: &[u8], put: fn(&mut Given, Part)) -> Given {
        let mut given = Given { output: Vec::new(), told: 0, due: vec![0] };
        let words = words_of(file);
        let Some((&settings, events)) = words.split_first() else {
            put(&mut given, Part::Refused(17));
            return given;
        };
        match Car::start(settings) {
            Err(refusal) => given.word(put, Part::Refused(refusal)),
            Ok(car) => {
                given.word(put, Part::Settings(settings));
                given.drive(put, car, events);
                if file.len() % 4 > 0 {
                    put(&mut given, Part::Refused(21));
                }
            }
        }
        given
    }

    fn drive(&mut self, put: fn(&mut Given, Part), mut car: Car, events: &[u32]) {
        for (number, &word) in (1..).zip(events) {
            let driven = car.drive(word);
            car = driven.unwrap_or(car);
            self.word(put, Part::Event { number, word, refusal: driven.err().unwrap_or(0), car: &car });
        }
    }

    /// What is due as soon as its word is whole.
    fn word(&mut self, put: fn(&mut Given, Part), part: Part) {
        put(self, part);
        self.due.push(self.output.len());
    }

    /// A line of the listing. An event's: its number, refusal, v, D, a, visual, acoustic, all of the car afterwards.
    fn put_line(&mut self, part: Part) {
        let line = match part {
            Part::Settings(_) => String::from(HEAD),
            Part::Event { number, refusal, car, .. } => format!("{number} {refusal} {}", figures(car)),
            Part::Refused(refusal) => format!("refused {refusal}"),
        };
        writeln!(self.output, "{line}").expect("room for text");
    }

    /// A word of the clean file.
    fn put_word(&mut self, part: Part) {
        match part {
            Part::Settings(word) | Part::Event { word, refusal: 0, .. } => self.output.extend(word.to_le_bytes()),
            Part::Event { .. } => {}
            Part::Refused(refusal) => self.told = refusal,
        }
    }

    /// What it tells on standard error.
    pub fn errors(&self) -> String {
        if self.told > 0 {
            format!("refused {}\n", self.told)
        } else {
            String::new()
        }
    }

    /// The output that is due when so many of the file's bytes have come and its end has not.
    pub fn due(&self, bytes: usize) -> &[u8] {
        let last = self.due.len() - 1;
        &self.output[..self.due[last.min(bytes / 4)]]
    }

    /// How many events were driven: the words after the settings word.
    pub fn events(&self) -> usize {
        self.due.len().saturating_sub(2)
    }
}

fn passing_lines(Passing { event, seconds }: Passing) -> String {
    let first = event.map_or(String::from("never"), |event| format!("event {event}"));
    format!("{first}\nseconds {seconds}\n")
}

fn move_lines(moves: Moves) -> String {
    moves.list().iter().map(|word| format!("{word:08X}\n")).collect()
}

/// The sentence of `moves` for a refusal.
fn refused_line(refusal: u32) -> String {
    let reason = match refusal {
        17 => "the file does not start with a settings word",
        21 => "the file ends inside a word",
        25 => "cruise is off or a lever is out of neutral",
        _ => "no list of at most six lever words gives that speed",
    };
    format!("refused {refusal}: {reason}\n")
}

/// Does a line of a listing show a refusal? The head line, which stands for the settings word, does not.
pub fn is_refused(line: &str) -> bool {
    !matches!(line.split(' ').nth(1), Some("0" | "refusal"))
}

/// v, D, a, visual, acoustic as a listing has them.
fn figures(car: &Car) -> String {
    let shown = car.figures();
    let (visual, acoustic) = (u8::from(shown.visual), u8::from(shown.acoustic));
    format!("{} {} {} {visual} {acoustic}", shown.speed, shown.desired, shown.acceleration)
}
