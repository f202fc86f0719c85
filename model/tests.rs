//! The test programs' inputs and expected outputs: held to the model, and made from a folder of outside vectors.

use crate::expected;
use crate::inputs::{self, read, stdin};
use crate::outside::{difference, Folder};
use crate::parts::Parts;
use std::fs;

/// A program with a standard input: its input of a folder, what it has to print for an input, and the room for both.
struct Program {
    name: &'static str,
    input: fn(&Folder) -> Result<Vec<u8>, String>,
    output: fn(&[u8]) -> Result<Vec<u8>, String>,
    parts: Parts,
    rooms: Rooms,
    /// Its one argument.
    argument: Option<u32>,
}

struct Rooms {
    input: usize,
    output: usize,
}

/// How many bytes a test program reads, and how many it prints: a number is put only where 21 bytes are left.
const INPUT_ROOM: usize = 65_536;
const TESTED: Rooms = Rooms { input: INPUT_ROOM, output: 131_072 - 21 };
const COPIED: Rooms = Rooms { input: INPUT_ROOM, output: 524_288 - 21 };
const MARKED: Rooms = Rooms { input: 2 * INPUT_ROOM, output: 131_072 - 21 };
/// Those of a program that reads and prints piece by piece.
const ANY: Rooms = Rooms { input: usize::MAX, output: usize::MAX };

const PROGRAMS: [Program; 15] = [
    tested("event_words", inputs::event_words, expected::event_words),
    tested("car_figures", inputs::car_figures, expected::car_figures),
    tested("calls", inputs::calls, expected::calls),
    tested("record_words", inputs::record_words, expected::record_words),
    tested("cruise_calls", inputs::cruise_calls, expected::cruise_calls),
    tested("cab_words", inputs::cab_words, expected::cab_words),
    Program { rooms: COPIED, ..tested("copies", inputs::copies, expected::copies) },
    Program { rooms: MARKED, ..tested("marks", inputs::marks, expected::marks) },
    tested("levers", inputs::levers, expected::levers),
    tested("sightings", inputs::sightings, expected::sightings),
    tested("alikes", inputs::alikes, expected::alikes),
    Program { rooms: ANY, ..tested(LESSON, inputs::lesson, expected::lesson) },
    Program { rooms: ANY, parts: Parts::Words, ..tested("clean", inputs::clean, expected::clean) },
    Program { rooms: ANY, argument: Some(inputs::MARK), ..tested("mark", inputs::mark, expected::mark) },
    Program { rooms: ANY, argument: Some(inputs::WANTED), ..tested("moves", inputs::moves, expected::moves) },
];

const fn tested(
    name: &'static str,
    input: fn(&Folder) -> Result<Vec<u8>, String>,
    output: fn(&[u8]) -> Result<Vec<u8>, String>,
) -> Program {
    Program { name, input, output, parts: Parts::Lines, rooms: TESTED, argument: None }
}

const LESSON: &str = "lesson";
/// The exercise file that is its input.
const LONGEST: &str = "clock-end.bin";
/// The one that lists the files of its data/.
const VECTORS: &str = "crates/vectors";
/// The files of a folder that the programs' inputs come from beside those.
const OTHERS: [&str; 10] = [
    "alike.in",
    "calls.in",
    "copy.in",
    "edges.in",
    "mark.in",
    "moves.in",
    "sighting.in",
    "write.in",
    "records.txt",
    LONGEST,
];

/// Holds every `stdout` to the model's answers to its input: true when there is no difference.
pub fn run() -> bool {
    told(hold())
}

/// Makes the inputs and the expected outputs from a folder of vectors: true when it agrees with the model.
pub fn renew(folder: &str) -> bool {
    told(renewed(folder))
}

fn told(result: Result<String, String>) -> bool {
    let (Ok(text) | Err(text)) = &result;
    println!("{text}");
    result.is_ok()
}

// ---------------------------------------------------------------- The present files

fn hold() -> Result<String, String> {
    let mut held = 0;
    for program in &PROGRAMS {
        let Program { name, output, parts, .. } = *program;
        held += hold_output(name, &output(&stdin(name)?)?, parts)?;
        if let Some((path, contents)) = arguments(program) {
            if read(&path)? != contents {
                return Err(format!("{path}: not {:?}", String::from_utf8_lossy(&contents)));
            }
        }
    }
    let mut listings = Vec::new();
    for name in file_names()? {
        listings.extend(listing(&name, &read(&format!("{VECTORS}/data/{name}"))?)?);
    }
    held += hold_output("vectors", &listings, Parts::Lines)?;
    Ok(format!("no difference in the expected outputs of {} programs: {held} lines and words", PROGRAMS.len() + 1))
}

/// Holds a program's `stdout` to the model's output. Gives the number of its parts.
fn hold_output(name: &str, model: &[u8], parts: Parts) -> Result<usize, String> {
    let path = format!("crates/{name}/stdout");
    match parts.difference(&read(&path)?, model) {
        None => Ok(parts.count(model)),
        Some((place, [file, model])) => Err(difference(&format!("{path}, {place}"), "file", &file, &model)),
    }
}

/// The model's listing of an exercise file of the program `vectors`. Where one that was worked out by hand stands beside
/// the file, the two are the same.
fn listing(name: &str, file: &[u8]) -> Result<Vec<u8>, String> {
    let model = expected::lesson(file)?;
    let path = format!("{VECTORS}/data/{}", name.replace(".bin", ".txt"));
    let Ok(by_hand) = fs::read(&path) else {
        return Ok(model);
    };
    match Parts::Lines.difference(&by_hand, &model) {
        None => Ok(model),
        Some((place, [by_hand, model])) => Err(difference(&format!("{path}, {place}"), "by hand", &by_hand, &model)),
    }
}

/// The names of the files that the program `vectors` lists, in its order.
fn file_names() -> Result<Vec<String>, String> {
    let path = format!("{VECTORS}/src/main.rt");
    let source = String::from_utf8(read(&path)?).map_err(|_| format!("{path}: no text"))?;
    let texts = source.split("b\"vectors: ").skip(1).filter_map(|text| text.split('"').next());
    Ok(texts.filter(|name| name.ends_with(".bin")).map(String::from).collect())
}

// ---------------------------------------------------------------- A folder of vectors

/// Files to write: paths and contents.
type Files = Vec<(String, Vec<u8>)>;

/// Nothing is written before every answer of the folder agrees with the model's.
fn renewed(path: &str) -> Result<String, String> {
    let folder = Folder::open(path)?;
    let names = file_names()?;
    tell_parts(&folder, &names);
    let lines = folder.hold()?;
    let mut files = made_listings(&folder, &names)?;
    for program in &PROGRAMS {
        files.extend(made(&folder, program)?);
    }
    let mut written = 0;
    for (path, contents) in files {
        if fs::read(&path).ok().as_ref() != Some(&contents) {
            fs::write(&path, contents).map_err(|error| format!("{path}: {error}"))?;
            println!("written: {path}");
            written += 1;
        }
    }
    Ok(format!("no difference in {lines} lines of the folder's answers; {written} files changed"))
}

/// Tells the folder's inputs that no program reads, and those that it does not have.
fn tell_parts(folder: &Folder, listed: &[String]) {
    let read: Vec<&str> = OTHERS.into_iter().chain(listed.iter().map(String::as_str)).collect();
    let inputs = folder.names.iter().map(String::as_str).filter(|name| name.ends_with(".in") || name.ends_with(".bin"));
    tell("not read by any program", inputs.filter(|name| !read.contains(name)).collect());
    tell("not in the folder, so its part is kept", read.into_iter().filter(|name| !folder.has(name)).collect());
}

fn tell(what: &str, names: Vec<&str>) {
    if !names.is_empty() {
        println!("{what}: {}", names.join(" "));
    }
}

/// A program's input of the folder, and its output.
fn made(folder: &Folder, program: &Program) -> Result<Files, String> {
    let name = program.name;
    let input = (program.input)(folder)?;
    let output = (program.output)(&input)?;
    if name == LESSON && !folder.has(LONGEST) {
        // It stands in one folder only because its listing is the same ever after.
        hold_output(name, &output, program.parts)?;
    }
    if input.len() > program.rooms.input || output.len() > program.rooms.output {
        return Err(format!("{name}: no room for an input of {} bytes or its {} of output", input.len(), output.len()));
    }
    let mut files = vec![(format!("crates/{name}/stdin"), input), (format!("crates/{name}/stdout"), output)];
    files.extend(arguments(program));
    Ok(files)
}

/// The file of a program's argument, if it has one.
fn arguments(program: &Program) -> Option<(String, Vec<u8>)> {
    program.argument.map(|argument| (format!("crates/{}/args", program.name), format!("{argument}\n").into_bytes()))
}

/// The exercise files of the program `vectors`, and their listings.
fn made_listings(folder: &Folder, names: &[String]) -> Result<Files, String> {
    let mut files = Files::new();
    let mut listings = Vec::new();
    for name in names {
        let path = format!("{VECTORS}/data/{name}");
        let file = folder.bytes(name)?.map_or_else(|| read(&path), Ok)?;
        if file.len() > INPUT_ROOM {
            return Err(format!("vectors: no room for the {} bytes of {name}", file.len()));
        }
        listings.extend(listing(name, &file)?);
        files.push((path, file));
    }
    files.push((format!("{VECTORS}/stdout"), listings));
    Ok(files)
}
