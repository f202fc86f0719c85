//! The programs `lesson`, `clean`, `mark` and `moves` against the model: what they give for an exercise file by each way
//! in, what they tell of failures, their help and their usage. Each case is tried on every program that it is for, and
//! grows from one 64-bit seed, so that it can be run again alone.

use crate::calls::Reached;
use crate::exercise::{bytes_of, is_refused, last_car, words_of, Given};
use crate::paper::Car;
use crate::parts::Parts;
use crate::random::{self, Random};
use crate::session::{Left, Session, LIMIT};
use std::ffi::OsStr;
use std::fs::{self, File};
use std::io::{Read, Write};
use std::os::fd::OwnedFd;
use std::os::unix::ffi::OsStrExt;
use std::os::unix::net::UnixStream;
use std::process::{Command, Stdio};
use std::thread;
use std::time::Duration;

/// The exercise file of the run under way; after a difference it is still there.
const FILE: &str = "target/exercise.bin";
/// The bytes that a program reads at a time, at most.
const PAGE: usize = 4096;
/// How many lines each program's help has.
const HELP_LINES: usize = 15;

#[derive(Clone, Copy)]
enum Program {
    Lesson,
    Clean,
    /// Takes a speed mark before the file's name, and prints a few lines at the file's end.
    Mark,
    /// Takes a wanted speed before the file's name, and prints lever words at the file's end.
    Moves,
}

impl Program {
    fn name(self) -> &'static str {
        match self {
            Program::Lesson => "lesson",
            Program::Clean => "clean",
            Program::Mark => "mark",
            Program::Moves => "moves",
        }
    }

    /// Its arguments as its usage has them.
    fn arguments(self) -> &'static str {
        match self {
            Program::Lesson | Program::Clean => "[FILE]",
            Program::Mark => "MARK [FILE]",
            Program::Moves => "WANTED [FILE]",
        }
    }

    fn path(self) -> String {
        format!("target/bin/{}", self.name())
    }

    /// Does it print while the file still comes, and the more the longer it is?
    fn is_live(self) -> bool {
        !matches!(self, Program::Mark | Program::Moves)
    }

    fn parts(self) -> Parts {
        match self {
            Program::Lesson | Program::Mark | Program::Moves => Parts::Lines,
            Program::Clean => Parts::Words,
        }
    }
}

// ---------------------------------------------------------------- Cases

#[derive(Clone, Copy)]
pub enum Kind {
    Short,
    Failing,
    Pages,
    File,
    Pipe,
    Live,
    Clean,
    Edges,
    Neutral,
}

const ALL_PROGRAMS: &[Program] = &[Program::Lesson, Program::Clean, Program::Mark, Program::Moves];
const LIVE_PROGRAMS: &[Program] = &[Program::Lesson, Program::Clean];

/// Each kind's name, how many cases of it are a run, and the programs it is for.
const KINDS: [(Kind, &str, u32, &[Program]); 9] = [
    (Kind::Short, "short", 5, ALL_PROGRAMS),
    (Kind::Failing, "failing", 10, ALL_PROGRAMS),
    (Kind::Pages, "pages", 2, ALL_PROGRAMS),
    (Kind::File, "file", 500, ALL_PROGRAMS),
    (Kind::Pipe, "pipe", 300, ALL_PROGRAMS),
    (Kind::Live, "live", 300, LIVE_PROGRAMS),
    (Kind::Clean, "clean", 200, LIVE_PROGRAMS),
    (Kind::Edges, "edges", 200, &[Program::Mark]),
    (Kind::Neutral, "neutral", 500, &[Program::Moves]),
];

impl Kind {
    pub fn named(name: &str) -> Option<Kind> {
        KINDS.iter().find(|kind| kind.1 == name).map(|kind| kind.0)
    }

    fn name(self) -> &'static str {
        KINDS[self as usize].1
    }

    fn programs(self) -> &'static [Program] {
        KINDS[self as usize].3
    }
}

/// All cases: true when model and programs agree everywhere.
pub fn run(seed: u64) -> bool {
    let mut tally = Tally::default();
    let mut seeds = Random::new(seed);
    for (kind, _, cases, _) in KINDS {
        for _ in 0..cases {
            let case_seed = seeds.next();
            if let Err(difference) = run_case(kind, case_seed, &mut tally, false) {
                println!("DIFFERENCE after {} runs of the programs", tally.runs);
                difference.print(kind, case_seed);
                return false;
            }
        }
    }
    tally.print(seed);
    true
}

/// One case again, with every run of the programs shown: true when model and programs agree in it.
pub fn replay(kind: Kind, seed: u64) -> bool {
    match run_case(kind, seed, &mut Tally::default(), true) {
        Ok(()) => {
            println!("no difference in case {} {seed:#018x}", kind.name());
            true
        }
        Err(difference) => {
            println!("DIFFERENCE");
            difference.print(kind, seed);
            false
        }
    }
}

fn run_case(kind: Kind, seed: u64, tally: &mut Tally, shown: bool) -> Result<(), Difference> {
    let case = match kind {
        Kind::Short => short_case,
        Kind::Failing => failing_case,
        Kind::Pages => pages_case,
        Kind::File => file_case,
        Kind::Pipe => pipe_case,
        Kind::Live => live_case,
        Kind::Clean => clean_case,
        Kind::Edges => edges_case,
        Kind::Neutral => neutral_case,
    };
    for &program in kind.programs() {
        case(&mut Bench { program, tally, shown }, &mut Random::new(seed))?;
    }
    Ok(())
}

/// Each length of up to three words, by each way in.
fn short_case(bench: &mut Bench, random: &mut Random) -> Result<(), Difference> {
    for length in 0..=12 {
        let file = any_file(random, length);
        let exercise = bench.exercise(random, file);
        bench.take_file(random, &exercise)?;
        bench.take_pieces(random, &exercise)?;
        if bench.program.is_live() {
            bench.take_live(random, &exercise)?;
        }
    }
    Ok(())
}

/// Lengths round whole pages, with the settings word counted and not: some words and bytes less, exact, some more.
fn pages_case(bench: &mut Bench, random: &mut Random) -> Result<(), Difference> {
    let file = good_file(random, 24 * PAGE);
    for pages in [1, 2, 3, 4, 5, 16, 22, 23] {
        for length in pages * PAGE - 9..=pages * PAGE + 13 {
            let exercise = bench.exercise(random, file[..length].to_vec());
            bench.take_file(random, &exercise)?;
        }
    }
    Ok(())
}

/// A file of any length up to 100,000 words.
fn file_case(bench: &mut Bench, random: &mut Random) -> Result<(), Difference> {
    let widest = random.pick(&[400, 4000, 40_000, 40_000, 100_000, 400_004]);
    let exercise = bench.any_exercise(random, widest);
    bench.take_file(random, &exercise)
}

/// A file by a pipe, in pieces that do not wait for the output.
fn pipe_case(bench: &mut Bench, random: &mut Random) -> Result<(), Difference> {
    let widest = random.pick(&[400, 4000, 40_000, 200_000]);
    let exercise = bench.any_exercise(random, widest);
    bench.take_pieces(random, &exercise)
}

/// A file by a pipe, each piece after the output that was due before it.
fn live_case(bench: &mut Bench, random: &mut Random) -> Result<(), Difference> {
    let widest = random.pick(&[400, 4000, 40_000]);
    let exercise = bench.any_exercise(random, widest);
    bench.take_live(random, &exercise)
}

/// A clean file: `lesson` lists it with no refusal and ends in the figures that the file itself ends in, `clean` leaves
/// it as it is.
fn clean_case(bench: &mut Bench, random: &mut Random) -> Result<(), Difference> {
    let widest = random.pick(&[400, 4000, 40_000, 100_000]);
    let length = 4 + some_length(random, widest);
    let file = good_file(random, length);
    let exercise = bench.exercise(random, file);
    bench.take_file(random, &exercise)?;
    let clean = Given::clean(&exercise.file).output;
    let output = match bench.program {
        Program::Lesson => Output::Unrefused(last_figures(&exercise.given.output)),
        _ => Output::Bytes(&clean),
    };
    keep(&clean);
    bench.run(bench.call(&[]).input(FILE), Due { output, errors: Errors::Nothing })
}

/// A file whose speeds are first reached round the end of a page, with the settings word counted and not.
fn edges_case(bench: &mut Bench, random: &mut Random) -> Result<(), Difference> {
    let still = random.pick(&[1, 2, 3]) * PAGE / 4 - random.below(10) as usize;
    let ticks = random.pick(&[1, 2, 9, 60, 1200]);
    let words = random::late_start(random, still, ticks);
    let file = bytes_of(&[&[random::good_settings(random)], &words[..]].concat());
    let exercise = bench.exercise(random, file);
    bench.take_file(random, &exercise)?;
    bench.take_pieces(random, &exercise)
}

/// A file whose last car has cruise on and both levers in neutral, of any length or one near a whole page; now and then
/// it ends inside one more word.
fn neutral_case(bench: &mut Bench, random: &mut Random) -> Result<(), Difference> {
    let file = neutral_file(random);
    let exercise = bench.exercise(random, file);
    bench.take_file(random, &exercise)?;
    bench.take_pieces(random, &exercise)
}

/// Reads and writes that fail, help and usage.
fn failing_case(bench: &mut Bench, random: &mut Random) -> Result<(), Difference> {
    let short = bench.any_exercise(random, 4000);
    let length = some_length(random, 8000);
    let file = good_file(random, length);
    let middling = bench.exercise(random, file);
    let file = long_file(random);
    let long = bench.exercise(random, file);
    for exercise in [&short, &long] {
        keep(&exercise.file);
        failed_outputs(bench, exercise)?;
        bench.take_with_input_closed(exercise)?;
        bench.leave_at_once(exercise)?;
    }
    failed_inputs(bench, &short)?;
    bench.reset_input(&middling)?;
    if bench.program.is_live() {
        bench.fill_output(&long)?;
        bench.leave_midway(&long, 1 + random.below(5000) as usize)?;
    }
    help(bench)?;
    usage(bench)
}

/// Files that are not there, directories, and an input that is closed.
fn failed_inputs(bench: &mut Bench, exercise: &Exercise) -> Result<(), Difference> {
    let unnamed = exercise.arguments(None);
    let missing: [&[u8]; 4] = [b"none", b"target/no exercise", "n\u{e4}her".as_bytes(), &[b'x'; 255]];
    for name in missing {
        let told = bench.told(&[name, b": No such file or directory\n"].concat());
        bench.run(bench.call(&exercise.arguments(Some(name))), Due::told(told))?;
    }
    // A name that is no UTF-8 is none that the programs open.
    let told = bench.told(b"\xFF: Invalid or incomplete multibyte or wide character\n");
    bench.run(bench.call(&exercise.arguments(Some(b"\xFF"))), Due::told(told))?;
    for name in [".", "target", "/"] {
        let told = bench.told(format!("{name}: Is a directory\n").as_bytes());
        bench.run(bench.call(&exercise.arguments(Some(name.as_bytes()))), Due::told(told))?;
        let told = bench.told(b"standard input: Is a directory\n");
        bench.run(bench.call(&unnamed).input(name), Due::told(told.clone()))?;
        bench.run(bench.call(&unnamed).input(name).full_output(), Due::told(told))?;
    }
    let inside = format!("{FILE}/inside");
    let told = bench.told_more(&format!("{inside}: "));
    bench.run(bench.call(&exercise.arguments(Some(inside.as_bytes()))), Due::told(told))?;
    let told = bench.told_more("standard input: ");
    bench.run(bench.call_closing("<&-", &unnamed), Due::told(told))
}

/// An output with no room, and one that is closed: both are told where there is something to write.
fn failed_outputs(bench: &mut Bench, exercise: &Exercise) -> Result<(), Difference> {
    let due = |told: Errors| if exercise.given.output.is_empty() { exercise.taken() } else { Due::told(told) };
    let full = bench.told(b"standard output: No space left on device\n");
    let closed = bench.told(b"standard output: Bad file descriptor\n");
    let (unnamed, named) = (exercise.arguments(None), exercise.arguments(Some(FILE.as_bytes())));
    bench.run(bench.call(&unnamed).input(FILE).full_output(), due(full.clone()))?;
    bench.run(bench.call(&named).full_output(), due(full.clone()))?;
    bench.run(bench.call(&[b"--help"]).full_output(), Due::told(full))?;
    bench.run(bench.call_closing(">&-", &unnamed).input(FILE), due(closed.clone()))?;
    bench.run(bench.call_closing(">&-", &named), due(closed))
}

fn help(bench: &mut Bench) -> Result<(), Difference> {
    let due = Due { output: Output::Lines(HELP_LINES), errors: Errors::Nothing };
    bench.run(bench.call(&[b"--help"]).input(FILE), due)
}

/// Every other use.
fn usage(bench: &mut Bench) -> Result<(), Difference> {
    let uses = match bench.program {
        Program::Lesson | Program::Clean => file_misuses(),
        Program::Mark | Program::Moves => number_misuses(),
    };
    let (name, arguments) = (bench.program.name(), bench.program.arguments());
    let told = format!("usage: {name} {arguments} ({name} --help says more)\n").into_bytes();
    for arguments in uses {
        bench.run(bench.call(&arguments).input(FILE), Due::told(Errors::Line(told.clone())))?;
    }
    Ok(())
}

/// One argument that starts with `-`, or more than one.
fn file_misuses() -> Vec<Vec<&'static [u8]>> {
    let file = FILE.as_bytes();
    vec![
        vec![b"-"],
        vec![b"--"],
        vec![b"-h"],
        vec![b"--hel"],
        vec![b"--helps"],
        vec![b"--help", b"--help"],
        vec![b"--help", file],
        vec![file, b"--help"],
        vec![file, file],
        vec![b"none", b"none"],
        vec![file, b"", b"none"],
    ]
}

/// None, a first one that is no number or too great, with a file and without, or more than two.
fn number_misuses() -> Vec<Vec<&'static [u8]>> {
    let file = FILE.as_bytes();
    let no_numbers: [&[u8]; 22] = [
        b"",
        b"-",
        b"--",
        b"-h",
        b"--hel",
        b"--helps",
        b"-1",
        b"+5",
        b"12x",
        b"x12",
        b"0x10",
        b"50.0",
        b"1e3",
        b" 5",
        b"5 ",
        b"5\n",
        b"\xD9\xA3",
        b"4294967296",
        b"42949672950",
        b"0004294967296",
        b"18446744073709551616",
        &[b'9'; 100],
    ];
    let mut uses: Vec<Vec<&[u8]>> = vec![vec![]];
    uses.extend(no_numbers.iter().flat_map(|&number| [vec![number], vec![number, file]]));
    uses.extend([vec![b"--help", file], vec![file], vec![file, b"500"]]);
    uses.extend([vec![b"500", file, file], vec![b"500", file, b""], vec![b"500", b"none", b"none", b"none"]]);
    uses
}

// ---------------------------------------------------------------- Exercise files

/// An exercise file, and what the program under test gives for it, of `mark` for a speed mark and of `moves` for a wanted
/// speed, here as its argument.
struct Exercise {
    file: Vec<u8>,
    given: Given,
    number: Option<String>,
}

impl Exercise {
    /// The program's arguments for the file by this name, or by standard input.
    fn arguments<'a>(&'a self, name: Option<&'a [u8]>) -> Vec<&'a [u8]> {
        self.number.iter().map(|number| number.as_bytes()).chain(name).collect()
    }

    /// Has it a first word that is refused? Then the program reads no more.
    fn has_bad_settings(&self) -> bool {
        words_of(&self.file).first().is_some_and(|&settings| Car::start(settings).is_err())
    }

    /// All that is given, and nothing else.
    fn taken(&self) -> Due<'_> {
        let told = self.given.errors().into_bytes();
        let errors = if told.is_empty() { Errors::Nothing } else { Errors::Line(told) };
        Due { output: Output::Bytes(&self.given.output), errors }
    }
}

/// Makes it the file of the runs to come.
fn keep(file: &[u8]) {
    fs::write(FILE, file).unwrap_or_else(|error| panic!("{FILE}: {error}"));
}

/// A speed mark for a file.
fn some_mark(random: &mut Random, file: &[u8]) -> u32 {
    let words = words_of(file);
    let car = words.first().and_then(|&settings| Car::start(settings).ok());
    let seconds = car.map_or(Vec::new(), |car| car.seconds(&words[1..]).0);
    random::mark(random, &seconds)
}

/// A wanted speed for a file.
fn some_wanted(random: &mut Random, file: &[u8]) -> u32 {
    random::wanted(random, &Reached::of(last_car(&words_of(file))).desired())
}

/// Any length up to `widest`, or one near a whole page.
fn some_length(random: &mut Random, widest: u32) -> usize {
    let length = random.below(widest + 1) as usize;
    if random.once_in(3) {
        (length / PAGE * PAGE + random.below(27) as usize).saturating_sub(13)
    } else {
        length
    }
}

/// A file of this many bytes, which may end inside a word; its settings word is now and then a bad one.
fn any_file(random: &mut Random, length: usize) -> Vec<u8> {
    let settings = if random.once_in(4) { random::settings_word(random) } else { random::good_settings(random) };
    file_from(random, settings, length)
}

fn good_file(random: &mut Random, length: usize) -> Vec<u8> {
    let settings = random::good_settings(random);
    file_from(random, settings, length)
}

fn file_from(random: &mut Random, settings: u32, length: usize) -> Vec<u8> {
    let car = Car::start(settings).unwrap_or_else(|_| random::fresh_car(random));
    let words = random::event_words(random, car, length / 4);
    let mut bytes = bytes_of(&[&[settings], &words[..]].concat());
    bytes.truncate(length);
    bytes
}

fn neutral_file(random: &mut Random) -> Vec<u8> {
    let settings = random::good_settings(random);
    let car = Car::start(settings).expect("good settings");
    let widest = random.pick(&[400, 4000, 40_000]);
    let count = some_length(random, widest) / 4;
    let mut bytes = bytes_of(&[&[settings], &random::neutral_walk(random, car, count)[..]].concat());
    if random.once_in(8) {
        bytes.extend((0..random.between(1, 3)).map(|_| random.below(256) as u8));
    }
    bytes
}

/// A file of accepted words alone, for which `lesson` and `clean` give more than a pipe or a socket holds.
fn long_file(random: &mut Random) -> Vec<u8> {
    let settings = random::good_settings(random);
    let car = Car::start(settings).expect("good settings");
    let count = 100_000 + random.below(20_000) as usize;
    bytes_of(&[&[settings], &random::accepted_words(random, car, count)[..]].concat())
}

/// A file in pieces of odd sizes, of 1 to 5,000 bytes; many are small or near a page.
fn pieces<'a>(random: &mut Random, mut file: &'a [u8]) -> Vec<&'a [u8]> {
    let sorts = if file.len() < 2000 { random.pick(&[2, 3, 6]) } else { 6 };
    let mut pieces = Vec::new();
    while !file.is_empty() {
        let size = match random.below(sorts) {
            0 => 1,
            1 => 1 + random.below(3),
            2 => 1 + random.below(9),
            3 => 1 + random.below(400),
            4 => PAGE as u32 - 5 + random.below(11),
            _ => 1 + random.below(5000),
        };
        let (piece, rest) = file.split_at(file.len().min(size as usize));
        pieces.push(piece);
        file = rest;
    }
    pieces
}

// ---------------------------------------------------------------- Calls, and what is due from them

/// A call of a program and how it is shown.
struct Call {
    command: Command,
    text: String,
}

impl Call {
    /// With nothing to read, and an output that is taken here.
    fn new(mut command: Command) -> Call {
        command.stdin(Stdio::null()).stdout(Stdio::piped());
        Call { text: format!("{command:?}"), command }
    }

    fn input(mut self, path: &str) -> Call {
        let file = File::open(path).unwrap_or_else(|error| panic!("{path}: {error}"));
        self.command.stdin(file);
        self.note(&format!(" < {path}"))
    }

    fn full_output(mut self) -> Call {
        let file = File::create("/dev/full").unwrap_or_else(|error| panic!("/dev/full: {error}"));
        self.command.stdout(file);
        self.note(" > /dev/full")
    }

    fn pipe(mut self) -> Call {
        self.command.stdin(Stdio::piped());
        self.note(", its input a pipe")
    }

    fn note(mut self, more: &str) -> Call {
        self.text += more;
        self
    }
}

/// What a call is to leave; its status is 0.
struct Due<'a> {
    output: Output<'a>,
    errors: Errors,
}

/// On standard output.
enum Output<'a> {
    Bytes(&'a [u8]),
    /// The front of these bytes, and not all of them.
    Front(&'a [u8]),
    /// So many lines.
    Lines(usize),
    /// A listing with no refusal that ends in these figures.
    Unrefused(Option<String>),
}

/// On standard error.
#[derive(Clone)]
enum Errors {
    Nothing,
    Line(Vec<u8>),
    /// One line that starts with this and says more.
    LineFrom(String),
}

impl Due<'_> {
    /// Nothing but a line on standard error.
    fn told(errors: Errors) -> Due<'static> {
        Due { output: Output::Bytes(&[]), errors }
    }

    /// These bytes until the reader went away, which is told.
    fn left(bytes: &[u8], errors: Errors) -> Due<'_> {
        Due { output: Output::Bytes(bytes), errors }
    }

    /// The first that differs: what is due and what the program left.
    fn difference(&self, left: &Left, parts: Parts) -> Option<(String, String)> {
        if !left.in_time {
            return Some((String::from("ends"), format!("still under way after {LIMIT:?}, {}", so_far(left))));
        }
        if !self.errors.fit(&left.errors) {
            let told = format!("{}, {}", quoted(&left.errors), so_far(left));
            return Some((self.errors.shown(), format!("on standard error {told}")));
        }
        self.output.difference(&left.output, parts).or_else(|| {
            (left.status.code() != Some(0)).then(|| (String::from("status 0"), format!("{}", left.status)))
        })
    }
}

impl Output<'_> {
    fn difference(&self, found: &[u8], parts: Parts) -> Option<(String, String)> {
        match self {
            Output::Bytes(bytes) => first_difference(parts, bytes, found),
            Output::Front(bytes) if found.len() < bytes.len() => first_difference(parts, &bytes[..found.len()], found),
            Output::Front(bytes) => {
                Some((format!("less than {} bytes", bytes.len()), format!("{} bytes", found.len())))
            }
            Output::Lines(count) => {
                let whole = found.ends_with(b"\n") && lines(found) == *count;
                (!whole).then(|| (format!("{count} lines"), format!("{} lines: {}", lines(found), quoted(found))))
            }
            Output::Unrefused(figures) => {
                let refused = String::from_utf8_lossy(found).lines().find(|line| is_refused(line)).map(String::from);
                let ends = last_figures(found);
                (refused.is_some() || ends != *figures).then(|| {
                    (format!("no refusal, at the end {figures:?}"), format!("refused {refused:?}, at the end {ends:?}"))
                })
            }
        }
    }
}

/// The figures in which a listing ends: those of its last event, a fresh car's where it has none.
fn last_figures(listing: &[u8]) -> Option<String> {
    let listing = String::from_utf8_lossy(listing);
    let mut lines = listing.lines().filter(|line| !line.starts_with("refused"));
    lines.next()?;
    lines.last().map_or(Some("0 0 0 0 0"), |line| line.splitn(3, ' ').nth(2)).map(String::from)
}

impl Errors {
    fn fit(&self, found: &[u8]) -> bool {
        match self {
            Errors::Nothing => found.is_empty(),
            Errors::Line(line) => found == line,
            Errors::LineFrom(start) => {
                found.starts_with(start.as_bytes())
                    && found.len() > start.len() + 1
                    && found.ends_with(b"\n")
                    && lines(found) == 1
            }
        }
    }

    fn shown(&self) -> String {
        match self {
            Errors::Nothing => String::from("nothing on standard error"),
            Errors::Line(line) => format!("on standard error {}", quoted(line)),
            Errors::LineFrom(start) => format!("on standard error one line that starts {start:?}"),
        }
    }
}

fn lines(text: &[u8]) -> usize {
    text.iter().filter(|&&byte| byte == b'\n').count()
}

/// The front of a text as Rust would write it.
fn quoted(text: &[u8]) -> String {
    format!("{:?}", String::from_utf8_lossy(&text[..text.len().min(400)]))
}

fn so_far(left: &Left) -> String {
    format!("{} bytes on standard output", left.output.len())
}

/// The first part in which two outputs differ, as it is in each of them.
fn first_difference(parts: Parts, due: &[u8], found: &[u8]) -> Option<(String, String)> {
    let (place, [model, program]) = parts.difference(due, found)?;
    let shown = |output: &[u8], part| format!("output {place} of {} bytes: {part}", output.len());
    Some((shown(due, model), shown(found, program)))
}

// ---------------------------------------------------------------- Runs of the programs

/// The first place where model and program differ.
struct Difference {
    call: String,
    model: String,
    program: String,
}

impl Difference {
    fn print(&self, kind: Kind, seed: u64) {
        let program = std::env::args().next().unwrap_or_default();
        println!("case:    {} {seed:#018x}", kind.name());
        println!("call:    {}", self.call);
        println!("model:   {}", self.model);
        println!("program: {}", self.program);
        println!("replay:  {program} replay {} {seed:#018x}", kind.name());
    }
}

/// Where a program runs and runs are counted, and shown when a case is replayed.
struct Bench<'a> {
    program: Program,
    tally: &'a mut Tally,
    shown: bool,
}

/// A number as an argument, now and then behind zeros.
fn typed(random: &mut Random, number: u32) -> String {
    "0".repeat(random.pick(&[0, 0, 0, 1, 3, 30])) + &number.to_string()
}

/// A reader that takes all.
const ALL: u64 = u64::MAX;

impl Bench<'_> {
    fn call(&self, arguments: &[&[u8]]) -> Call {
        let mut command = Command::new(self.program.path());
        command.args(arguments.iter().map(|argument| OsStr::from_bytes(argument)));
        Call::new(command)
    }

    /// With one of its files closed by the shell.
    fn call_closing(&self, redirection: &str, arguments: &[&[u8]]) -> Call {
        let mut command = Command::new("sh");
        let script = format!("exec \"$0\" \"$@\" {redirection}");
        command.args(["-c", &script, &self.program.path()]);
        command.args(arguments.iter().map(|argument| OsStr::from_bytes(argument)));
        Call::new(command)
    }

    /// A line on standard error behind the program's name.
    fn told(&self, text: &[u8]) -> Errors {
        Errors::Line([self.program.name().as_bytes(), b": ", text].concat())
    }

    /// One that starts with this and says more.
    fn told_more(&self, start: &str) -> Errors {
        Errors::LineFrom(format!("{}: {start}", self.program.name()))
    }

    fn exercise(&self, random: &mut Random, file: Vec<u8>) -> Exercise {
        match self.program {
            Program::Lesson => Exercise { given: Given::listing(&file), number: None, file },
            Program::Clean => Exercise { given: Given::clean(&file), number: None, file },
            Program::Mark => {
                let mark = some_mark(random, &file);
                Exercise { given: Given::mark(&file, mark), number: Some(typed(random, mark)), file }
            }
            Program::Moves => {
                let wanted = some_wanted(random, &file);
                Exercise { given: Given::moves(&file, wanted), number: Some(typed(random, wanted)), file }
            }
        }
    }

    /// Any file of up to `widest` bytes.
    fn any_exercise(&self, random: &mut Random, widest: u32) -> Exercise {
        let length = some_length(random, widest);
        let file = any_file(random, length);
        self.exercise(random, file)
    }

    fn run(&mut self, call: Call, due: Due) -> Result<(), Difference> {
        self.judge(&call.text, Session::start(call.command, ALL).finish(), due)
    }

    fn judge(&mut self, call: &str, left: Left, due: Due) -> Result<(), Difference> {
        self.tally.runs += 1;
        self.tally.lines_told += lines(&left.errors) as u64;
        if self.shown {
            println!("{call}\n  leaves {} and on standard error {}", so_far(&left), quoted(&left.errors));
        }
        match due.difference(&left, self.program.parts()) {
            None => Ok(()),
            Some((model, program)) => Err(Difference { call: call.to_string(), model, program }),
        }
    }

    /// By standard input, and by the file's name, now and then a long one.
    fn take_file(&mut self, random: &mut Random, exercise: &Exercise) -> Result<(), Difference> {
        keep(&exercise.file);
        if matches!(self.program, Program::Moves) {
            self.tally.count_moves(&exercise.given.output);
        }
        self.tally.events += 2 * exercise.given.events() as u64;
        self.run(self.call(&exercise.arguments(None)).input(FILE), exercise.taken())?;
        let detour = if random.once_in(20) { random.below(1900) } else { 0 };
        let name = "./".repeat(detour as usize) + FILE;
        self.run(self.call(&exercise.arguments(Some(name.as_bytes()))), exercise.taken())
    }

    /// The pieces of a run, their sizes shown in a replay.
    fn pieces<'a>(&self, random: &mut Random, exercise: &'a Exercise) -> Vec<&'a [u8]> {
        let pieces = pieces(random, &exercise.file);
        if self.shown {
            println!("pieces of {:?} bytes", pieces.iter().map(|piece| piece.len()).collect::<Vec<_>>());
        }
        pieces
    }

    /// In pieces, some after a pause; none waits for the output.
    fn take_pieces(&mut self, random: &mut Random, exercise: &Exercise) -> Result<(), Difference> {
        keep(&exercise.file);
        self.tally.events += exercise.given.events() as u64;
        let call = self.call(&exercise.arguments(None)).pipe();
        let session = Session::start(call.command, ALL);
        for piece in self.pieces(random, exercise) {
            session.send(piece);
            if random.once_in(4) {
                thread::sleep(Duration::from_micros(random.below(200).into()));
            }
        }
        self.judge(&format!("{}, {FILE} in pieces", call.text), session.finish(), exercise.taken())
    }

    /// In pieces, and after each of them exactly the output that is due by then.
    fn take_live(&mut self, random: &mut Random, exercise: &Exercise) -> Result<(), Difference> {
        keep(&exercise.file);
        self.tally.events += exercise.given.events() as u64;
        let call = self.call(&[]).pipe();
        let mut session = Session::start(call.command, ALL);
        let mut come = 0;
        for piece in self.pieces(random, exercise) {
            session.send(piece);
            come += piece.len();
            self.tally.pieces += 1;
            let due = exercise.given.due(come);
            let nothing_more = if session.output.reach(due.len()) { "" } else { ", then nothing more" };
            if let Some((model, program)) = first_difference(self.program.parts(), due, &session.output.text) {
                let call = format!("{}, {come} bytes of {FILE}, the last {} in one piece", call.text, piece.len());
                return Err(Difference { call, model, program: program + nothing_more });
            }
        }
        if exercise.has_bad_settings() && !session.output.reach_end() {
            let call = format!("{}, {FILE} live, and its end awaited", call.text);
            let [model, program] = ["ends at the settings word", "reads on"].map(String::from);
            return Err(Difference { call, model, program });
        }
        self.judge(&format!("{}, {FILE} live", call.text), session.finish(), exercise.taken())
    }

    /// The file by its name while standard input is closed, so that the file takes its number.
    fn take_with_input_closed(&mut self, exercise: &Exercise) -> Result<(), Difference> {
        self.tally.events += exercise.given.events() as u64;
        self.run(self.call_closing("<&-", &exercise.arguments(Some(FILE.as_bytes()))), exercise.taken())
    }

    /// The reader is gone before the program can write, if it has something to write.
    fn leave_at_once(&mut self, exercise: &Exercise) -> Result<(), Difference> {
        let call = self.call(&exercise.arguments(None)).pipe().note(", its reader gone");
        let mut session = Session::start(call.command, 0);
        session.output.reach_end();
        session.send(&exercise.file);
        let broken = self.told(b"standard output: Broken pipe\n");
        let due = if exercise.given.output.is_empty() { exercise.taken() } else { Due::left(&[], broken) };
        self.judge(&call.text, session.finish(), due)
    }

    /// The reader goes away after so many bytes of an output that no pipe holds.
    fn leave_midway(&mut self, exercise: &Exercise, reads: usize) -> Result<(), Difference> {
        keep(&exercise.file);
        let call = self.call(&[FILE.as_bytes()]).note(&format!(", its reader gone after {reads} bytes"));
        let session = Session::start(call.command, reads as u64);
        let broken = self.told(b"standard output: Broken pipe\n");
        self.judge(&call.text, session.finish(), Due::left(&exercise.given.output[..reads], broken))
    }

    /// An output that takes the first pages and then no more: a socket that does not wait, which nobody reads.
    fn fill_output(&mut self, exercise: &Exercise) -> Result<(), Difference> {
        keep(&exercise.file);
        let (mut ours, theirs) = UnixStream::pair().expect("a pair of sockets");
        theirs.set_nonblocking(true).expect("a socket that does not wait");
        let mut call = self.call(&[FILE.as_bytes()]).note(", its output a socket that fills");
        call.command.stdout(OwnedFd::from(theirs));
        let mut left = Session::start(call.command, ALL).finish();
        ours.read_to_end(&mut left.output).expect("what the program wrote");
        let errors = self.told_more("standard output: ");
        self.judge(&call.text, left, Due { output: Output::Front(&exercise.given.output), errors })
    }

    /// An input that fails after the file's bytes: a socket whose other end is closed with a byte unread.
    fn reset_input(&mut self, exercise: &Exercise) -> Result<(), Difference> {
        keep(&exercise.file);
        let (mut ours, mut theirs) = UnixStream::pair().expect("a pair of sockets");
        theirs.write_all(b"!").expect("room for a byte");
        let mut call =
            self.call(&exercise.arguments(None)).note(&format!(", its input a socket that fails after {FILE}"));
        call.command.stdin(OwnedFd::from(theirs));
        let mut session = Session::start(call.command, ALL);
        ours.write_all(&exercise.file).expect("room for a short file");
        let due = exercise.given.due(exercise.file.len());
        session.output.reach(due.len());
        drop(ours);
        let errors = self.told_more("standard input: ");
        self.judge(&call.text, session.finish(), Due { output: Output::Bytes(due), errors })
    }
}

// ---------------------------------------------------------------- Counts

#[derive(Default)]
struct Tally {
    runs: u64,
    /// Events in the files.
    events: u64,
    /// Pieces after which the output was awaited.
    pieces: u64,
    /// Lines on standard error.
    lines_told: u64,
    /// Files for which `moves` gives no words, some words, and a refusal.
    moves: [u64; 3],
}

impl Tally {
    fn count_moves(&mut self, output: &[u8]) {
        let sort = match output.first() {
            None => 0,
            Some(b'r') => 2,
            Some(_) => 1,
        };
        self.moves[sort] += 1;
    }

    fn print(&self, seed: u64) {
        println!(
            "no difference in {} runs of the programs, seed {seed}: {} events, {} pieces awaited, {} lines told",
            self.runs, self.events, self.pieces, self.lines_told
        );
        let [empty, lists, refusals] = self.moves;
        println!("  files for moves: {lists} with a list, {empty} with an empty one, {refusals} refused");
    }
}
