//! Compares libcruise.a, the programs `lesson`, `clean`, `mark` and `moves` and the test programs' expected outputs with a
//! model of document 01, and measures the library and the model.

mod calls;
mod compare;
mod exercise;
mod expected;
mod inputs;
mod library;
mod moves;
mod outside;
mod paper;
mod parts;
mod program;
mod random;
mod session;
mod settling;
mod sightings;
mod speed;
mod tests;
mod tuned;

use std::process::ExitCode;
use std::time::Instant;

const USAGE: &str = "usage:
[tests [DIR] | compare [SEED] | program [SEED] | settling | moves | sightings | replay KIND SEED | speed |
once WORKLOAD WAY]
compare tries the library, program the programs `lesson`, `clean`, `mark` and `moves`; with no argument tests, compare,
settling, moves, program are run
tests holds the test programs' expected outputs to the model; with DIR, a folder of outside vectors, it holds that folder's
answers to the model and then writes the programs' inputs and expected outputs
settling leaves cars of every v and every D to cruise, by the library and by the model
moves asks the library and the model for the moves of the lever from every D to every wanted D
sightings tries the library's conversion of every float, as metres and as km/h
KIND is one of fresh, walk, lesson, damaged, cars, alike, tuned, copy, mark, sighting, see, moves of the library, short,
failing, pages, file, pipe, live, clean, edges, neutral of the programs; a SEED is decimal or 0x hexadecimal
WORKLOAD is one of mixed, accepted, ticks, random, fresh-ticks, fresh-random, half; WAY is one of library, tuned, never,
often, where the car is fresh (all but ticks and random) copy, exact, and of half mark, found, found-lesson";

fn main() -> ExitCode {
    let start = Instant::now();
    let arguments: Vec<String> = std::env::args().skip(1).collect();
    let arguments: Vec<&str> = arguments.iter().map(String::as_str).collect();
    let agrees = match arguments[..] {
        [] => Some(tests::run() && compare::run(1) && settling::run() && moves::run() && program::run(1)),
        ["tests"] => Some(tests::run()),
        ["tests", folder] => Some(tests::renew(folder)),
        ["compare"] => Some(compare::run(1)),
        ["compare", seed] => number(seed).map(compare::run),
        ["program"] => Some(program::run(1)),
        ["program", seed] => number(seed).map(program::run),
        ["settling"] => Some(settling::run()),
        ["moves"] => Some(moves::run()),
        ["sightings"] => Some(sightings::run()),
        ["replay", kind, seed] => number(seed).and_then(|seed| replay(kind, seed)),
        ["speed"] => {
            speed::run(start);
            Some(true)
        }
        ["once", workload, way] => speed::run_once(workload, way).map(|()| true),
        _ => None,
    };
    match agrees {
        Some(true) => ExitCode::SUCCESS,
        Some(false) => ExitCode::from(1),
        None => {
            eprintln!("{USAGE}");
            ExitCode::from(2)
        }
    }
}

/// One case of the library or of the programs again.
fn replay(kind: &str, seed: u64) -> Option<bool> {
    let of_library = compare::Kind::named(kind).map(|kind| compare::replay(kind, seed));
    of_library.or_else(|| program::Kind::named(kind).map(|kind| program::replay(kind, seed)))
}

fn number(text: &str) -> Option<u64> {
    match text.strip_prefix("0x") {
        Some(digits) => u64::from_str_radix(digits, 16).ok(),
        None => text.parse().ok(),
    }
}
