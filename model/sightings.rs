//! The library's conversion of every float there is, as metres and as km/h, held to the exact model's.

use crate::calls::converted;
use crate::compare::sighting_text;
use crate::library::{self, GUARD};
use std::thread;
use std::time::Instant;

/// The float beside the one that is tried: 20 metres, 100 km/h.
const METRES: u32 = 0x41A0_0000;
const KMH: u32 = 0x42C8_0000;
/// How many threads share the floats; a power of two.
const THREADS: u32 = 2;

/// How many vehicles gave a car ahead, a free road, 22 and 23.
type Counts = [u64; 4];

/// True when library and model agree everywhere.
pub fn run() -> bool {
    sweep("metres", |float| [0, float, KMH]) && sweep("km/h", |float| [0, METRES, float])
}

/// The sightings of all floats.
fn sweep(name: &str, sighting: impl Fn(u32) -> [u32; 3] + Copy + Send) -> bool {
    let start = Instant::now();
    let shares: Vec<Result<Counts, String>> = thread::scope(|scope| {
        let started: Vec<_> = (0..THREADS).map(|share| scope.spawn(move || swept(share, sighting))).collect();
        started.into_iter().map(|thread| thread.join().expect("a thread that ends")).collect()
    });
    let mut sums = [0; 4];
    for share in shares {
        match share {
            Ok(counts) => sums.iter_mut().zip(counts).for_each(|(sum, count)| *sum += count),
            Err(difference) => {
                println!("{difference}");
                return false;
            }
        }
    }
    let [cars, free_roads, bad_floats, too_fast] = sums;
    println!("no difference in {} floats as {name}, {:.1?}", sums.iter().sum::<u64>(), start.elapsed());
    println!("  {cars:>10} cars, {free_roads} free roads, {bad_floats} refused with 22, {too_fast} with 23");
    true
}

/// The sightings of one thread's share of the floats, up to the first difference.
fn swept(share: u32, sighting: impl Fn(u32) -> [u32; 3]) -> Result<Counts, String> {
    let mut counts = [0; 4];
    for step in 0..=u32::MAX / THREADS {
        let numbers = sighting(step * THREADS + share);
        let [kind, metres, kmh] = numbers;
        let (refusal, word) = converted(numbers);
        let (given, out) = library::sighting(kind, metres, kmh);
        if given != refusal || out != [GUARD, word, GUARD] {
            let model = format!("{refusal} word {word:08X}");
            return Err(format!(
                "DIFFERENCE in cruise_sighting {}\nmodel:   {model}\nlibrary: {given} cells {out:08X?}",
                sighting_text(numbers)
            ));
        }
        counts[match (refusal, word & 0xFF) {
            (0, 1..) => 0,
            (0, 0) => 1,
            (22, _) => 2,
            _ => 3,
        }] += 1;
    }
    Ok(counts)
}
