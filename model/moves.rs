//! The library's moves of the lever from every D to every wanted D, alone and towing, held to the model's (document 02,
//! §13).

use crate::calls::Reached;
use crate::compare::{lists_text, moves_given, moves_text};
use crate::library;
use crate::paper::{Car, Key, MOST_MOVES};
use std::thread;
use std::time::Instant;

/// How many threads share the cars.
const THREADS: i32 = 2;
/// Wanted beside 0 to two above the ceiling: D in fewer bits than it has, and the greatest numbers.
const FAR: [u32; 10] = [2048, 2049, 4095, 4096, 65_535, 65_536, 66_036, 0x7FFF_FFFF, 0x8000_0000 + 500, u32::MAX];

/// How many pairs of a D and a wanted D had a list, by its words, and how many were refused with 18 and 26.
#[derive(Default)]
struct Counts {
    lists: [u64; MOST_MOVES + 1],
    bad: u64,
    none: u64,
}

impl Counts {
    fn add(&mut self, other: &Counts) {
        self.lists.iter_mut().zip(other.lists).for_each(|(sum, count)| *sum += count);
        self.bad += other.bad;
        self.none += other.none;
    }

    fn print(&self, name: &str, start: Instant) {
        let lists: u64 = self.lists.iter().sum();
        let pairs = lists + self.bad + self.none;
        println!("no difference in {pairs} pairs of a D and a wanted D, {name}, {:.1?}", start.elapsed());
        println!("  {lists} lists of moves, {}", lists_text(&self.lists));
        println!("  {} refused with 26, {} with 18, those of D 0", self.none, self.bad);
    }
}

/// True when library and model agree everywhere.
pub fn run() -> bool {
    sweep("alone", 0) && sweep("towing", 1)
}

fn sweep(name: &str, towing: u32) -> bool {
    let start = Instant::now();
    let shares: Vec<Result<Counts, String>> = thread::scope(|scope| {
        let started: Vec<_> = (0..THREADS).map(|first| scope.spawn(move || swept(towing, first))).collect();
        started.into_iter().map(|thread| thread.join().expect("a thread that ends")).collect()
    });
    let mut counts = Counts::default();
    for share in shares {
        match share {
            Ok(share) => counts.add(&share),
            Err(difference) => {
                println!("{difference}");
                return false;
            }
        }
    }
    counts.print(name, start);
    true
}

/// One thread's share of the Ds, up to the first difference.
fn swept(towing: u32, first: i32) -> Result<Counts, String> {
    let mut counts = Counts::default();
    let top = cruising(towing, 0).ceiling();
    for desired in (first..=top).step_by(THREADS as usize) {
        let record = cruising(towing, desired).write();
        let reached = Reached::of(Car::read(&record));
        for wanted in (0..=top as u32 + 2).chain(FAR) {
            let (refusal, moves) = reached.moved(wanted);
            let expected = moves_given(refusal, moves);
            let lent = record;
            let given = library::moves(Some(&lent), wanted);
            if given != expected || lent != record {
                let [model, library] = [expected, given].map(moves_text);
                return Err(format!(
                    "DIFFERENCE in cruise_moves from D {desired} to {wanted}, record {record:08X?}\n\
                     model:   {model}\nlibrary: {library} record {lent:08X?}"
                ));
            }
            match refusal {
                0 => counts.lists[moves.count] += 1,
                18 => counts.bad += 1,
                _ => counts.none += 1,
            }
        }
    }
    Ok(counts)
}

/// A car with the key on, cruise on, both levers in neutral and this D; with D 0 it is not good.
fn cruising(towing: u32, desired: i32) -> Car {
    let car = Car::fresh(1, 0, towing).expect("good settings");
    Car { key: Key::On, cruise: true, desired, ..car }
}
