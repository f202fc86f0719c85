//! Cruise that is left alone settles (document 02, §10): from every v to every D, towing too (§11), by lessons of the
//! library and of the model.

use crate::library;
use crate::paper::{Car, Key, Mode, CLOCK_END, NOT_READY};
use std::cmp::Reverse;
use std::thread;
use std::time::Instant;

/// "Some tick among the next 64 accepted ones ends with v = D."
const TICKS: usize = 64;
const TOP_SPEED: i32 = 5000;
/// The ceiling of D with towing 0 and 1.
const TOP_DESIRED: [i32; 2] = [2000, 1000];
/// How many threads share the desired speeds.
const THREADS: i32 = 2;

/// The most ticks that a car needs, from below D and from above it, and the first such car's D and v.
type Slowest = [(usize, Reverse<i32>, Reverse<i32>); 2];

/// True when library and model agree, and every car settles.
pub fn run() -> bool {
    let start = Instant::now();
    let shares: Vec<Result<Slowest, String>> = thread::scope(|scope| {
        let started: Vec<_> = (1..=THREADS).map(|first| scope.spawn(move || swept(first))).collect();
        started.into_iter().map(|thread| thread.join().expect("a thread that ends")).collect()
    });
    let mut slowest = Slowest::default();
    for share in shares {
        match share {
            Ok(share) => slowest.iter_mut().zip(share).for_each(|(most, car)| *most = car.max(*most)),
            Err(difference) => {
                println!("{difference}");
                return false;
            }
        }
    }
    let cars = (TOP_SPEED + 1) * TOP_DESIRED.iter().sum::<i32>();
    println!("no difference in {cars} cars left to cruise, {:.1?}", start.elapsed());
    let [below, above] =
        slowest.map(|(ticks, Reverse(desired), Reverse(speed))| format!("{ticks} ticks from v {speed} to D {desired}"));
    println!("  all settle, the slowest from below in {below}, from above in {above}");
    true
}

/// Every v with one thread's share of the desired speeds, up to the first difference.
fn swept(first: i32) -> Result<Slowest, String> {
    let mut slowest = Slowest::default();
    for (towing, top) in (0..).zip(TOP_DESIRED) {
        for desired in (first..=top).step_by(THREADS as usize) {
            for speed in 0..=TOP_SPEED {
                let ticks = settled(left_alone(towing, speed, desired))?;
                let most = &mut slowest[usize::from(speed > desired)];
                *most = (ticks, Reverse(desired), Reverse(speed)).max(*most);
            }
        }
    }
    Ok(slowest)
}

/// "A car with key on, cruise on, gas 0, both levers neutral, limiter off, and mode 1 or R 0 or 255", as many ticks
/// before the clock's end as it gets, with a test of the radar among them.
fn left_alone(towing: u32, speed: i32, desired: i32) -> Car {
    let now = CLOCK_END - TICKS as i32;
    let car = Car::fresh(1, 0, towing).expect("good settings");
    let car = Car { key: Key::On, cruise: true, speed, desired, now, tested: now - 580, ..car };
    match (speed + desired) % 3 {
        0 => Car { ready: true, range: 0, ..car },
        1 => Car { mode: Mode::Adaptive, ready: true, range: 0, ..car },
        _ => Car { mode: Mode::Adaptive, ready: false, range: NOT_READY, ..car },
    }
}

/// The number of the tick that first ends with v = D; each later one does, too.
fn settled(car: Car) -> Result<usize, String> {
    let words = [0xA000_0000 | u32::from(car.ready); TICKS];
    let (mut answers, mut expected) = ([0; TICKS], [0; TICKS]);
    let lesson = car.lesson(&words, &mut expected).expect("room for the answers");
    let mut record = car.write();
    let (refusal, _) = library::lesson(Some(&mut record), Some(&words), Some(&mut answers));
    // a is 0 at D and nowhere else
    let at_desired = Car { speed: car.desired, ..car }.answer(0);
    let away = answers.iter().take_while(|&&answer| answer != at_desired).count();
    let stays = away < TICKS && answers[away..] == [at_desired; TICKS][away..];
    if refusal == 0 && answers == expected && record == lesson.car.write() && stays && lesson.accepted == TICKS {
        return Ok(away + 1);
    }
    let ticks = format!("model:   {expected:08X?}\nlibrary: {refusal} {answers:08X?}");
    Err(format!("DIFFERENCE in a car left to cruise for {TICKS} ticks: {car:?}\n{ticks}"))
}
