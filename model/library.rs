//! The library under test: cruise.h and safe wrappers. A buffer is a slice; none is a null pointer with length 0.
//! Each number that the library writes stands between two guards, and comes back with them.

use crate::paper::MOST_MOVES;
use std::ptr::{null, null_mut};

mod c {
    extern "C" {
        pub fn cruise_fresh(settings: u32, record: *mut u32, length: usize) -> u32;
        pub fn cruise_drive(record: *mut u32, length: usize, word: u32) -> u32;
        pub fn cruise_lesson(
            record: *mut u32,
            length: usize,
            words: *const u32,
            count: usize,
            answers: *mut u32,
            room: usize,
            accepted: *mut usize,
            refused: *mut usize,
        ) -> u32;
        pub fn cruise_test(record: *const u32, length: usize) -> u32;
        pub fn cruise_figures(
            record: *const u32,
            length: usize,
            speed: *mut u32,
            desired: *mut u32,
            acceleration: *mut i32,
            visual: *mut u32,
            acoustic: *mut u32,
            distance: *mut u32,
        ) -> u32;
        pub fn cruise_alike(a: *const u32, a_length: usize, b: *const u32, b_length: usize, alike: *mut u32) -> u32;
        pub fn cruise_copy(
            settings: u32,
            words: *const u32,
            count: usize,
            copy: *mut u32,
            room: usize,
            written: *mut usize,
        ) -> u32;
        pub fn cruise_mark(
            record: *const u32,
            length: usize,
            words: *const u32,
            count: usize,
            mark: u32,
            event: *mut usize,
            seconds: *mut usize,
        ) -> u32;
        pub fn cruise_sighting(kind: u32, metres: f32, kmh: f32, word: *mut u32) -> u32;
        pub fn cruise_see(record: *mut u32, length: usize, kind: u32, metres: f32, kmh: f32) -> u32;
        pub fn cruise_moves(record: *const u32, length: usize, wanted: u32, moves: *mut u32, count: *mut usize) -> u32;
    }
}

/// What every out-cell and guard holds before a call.
pub const GUARD: u32 = 0x5A17_C0DE;

fn lent(buffer: Option<&[u32]>) -> (*const u32, usize) {
    buffer.map_or((null(), 0), |words| (words.as_ptr(), words.len()))
}

fn lent_mut(buffer: Option<&mut [u32]>) -> (*mut u32, usize) {
    buffer.map_or((null_mut(), 0), |words| (words.as_mut_ptr(), words.len()))
}

pub fn fresh(settings: u32, record: Option<&mut [u32]>) -> u32 {
    let (record, length) = lent_mut(record);
    unsafe { c::cruise_fresh(settings, record, length) }
}

pub fn drive(record: Option<&mut [u32]>, word: u32) -> u32 {
    let (record, length) = lent_mut(record);
    unsafe { c::cruise_drive(record, length, word) }
}

/// The refusal, and: guard, accepted, guard, refused, guard.
pub fn lesson(record: Option<&mut [u32]>, words: Option<&[u32]>, answers: Option<&mut [u32]>) -> (u32, [usize; 5]) {
    let (record, length) = lent_mut(record);
    let (words, count) = lent(words);
    let (answers, room) = lent_mut(answers);
    let mut out = [GUARD as usize; 5];
    let cells = out.as_mut_ptr();
    let refusal = unsafe { c::cruise_lesson(record, length, words, count, answers, room, cells.add(1), cells.add(3)) };
    (refusal, out)
}

pub fn test(record: Option<&[u32]>) -> u32 {
    let (record, length) = lent(record);
    unsafe { c::cruise_test(record, length) }
}

/// The refusal, and the six figures in the header's order, each between two guards.
pub fn figures(record: Option<&[u32]>) -> (u32, [u32; 13]) {
    let (record, length) = lent(record);
    let mut out = [GUARD; 13];
    let cells = out.as_mut_ptr();
    let refusal = unsafe {
        c::cruise_figures(
            record,
            length,
            cells.add(1),
            cells.add(3),
            cells.add(5).cast(),
            cells.add(7),
            cells.add(9),
            cells.add(11),
        )
    };
    (refusal, out)
}

/// The refusal, and: guard, alike, guard.
pub fn alike(a: Option<&[u32]>, b: Option<&[u32]>) -> (u32, [u32; 3]) {
    let (a, a_length) = lent(a);
    let (b, b_length) = lent(b);
    let mut out = [GUARD; 3];
    let refusal = unsafe { c::cruise_alike(a, a_length, b, b_length, out.as_mut_ptr().add(1)) };
    (refusal, out)
}

/// The refusal, and: guard, written, guard.
pub fn copy(settings: u32, words: Option<&[u32]>, copy: Option<&mut [u32]>) -> (u32, [usize; 3]) {
    let (words, count) = lent(words);
    let (copy, room) = lent_mut(copy);
    let mut out = [GUARD as usize; 3];
    let refusal = unsafe { c::cruise_copy(settings, words, count, copy, room, out.as_mut_ptr().add(1)) };
    (refusal, out)
}

/// The refusal, and: guard, event, guard, seconds, guard.
pub fn mark(record: Option<&[u32]>, words: Option<&[u32]>, mark: u32) -> (u32, [usize; 5]) {
    let (record, length) = lent(record);
    let (words, count) = lent(words);
    let mut out = [GUARD as usize; 5];
    let cells = out.as_mut_ptr();
    let refusal = unsafe { c::cruise_mark(record, length, words, count, mark, cells.add(1), cells.add(3)) };
    (refusal, out)
}

/// The refusal, and: guard, word, guard. The floats are handed on bit for bit, also those that are no number.
pub fn sighting(kind: u32, metres: u32, kmh: u32) -> (u32, [u32; 3]) {
    let mut out = [GUARD; 3];
    let cells = out.as_mut_ptr();
    let refusal = unsafe { c::cruise_sighting(kind, f32::from_bits(metres), f32::from_bits(kmh), cells.add(1)) };
    (refusal, out)
}

pub fn see(record: Option<&mut [u32]>, kind: u32, metres: u32, kmh: u32) -> u32 {
    let (record, length) = lent_mut(record);
    unsafe { c::cruise_see(record, length, kind, f32::from_bits(metres), f32::from_bits(kmh)) }
}

/// The refusal, and: guard, the moves, guard; guard, their count, guard.
pub fn moves(record: Option<&[u32]>, wanted: u32) -> (u32, [u32; MOST_MOVES + 2], [usize; 3]) {
    let (record, length) = lent(record);
    let mut out = [GUARD; MOST_MOVES + 2];
    let mut count = [GUARD as usize; 3];
    let refusal =
        unsafe { c::cruise_moves(record, length, wanted, out.as_mut_ptr().add(1), count.as_mut_ptr().add(1)) };
    (refusal, out, count)
}
