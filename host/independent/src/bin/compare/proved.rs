//! The C functions of the proved implementation, each behind a safe one: the
//! only place of the program that needs `unsafe`. They read and write between
//! a pointer and the length behind it and nowhere else, and take a null pointer
//! with length 0 as nothing to read.

#![allow(unsafe_code, reason = "C functions cannot be called without")]

use crate::lent::Lent;

extern "C" {
    /// What [`line_check`] calls.
    fn panel_line_check(line: *const u8, line_len: usize) -> u32;
    /// What [`choose`] calls.
    fn panel_choose(
        first: *const u8,
        first_len: usize,
        second: *const u8,
        second_len: usize,
    ) -> u32;
    /// What [`choose_number`] calls.
    fn panel_choose_number(
        first: *const u8,
        first_len: usize,
        second: *const u8,
        second_len: usize,
    ) -> u32;
    /// What [`value`] calls.
    fn trial_value(line: *const u8, line_len: usize, place: usize) -> u32;
    /// What [`write_line`] calls.
    fn trial_write_line(values: *const u32, values_len: usize, out: *mut u8, out_len: usize)
        -> u32;
    /// What [`answer_log`] calls.
    fn trial_answer_log(log: *const u8, log_len: usize, out: *mut u8, out_len: usize) -> usize;
}

/// Asks for the number of a line: 0 where it is readable.
pub fn line_check(line: &mut Lent<u8>) -> u32 {
    // SAFETY: the pointer and the length are those of `line`, which nobody else touches until the
    // call is over; the function keeps neither.
    unsafe { panel_line_check(line.pointer(), line.length()) }
}

/// Asks which of two lines is the better one: 1, 2, or 0 where there is no choice.
pub fn choose(first: &mut Lent<u8>, second: &mut Lent<u8>) -> u32 {
    // SAFETY: each pointer goes with the length of the same lent memory, two pieces that are apart
    // and that nobody else touches until the call is over; the function keeps neither.
    unsafe {
        panel_choose(
            first.pointer(),
            first.length(),
            second.pointer(),
            second.length(),
        )
    }
}

/// Asks for the number of a choice: 0 where it can be made.
pub fn choose_number(first: &mut Lent<u8>, second: &mut Lent<u8>) -> u32 {
    // SAFETY: as in `choose`, which hands over the same.
    unsafe {
        panel_choose_number(
            first.pointer(),
            first.length(),
            second.pointer(),
            second.length(),
        )
    }
}

/// Asks what stands at a place of a line: the kind at 0, the identifier at 1, the other fields behind.
pub fn value(line: &mut Lent<u8>, place: usize) -> u32 {
    // SAFETY: as in `line_check`; the place is a number only, any of which is borne.
    unsafe { trial_value(line.pointer(), line.length(), place) }
}

/// Has values written as a line at the front of a buffer, and gives the number: 0 where it was written.
pub fn write_line(values: &mut Lent<u32>, buffer: &mut Lent<u8>) -> u32 {
    // SAFETY: each pointer goes with the length of the same lent memory, aligned for what it holds;
    // the two are apart, nobody else touches them until the call is over, and the buffer may be
    // written at every byte.
    unsafe {
        trial_write_line(
            values.pointer(),
            values.length(),
            buffer.pointer(),
            buffer.length(),
        )
    }
}

/// Has a log answered at the front of a buffer, and gives the answer's length: 0 where it has no room.
pub fn answer_log(log: &mut Lent<u8>, buffer: &mut Lent<u8>) -> usize {
    // SAFETY: each pointer goes with the length of the same lent memory; the two are apart, nobody
    // else touches them until the call is over, and the buffer may be written at every byte.
    unsafe {
        trial_answer_log(
            log.pointer(),
            log.length(),
            buffer.pointer(),
            buffer.length(),
        )
    }
}
