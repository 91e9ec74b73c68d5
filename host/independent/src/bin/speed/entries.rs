//! The functions for C that are measured, each behind a safe one: besides the clock the only place
//! of the program that needs `unsafe`. They read and write between a pointer and the length behind
//! it and nowhere else.

#![allow(unsafe_code, reason = "C functions cannot be called without")]

use crate::implementations::Answers;

/// Declares the three functions of an implementation, and gives them a type that answers by them.
macro_rules! answering {
    ($type:ident, $name:literal, $check:ident, $choose:ident, $answer:ident) => {
        extern "C" {
            fn $check(line: *const u8, line_len: usize) -> u32;
            fn $choose(
                first: *const u8,
                first_len: usize,
                second: *const u8,
                second_len: usize,
            ) -> u32;
            fn $answer(log: *const u8, log_len: usize, out: *mut u8, out_len: usize) -> usize;
        }

        #[doc = concat!("The implementation ", $name, ".")]
        pub struct $type;

        impl Answers for $type {
            const NAME: &'static str = $name;

            fn check(line: &[u8]) -> u32 {
                // SAFETY: the pointer and the length are those of the slice, which the function
                // only reads and does not keep.
                unsafe { $check(line.as_ptr(), line.len()) }
            }

            fn choose(first: &[u8], second: &[u8]) -> u32 {
                // SAFETY: as in `check`, for either slice.
                unsafe { $choose(first.as_ptr(), first.len(), second.as_ptr(), second.len()) }
            }

            fn answer(log: &[u8], out: &mut [u8]) -> usize {
                // SAFETY: as in `check`; the buffer is borrowed alone, so the two are apart, and
                // every byte of it may be written.
                unsafe { $answer(log.as_ptr(), log.len(), out.as_mut_ptr(), out.len()) }
            }
        }
    };
}

answering!(
    Rattle,
    "Rattle",
    panel_line_check,
    panel_choose,
    trial_answer_log
);
answering!(
    RattleBefore,
    "Rattle before",
    before_panel_line_check,
    before_panel_choose,
    before_trial_answer_log
);
answering!(
    PlainByCc,
    "plain C by cc",
    plain_line_check,
    plain_choose,
    plain_answer_log
);
answering!(
    PlainByClang,
    "plain C by clang",
    clang_plain_line_check,
    clang_plain_choose,
    clang_plain_answer_log
);
answering!(
    TableByCc,
    "table C by cc",
    table_line_check,
    table_choose,
    table_answer_log
);
answering!(
    TableByClang,
    "table C by clang",
    clang_table_line_check,
    clang_table_choose,
    clang_table_answer_log
);
answering!(
    BestByCc,
    "best scalar C by cc",
    best_line_check,
    best_choose,
    best_answer_log
);
answering!(
    BestByClang,
    "best scalar C by clang",
    clang_best_line_check,
    clang_best_choose,
    clang_best_answer_log
);

extern "C" {
    /// What [`private_steps`] calls.
    fn pace_private_steps(
        script: *const u8,
        script_len: usize,
        out: *mut u8,
        out_len: usize,
    ) -> usize;
    /// What [`group_steps`] calls.
    fn pace_group_steps(
        script: *const u8,
        script_len: usize,
        out: *mut u8,
        out_len: usize,
    ) -> usize;
}

/// Plays a script through the proved private machine, and gives how many steps met a row.
pub fn private_steps(script: &[u8], out: &mut [u8]) -> usize {
    // SAFETY: each pointer goes with the length of the same slice; the buffer is borrowed alone, so
    // the two are apart, and every byte of it may be written; the function keeps neither.
    unsafe { pace_private_steps(script.as_ptr(), script.len(), out.as_mut_ptr(), out.len()) }
}

/// Plays a script through the proved group machine, and gives how many steps met a row.
pub fn group_steps(script: &[u8], out: &mut [u8]) -> usize {
    // SAFETY: as in `private_steps`, which hands over the same.
    unsafe { pace_group_steps(script.as_ptr(), script.len(), out.as_mut_ptr(), out.len()) }
}
