//! The C interface as include/monitor.h declares it. Nothing checks these declarations against the library: they are
//! kept word for word with the header.

/// The words of a plan's row: MONITOR_ROW_WORDS.
pub const ROW_WORDS: usize = 514;

extern "C" {
    pub fn monitor_judge(
        plan: *const u8,
        plan_len: usize,
        policy: *const u8,
        policy_len: usize,
        verdict: *mut [u32; 5],
    );
    pub fn monitor_locate(
        plan: *const u8,
        plan_len: usize,
        policy: *const u8,
        policy_len: usize,
        part: *mut [usize; 3],
    );
    pub fn monitor_start(
        plan: *const u8,
        plan_len: usize,
        policy: *const u8,
        policy_len: usize,
        verdict: *mut [u32; 5],
        row: *mut [u32; ROW_WORDS],
        place: *mut [u32; 2],
        serials: *mut [u32; 128],
        templates: *mut [u32; 128],
        labels: *mut [u32; 128],
        tags: *mut [u32; 4096],
    );
    pub fn monitor_replay(
        plan: *const u8,
        plan_len: usize,
        policy: *const u8,
        policy_len: usize,
        calls: *const u32,
        words: usize,
        answers: *mut u8,
        places: usize,
        verdict: *mut [u32; 5],
    ) -> usize;
}

/// Declares a function on a row and a state, lent for writing; then come its other arguments. The row is only read.
macro_rules! on_state {
    ($name:ident, ($($argument:ident: $type:ty),*) -> $answer:ty) => {
        extern "C" {
            pub fn $name(
                row: *const [u32; ROW_WORDS],
                place: *mut [u32; 2],
                serials: *mut [u32; 128],
                templates: *mut [u32; 128],
                labels: *mut [u32; 128],
                tags: *mut [u32; 4096],
                $($argument: $type),*
            ) -> $answer;
        }
    };
}

on_state!(monitor_call, (kind: u32, x: u32, y: u32) -> u32);
on_state!(monitor_run, (calls: *const u32, words: usize, answers: *mut u8, places: usize) -> usize);
