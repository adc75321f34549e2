//! The proved library's ways to make a list of calls.

use monitor::Monitor;

/// On lent arrays.
pub fn run(m: &mut Monitor, calls: &[u32], answers: &mut [u8]) {
    let played = m.run_into(calls, answers);
    assert_eq!(played, answers.len());
}

/// One by one, as a program that embeds the monitor makes them.
pub fn one_by_one(m: &mut Monitor, calls: &[u32], answers: &mut [u8]) {
    for (call, place) in calls.chunks_exact(3).zip(answers) {
        let answer = match call[0] {
            0 => m.step(call[1], call[2]),
            1 => m.send(call[1], call[2]),
            2 => m.raise(call[1], call[2]),
            _ => m.lower(call[1], call[2]),
        };
        *place = answer.code();
    }
}
