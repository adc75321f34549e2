//! The calls: the library's core and its single calls beside the baselines.

use crate::calls::{draft, list, List};
use crate::clock::{medians, timed, Variant};
use crate::{borrowed, library, tuned};
use monitor::Monitor;

/// A sum of all answers and of the whole state at the end: next, live, and each process with its tags.
fn checksum(answers: &[u8], next: u32, live: usize, process: impl Fn(usize) -> Vec<u32>) -> u64 {
    let fold = |sum: u64, word: u32| (sum ^ word as u64).wrapping_mul(0x100_0000_01b3).rotate_left(7);
    let sum = answers.iter().fold(0, |sum, &code| fold(sum, code as u32));
    (0..live).flat_map(process).fold(fold(fold(sum, next), live as u32), fold)
}

fn of_memory(s: &Monitor, answers: &[u8]) -> u64 {
    let m = s.row[1] as usize;
    let process = |p: usize| [&[s.serials[p], s.templates[p], s.labels[p]], &s.tags[m * p..m * p + m]].concat();
    checksum(answers, s.place[0], s.place[1] as usize, process)
}

fn of_tuned(s: &tuned::State, answers: &[u8]) -> u64 {
    let m = s.plan.m as usize;
    let process = |p: usize| [&[s.serials[p], s.templates[p], s.labels[p]], &s.tags[m * p..m * p + m]].concat();
    checksum(answers, s.next, s.live, process)
}

fn of_natural(s: &borrowed::State, answers: &[u8]) -> u64 {
    let m = s.plan.m as usize;
    let process = |p: usize| [&[s.serials[p], s.templates[p], s.labels[p]], &s.tags[p][..m]].concat();
    checksum(answers, s.next, s.live, process)
}

/// Nanoseconds a call: what `work` does with a fresh copy of the state, timed without the copy and the sum.
fn variant<'a, S: Clone + 'a>(
    state: Box<S>,
    calls: &'a [u32],
    work: impl Fn(&mut S, &[u32], &mut [u8]) + 'a,
    sum: impl Fn(&S, &[u8]) -> u64 + 'a,
) -> Variant<'a> {
    Box::new(move || {
        let (mut fresh, mut answers) = (state.clone(), vec![0; calls.len() / 3]);
        let (time, end) = timed(|| {
            work(&mut fresh, calls, &mut answers);
            fresh
        });
        (time / answers.len() as f64, sum(&end, &answers))
    })
}

/// Where the states stand after the setup.
fn ready(l: &List) -> (Box<Monitor>, Box<borrowed::State>, Box<tuned::State>) {
    let d = draft(l.plan.m);
    let mut answers = vec![0; l.setup.len() / 3];
    let (verdict, mut memory) = Monitor::start(&d.plan_text(), &d.policy_text());
    assert_eq!(verdict, monitor::Verdict::Accepted);
    library::run(&mut memory, &l.setup, &mut answers);
    let (mut natural, mut rows) = (Box::new(borrowed::start(l.plan)), Box::new(tuned::start(l.plan)));
    borrowed::run(&mut natural, &l.setup, &mut answers);
    tuned::run(&mut rows, &l.setup, &mut answers);
    (memory, natural, rows)
}

fn row(turns: usize, l: &List) {
    let (memory, natural, rows) = ready(l);
    let variants = vec![
        variant(memory.clone(), &l.calls, library::run, of_memory),
        variant(natural, &l.calls, borrowed::run, of_natural),
        variant(rows, &l.calls, tuned::run, of_tuned),
        variant(memory, &l.calls, library::one_by_one, of_memory),
    ];
    let [core, b, c, singly] = medians(turns, variants)[..] else { unreachable!("a median for each variant") };
    println!(
        "| {} | {} | {} | {core:.0} | {b:.0} | {c:.0} | {:.2} | {:.2} | {singly:.0} |",
        l.name,
        l.plan.m,
        l.live,
        core / b,
        core / c
    );
}

/// The table; `calls` of one kind, `mixed` calls in a mixed list.
pub fn table(turns: usize, calls: usize, mixed: usize) {
    println!("| calls | M | live | core | (b) | (c) | core/(b) | core/(c) | singly |");
    println!("|{}", "---|".repeat(9));
    for name in ["step", "send", "raise"] {
        for m in [1, 8, 32] {
            [2, 16, 127].iter().for_each(|&live| row(turns, &list(name, m, live, calls)));
        }
    }
    for m in [1, 8, 32] {
        [1, 15, 63, 127].iter().for_each(|&live| row(turns, &list("mixed", m, live, mixed)));
    }
}
