//! The plan of the runs, and lists of calls on it.
//!
//! The plan is document 01's base plan with M identifiers, every mask full where the base plan's is 1, and `reader`, which
//! is at risk, may also raise and lower.

use reference::generate::Draft;
use reference::plan::Plan;
use std::collections::VecDeque;

pub const STEP: u32 = 0;
pub const SEND: u32 = 1;
pub const RAISE: u32 = 2;
pub const LOWER: u32 = 3;

pub fn draft(m: u32) -> Draft {
    let full = ((1u64 << m) - 1) as u32;
    let mut d = Draft::base();
    d.plan.m = m;
    for t in &mut d.plan.templates[..4] {
        for mask in [&mut t.lab, &mut t.pos, &mut t.neg, &mut t.creates] {
            *mask *= full;
        }
    }
    let reader = &mut d.plan.templates[3];
    (reader.pos, reader.neg) = (full, full);
    d.policy.clear();
    d
}

/// What is measured: calls that bring a population to life, and then those that are timed.
pub struct List {
    pub name: &'static str,
    pub live: usize,
    pub plan: Plan,
    pub setup: Vec<u32>,
    pub calls: Vec<u32>,
}

/// A hub and its readers; `calls` is what was done so far.
struct Population {
    calls: Vec<u32>,
    hub: u32,
    readers: VecDeque<u32>,
    next: u32,
    random: u32,
}

impl Population {
    fn of(live: usize) -> Population {
        let mut p = Population { calls: vec![STEP, 0, 0], hub: 1, readers: VecDeque::new(), next: 2, random: 12345 };
        while p.readers.len() + 1 < live {
            (0..2).for_each(|at| p.turn(at));
        }
        p
    }

    /// One step of a round of three: the hub becomes a split; the split a hub and a reader; the oldest reader ends.
    fn turn(&mut self, at: usize) {
        match at {
            0 => {
                self.calls.extend([STEP, self.hub, 0]);
                self.hub = self.next;
                self.next += 1;
            }
            1 => {
                self.calls.extend([STEP, self.hub, 0]);
                self.hub = self.next;
                self.readers.push_back(self.next + 1);
                self.next += 2;
            }
            _ => {
                let reader = self.readers.pop_front().unwrap_or(0);
                self.calls.extend([STEP, reader, 0]);
            }
        }
    }

    fn below(&mut self, count: usize) -> usize {
        self.random = self.random.wrapping_mul(1664525).wrapping_add(1013904223);
        (self.random >> 8) as usize % count
    }

    /// The hub (or split) or a reader.
    fn any(&mut self) -> u32 {
        let i = self.below(self.readers.len() + 1);
        if i == 0 { self.hub } else { self.readers[i - 1] }
    }

    fn send(&mut self) {
        let call = [SEND, self.any(), self.any()];
        self.calls.extend(call);
    }

    fn relabel(&mut self, kind: u32, m: u32) {
        let call = [kind, self.any(), self.below(m as usize) as u32];
        self.calls.extend(call);
    }
}

/// `count` calls of one kind with `live` processes (a step: live - 1 to live), or mixed: 4 steps, 4 sends, a raise and a
/// lower in ten, `live` to live + 1 processes.
pub fn list(name: &'static str, m: u32, live: usize, count: usize) -> List {
    let mut p = Population::of(if name == "step" { live - 1 } else { live });
    let setup = std::mem::take(&mut p.calls);
    let mut steps = 0;
    for i in 0..count {
        match (name, i % 10) {
            ("step", _) | ("mixed", 0 | 3 | 5 | 8) => {
                p.turn(steps % 3);
                steps += 1;
            }
            ("send", _) | ("mixed", 1 | 4 | 6 | 9) => p.send(),
            ("raise", _) | ("mixed", 2) => p.relabel(RAISE, m),
            _ => p.relabel(LOWER, m),
        }
    }
    List { name, live, plan: draft(m).plan, setup, calls: p.calls }
}
