//! (b): plain safe Rust over `&mut State`, tags as one would lay them out, tests that leave at the first fault.

use crate::parts::{children, fits, plan_fits, unmovable};
use reference::plan::Plan;

#[derive(Clone)]
pub struct State {
    pub plan: Plan,
    pub next: u32,
    pub live: usize,
    pub serials: [u32; 128],
    pub templates: [u32; 128],
    pub labels: [u32; 128],
    pub tags: [[u32; 32]; 128],
}

pub fn start(plan: Plan) -> State {
    State {
        plan,
        next: 1,
        live: 1,
        serials: [0; 128],
        templates: [0; 128],
        labels: [plan.templates[0].lab; 128],
        tags: [[0; 32]; 128],
    }
}

fn well_formed(s: &State) -> bool {
    if !plan_fits(&s.plan) || s.live > 128 {
        return false;
    }
    let m = s.plan.m;
    let bound = 1u64 << m;
    for p in 0..s.live {
        if p + 1 < s.live && s.serials[p] >= s.serials[p + 1] {
            return false;
        }
        if s.serials[p] >= s.next || s.templates[p] >= s.plan.n || s.labels[p] as u64 >= bound {
            return false;
        }
        for &tag in &s.tags[p][..m as usize] {
            if tag >= s.next {
                return false;
            }
        }
    }
    true
}

fn find(s: &State, serial: u32) -> Option<usize> {
    s.serials[..s.live].iter().position(|&x| x == serial)
}

fn leave(s: &mut State, k: usize) {
    let live = s.live;
    s.serials.copy_within(k + 1..live, k);
    s.templates.copy_within(k + 1..live, k);
    s.labels.copy_within(k + 1..live, k);
    s.tags.copy_within(k + 1..live, k);
    s.live -= 1;
}

fn enter(s: &mut State, y: u8, parent: [u32; 32]) {
    let t = s.plan.templates[y as usize];
    let at = s.live;
    s.serials[at] = s.next;
    s.templates[at] = y as u32;
    s.labels[at] = t.lab;
    s.tags[at] = parent;
    for i in 0..s.plan.m as usize {
        if t.creates >> i & 1 == 1 {
            s.tags[at][i] = s.next;
        }
    }
    s.next += 1;
    s.live += 1;
}

#[inline(never)]
pub fn step(s: &mut State, serial: u32, branch: u32) -> u8 {
    if !well_formed(s) {
        return 20;
    }
    let Some(k) = find(s, serial) else { return 21 };
    let form = s.plan.templates[s.templates[k] as usize].form;
    let Some((first, second)) = children(form, branch) else { return 22 };
    if second.is_some() && s.live >= 128 {
        return 23;
    }
    let count = first.is_some() as u32 + second.is_some() as u32;
    if s.next > u32::MAX - count {
        return 24;
    }
    for y in first.into_iter().chain(second) {
        if !fits(s.labels[k], &s.plan.templates[y as usize]) {
            return 25;
        }
    }
    let parent = s.tags[k];
    leave(s, k);
    for y in first.into_iter().chain(second) {
        enter(s, y, parent);
    }
    0
}

#[inline(never)]
pub fn send(s: &State, from: u32, to: u32) -> u8 {
    if !well_formed(s) {
        return 20;
    }
    let Some(a) = find(s, from) else { return 21 };
    let Some(b) = find(s, to) else { return 21 };
    if from == to {
        return 26;
    }
    for i in 0..s.plan.m as usize {
        if s.labels[a] >> i & 1 == 1 && (s.labels[b] >> i & 1 == 0 || s.tags[a][i] != s.tags[b][i]) {
            return 2;
        }
    }
    1
}

/// A raise, or a lower.
#[inline(never)]
pub fn relabel(s: &mut State, serial: u32, identifier: u32, raise: bool) -> u8 {
    if !well_formed(s) {
        return 20;
    }
    let Some(k) = find(s, serial) else { return 21 };
    if let Some(number) = unmovable(&s.plan, &s.plan.templates[s.templates[k] as usize], identifier, raise) {
        return number;
    }
    if raise {
        s.labels[k] |= 1 << identifier;
    } else {
        s.labels[k] &= !(1 << identifier);
    }
    0
}

/// The calls, three words each; an answer for each.
#[inline(never)]
pub fn run(s: &mut State, calls: &[u32], answers: &mut [u8]) {
    for (call, answer) in calls.chunks_exact(3).zip(answers) {
        *answer = match call[0] {
            0 => step(s, call[1], call[2]),
            1 => send(s, call[1], call[2]),
            kind => relabel(s, call[1], call[2], kind == 2),
        };
    }
}
