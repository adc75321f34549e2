//! (c): hand-tuned over `&mut State`: rows of M tags one after another, tests over the arrays that never leave early.

use crate::parts::{children, fits, plan_fits, unmovable};
use reference::plan::Plan;

#[derive(Clone)]
pub struct State {
    pub plan: Plan,
    pub next: u32,
    pub live: usize,
    pub serials: [u32; 128],
    pub templates: [u32; 128],
    pub labels: [u32; 128],
    pub tags: [u32; 4096],
}

pub fn start(plan: Plan) -> State {
    State {
        plan,
        next: 1,
        live: 1,
        serials: [0; 128],
        templates: [0; 128],
        labels: [plan.templates[0].lab; 128],
        tags: [0; 4096],
    }
}

fn well_formed(s: &State) -> bool {
    if !plan_fits(&s.plan) || s.live > 128 {
        return false;
    }
    let m = s.plan.m;
    let top = ((1u64 << m) - 1) as u32;
    let next = s.next;
    let count = s.plan.n;
    let serials = &s.serials[..s.live];
    let rising = serials.iter().zip(serials.iter().skip(1)).fold(true, |ok, (a, b)| ok & (a < b));
    let earlier = serials.iter().fold(true, |ok, &x| ok & (x < next));
    let known = s.templates[..s.live].iter().fold(true, |ok, &y| ok & (y < count));
    let within = s.labels[..s.live].iter().fold(true, |ok, &l| ok & (l <= top));
    let tagged = s.tags[..s.live * m as usize].iter().fold(true, |ok, &t| ok & (t < next));
    rising & earlier & known & within & tagged
}

fn find(s: &State, serial: u32) -> Option<usize> {
    s.serials[..s.live].iter().position(|&x| x == serial)
}

fn leave(s: &mut State, k: usize) {
    let (live, m) = (s.live, s.plan.m as usize);
    s.serials.copy_within(k + 1..live, k);
    s.templates.copy_within(k + 1..live, k);
    s.labels.copy_within(k + 1..live, k);
    s.tags.copy_within((k + 1) * m..live * m, k * m);
    s.live -= 1;
}

fn enter(s: &mut State, y: u8, parent: &[u32; 32]) {
    let t = &s.plan.templates[y as usize];
    let (at, m, next, creates) = (s.live, s.plan.m as usize, s.next, t.creates);
    s.serials[at] = next;
    s.templates[at] = y as u32;
    s.labels[at] = t.lab;
    for (i, tag) in s.tags[at * m..(at + 1) * m].iter_mut().enumerate() {
        *tag = if creates >> i & 1 == 1 { next } else { parent[i] };
    }
    s.next += 1;
    s.live += 1;
}

#[inline(never)]
pub fn step(s: &mut State, serial: u32, branch: u32) -> u8 {
    if !well_formed(s) {
        return 20;
    }
    let Some(k) = find(s, serial) else { return 21 };
    let form = s.plan.templates[s.templates[k] as usize].form;
    let Some((first, second)) = children(form, branch) else { return 22 };
    if second.is_some() && s.live >= 128 {
        return 23;
    }
    let count = first.is_some() as u32 + second.is_some() as u32;
    if s.next > u32::MAX - count {
        return 24;
    }
    for y in first.into_iter().chain(second) {
        if !fits(s.labels[k], &s.plan.templates[y as usize]) {
            return 25;
        }
    }
    let m = s.plan.m as usize;
    let mut parent = [0u32; 32];
    parent[..m].copy_from_slice(&s.tags[k * m..(k + 1) * m]);
    leave(s, k);
    for y in first.into_iter().chain(second) {
        enter(s, y, &parent);
    }
    0
}

#[inline(never)]
pub fn send(s: &State, from: u32, to: u32) -> u8 {
    if !well_formed(s) {
        return 20;
    }
    let Some(a) = find(s, from) else { return 21 };
    let Some(b) = find(s, to) else { return 21 };
    if from == to {
        return 26;
    }
    let (m, label) = (s.plan.m as usize, s.labels[a]);
    if label & !s.labels[b] != 0 {
        return 2;
    }
    let (sent, held) = (&s.tags[a * m..(a + 1) * m], &s.tags[b * m..(b + 1) * m]);
    let rows = sent.iter().zip(held).enumerate();
    let passed = rows.fold(true, |ok, (i, (x, y))| ok & (label >> i & 1 == 0 || x == y));
    if passed { 1 } else { 2 }
}

/// A raise, or a lower.
#[inline(never)]
pub fn relabel(s: &mut State, serial: u32, identifier: u32, raise: bool) -> u8 {
    if !well_formed(s) {
        return 20;
    }
    let Some(k) = find(s, serial) else { return 21 };
    if let Some(number) = unmovable(&s.plan, &s.plan.templates[s.templates[k] as usize], identifier, raise) {
        return number;
    }
    if raise {
        s.labels[k] |= 1 << identifier;
    } else {
        s.labels[k] &= !(1 << identifier);
    }
    0
}

#[inline(never)]
pub fn run(s: &mut State, calls: &[u32], answers: &mut [u8]) {
    for (call, answer) in calls.chunks_exact(3).zip(answers) {
        *answer = match call[0] {
            0 => step(s, call[1], call[2]),
            1 => send(s, call[1], call[2]),
            kind => relabel(s, call[1], call[2], kind == 2),
        };
    }
}
