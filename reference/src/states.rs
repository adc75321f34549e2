//! Hand-made states: good ones, often at a limit, and bad ones in each way that document 01 lists under 20.

use crate::machine::{self, State, MAX_LIVE, MAX_NEXT};
use crate::plan::*;
use crate::rng::Rng;

/// Items 0 to m-1.
fn all_of(m: u32) -> u32 {
    if m == 0 { 0 } else { u32::MAX >> (32 - m) }
}

/// A state over the plan that is not bad; unused places hold anything.
pub fn state(r: &mut Rng, plan: &Plan) -> State {
    let mut s = machine::started(*plan);
    s.next = match r.below(4) {
        0 => MAX_NEXT - r.below(4) as u64,
        1 => r.range(0, 200) as u64,
        2 => r.range(128, 1_000_000) as u64,
        _ => r.next() >> 32,
    };
    s.live = (*r.pick(&[0, 1, 2, 3, 16, 63, 126, 127, 128, 128])).min(s.next) as u32;
    for p in 0..MAX_LIVE {
        if p < s.live as usize {
            live_place(r, &mut s, p);
        } else {
            (s.serials[p], s.templates[p], s.labels[p]) = (r.next() as u32, r.next() as u8, r.next() as u32);
            s.tags[32 * p..32 * p + 32].fill_with(|| r.next() as u32);
        }
    }
    let mut below = s.next;
    for p in (0..s.live as usize).rev() {
        let gap = if below > p as u64 + 1 && r.percent(50) { r.next() % (below - p as u64).min(9) } else { 0 };
        below -= 1 + gap;
        s.serials[p] = below as u32;
    }
    s
}

/// A template, a label and tags; the serial comes later.
fn live_place(r: &mut Rng, s: &mut State, p: usize) {
    s.templates[p] = r.below(s.plan.n as usize) as u8;
    s.labels[p] = if r.percent(33) { r.next() as u32 & all_of(s.plan.m) } else { s.template(p).lab };
    let few = s.next.min(3);
    for i in 0..MAX_IDENTIFIERS {
        s.tags[32 * p + i] = match r.below(4) {
            _ if i >= s.plan.m as usize => r.next() as u32,
            0 => (r.next() % s.next) as u32,
            1 => (s.next - 1) as u32,
            _ => (r.next() % few) as u32,
        };
    }
}

/// The ways to be bad.
pub const WAYS: [&str; 20] = [
    "no template", "more than 64 templates", "more than 32 identifiers", "more than 128 live", "next above 4,294,967,295",
    "a template not below N", "go to no template", "either, first to no template", "either, second to no template",
    "both, first to no template", "both, second to no template", "a serial not below next", "two serials equal",
    "two serials falling", "a tag not below next", "a label beyond M", "lab beyond M", "pos beyond M", "neg beyond M",
    "creates beyond M",
];

/// 0, count-1 or any between.
fn at(r: &mut Rng, count: usize) -> usize {
    match r.below(4) {
        0 => 0,
        1 => count.max(1) - 1,
        _ => r.below(count.max(1)),
    }
}

/// Makes the state bad in one way, and says which of WAYS.
pub fn spoil(r: &mut Rng, s: &mut State) -> usize {
    let good = *s;
    loop {
        let way = r.below(WAYS.len());
        if way <= 4 {
            pass_limit(r, s, way);
        } else if way <= 10 || way >= 16 {
            spoil_plan(r, s, way);
        } else if s.live > 0 {
            spoil_place(r, s, way);
        }
        if machine::bad(s) {
            return way;
        }
        *s = good;
    }
}

/// Ways 0 to 4.
fn pass_limit(r: &mut Rng, s: &mut State, way: usize) {
    match way {
        0 => s.plan.n = 0,
        1 => s.plan.n = *r.pick(&[65, 66, 128, 256, u32::MAX]),
        2 => s.plan.m = *r.pick(&[33, 34, 64, 256, u32::MAX]),
        3 => s.live = *r.pick(&[129, 130, 256, u32::MAX]),
        _ => s.next = MAX_NEXT + 1 + r.below(2) as u64,
    }
}

/// Ways 5 to 10 and 16 to 19: a template of the plan, and for 5 of a process.
fn spoil_plan(r: &mut Rng, s: &mut State, way: usize) {
    let n = s.plan.n as usize;
    let (none, any) = (if r.percent(50) { n as u8 } else { r.range(n, 255) as u8 }, r.below(n) as u8);
    let beyond = if s.plan.m < 32 { 1 << (s.plan.m as usize + at(r, 32 - s.plan.m as usize)) } else { 0 };
    let t = &mut s.plan.templates[at(r, n)];
    match way {
        5 => s.templates[at(r, s.live as usize)] = none,
        6 => t.form = Form::Go(none),
        7 => t.form = Form::Either(none, any),
        8 => t.form = Form::Either(any, none),
        9 => t.form = Form::Both(none, any),
        10 => t.form = Form::Both(any, none),
        16 => t.lab |= beyond,
        17 => t.pos |= beyond,
        18 => t.neg |= beyond,
        _ => t.creates |= beyond,
    }
}

/// Ways 11 to 15: a live process.
fn spoil_place(r: &mut Rng, s: &mut State, way: usize) {
    let (m, p) = (s.plan.m as usize, at(r, s.live as usize));
    match way {
        11 if r.percent(50) => s.next = s.serials[p] as u64,
        11 => s.serials[p] = (s.next as u32).saturating_add(r.below(3) as u32),
        12 if p > 0 => s.serials[p] = s.serials[p - 1],
        13 if p > 0 => s.serials.swap(p, p - 1),
        14 if m > 0 => s.tags[32 * p + at(r, m)] = (s.next as u32).saturating_add(r.below(3) as u32),
        15 if m < 32 => s.labels[p] |= 1 << (m + at(r, 32 - m)),
        _ => {}
    }
}
