//! "The monitor's machine": start, step, send, raise, lower, on `&mut State` and by value.

use crate::judge::{first_broken, read, Verdict};
use crate::plan::*;

pub const MAX_LIVE: usize = 128;
pub const MAX_NEXT: u64 = 4_294_967_295;

/// Processes stand at places 0 to live-1; the tag of identifier i at place p is tags[32 p + i].
/// Places from `live` on carry no meaning, nor do tags of identifiers from m on.
#[derive(Clone, Copy, Debug)]
pub struct State {
    pub plan: Plan,
    pub next: u64,
    pub live: u32,
    pub serials: [u32; MAX_LIVE],
    pub templates: [u8; MAX_LIVE],
    pub labels: [u32; MAX_LIVE],
    pub tags: [u32; MAX_LIVE * MAX_IDENTIFIERS],
}

#[derive(Clone, Copy, PartialEq, Eq, Debug)]
pub enum Answer {
    Done,
    Delivered,
    Held,
    Refused(u8),
}

use Answer::{Delivered, Done, Held, Refused};

impl State {
    pub fn tags_of(&self, place: usize) -> &[u32] {
        &self.tags[32 * place..32 * place + (self.plan.m as usize).min(32)]
    }

    pub fn find(&self, serial: u32) -> Option<usize> {
        (0..self.live as usize).find(|&p| self.serials[p] == serial)
    }

    pub fn template(&self, place: usize) -> &Template {
        &self.plan.templates[self.templates[place] as usize]
    }

    /// The same machine: unused places left aside. Only for states that are not bad.
    pub fn same(&self, other: &State) -> bool {
        self.plan.n == other.plan.n
            && self.plan.m == other.plan.m
            && self.plan.used() == other.plan.used()
            && self.next == other.next
            && self.live == other.live
            && (0..self.live as usize).all(|p| {
                self.serials[p] == other.serials[p]
                    && self.templates[p] == other.templates[p]
                    && self.labels[p] == other.labels[p]
                    && self.tags_of(p) == other.tags_of(p)
            })
    }
}

/// Refusal 20.
pub fn bad(s: &State) -> bool {
    let (n, m) = (s.plan.n, s.plan.m);
    if n == 0 || n > 64 || m > 32 || s.live > 128 || s.next > MAX_NEXT {
        return true;
    }
    for t in s.plan.used() {
        if t.form.successors().any(|y| y >= n as usize) {
            return true;
        }
        if beyond((t.lab | t.pos | t.neg | t.creates) as u64, m) {
            return true;
        }
    }
    for p in 0..s.live as usize {
        if s.templates[p] as u32 >= n
            || s.serials[p] as u64 >= s.next
            || (p > 0 && s.serials[p - 1] >= s.serials[p])
            || beyond(s.labels[p] as u64, m)
            || s.tags_of(p).iter().any(|&tag| tag as u64 >= s.next)
        {
            return true;
        }
    }
    false
}

/// The judge's answer if the texts are not accepted.
pub fn start(plan: &[u8], policy: &[u8]) -> Result<State, Verdict> {
    let (p, _, a) = read(plan, policy).map_err(|(text, refusal)| Verdict::Unread(text, refusal))?;
    match first_broken(&p, &a) {
        Some(b) => Err(Verdict::Broken(b)),
        None => Ok(started(p)),
    }
}

/// Serial 0 at the root, whatever a judge says of the plan.
pub fn started(plan: Plan) -> State {
    let mut s = State {
        plan,
        next: 1,
        live: 1,
        serials: [0; MAX_LIVE],
        templates: [0; MAX_LIVE],
        labels: [0; MAX_LIVE],
        tags: [0; MAX_LIVE * MAX_IDENTIFIERS],
    };
    s.labels[0] = plan.templates[0].lab;
    s
}

pub fn step(s: &mut State, serial: u32, branch: u32) -> Answer {
    if bad(s) {
        return Refused(20);
    }
    let Some(place) = s.find(serial) else { return Refused(21) };
    let form = s.template(place).form;
    let (to, count) = match (form, branch) {
        (Form::End, 0) => ([0, 0], 0),
        (Form::Go(y), 0) => ([y, 0], 1),
        (Form::Either(y, _), 0) => ([y, 0], 1),
        (Form::Either(_, z), 1) => ([z, 0], 1),
        (Form::Both(y, z), 0) => ([y, z], 2),
        _ => return Refused(22),
    };
    let children = &to[..count];
    if count == 2 && s.live as usize == MAX_LIVE {
        return Refused(23);
    }
    if s.next + count as u64 > MAX_NEXT {
        return Refused(24);
    }
    let label = s.labels[place];
    for &child in children {
        let y = &s.plan.templates[child as usize];
        let rule12 = y.lab & !(label | y.pos) == 0;
        let rule13 = label & !y.neg & !y.lab == 0;
        let rule16 = y.creates & label == 0;
        if !(rule12 && rule13 && rule16) {
            return Refused(25);
        }
    }
    let mut tags = [0; 32];
    tags.copy_from_slice(&s.tags[32 * place..32 * place + 32]);
    let live = s.live as usize;
    s.serials.copy_within(place + 1..live, place);
    s.templates.copy_within(place + 1..live, place);
    s.labels.copy_within(place + 1..live, place);
    s.tags.copy_within(32 * (place + 1)..32 * live, 32 * place);
    s.live -= 1;
    for &child in children {
        let p = s.live as usize;
        let y = s.plan.templates[child as usize];
        let own = s.next as u32;
        s.serials[p] = own;
        s.templates[p] = child;
        s.labels[p] = y.lab;
        for i in 0..32 {
            s.tags[32 * p + i] = if has(y.creates, i) { own } else { tags[i] };
        }
        s.live += 1;
        s.next += 1;
    }
    Done
}

/// The state stays.
pub fn send(s: &State, from: u32, to: u32) -> Answer {
    if bad(s) {
        return Refused(20);
    }
    let (Some(f), Some(t)) = (s.find(from), s.find(to)) else { return Refused(21) };
    if from == to {
        return Refused(26);
    }
    let passes = (0..s.plan.m as usize).filter(|&i| has(s.labels[f], i)).all(|i| {
        has(s.labels[t], i) && s.tags[32 * f + i] == s.tags[32 * t + i]
    });
    if passes { Delivered } else { Held }
}

fn movable(s: &State, serial: u32, identifier: u32, raise: bool) -> Result<usize, Answer> {
    if bad(s) {
        return Err(Refused(20));
    }
    let Some(place) = s.find(serial) else { return Err(Refused(21)) };
    if identifier >= s.plan.m {
        return Err(Refused(27));
    }
    let t = s.template(place);
    if !t.risk {
        return Err(Refused(28));
    }
    if !has(if raise { t.pos } else { t.neg }, identifier as usize) {
        return Err(Refused(29));
    }
    Ok(place)
}

pub fn raise(s: &mut State, serial: u32, identifier: u32) -> Answer {
    match movable(s, serial, identifier, true) {
        Err(refusal) => refusal,
        Ok(place) => {
            s.labels[place] |= 1 << identifier;
            Done
        }
    }
}

pub fn lower(s: &mut State, serial: u32, identifier: u32) -> Answer {
    match movable(s, serial, identifier, false) {
        Err(refusal) => refusal,
        Ok(place) => {
            s.labels[place] &= !(1 << identifier);
            Done
        }
    }
}

pub fn step_by_value(mut s: State, serial: u32, branch: u32) -> (State, Answer) {
    let answer = step(&mut s, serial, branch);
    (s, answer)
}

pub fn send_by_value(s: State, from: u32, to: u32) -> (State, Answer) {
    let answer = send(&s, from, to);
    (s, answer)
}

pub fn raise_by_value(mut s: State, serial: u32, identifier: u32) -> (State, Answer) {
    let answer = raise(&mut s, serial, identifier);
    (s, answer)
}

pub fn lower_by_value(mut s: State, serial: u32, identifier: u32) -> (State, Answer) {
    let answer = lower(&mut s, serial, identifier);
    (s, answer)
}
