//! The proved library's memory, verdicts and answers beside the reference's.

use monitor::{sys, Monitor};
use reference::judge::{Text, Verdict};
use reference::machine::{Answer, State};
use reference::plan::{Form, Plan};
use reference::replay::Call;
use reference::rng::Rng;

/// Memory that holds anything.
pub fn junk(r: &mut Rng) -> Box<Monitor> {
    let mut m = Monitor::blank();
    for words in [&mut m.row[..], &mut m.place, &mut m.serials, &mut m.templates, &mut m.labels, &mut m.tags] {
        words.fill_with(|| r.next() as u32);
    }
    m
}

/// A state of the reference whose next serial fits a word; what carries no meaning holds anything.
pub fn memory_of(r: &mut Rng, s: &State) -> Box<Monitor> {
    let mut memory = junk(r);
    write_row(&mut memory.row, &s.plan);
    for (x, t) in s.plan.templates[..(s.plan.n as usize).min(64)].iter().enumerate() {
        // a successor that the form lacks
        (t.form.successors().count()..2).for_each(|k| memory.row[3 + 8 * x + k] = r.below(256) as u32);
    }
    memory.place = [s.next as u32, s.live];
    (memory.serials, memory.labels) = (s.serials, s.labels);
    let m = s.plan.m as usize;
    for p in 0..(s.live as usize).min(128) {
        memory.templates[p] = s.templates[p] as u32;
        if m <= 32 {
            memory.tags[m * p..m * p + m].copy_from_slice(&s.tags[32 * p..32 * p + m]);
        }
    }
    memory
}

/// Started over memory that holds anything, and all words of the verdict.
pub fn start(r: &mut Rng, plan: &[u8], policy: &[u8]) -> (Box<Monitor>, [u32; 5]) {
    let (mut m, mut verdict) = (junk(r), [77; 5]);
    // SAFETY: the texts are lent for the call, and the arrays are apart from each other.
    unsafe {
        sys::monitor_start(
            plan.as_ptr(), plan.len(), policy.as_ptr(), policy.len(), &mut verdict, &mut m.row, &mut m.place,
            &mut m.serials, &mut m.templates, &mut m.labels, &mut m.tags,
        )
    };
    (m, verdict)
}

pub fn call(m: &mut Monitor, call: Call) -> u8 {
    let answer = match call {
        Call::Step(serial, branch) => m.step(serial, branch),
        Call::Send(from, to) => m.send(from, to),
        Call::Raise(serial, identifier) => m.raise(serial, identifier),
        Call::Lower(serial, identifier) => m.lower(serial, identifier),
    };
    answer.code()
}

/// The row has the words of this plan.
pub fn row_is(memory: &Monitor, plan: &Plan) -> bool {
    let mut row = memory.row;
    write_row(&mut row, plan);
    row == memory.row
}

/// Next, live and the arrays mean the same as in a state of the reference that is not bad.
pub fn means(memory: &Monitor, s: &State) -> bool {
    let m = s.plan.m as usize;
    memory.place == [s.next as u32, s.live]
        && (0..s.live as usize).all(|p| {
            memory.serials[p] == s.serials[p]
                && memory.templates[p] == s.templates[p] as u32
                && memory.labels[p] == s.labels[p]
                && memory.tags[m * p..m * p + m] == s.tags[32 * p..32 * p + m]
        })
}

/// The words of templates at N and above stay.
fn write_row(row: &mut [u32; 514], plan: &Plan) {
    (row[0], row[1]) = (plan.n, plan.m);
    for (x, t) in plan.templates[..(plan.n as usize).min(64)].iter().enumerate() {
        let (form, y, z) = match t.form {
            Form::End => (0, 0, 0),
            Form::Go(y) => (1, y, 0),
            Form::Either(y, z) => (2, y, z),
            Form::Both(y, z) => (3, y, z),
        };
        let words = [form, y as u32, z as u32, t.lab, t.pos, t.neg, t.creates, t.risk as u32];
        row[2 + 8 * x..10 + 8 * x].copy_from_slice(&words);
    }
}

pub fn text(text: Text) -> monitor::Text {
    match text {
        Text::Plan => monitor::Text::Plan,
        Text::Policy => monitor::Text::Policy,
    }
}

/// The reference's verdict in the library's words.
pub fn verdict_words(verdict: &Verdict) -> [u32; 5] {
    match verdict {
        Verdict::Accepted => [0; 5],
        Verdict::Broken(b) => [1, b.rule as u32, b.first as u32, b.second as u32, b.identifier as u32],
        Verdict::Unread(text, r) => [2, (*text == Text::Policy) as u32, r.number as u32, r.line as u32, 0],
    }
}

pub fn verdict(verdict: &Verdict) -> monitor::Verdict {
    monitor::Verdict::from_words(verdict_words(verdict))
}

pub fn code(answer: Answer) -> u8 {
    match answer {
        Answer::Done => 0,
        Answer::Delivered => 1,
        Answer::Held => 2,
        Answer::Refused(number) => number,
    }
}

/// Three words a call; any kind from 3 on is a lower.
pub fn words(r: &mut Rng, calls: &[Call]) -> Vec<u32> {
    let lower = |r: &mut Rng| *r.pick(&[3, 3, 3, 4, 20, 256, u32::MAX]);
    let three = |call: &Call| match *call {
        Call::Step(x, y) => [0, x, y],
        Call::Send(x, y) => [1, x, y],
        Call::Raise(x, y) => [2, x, y],
        Call::Lower(x, y) => [lower(r), x, y],
    };
    calls.iter().flat_map(three).collect()
}
