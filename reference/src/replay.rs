//! Calls, their text (DESIGN.md, 7) and what the program `replay` prints.

use crate::judge::printed;
use crate::machine::{self, Answer, State};

pub const MAX_CALLS: usize = 65_536;

#[derive(Clone, Copy, PartialEq, Eq, Debug)]
pub enum Call {
    Step(u32, u32),
    Send(u32, u32),
    Raise(u32, u32),
    Lower(u32, u32),
}

impl Call {
    pub fn run(self, s: &mut State) -> Answer {
        match self {
            Call::Step(serial, branch) => machine::step(s, serial, branch),
            Call::Send(from, to) => machine::send(s, from, to),
            Call::Raise(serial, identifier) => machine::raise(s, serial, identifier),
            Call::Lower(serial, identifier) => machine::lower(s, serial, identifier),
        }
    }

    pub fn text(self) -> String {
        match self {
            Call::Step(a, b) => format!("step {a} {b}\n"),
            Call::Send(a, b) => format!("send {a} {b}\n"),
            Call::Raise(a, b) => format!("raise {a} {b}\n"),
            Call::Lower(a, b) => format!("lower {a} {b}\n"),
        }
    }
}

/// Decimal, no leading zero except in `0`, up to 4294967295.
fn number(field: &[u8]) -> Option<u32> {
    if field.is_empty() || field.len() > 10 || (field[0] == b'0' && field.len() > 1) {
        return None;
    }
    if !field.iter().all(u8::is_ascii_digit) {
        return None;
    }
    std::str::from_utf8(field).ok()?.parse().ok()
}

fn call(line: &[u8]) -> Option<Call> {
    let parts: Vec<&[u8]> = line.split(|&b| b == b' ').collect();
    let [word, a, b] = parts[..] else { return None };
    let (a, b) = (number(a)?, number(b)?);
    match word {
        b"step" => Some(Call::Step(a, b)),
        b"send" => Some(Call::Send(a, b)),
        b"raise" => Some(Call::Raise(a, b)),
        b"lower" => Some(Call::Lower(a, b)),
        _ => None,
    }
}

/// The calls up to the first line that is none, and the number of that line.
/// A text that is too long: no call, line 0.
pub fn read_calls(text: &[u8]) -> (Vec<Call>, Option<usize>) {
    if text.len() > MAX_CALLS {
        return (vec![], Some(0));
    }
    let mut calls = vec![];
    let mut rest = text;
    while !rest.is_empty() {
        let end = rest.iter().position(|&b| b == 10);
        match end.and_then(|e| call(&rest[..e])) {
            None => return (calls.clone(), Some(calls.len() + 1)),
            Some(c) => calls.push(c),
        }
        rest = &rest[end.unwrap() + 1..];
    }
    (calls, None)
}

pub fn answer_line(answer: Answer) -> String {
    match answer {
        Answer::Done => "done\n".to_string(),
        Answer::Delivered => "delivered\n".to_string(),
        Answer::Held => "held\n".to_string(),
        Answer::Refused(number) => format!("refused {number}\n"),
    }
}

pub fn dump(s: &State) -> String {
    let mut out = format!("next={} live={}\n", s.next, s.live);
    for p in 0..s.live as usize {
        let tags: Vec<String> = s.tags_of(p).iter().map(u32::to_string).collect();
        out += &format!(
            "serial={} template={} label={:08x} tags={}\n",
            s.serials[p], s.templates[p], s.labels[p], tags.join(",")
        );
    }
    out
}

pub fn replay(plan: &[u8], policy: &[u8], calls: &[u8]) -> String {
    replay_at(plan, policy, calls, 1)
}

/// The same from the started state with another next serial.
pub fn replay_at(plan: &[u8], policy: &[u8], calls: &[u8], next: u32) -> String {
    let mut s = match machine::start(plan, policy) {
        Err(verdict) => return printed(&verdict),
        Ok(s) => s,
    };
    s.next = u64::from(next);
    let (list, unread) = read_calls(calls);
    let mut out: String = list.iter().map(|c| answer_line(c.run(&mut s))).collect();
    match unread {
        Some(line) => out += &format!("unread line={line}\n"),
        None => out += &dump(&s),
    }
    out
}
