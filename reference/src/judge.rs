//! "The judge": rules 11 to 19, the verdict with its figures, and showing.

use crate::plan::*;
use crate::read::*;
use crate::routes::{joined, parted};

#[derive(Clone, Copy, PartialEq, Eq, Debug)]
pub enum Text {
    Plan,
    Policy,
}

impl Text {
    pub fn word(self) -> &'static str {
        match self {
            Text::Plan => "plan",
            Text::Policy => "policy",
        }
    }
}

#[derive(Clone, Copy, PartialEq, Eq, Debug)]
pub struct Broken {
    pub rule: u8,
    pub first: usize,
    pub second: usize,
    pub identifier: usize,
}

#[derive(Clone, Copy, PartialEq, Eq, Debug)]
pub enum Verdict {
    Unread(Text, Refusal),
    Broken(Broken),
    Accepted,
}

/// The plan is read first; the policy only if the plan reads.
pub fn read(plan: &[u8], policy: &[u8]) -> Result<(Plan, Names, Vec<Assertion>), (Text, Refusal)> {
    let (p, names) = read_plan(plan).map_err(|r| (Text::Plan, r))?;
    let a = read_policy(policy, &p).map_err(|r| (Text::Policy, r))?;
    Ok((p, names, a))
}

fn lowest(mask: u32) -> usize {
    (0..MAX_IDENTIFIERS).find(|&i| has(mask, i)).unwrap()
}

/// Rule 11.
fn twice_created(plan: &Plan) -> Option<Broken> {
    for t in 0..plan.m as usize {
        let makers: Vec<usize> = (0..plan.n as usize).filter(|&x| has(plan.templates[x].creates, t)).collect();
        if makers.len() > 1 {
            return Some(Broken { rule: 11, first: makers[0], second: makers[1], identifier: t });
        }
    }
    None
}

/// Rules 12 to 16 on one edge.
fn edge(plan: &Plan, first: usize, second: usize) -> Option<Broken> {
    let (x, y) = (&plan.templates[first], &plan.templates[second]);
    let tests = [
        (12, y.lab & !(x.lab | y.pos)),
        (13, x.lab & !y.neg & !y.lab),
        (14, y.pos & !(x.pos | y.creates)),
        (15, y.neg & !(x.neg | y.creates)),
        (16, y.creates & x.lab),
    ];
    let (rule, bad) = *tests.iter().find(|&&(_, bad)| bad != 0)?;
    Some(Broken { rule, first, second, identifier: lowest(bad) })
}

/// Rule 17, or rules 18 and 19, for the assertion at `place`.
pub fn assertion(plan: &Plan, place: usize, a: &Assertion) -> Option<Broken> {
    let (source, sink) = (&plan.templates[a.source], &plan.templates[a.sink]);
    let broken = |rule, identifier| Some(Broken { rule, first: place, second: a.sink, identifier });
    match a.kind {
        Kind::Secrecy => {
            let mut received = sink.lab;
            if sink.risk {
                received |= sink.pos;
            }
            for t in 0..plan.m as usize {
                let removable = (0..plan.n as usize).any(|x| a.declass >> x & 1 == 0 && has(plan.templates[x].neg, t));
                if has(source.lab, t)
                    && !removable
                    && (!has(received, t) || !joined(plan, t, a.source, a.sink, a.anc))
                {
                    return None;
                }
            }
            broken(17, 255)
        }
        Kind::Prot => {
            for t in 0..plan.m as usize {
                if !has(source.lab, t) {
                    continue;
                }
                if !has(sink.lab, t) {
                    return broken(18, t);
                }
                if parted(plan, t, a.source, a.sink, a.anc) {
                    return broken(19, t);
                }
            }
            None
        }
    }
}

/// The first broken rule of texts that read.
pub fn first_broken(plan: &Plan, policy: &[Assertion]) -> Option<Broken> {
    if let Some(b) = twice_created(plan) {
        return Some(b);
    }
    for x in 0..plan.n as usize {
        for y in plan.templates[x].form.successors() {
            if let Some(b) = edge(plan, x, y) {
                return Some(b);
            }
        }
    }
    policy.iter().enumerate().find_map(|(place, a)| assertion(plan, place, a))
}

pub fn judge(plan: &[u8], policy: &[u8]) -> Verdict {
    match read(plan, policy) {
        Err((text, refusal)) => Verdict::Unread(text, refusal),
        Ok((p, _, a)) => match first_broken(&p, &a) {
            Some(b) => Verdict::Broken(b),
            None => Verdict::Accepted,
        },
    }
}

/// Where line `number` (from 1) lies, without byte 10; the empty part at the text's end if there is none.
fn line_at(text: &[u8], number: usize) -> (usize, usize) {
    let mut start = 0;
    let mut line = 1;
    while number > 0 && start < text.len() {
        let end = text[start..].iter().position(|&b| b == 10).map_or(text.len(), |i| start + i);
        if line == number {
            return (start, end);
        }
        start = end + 1;
        line += 1;
    }
    (text.len(), text.len())
}

/// "Where the part lies": text, start, end.
pub fn locate(plan: &[u8], policy: &[u8]) -> (Text, usize, usize) {
    match judge(plan, policy) {
        Verdict::Accepted => (Text::Plan, 0, 0),
        Verdict::Unread(text, refusal) => {
            let (start, end) = line_at(if text == Text::Plan { plan } else { policy }, refusal.line);
            (text, start, end)
        }
        Verdict::Broken(b) if b.rule <= 16 => {
            let (_, names) = read_plan(plan).expect("a broken plan was read");
            let (start, end) = names[b.first];
            (Text::Plan, start, end)
        }
        Verdict::Broken(b) => {
            let (start, end) = line_at(policy, 2 + 5 * b.first);
            (Text::Policy, start, end)
        }
    }
}

/// The caller's own bytes.
pub fn show<'a>(plan: &'a [u8], policy: &'a [u8]) -> &'a [u8] {
    let (text, start, end) = locate(plan, policy);
    &(if text == Text::Plan { plan } else { policy })[start..end]
}

/// What the program `judge` prints.
pub fn printed(verdict: &Verdict) -> String {
    match verdict {
        Verdict::Accepted => "verdict=accepted\n".to_string(),
        Verdict::Unread(text, r) => {
            format!("verdict=unread\ntext={}\nnumber={}\nline={}\n", text.word(), r.number, r.line)
        }
        Verdict::Broken(b) => format!(
            "verdict=broken\nrule={}\nfirst={}\nsecond={}\nidentifier={}\n",
            b.rule, b.first, b.second, b.identifier
        ),
    }
}
