//! "Kin and flow": the history from plan, policy, calls and answers alone, and the box promise as a run-time check.

use crate::machine::{self, Answer, State};
use crate::plan::*;
use crate::replay::Call;
use std::collections::BTreeSet;

#[derive(Clone, Debug)]
pub struct Process {
    pub template: usize,
    pub parent: Option<usize>,
    pub live: bool,
    pub label: u32,
    pub moved: bool,
}

/// Serials are places in `processes`. knows[place of the assertion][serial]; empty sets for a prot.
pub struct History<'a> {
    pub plan: &'a Plan,
    pub policy: &'a [Assertion],
    pub processes: Vec<Process>,
    pub knows: Vec<Vec<BTreeSet<usize>>>,
}

#[derive(Clone, Copy, PartialEq, Eq, Debug)]
pub enum Breach {
    /// assertion, Sink process, Source process it knows
    Secrecy(usize, usize, usize),
    /// assertion, Source process, Sink process: a send between them is not delivered
    Prot(usize, usize, usize),
    /// an unmoved process and the branch at which its step is refused over labels
    Labels(usize, usize),
    /// what the state says differs from the history (template, live or label of this serial)
    State(usize),
}

impl<'a> History<'a> {
    pub fn new(plan: &'a Plan, policy: &'a [Assertion]) -> History<'a> {
        let mut h = History { plan, policy, processes: vec![], knows: vec![vec![]; policy.len()] };
        h.create(0, None);
        h
    }

    fn create(&mut self, template: usize, parent: Option<usize>) {
        let own = self.processes.len();
        let label = self.plan.templates[template].lab;
        self.processes.push(Process { template, parent, live: true, label, moved: false });
        for (a, knows) in self.policy.iter().zip(&mut self.knows) {
            let mut set = BTreeSet::new();
            if a.kind == Kind::Secrecy {
                if let (Some(p), false) = (parent, a.declass >> template & 1 == 1) {
                    set = knows[p].clone();
                }
                set.insert(own);
            }
            knows.push(set);
        }
    }

    /// One call and the answer it gave.
    pub fn record(&mut self, call: Call, answer: Answer) {
        match (call, answer) {
            (_, Answer::Refused(_)) | (_, Answer::Held) => {}
            (Call::Step(serial, branch), _) => {
                let serial = serial as usize;
                let template = self.processes[serial].template;
                self.processes[serial].live = false;
                let form = self.plan.templates[template].form;
                let all: Vec<usize> = form.successors().collect();
                match form {
                    Form::Either(..) => self.create(all[branch as usize], Some(serial)),
                    _ => all.iter().for_each(|&y| self.create(y, Some(serial))),
                }
            }
            (Call::Send(from, to), _) => {
                let (from, to) = (from as usize, to as usize);
                let template = self.processes[to].template;
                for (a, knows) in self.policy.iter().zip(&mut self.knows) {
                    if a.declass >> template & 1 == 0 {
                        let learned = knows[from].clone();
                        knows[to].extend(learned);
                    }
                }
            }
            (Call::Raise(serial, i), _) | (Call::Lower(serial, i), _) => {
                let p = &mut self.processes[serial as usize];
                let label = match call {
                    Call::Raise(..) => p.label | 1 << i,
                    _ => p.label & !(1 << i),
                };
                p.moved |= label != p.label;
                p.label = label;
            }
        }
    }

    /// The nearest process executing `template` on the line of `serial`.
    pub fn nearest(&self, serial: usize, template: usize) -> Option<usize> {
        let mut at = Some(serial);
        while let Some(p) = at {
            if self.processes[p].template == template {
                return Some(p);
            }
            at = self.processes[p].parent;
        }
        None
    }

    pub fn kin(&self, one: usize, other: usize, anc: usize) -> bool {
        let nearest = self.nearest(one, anc);
        nearest.is_some() && nearest == self.nearest(other, anc)
    }

    /// No Sink process knows a different Source process that is not its kin under Anc.
    pub fn secrecy(&self) -> Option<Breach> {
        for (place, a) in self.policy.iter().enumerate() {
            for (sink, known) in self.knows[place].iter().enumerate() {
                if self.processes[sink].template != a.sink {
                    continue;
                }
                for &source in known {
                    let is_source = self.processes[source].template == a.source;
                    if is_source && source != sink && !self.kin(sink, source, a.anc) {
                        return Some(Breach::Secrecy(place, sink, source));
                    }
                }
            }
        }
        None
    }

    fn unmoved(&self) -> impl Iterator<Item = usize> + '_ {
        (0..self.processes.len()).filter(|&p| self.processes[p].live && !self.processes[p].moved)
    }

    /// Every send of a prot and every step of an unmoved live process that could come next.
    pub fn next_calls(&self, s: &State) -> Option<Breach> {
        for (place, a) in self.policy.iter().enumerate() {
            if a.kind != Kind::Prot {
                continue;
            }
            for source in self.unmoved().filter(|&p| self.processes[p].template == a.source) {
                for sink in self.unmoved().filter(|&p| self.processes[p].template == a.sink) {
                    if source != sink
                        && self.kin(source, sink, a.anc)
                        && machine::send(s, source as u32, sink as u32) != Answer::Delivered
                    {
                        return Some(Breach::Prot(place, source, sink));
                    }
                }
            }
        }
        for p in self.unmoved() {
            for branch in 0..2 {
                if machine::step_by_value(*s, p as u32, branch).1 == Answer::Refused(25) {
                    return Some(Breach::Labels(p, branch as usize));
                }
            }
        }
        None
    }

    /// The machine's live processes are those of the history.
    pub fn agrees(&self, s: &State) -> Option<Breach> {
        let mut place = 0;
        for (serial, p) in self.processes.iter().enumerate().filter(|(_, p)| p.live) {
            let same = place < s.live as usize
                && s.serials[place] as usize == serial
                && s.templates[place] as usize == p.template
                && s.labels[place] == p.label;
            if !same {
                return Some(Breach::State(serial));
            }
            place += 1;
        }
        if place != s.live as usize || s.next != self.processes.len() as u64 {
            return Some(Breach::State(self.processes.len()));
        }
        None
    }
}

/// The box promise over a list of calls: answers, final state, and the first breach with the number of calls made.
/// Secrecy is tested after every call, all that could come next after every `often`-th call and after the last.
pub fn promise(
    plan: &Plan,
    policy: &[Assertion],
    calls: &[Call],
    often: usize,
) -> (Vec<Answer>, State, Option<(usize, Breach)>) {
    let mut s = machine::started(*plan);
    let mut h = History::new(plan, policy);
    let mut answers = vec![];
    let mut breach = None;
    for made in 0..=calls.len() {
        if made > 0 {
            let answer = calls[made - 1].run(&mut s);
            h.record(calls[made - 1], answer);
            answers.push(answer);
        }
        if breach.is_none() {
            let mut found = h.secrecy().or_else(|| h.agrees(&s));
            if made == calls.len() || made % often == 0 {
                found = found.or_else(|| h.next_calls(&s));
            }
            breach = found.map(|b| (made, b));
        }
    }
    (answers, s, breach)
}
