//! Random plans and policies, damaged texts and lists of calls, each from a seed.

use crate::judge::assertion;
use crate::machine::{self, State, MAX_LIVE};
use crate::plan::*;
use crate::replay::Call;
use crate::rng::Rng;
use crate::routes::search;

/// A plan and a policy that can be written as texts.
#[derive(Clone, Debug)]
pub struct Draft {
    pub names: Vec<String>,
    pub plan: Plan,
    pub policy: Vec<Assertion>,
}

pub fn form_text(form: Form) -> String {
    match form {
        Form::End => "end".to_string(),
        Form::Go(y) => format!("go:{y}"),
        Form::Either(y, z) => format!("either:{y},{z}"),
        Form::Both(y, z) => format!("both:{y},{z}"),
    }
}

impl Draft {
    /// The base plan and its policy: case a.
    pub fn base() -> Draft {
        let row = |form, lab, pos, neg, creates, risk| Template { form, lab, pos, neg, creates, risk };
        let mut templates = [BLANK; MAX_TEMPLATES];
        templates[0] = row(Form::Go(1), 0, 0, 1, 0, false);
        templates[1] = row(Form::Go(2), 0, 0, 1, 0, false);
        templates[2] = row(Form::Both(1, 3), 1, 1, 1, 1, false);
        templates[3] = row(Form::End, 1, 0, 0, 0, true);
        Draft {
            names: ["boot", "hub", "split", "reader"].map(String::from).to_vec(),
            plan: Plan { n: 4, m: 1, templates },
            policy: vec![Assertion { kind: Kind::Secrecy, source: 3, sink: 3, anc: 3, declass: 7 }],
        }
    }

    /// A plan that needs its Declass: `maker` makes the identifier, `speaker` (the Source) tells `gate`, which may drop
    /// the identifier by `wash` or by itself and goes on to `hearer` (the Sink).
    pub fn gate() -> Draft {
        let row = |form, lab, pos, neg, creates, risk| Template { form, lab, pos, neg, creates, risk };
        let mut templates = [BLANK; MAX_TEMPLATES];
        templates[0] = row(Form::Both(1, 5), 0, 0, 0, 0, false);
        templates[1] = row(Form::Both(2, 3), 1, 1, 1, 1, false);
        templates[2] = row(Form::End, 1, 0, 0, 0, true);
        templates[3] = row(Form::Both(3, 4), 1, 1, 1, 0, true);
        templates[4] = row(Form::Go(5), 0, 0, 1, 0, false);
        templates[5] = row(Form::Go(5), 0, 0, 0, 0, true);
        Draft {
            names: ["boot", "maker", "speaker", "gate", "wash", "hearer"].map(String::from).to_vec(),
            plan: Plan { n: 6, m: 1, templates },
            policy: vec![Assertion { kind: Kind::Secrecy, source: 2, sink: 5, anc: 5, declass: 26 }],
        }
    }

    pub fn plan_text(&self) -> Vec<u8> {
        let mut out = format!("templates={}\nidentifiers={}\n", self.plan.n, self.plan.m);
        for (name, t) in self.names.iter().zip(self.plan.used()) {
            out += &format!("name={name}\nform={}\n", form_text(t.form));
            out += &format!("lab={:08x}\npos={:08x}\nneg={:08x}\n", t.lab, t.pos, t.neg);
            out += &format!("creates={:08x}\nrisk={}\n", t.creates, t.risk as u8);
        }
        out.into_bytes()
    }

    pub fn policy_text(&self) -> Vec<u8> {
        let mut out = format!("assertions={}\n", self.policy.len());
        for a in &self.policy {
            let kind = if a.kind == Kind::Secrecy { "secrecy" } else { "prot" };
            out += &format!("kind={kind}\nsource={}\nsink={}\nanc={}\n", a.source, a.sink, a.anc);
            out += &format!("declass={:016x}\n", a.declass);
        }
        out.into_bytes()
    }

    /// A plan of n templates and m identifiers that keeps rules 11 to 16; no assertions.
    pub fn random(r: &mut Rng, n: usize, m: usize) -> Draft {
        let mut plan = Plan { n: n as u32, m: m as u32, templates: [BLANK; MAX_TEMPLATES] };
        for x in 0..n {
            plan.templates[x].form = random_form(r, n, x);
            plan.templates[x].risk = r.percent(40);
        }
        for t in 0..m {
            let bit = 1 << t;
            let creator = if r.percent(80) { Some(r.below(n)) } else { None };
            let (lab, pos, neg) = (*r.pick(&[10, 50, 90]), *r.pick(&[0, 0, 30, 100]), *r.pick(&[0, 30, 80, 100]));
            for x in 0..n {
                let made_here = creator == Some(x);
                let y = &mut plan.templates[x];
                if made_here {
                    y.creates |= bit;
                }
                if r.percent(if made_here { 85 } else { lab }) {
                    y.lab |= bit;
                }
                if r.percent(if made_here { 85 } else { pos }) {
                    y.pos |= bit;
                }
                if r.percent(if made_here { neg.max(40) } else { neg }) {
                    y.neg |= bit;
                }
            }
        }
        close(r, &mut plan);
        Draft { names: random_names(r, n), plan, policy: vec![] }
    }

    /// An assertion; half of the time its Declass is made to suit rule 17.
    pub fn random_assertion(&self, r: &mut Rng) -> Assertion {
        let n = self.plan.n as usize;
        let all = if n == 64 { u64::MAX } else { (1 << n) - 1 };
        let source = self.likely(r);
        let sink = if r.percent(20) { source } else { self.likely(r) };
        let anc = match r.below(4) {
            0 => source,
            1 => sink,
            _ => r.below(n),
        };
        if r.percent(45) {
            return Assertion { kind: Kind::Prot, source, sink, anc, declass: 0 };
        }
        let own = 1 << source | 1 << sink;
        let mut declass = match r.below(4) {
            0 => r.next() & r.next(),
            1 => all,
            2 => {
                let t = r.below(32);
                (0..n).filter(|&x| has(self.plan.templates[x].neg, t)).map(|x| 1 << x).sum()
            }
            _ => {
                let lab = self.plan.templates[source].lab;
                (0..n).filter(|&x| self.plan.templates[x].neg & lab != 0).map(|x| 1 << x).sum()
            }
        };
        declass &= all & !own;
        Assertion { kind: Kind::Secrecy, source, sink, anc, declass }
    }

    /// A template, rather one that is reached and has a label.
    fn likely(&self, r: &mut Rng) -> usize {
        let n = self.plan.n as usize;
        let reached = search(&self.plan, 0, None);
        for _ in 0..4 {
            let x = r.below(n);
            if reached[x] && self.plan.templates[x].lab != 0 {
                return x;
            }
        }
        r.below(n)
    }

    /// Up to `count` assertions that hold; half of the time secrecies that hold only by their Declass, if there are any.
    pub fn add_holding(&mut self, r: &mut Rng, count: usize) {
        let strict = r.percent(50);
        for tried in 0..16 * count {
            let a = self.random_assertion(r);
            let wanted = !strict || tried >= 8 * count || {
                let bare = Assertion { declass: 0, ..a };
                a.kind == Kind::Secrecy && assertion(&self.plan, 0, &bare).is_some()
            };
            if self.policy.len() < count && wanted && assertion(&self.plan, 0, &a).is_none() {
                self.policy.push(a);
            }
        }
    }

    /// One small change: a bit, a risk, a form or a field of an assertion.
    pub fn change(&mut self, r: &mut Rng) {
        let n = self.plan.n as usize;
        let x = r.below(n);
        let bit = if self.plan.m == 0 { 0 } else { 1 << r.below(self.plan.m as usize) };
        let form = random_form(r, n, x);
        let t = &mut self.plan.templates[x];
        match r.below(10) {
            0 | 1 => t.lab ^= bit,
            2 | 3 => t.pos ^= bit,
            4 | 5 => t.neg ^= bit,
            6 => t.creates ^= bit,
            7 => t.risk = !t.risk,
            8 => t.form = form,
            _ if self.policy.is_empty() => t.lab ^= bit,
            _ => {
                let place = r.below(self.policy.len());
                let a = &mut self.policy[place];
                match r.below(4) {
                    0 => a.source = x,
                    1 => a.sink = x,
                    2 => a.anc = x,
                    _ => a.declass ^= 1 << x,
                }
                if a.kind == Kind::Prot {
                    a.declass = 0;
                }
                a.declass &= !(1 << a.source | 1 << a.sink);
            }
        }
    }

    /// A small draft that reads: often accepted, often broken at each rule.
    pub fn candidate(r: &mut Rng) -> Draft {
        let n = match r.below(100) {
            0..=2 => 1,
            3..=49 => r.range(2, 4),
            50..=96 => r.range(5, 8),
            _ => r.range(9, 24),
        };
        let m = *r.pick(&[0, 1, 1, 1, 2, 2, 3, 3, 4, 6]);
        let m = if r.percent(2) { r.range(7, 32) } else { m };
        let mut d = match r.below(100) {
            0..=9 => Draft::base(),
            10..=17 => Draft::gate(),
            _ => Draft::random(r, n, m),
        };
        let count = *r.pick(&[0, 1, 1, 1, 2, 2, 3, 4]);
        match r.below(10) {
            0..=2 => d.add_holding(r, count),
            3..=5 => {
                d.add_holding(r, count / 2);
                let prots = r.percent(60);
                while d.policy.len() < count {
                    let mut a = d.random_assertion(r);
                    if prots {
                        (a.kind, a.declass) = (Kind::Prot, 0);
                    }
                    d.policy.push(a);
                }
            }
            6..=8 => {
                d.add_holding(r, count.min(2));
                for _ in 0..r.range(1, 3) {
                    d.change(r);
                }
            }
            _ => {
                for x in 0..d.plan.n as usize {
                    let within = if d.plan.m == 32 { u32::MAX } else { (1 << d.plan.m) - 1 };
                    let t = &mut d.plan.templates[x];
                    let mut mask = || r.next() as u32 & r.next() as u32 & within;
                    (t.lab, t.pos, t.neg) = (mask(), mask(), mask());
                    if r.percent(30) {
                        t.creates ^= r.next() as u32 & r.next() as u32 & r.next() as u32 & within;
                    }
                }
            }
        }
        d
    }

    /// A draft of the largest size: 64 templates, 32 identifiers and up to 32 assertions, all of them holding.
    pub fn large(r: &mut Rng) -> Draft {
        let mut d = Draft::random(r, 64, 32);
        d.add_holding(r, 32);
        d
    }
}

fn random_names(r: &mut Rng, n: usize) -> Vec<String> {
    let letter = |r: &mut Rng| (b'a' + r.below(26) as u8) as char;
    let name = |i: usize| {
        let mut name = format!("{}{i}", letter(r));
        if r.percent(4) {
            while name.len() < 16 {
                name.push(letter(r));
            }
        }
        name
    };
    (0..n).map(name).collect()
}

fn random_form(r: &mut Rng, n: usize, x: usize) -> Form {
    let to = |r: &mut Rng| match r.below(10) {
        0..=4 => ((x + 1) % n) as u8,
        5..=7 => r.below(n) as u8,
        _ => r.below(x + 1) as u8,
    };
    match r.below(100) {
        0..=14 if x > 0 || r.percent(10) => Form::End,
        0..=34 => Form::Go(to(r)),
        35..=54 => Form::Either(to(r), to(r)),
        _ => Form::Both(to(r), to(r)),
    }
}

fn edges(plan: &Plan) -> Vec<(usize, usize)> {
    let of = |x: usize| plan.templates[x].form.successors().map(move |y| (x, y));
    (0..plan.n as usize).flat_map(of).collect()
}

/// Makes the masks keep rules 12 to 16: may-masks are cut down to what is handed on, labels repaired at random,
/// and an identifier whose labels resist is taken out of all of them.
fn close(r: &mut Rng, plan: &mut Plan) {
    let edges = edges(plan);
    let t = &mut plan.templates;
    let mut changed = true;
    while changed {
        changed = false;
        for &(x, y) in &edges {
            let pos = t[y].pos & (t[x].pos | t[y].creates);
            let neg = t[y].neg & (t[x].neg | t[y].creates);
            changed |= pos != t[y].pos || neg != t[y].neg;
            (t[y].pos, t[y].neg) = (pos, neg);
        }
    }
    for round in 0..=60 {
        let mut wrong = 0;
        for &(x, y) in &edges {
            let made = t[y].creates & t[x].lab;
            t[x].lab &= !made;
            let added = t[y].lab & !(t[x].lab | t[y].pos);
            match r.below(2) {
                0 => t[y].lab &= !added,
                _ => t[x].lab |= added,
            }
            let lost = t[x].lab & !t[y].neg & !t[y].lab;
            match r.below(2) {
                0 => t[x].lab &= !lost,
                _ => t[y].lab |= lost,
            }
            wrong |= made | added | lost;
        }
        if wrong == 0 {
            break;
        }
        if round == 60 {
            t.iter_mut().for_each(|t| t.lab &= !wrong);
        }
    }
}

#[derive(Clone, Copy, PartialEq, Eq, Debug)]
pub enum Style {
    /// all calls, mostly of live serials
    Normal,
    /// forks first, until 128 live
    Grow,
    /// at-risk processes move their labels and then step
    Wild,
}

/// A list of calls from the started machine on, chosen with the state in view.
pub fn calls(r: &mut Rng, plan: &Plan, count: usize, style: Style) -> Vec<Call> {
    calls_from(r, machine::started(*plan), count, style)
}

/// The same from any state on.
pub fn calls_from(r: &mut Rng, mut s: State, count: usize, style: Style) -> Vec<Call> {
    let mut list = vec![];
    while list.len() < count {
        let call = next_call(r, &s, style);
        call.run(&mut s);
        list.push(call);
    }
    list
}

fn odd_number(r: &mut Rng, near: usize) -> u32 {
    match r.below(6) {
        0 => u32::MAX,
        1 => 1 << r.below(32),
        2 => r.next() as u32,
        _ => r.below(near + 3) as u32,
    }
}

fn live_serial(r: &mut Rng, s: &State) -> u32 {
    let live = s.live as usize;
    if live == 0 || r.percent(2) {
        return odd_number(r, s.next as usize);
    }
    let place = if r.percent(40) { live - 1 - r.below(live.min(4)) } else { r.below(live) };
    s.serials[place]
}

/// A live serial at a place that passes the test, if one is found soon.
fn live_where(r: &mut Rng, s: &State, test: impl Fn(&Template) -> bool) -> Option<u32> {
    let fitting: Vec<usize> = (0..s.live as usize).filter(|&p| test(s.template(p))).collect();
    if fitting.is_empty() { None } else { Some(s.serials[*r.pick(&fitting)]) }
}

fn next_call(r: &mut Rng, s: &State, style: Style) -> Call {
    let is_both = |t: &Template| matches!(t.form, Form::Both(..));
    let goes_on = |t: &Template| t.form != Form::End;
    if style == Style::Grow && r.percent(94) {
        let full = s.live as usize == MAX_LIVE;
        if !full || r.percent(50) {
            if let Some(serial) = live_where(r, s, is_both).or_else(|| live_where(r, s, goes_on)) {
                return step_call(r, s, serial);
            }
        }
    }
    match r.below(100) {
        0..=39 => {
            let mut serial = live_serial(r, s);
            if s.live < 6 && r.percent(90) {
                serial = live_where(r, s, is_both).or_else(|| live_where(r, s, goes_on)).unwrap_or(serial);
            } else if s.live < 20 && r.percent(70) {
                serial = live_where(r, s, goes_on).unwrap_or(serial);
            }
            step_call(r, s, serial)
        }
        40..=74 if style != Style::Wild || r.percent(50) => {
            let from = live_serial(r, s);
            let to = if r.percent(4) { from } else { live_serial(r, s) };
            Call::Send(from, to)
        }
        _ => {
            let mut serial = live_serial(r, s);
            if r.percent(75) {
                serial = live_where(r, s, |t| t.risk && t.pos | t.neg != 0).unwrap_or(serial);
            }
            let raise = r.percent(50);
            let may = s.find(serial).map_or(0, |p| if raise { s.template(p).pos } else { s.template(p).neg });
            let bits: Vec<u32> = (0..32).filter(|&i| has(may, i as usize)).collect();
            let identifier = match r.below(10) {
                0 => odd_number(r, s.plan.m as usize),
                1 | 2 if s.plan.m > 0 => r.below(s.plan.m as usize) as u32,
                _ if !bits.is_empty() => *r.pick(&bits),
                _ => r.below(s.plan.m as usize + 1) as u32,
            };
            if raise { Call::Raise(serial, identifier) } else { Call::Lower(serial, identifier) }
        }
    }
}

fn step_call(r: &mut Rng, s: &State, serial: u32) -> Call {
    let branch = match s.find(serial).map(|p| s.template(p).form) {
        _ if r.percent(4) => odd_number(r, 3),
        Some(Form::Either(..)) => r.below(2) as u32,
        _ => 0,
    };
    Call::Step(serial, branch)
}

/// A call that suits the state.
pub fn any_call(r: &mut Rng, s: &State) -> Call {
    let style = *r.pick(&[Style::Normal, Style::Grow, Style::Wild]);
    next_call(r, s, style)
}
