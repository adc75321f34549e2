//! The judge and the readers beside the reference's, and how the judge's time grows.

use crate::clock::{medians, timed, Variant};
use monitor::Verdict;
use reference::generate::Draft;
use reference::judge::{self, Text};
use reference::plan::{Assertion, Form, Kind, Plan, Template, BLANK};
use std::hint::black_box;

/// n `both` templates, m identifiers that the root makes, and k prots that hold: no search is cut short by a result.
pub fn costly(n: usize, m: u32, k: usize) -> Draft {
    let mut plan = Plan { n: n as u32, m, templates: [BLANK; 64] };
    let all = ((1u64 << m) - 1) as u32;
    for x in 0..n {
        let to = |i: usize| (1 + i % (n - 1)) as u8;
        let creates = if x == 0 { all } else { 0 };
        plan.templates[x] = Template { form: Form::Both(to(x), to(5 * x + 2)), lab: all, creates, ..BLANK };
    }
    let prot = |i: usize| Assertion {
        kind: Kind::Prot,
        source: n - 1 - i % (n / 2),
        sink: 1 + i % (n / 2),
        anc: 0,
        declass: 0,
    };
    let names = (0..n).map(|x| format!("template{x:08}")).collect();
    Draft { names, plan, policy: (0..k).map(prot).collect() }
}

/// The reference's verdict in the library's words.
fn judged(plan: &[u8], policy: &[u8]) -> Verdict {
    match judge::judge(plan, policy) {
        judge::Verdict::Accepted => Verdict::Accepted,
        judge::Verdict::Broken(b) => Verdict::Broken {
            rule: b.rule as u32,
            first: b.first as u32,
            second: b.second as u32,
            identifier: b.identifier as u32,
        },
        judge::Verdict::Unread(text, r) => {
            let text = if text == Text::Plan { monitor::Text::Plan } else { monitor::Text::Policy };
            Verdict::Unread { text, number: r.number as u32, line: r.line as u32 }
        }
    }
}

/// A number for a verdict, so that equal verdicts have equal checksums and others not.
fn sum(verdict: Verdict) -> u64 {
    let of = |words: [u32; 5]| words.iter().fold(0, |sum, &word| sum * 1000 + word as u64);
    match verdict {
        Verdict::Accepted => of([0; 5]),
        Verdict::Broken { rule, first, second, identifier } => of([1, rule, first, second, identifier]),
        Verdict::Unread { text, number, line } => of([2, (text == monitor::Text::Policy) as u32, number, line, 0]),
    }
}

/// Nanoseconds a verdict: the library, the reference.
pub fn pair(turns: usize, times: usize, plan: &[u8], policy: &[u8]) -> Vec<f64> {
    let repeated = |judge: fn(&[u8], &[u8]) -> Verdict| -> Variant {
        Box::new(move || {
            let (time, verdict) = timed(|| (0..times).fold(None, |_, _| Some(black_box(judge(plan, policy)))));
            (time / times as f64, verdict.map_or(0, sum))
        })
    };
    medians(turns, vec![repeated(monitor::judge), repeated(judged)])
}

fn row(turns: usize, times: usize, name: &str, plan: &[u8], policy: &[u8]) {
    let kind = match judged(plan, policy) {
        Verdict::Accepted => "accepted",
        Verdict::Broken { .. } => "broken",
        Verdict::Unread { .. } => "unread",
    };
    let t = pair(turns, times, plan, policy);
    println!("| {name} | {kind} | {:.1} | {:.1} | {:.2} |", t[0] / 1000.0, t[1] / 1000.0, t[0] / t[1]);
}

pub fn table(turns: usize) {
    println!("| text pair | verdict | library, µs | reference, µs | ratio |");
    println!("|---|---|---|---|---|");
    let (base, large) = (Draft::base(), costly(64, 32, 32));
    row(turns, 5000, "base plan", &base.plan_text(), &base.policy_text());
    row(turns, 1, "64 `both`, 32 identifiers, 32 prots", &large.plan_text(), &large.policy_text());
    let bare = costly(64, 32, 0);
    let (plan, policy) = (bare.plan_text(), bare.policy_text());
    row(turns, 500, "the same without assertions", &plan, &policy);
    let mut long = plan.clone();
    long.resize(16_384, b'\n');
    row(turns, 500, "the same plan, filled up to 16,384 bytes", &long, &policy);
    row(turns, 2000, "one line of 16,384 bytes", &[b"templates=", &[b'6'; 16_374][..]].concat(), &policy);
    let mut more = large.policy_text();
    more.resize(16_384, b'\n');
    row(turns, 500, "the same plan, a policy of 16,384 bytes", &plan, &more);
}
