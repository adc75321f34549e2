//! Pairs of texts: what is made of them, and the verdict, the part shown and what start answers.

use crate::library;
use crate::lists::not_played;
use crate::tally::{same, with_input, Checked, Tally};
use monitor::{Monitor, Part};
use reference::damage::{corners, damaged, overlong, Pair};
use reference::generate::Draft;
use reference::judge::{judge, locate, read, Text, Verdict};
use reference::machine::started;
use reference::read::{read_plan, MAX_TEXT};
use reference::rng::Rng;

const PAIRS: &str = "text pairs, by verdict";
const MADE: &str = "text pairs, by how they were made";

pub fn expected_kinds(tally: &mut Tally) {
    tally.expect(PAIRS, "accepted");
    (11..=19).for_each(|rule| tally.expect(PAIRS, &format!("broken {rule}")));
    for (text, numbers) in [("plan", [1, 2, 3, 4, 5]), ("policy", [1, 2, 3, 4, 6])] {
        numbers.iter().for_each(|number| tally.expect(PAIRS, &format!("unread {text} {number}")));
    }
}

fn kind(verdict: &Verdict) -> String {
    match verdict {
        Verdict::Accepted => "accepted".to_string(),
        Verdict::Unread(text, f) => format!("unread {} {}", text.word(), f.number),
        Verdict::Broken(b) => format!("broken {}", b.rule),
    }
}

/// Any bytes; often of those that the layout uses.
fn noise(r: &mut Rng) -> Vec<u8> {
    let length = *r.pick(&[0, 0, 1, 2, 13, 100, 1000, MAX_TEXT - 1, MAX_TEXT, MAX_TEXT + 1]);
    let any = r.percent(50);
    let byte = |r: &mut Rng| if any { r.next() as u8 } else { *r.pick(b"templates=1\nidentifiers=0\nname=a\nform=go:0\n") };
    (0..length).map(|_| byte(r)).collect()
}

/// Exactly 16,384 or 16,385 bytes, the first of them readable.
fn at_the_limit(r: &mut Rng) -> Pair {
    let d = if r.percent(20) { Draft::random(r, 64, 32) } else { Draft::base() };
    let (mut plan, mut policy) = (d.plan_text(), d.policy_text());
    let text = if r.percent(50) { &mut plan } else { &mut policy };
    if r.percent(30) {
        text.pop();
    }
    let filling = *r.pick(b"\nx0=\0");
    text.resize(MAX_TEXT + r.below(2), filling);
    (plan, policy)
}

/// A pair that is not made to be read, and how it was made.
pub fn odd(r: &mut Rng) -> (&'static str, Pair) {
    match r.below(28) {
        0 => ("any bytes", (noise(r), noise(r))),
        1 => ("any bytes", (Draft::base().plan_text(), noise(r))),
        2 => ("empty", (vec![], if r.percent(50) { vec![] } else { Draft::base().policy_text() })),
        3 => ("empty", (Draft::base().plan_text(), vec![])),
        4 | 5 => ("16,384 or 16,385 bytes", at_the_limit(r)),
        6 => ("too long", overlong(r, Text::Plan)),
        7 => ("too long", overlong(r, Text::Policy)),
        8 => ("corners of reading", r.pick(&corners()).clone()),
        _ => ("damaged", damaged(r)),
    }
}

/// The drafts of the stored corpus that read: each mistake that its maker could think of in rules 17 to 19 shows in
/// some of them, and random drafts seldom come so near.
pub fn stored() -> Vec<Draft> {
    let mut rest = &include_bytes!("../../crates/judge_cases/data/cases")[..];
    let mut take = |length: usize| {
        let (head, tail) = rest.split_at(length.min(rest.len()));
        rest = tail;
        head
    };
    let hex = |digits: &[u8]| usize::from_str_radix(&String::from_utf8_lossy(digits), 16).ok();
    let mut drafts = vec![];
    while let (Some(plan), Some(policy)) = (hex(take(4)), hex(take(4))) {
        let (plan, policy) = (take(plan), take(policy));
        if let Ok((p, names, policy)) = read(plan, policy) {
            let names = names.iter().map(|&(start, end)| String::from_utf8_lossy(&plan[start..end]).into()).collect();
            drafts.push(Draft { names, plan: p, policy });
        }
    }
    drafts
}

/// A draft of the stored corpus with up to two small changes; not one of the largest.
pub fn neighbour(r: &mut Rng, stored: &[Draft]) -> Draft {
    let mut d = r.pick(stored).clone();
    while d.plan.n > 24 {
        d = r.pick(stored).clone();
    }
    for _ in 0..r.below(3) {
        d.change(r);
    }
    d
}

pub fn pair_of(d: &Draft) -> Pair {
    (d.plan_text(), d.policy_text())
}

/// Compares on one pair.
pub fn check(r: &mut Rng, tally: &mut Tally, made: &str, (plan, policy): &Pair) -> Checked {
    let verdict = judge(plan, policy);
    let mut compare = || -> Checked {
        same("judge", monitor::judge(plan, policy), library::verdict(&verdict))?;
        let (text, start, end) = locate(plan, policy);
        same("locate", monitor::locate(plan, policy), Part { text: library::text(text), start, end })?;
        let (memory, words) = library::start(r, plan, policy);
        same("start's verdict", words, library::verdict_words(&verdict))?;
        if verdict == Verdict::Accepted {
            let (p, _) = read_plan(plan).expect("an accepted plan was read");
            same("start's row is the plan", library::row_is(&memory, &p), true)?;
            same("start's state means the started machine", library::means(&memory, &started(p)), true)?;
        } else {
            same("start's memory is blank where not accepted", memory == Monitor::blank(), true)?;
            not_played(r, plan, policy, &verdict)?;
        }
        Ok(())
    };
    with_input(compare(), || texts(plan, policy))?;
    tally.add(PAIRS, &kind(&verdict), 1);
    tally.add(MADE, made, 1);
    tally.passed += 1;
    Ok(())
}

/// Both texts as Rust byte strings, so that no byte is lost.
pub fn texts(plan: &[u8], policy: &[u8]) -> String {
    format!("plan=b\"{}\"\npolicy=b\"{}\"\n", plan.escape_ascii(), policy.escape_ascii())
}
