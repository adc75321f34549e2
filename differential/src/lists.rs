//! Lists of calls on accepted pairs: singly, as one run and as a replay, with the box promise watched by the reference.

use crate::library::{self, code, words};
use crate::tally::{same, with_input, Checked, Tally};
use crate::texts::{pair_of, texts};
use monitor::Monitor;
use reference::generate::{calls, Draft, Style};
use reference::history::promise;
use reference::judge::Verdict;
use reference::machine::{Answer, State};
use reference::replay::Call;
use reference::rng::Rng;

const LISTS: &str = "call lists, the promise kept on each";
pub const SINGLE: &str = "calls made one by one, the state compared after each";
const MORE: &str = "calls made again in a list";

pub fn expected_kinds(tally: &mut Tally) {
    ["done", "delivered", "held"].iter().for_each(|kind| tally.expect(SINGLE, kind));
    (20..=29).for_each(|number| tally.expect(SINGLE, &format!("refused {number}")));
}

pub fn kind(answer: Answer) -> String {
    match answer {
        Answer::Refused(number) => format!("refused {number}"),
        _ => format!("{answer:?}").to_lowercase(),
    }
}

/// A call with numbers that need not fit.
fn wild(r: &mut Rng) -> Call {
    let number = |r: &mut Rng| match r.below(8) {
        0 => u32::MAX,
        1 => 1 << r.below(32),
        2 => r.next() as u32,
        3 => 0,
        _ => r.below(60) as u32,
    };
    let (x, y) = (number(r), number(r));
    *r.pick(&[Call::Step(x, y), Call::Step(x, 0), Call::Send(x, y), Call::Raise(x, y), Call::Lower(x, y)])
}

/// One accepted draft, one list.
pub fn check(r: &mut Rng, tally: &mut Tally, d: &Draft) -> Checked {
    let style = *r.pick(&[Style::Normal, Style::Normal, Style::Wild, Style::Grow]);
    let length = if style == Style::Grow { 240 } else { r.range(0, 120) };
    let mut list = vec![];
    for call in calls(r, &d.plan, length, style) {
        if r.percent(8) {
            list.push(wild(r));
        }
        list.push(call);
    }
    let (plan, policy) = pair_of(d);
    let input = || texts(&plan, &policy) + &list.iter().map(|c| c.text()).collect::<String>();
    let (answers, end, breach) = promise(&d.plan, &d.policy, &list, 10);
    with_input(same("the promise", breach, None), input)?;
    let (start, _) = library::start(r, &plan, &policy);
    let mut s = reference::machine::started(d.plan);
    with_input(singly(tally, &mut start.clone(), &mut s, &list), input)?;
    with_input(as_run(r, &mut start.clone(), &list, &answers, &end), input)?;
    with_input(as_replay(r, &plan, &policy, &list, &answers), input)?;
    tally.add(LISTS, &format!("{style:?}").to_lowercase(), 1);
    tally.add(MORE, "in a run", list.len());
    tally.add(MORE, "in a replay", list.len());
    tally.passed += 1;
    Ok(())
}

/// Each call on both sides; answers, meaning, and no word changed where the call changes nothing.
pub fn singly(tally: &mut Tally, memory: &mut Monitor, s: &mut State, list: &[Call]) -> Checked {
    for (i, &call) in list.iter().enumerate() {
        let before = memory.clone();
        let got = library::call(memory, call);
        let answer = call.run(s);
        let here = format!("call {i}, {}", call.text().trim_end());
        same(&here, got, code(answer))?;
        if answer == Answer::Done {
            same(&format!("{here}: the state after it means the reference's"), library::means(memory, s), true)?;
            same(&format!("{here}: the row is as before"), memory.row == before.row, true)?;
        } else {
            same(&format!("{here}: every word is as before"), *memory == before, true)?;
        }
        tally.add(SINGLE, &kind(answer), 1);
    }
    Ok(())
}

/// The words of the calls, sometimes with some left over, and room for the answers, sometimes more or less.
fn laid_out(r: &mut Rng, list: &[Call]) -> (Vec<u32>, Vec<u8>) {
    let mut w = words(r, list);
    w.extend(&[1, 0][..r.below(3)]);
    let places = match r.below(4) {
        0 => list.len() + r.below(4),
        1 => list.len() - r.below(list.len().min(3) + 1),
        _ => list.len(),
    };
    (w, vec![99; places])
}

/// The answers that fit are there, and no byte past them was touched.
fn answered(what: &str, played: usize, got: &[u8], answers: &[Answer]) -> Checked {
    let count = got.len().min(answers.len());
    same(&format!("calls played by {what}"), played, count)?;
    let wanted: Vec<u8> = answers[..count].iter().map(|&a| code(a)).collect();
    same(&format!("answers of {what}"), &got[..count], &wanted[..])?;
    same(&format!("answers past the last of {what}"), got[count..].iter().all(|&b| b == 99), true)
}

/// All calls at once; where not all were played, the rest in a second run.
pub fn as_run(r: &mut Rng, memory: &mut Monitor, list: &[Call], answers: &[Answer], end: &State) -> Checked {
    let (w, mut got) = laid_out(r, list);
    let played = memory.run_into(&w, &mut got);
    answered("run", played, &got, answers)?;
    let mut rest = vec![99; list.len() - played];
    let played_rest = memory.run_into(&w[3 * played..], &mut rest);
    answered("run, the rest", played_rest, &rest, &answers[played..])?;
    same("the state after run means the reference's", library::means(memory, end), true)
}

fn as_replay(r: &mut Rng, plan: &[u8], policy: &[u8], list: &[Call], answers: &[Answer]) -> Checked {
    let (w, mut got) = laid_out(r, list);
    let (verdict, played) = monitor::replay_into(plan, policy, &w, &mut got);
    same("replay's verdict", verdict, monitor::Verdict::Accepted)?;
    answered("replay", played, &got, answers)
}

/// Texts that are not accepted: no call is played.
pub fn not_played(r: &mut Rng, plan: &[u8], policy: &[u8], verdict: &Verdict) -> Checked {
    let list = [wild(r), wild(r)];
    let (w, mut got) = laid_out(r, &list);
    let (answer, played) = monitor::replay_into(plan, policy, &w, &mut got);
    same("replay's verdict", answer, library::verdict(verdict))?;
    answered("replay of texts that are not accepted", played, &got, &[])
}
