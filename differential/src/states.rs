//! Hand-made states: good ones, bad ones in each way of 20, and plan rows that mean no plan.

use crate::library;
use crate::lists::{as_run, singly, SINGLE};
use crate::tally::{same, with_input, Checked, Tally};
use monitor::Monitor;
use reference::generate::any_call;
use reference::machine::{Answer, State, MAX_NEXT};
use reference::plan::Plan;
use reference::replay::Call;
use reference::rng::Rng;
use reference::states::{spoil, state, WAYS};

const GOOD: &str = "hand-made states, good";
const BAD: &str = "hand-made states, bad: every call 20";
const WIDE: &str = "a template of 256 and above, its low byte below N";
const NO_PLAN: &str = "plan rows that mean no plan: every call 20";
const FAULTS: [&str; 4] = ["form above 3", "first successor above 255", "second successor above 255", "risk above 1"];

pub fn expected_kinds(tally: &mut Tally) {
    WAYS.iter().filter(|&&way| way != "next above 4,294,967,295").for_each(|way| tally.expect(BAD, way));
    tally.expect(BAD, WIDE);
    FAULTS.iter().for_each(|fault| tally.expect(NO_PLAN, fault));
}

/// Calls that suit the state as it changes, and their answers.
fn chosen(r: &mut Rng, s: &State, count: usize) -> (Vec<Call>, Vec<Answer>, State) {
    let mut end = *s;
    let (mut list, mut answers) = (vec![], vec![]);
    for _ in 0..count {
        let call = any_call(r, &end);
        answers.push(call.run(&mut end));
        list.push(call);
    }
    (list, answers, end)
}

/// All words, so that the state can be made again, and the calls.
fn input(memory: &Monitor, list: &[Call]) -> String {
    format!("{memory:?}\n") + &list.iter().map(|c| c.text()).collect::<String>()
}

/// A good state over this plan, then the same made bad in two ways, then the same with a row that means no plan.
pub fn check(r: &mut Rng, tally: &mut Tally, plan: &Plan) -> Checked {
    let s = state(r, plan);
    let (list, answers, end) = chosen(r, &s, 8);
    let memory = library::memory_of(r, &s);
    let compare = |r: &mut Rng, tally: &mut Tally| {
        singly(tally, &mut memory.clone(), &mut s.clone(), &list)?;
        as_run(r, &mut memory.clone(), &list, &answers, &end)
    };
    with_input(compare(r, tally), || input(&memory, &list))?;
    let limit = if s.next + 2 > MAX_NEXT { "next at its limit" } else { "next below its limit" };
    tally.add(GOOD, limit, 1);
    tally.passed += 1;
    bad(r, tally, &s, &list)?;
    wide_template(r, tally, &s, &list)?;
    no_plan(r, tally, &s, &list)
}

fn bad(r: &mut Rng, tally: &mut Tally, good: &State, list: &[Call]) -> Checked {
    let mut s = *good;
    let mut way = spoil(r, &mut s);
    while s.next > MAX_NEXT {
        s = *good;
        way = spoil(r, &mut s);
    }
    let memory = library::memory_of(r, &s);
    with_input(all_refused(r, tally, &memory, list), || input(&memory, list))?;
    tally.add(BAD, WAYS[way], 1);
    tally.passed += 1;
    Ok(())
}

/// The template of a live process gets bits above its low byte, which the reference's arrays have no room for: a cast to
/// 8 or 16 bits on the way to the test would let it through.
fn wide_template(r: &mut Rng, tally: &mut Tally, s: &State, list: &[Call]) -> Checked {
    if s.live == 0 {
        return Ok(());
    }
    let (live, any) = (s.live as usize, (r.next() as u32 | 1) << 8);
    let place = [0, live - 1, r.below(live)][r.below(3)];
    let mut memory = library::memory_of(r, s);
    memory.templates[place] |= *r.pick(&[1 << 8, 1 << 9, 1 << 16, 1 << 31, u32::MAX << 8, any]);
    with_input(all_refused(r, tally, &memory, list), || input(&memory, list))?;
    tally.add(BAD, WIDE, 1);
    tally.passed += 1;
    Ok(())
}

/// One word of a template that counts is out of its range.
fn no_plan(r: &mut Rng, tally: &mut Tally, s: &State, list: &[Call]) -> Checked {
    let x = r.below(s.plan.n as usize);
    let fault = r.below(FAULTS.len());
    let (word, least) = [(0, 4), (1, 256), (2, 256), (7, 2)][fault];
    let mut memory = library::memory_of(r, s);
    memory.row[2 + 8 * x + word] = *r.pick(&[least, least + 1, 256 + least, 65_536, 1 << 31, u32::MAX]);
    with_input(all_refused(r, tally, &memory, list), || input(&memory, list))?;
    tally.add(NO_PLAN, FAULTS[fault], 1);
    tally.passed += 1;
    Ok(())
}

/// Every call is answered 20 and nothing changes.
fn all_refused(r: &mut Rng, tally: &mut Tally, memory: &Monitor, list: &[Call]) -> Checked {
    let mut now = memory.clone();
    for call in list {
        same(call.text().trim_end(), library::call(&mut now, *call), 20)?;
        same("every word is as before", now == *memory, true)?;
        tally.add(SINGLE, "refused 20", 1);
    }
    let mut answers = vec![99; list.len()];
    let played = now.run_into(&library::words(r, list), &mut answers);
    same("calls played by run", played, list.len())?;
    same("answers of run", answers, vec![20; list.len()])?;
    same("every word is as before the run", now == *memory, true)
}
