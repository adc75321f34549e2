//! differential SECONDS SEED [ROUND]: the proved library against the second implementation on fresh random input, until
//! the time is up. Round R of a seed is always the same input, so a difference is found again by naming its round.

mod library;
mod lists;
mod states;
mod tally;
mod texts;

use reference::generate::Draft;
use reference::judge::first_broken;
use reference::rng::Rng;
use std::time::{Duration, Instant};
use tally::{Checked, Tally};

fn usage() -> ! {
    eprintln!("usage: differential SECONDS SEED [ROUND]");
    std::process::exit(2)
}

fn main() {
    let numbers: Option<Vec<u64>> = std::env::args().skip(1).map(|a| a.parse().ok()).collect();
    let Some((seconds, seed, first)) = numbers.and_then(|n| match n[..] {
        [seconds, seed] => Some((seconds, seed, 0)),
        [seconds, seed, round] => Some((seconds, seed, round)),
        _ => None,
    }) else {
        usage()
    };
    let stored = texts::stored();
    let mut tally = Tally::default();
    texts::expected_kinds(&mut tally);
    lists::expected_kinds(&mut tally);
    states::expected_kinds(&mut tally);
    let (begun, mut said) = (Instant::now(), Instant::now());
    let mut number = first;
    let mut found = Ok(());
    while found.is_ok() && (number == first || begun.elapsed() < Duration::from_secs(seconds)) {
        if said.elapsed() > Duration::from_secs(20) {
            eprintln!("round {number}, {} passed", tally.passed);
            said = Instant::now();
        }
        let mut r = Rng::new(seed.wrapping_mul(1_000_003).wrapping_add(number));
        found = round(&mut r, &mut tally, &stored, number);
        number += 1;
    }
    println!("seed {seed}, rounds {first} to {}, {} seconds", number - 1, begun.elapsed().as_secs());
    tally.print();
    if let Err(difference) = found {
        println!("DIFFERENCE in round {}:\n{difference}", number - 1);
        println!("{} passed, 1 failed", tally.passed);
        std::process::exit(1);
    }
    println!("{} passed, 0 failed", tally.passed);
}

/// Texts, lists of calls and states of one round.
fn round(r: &mut Rng, tally: &mut Tally, stored: &[Draft], number: u64) -> Checked {
    for _ in 0..12 {
        let (made, pair) = texts::odd(r);
        texts::check(r, tally, made, &pair)?;
    }
    for _ in 0..8 {
        let d = texts::neighbour(r, stored);
        draft(r, tally, "stored ones, changed", &d)?;
    }
    for _ in 0..12 {
        let d = Draft::candidate(r);
        draft(r, tally, "random drafts", &d)?;
    }
    if number % 500 == 50 {
        large(r, tally)?;
    }
    Ok(())
}

/// A draft that reads: its texts, a list of calls if it is accepted, states over its plan in any case.
fn draft(r: &mut Rng, tally: &mut Tally, made: &str, d: &Draft) -> Checked {
    texts::check(r, tally, made, &texts::pair_of(d))?;
    if first_broken(&d.plan, &d.policy).is_none() {
        lists::check(r, tally, d)?;
    }
    if r.percent(30) {
        states::check(r, tally, &d.plan)?;
    }
    Ok(())
}

/// A draft of the largest size, and some changed from it.
fn large(r: &mut Rng, tally: &mut Tally) -> Checked {
    let whole = Draft::large(r);
    draft(r, tally, "of the largest size", &whole)?;
    for _ in 0..3 {
        let mut d = whole.clone();
        match r.below(3) {
            0 if !d.policy.is_empty() => {
                let place = r.below(d.policy.len());
                d.policy[place] = d.random_assertion(r);
            }
            _ => d.change(r),
        }
        draft(r, tally, "of the largest size", &d)?;
    }
    Ok(())
}
