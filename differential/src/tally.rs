//! Counts by kind, and what is said of a difference.

use std::collections::BTreeMap;

/// What was seen, under a heading and by kind.
#[derive(Default)]
pub struct Tally {
    counts: BTreeMap<(&'static str, String), u64>,
    pub passed: u64,
}

/// Input on which the two implementations differ, in words.
pub type Checked = Result<(), String>;

impl Tally {
    pub fn add(&mut self, heading: &'static str, kind: &str, count: usize) {
        match self.counts.get_mut(&(heading, kind.to_string())) {
            Some(n) => *n += count as u64,
            None => drop(self.counts.insert((heading, kind.to_string()), count as u64)),
        }
    }

    /// A kind that should occur is printed also where it never did.
    pub fn expect(&mut self, heading: &'static str, kind: &str) {
        self.add(heading, kind, 0);
    }

    pub fn print(&self) {
        let mut under = "";
        for ((heading, kind), count) in &self.counts {
            if *heading != under {
                let total: u64 = self.counts.iter().filter(|((h, _), _)| h == heading).map(|(_, n)| n).sum();
                println!("{total:>12} {heading}");
                under = heading;
            }
            println!("{count:>16} {kind}");
        }
        let missing: Vec<&str> = self.counts.iter().filter(|(_, &n)| n == 0).map(|((_, k), _)| &k[..]).collect();
        if !missing.is_empty() {
            println!("never seen: {}", missing.join("; "));
        }
    }
}

/// The two answers to one question must be the same.
pub fn same<T: PartialEq + std::fmt::Debug>(what: &str, library: T, reference: T) -> Checked {
    if library == reference {
        return Ok(());
    }
    Err(format!("{what}: the library says {library:?}, the reference says {reference:?}\n"))
}

/// The difference, followed by the input.
pub fn with_input(checked: Checked, input: impl Fn() -> String) -> Checked {
    checked.map_err(|difference| difference + &input())
}
