//! The outcomes that each call can have, and how often each was seen.

use crate::inputs::{Call, CALLS};
use crate::sorts::{Seen, Sorts};

/// How a call came out: one of its sorts of answers, or a refusal.
#[derive(Clone, Copy, PartialEq, Eq)]
pub enum Outcome {
    Answer(usize),
    Refusal(u32),
}

/// The highest number of a refusal.
const REFUSALS: usize = 15;

/// The most sorts of answers that a call has.
const SORTS: usize = 3;

/// The sorts of answers of a call.
fn answers(call: Call) -> &'static [&'static str] {
    match call {
        Call::Read => &["parts"],
        Call::Judge => &["false", "unknown", "true"],
        Call::Card => &["card"],
        Call::Check => &["sound"],
        Call::Run => &["no", "yes"],
        Call::List => &["no row", "some rows", "all rows"],
        Call::Import => &["no row", "rows"],
        Call::Export => &["no line", "lines"],
    }
}

/// The refusals that a call can give, in the order in which it looks for them.
fn refusals(call: Call) -> &'static [u32] {
    match call {
        Call::Read | Call::Card => &[1, 2, 3, 4, 5, 6, 7, 8, 13, 12],
        Call::Judge => &[1, 2, 3, 4, 5, 6, 7, 8, 13, 11],
        Call::Check => &[9],
        Call::Run => &[1, 2, 9, 10, 11],
        Call::List => &[1, 2, 9, 10, 12],
        Call::Import => &[14, 15, 12],
        Call::Export => &[1, 2, 12],
    }
}

/// Whether a call may come out like this.
pub fn possible(call: Call, outcome: Outcome) -> bool {
    match outcome {
        Outcome::Answer(sort) => sort < answers(call).len(),
        Outcome::Refusal(number) => refusals(call).contains(&number),
    }
}

/// Counts of outcomes, for each call by refusal and by sort of answer; and of sorts of input.
#[derive(Default)]
pub struct Tally {
    refused: [[u64; REFUSALS + 1]; CALLS.len()],
    answered: [[u64; SORTS]; CALLS.len()],
    sorts: Sorts,
}

impl Tally {
    /// Counts an input whose outcome is possible.
    pub fn count(&mut self, call: Call, outcome: Outcome, seen: &Seen) {
        match outcome {
            Outcome::Answer(sort) => self.answered[call as usize][sort] += 1,
            Outcome::Refusal(number) => self.refused[call as usize][number as usize] += 1,
        }
        self.sorts.count(seen);
    }

    pub fn add(&mut self, other: &Tally) {
        for call in 0..CALLS.len() {
            (0..=REFUSALS).for_each(|number| self.refused[call][number] += other.refused[call][number]);
            (0..SORTS).for_each(|sort| self.answered[call][sort] += other.answered[call][sort]);
        }
        self.sorts.add(&other.sorts);
    }

    /// The inputs of one call.
    fn of(&self, call: Call) -> u64 {
        self.refused[call as usize].iter().sum::<u64>() + self.answered[call as usize].iter().sum::<u64>()
    }

    pub fn total(&self) -> u64 {
        CALLS.iter().map(|call| self.of(*call)).sum()
    }

    /// Each possible outcome of a call by name, with its count.
    fn lines(&self, call: Call) -> Vec<(String, u64)> {
        let answers = answers(call).iter().enumerate().map(|(sort, name)| (name.to_string(), self.answered[call as usize][sort]));
        let refusals = refusals(call).iter().map(|number| (format!("refusal {number}"), self.refused[call as usize][*number as usize]));
        answers.chain(refusals).collect()
    }

    pub fn print(&self) {
        println!("{:<8}{:<12}{:>10}{:>9}", "call", "outcome", "inputs", "share");
        for call in CALLS {
            for (name, count) in self.lines(call) {
                let share = 100.0 * count as f64 / self.of(call).max(1) as f64;
                println!("{:<8}{name:<12}{count:>10}{share:>8.2}%", format!("{call:?}").to_uppercase());
            }
        }
        let answered: u64 = self.answered.iter().flatten().sum();
        println!("answered in all: {:.1}%", 100.0 * answered as f64 / self.total().max(1) as f64);
        self.sorts.print();
    }

    /// The outcomes that were never seen, though their call can have them, and the sorts of input that were seen too seldom.
    pub fn unseen(&self) -> Vec<String> {
        let missing = |call: &Call| self.lines(*call).into_iter().filter(|(_, count)| *count == 0);
        let outcomes = CALLS.iter().flat_map(|call| missing(call).map(move |(name, _)| format!("{call:?} {name}")));
        outcomes.chain(self.sorts.scarce(self.total())).collect()
    }
}
