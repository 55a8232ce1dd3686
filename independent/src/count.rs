//! How much work an answer takes: deductions made, rounds begun and pairs of atoms tried, over all runs of the rounds, and the rounds of the
//! longest run. A deduction counts when L and U are looked at: q's set is none of empty, ≠ and full. A try counts when its factors allow a test.

use std::cell::Cell;

thread_local! {
    static DEDUCTIONS: Cell<u64> = const { Cell::new(0) };
    static ROUNDS: Cell<u64> = const { Cell::new(0) };
    static TRIES: Cell<u64> = const { Cell::new(0) };
    static LONGEST: Cell<usize> = const { Cell::new(0) };
}

#[derive(Clone, Copy, Debug, Default, PartialEq, Eq)]
pub struct Work {
    pub deductions: u64,
    pub rounds: u64,
    pub tries: u64,
}

pub fn a_deduction() {
    DEDUCTIONS.with(|count| count.set(count.get() + 1));
}

pub fn a_round() {
    ROUNDS.with(|count| count.set(count.get() + 1));
}

/// So many p + u·q1 + v·q2 of request #111.
pub fn tries(number: usize) {
    TRIES.with(|count| count.set(count.get() + number as u64));
}

/// A run of the rounds that has ended, and how many rounds it began.
pub fn a_run(rounds: usize) {
    LONGEST.with(|longest| longest.set(longest.get().max(rounds)));
}

/// Request #108: what a call gives, with "the largest number of rounds that one run of the rounds took, a round
/// that finds a contradiction or no change being counted, and 0 if there was no run".
pub fn with_longest_run<T>(call: impl FnOnce() -> T) -> (T, usize) {
    LONGEST.with(|longest| longest.set(0));
    let result = call();
    (result, LONGEST.with(Cell::get))
}

/// The work done in a call.
pub fn work_of(call: impl FnOnce()) -> Work {
    DEDUCTIONS.with(|count| count.set(0));
    ROUNDS.with(|count| count.set(0));
    TRIES.with(|count| count.set(0));
    call();
    Work { deductions: DEDUCTIONS.with(Cell::get), rounds: ROUNDS.with(Cell::get), tries: TRIES.with(Cell::get) }
}
