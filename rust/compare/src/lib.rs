//! Two judges side by side: all eight answer words, and every word of the report with guards on both sides.

pub mod choose;
pub mod chosen;
pub mod judge;
pub mod list;
pub mod statistics;

use generate::{case, Case};
use judge::{Judge, Which};

/// The seed and the number of cases that every measured run uses unless told otherwise.
pub const SEED: u64 = 20_261_115;
pub const CASES: u64 = 20_000;

/// Words before and after the lent report that nobody may touch.
const GUARD: usize = 8;

/// What a judge did with a case.
#[derive(PartialEq)]
pub struct Outcome {
    pub answer: [u64; 8],
    /// Guard, report, guard.
    pub buffer: Vec<u32>,
}

/// What stands in the buffer before a judge is asked: every word differs from its neighbours.
fn pattern(at: usize) -> u32 {
    0xA5A5_0000 ^ (at as u32).wrapping_mul(0x9E37_79B1)
}

pub fn outcome(judge: &Judge, which: Which, case: &Case) -> Outcome {
    let mut buffer: Vec<u32> = (0..case.report + 2 * GUARD).map(pattern).collect();
    let answer = judge.ask(which, case, &mut buffer[GUARD..GUARD + case.report]);
    Outcome { answer, buffer }
}

impl Outcome {
    /// Words beyond the entries that the answer counts as written, guards included, are as they were.
    pub fn rest_is_untouched(&self) -> bool {
        let written = GUARD + 3 * self.answer[7] as usize;
        let untouched = |at: usize| self.buffer[at] == pattern(at);
        written <= self.buffer.len() && (0..GUARD).chain(written..self.buffer.len()).all(untouched)
    }
}

/// The first difference between two judges, if there is one.
pub fn first_difference(one: &Judge, other: &Judge, seed: u64, cases: u64) -> Option<String> {
    for index in 0..cases {
        let case = case(seed, index);
        for &which in one.policies(other) {
            if let Some(told) = difference(one, other, which, &case) {
                return Some(format!("case {index}, {which:?}\n{told}"));
            }
        }
    }
    None
}

/// The answers and reports of two judges, if they differ or if words beside an entry are touched.
pub fn difference(one: &Judge, other: &Judge, which: Which, case: &Case) -> Option<String> {
    let (left, right) = (outcome(one, which, case), outcome(other, which, case));
    let lent = |outcome: &Outcome| outcome.buffer[GUARD..outcome.buffer.len() - GUARD].to_vec();
    (left != right || !left.rest_is_untouched()).then(|| {
        let (answers, reports) = ((left.answer, right.answer), (lent(&left), lent(&right)));
        format!("  {:?}\n  {:?}\n  reports {:?}\n          {:?}", answers.0, answers.1, reports.0, reports.1)
    })
}

/// In how many cases each judge differs from the first. A judge that panics differs too.
pub fn differing_cases(right: &Judge, others: &[Judge], seed: u64, cases: u64) -> Vec<u64> {
    let mut counts = vec![0; others.len()];
    for index in 0..cases {
        let case = case(seed, index);
        let expected = [Which::Openssl, Which::Chrome].map(|which| outcome(right, which, &case));
        for (count, other) in counts.iter_mut().zip(others) {
            *count += u64::from(differs(other, &case, &expected));
        }
    }
    counts
}

fn differs(other: &Judge, case: &Case, expected: &[Outcome; 2]) -> bool {
    let [openssl, chrome] = expected;
    differs_by(other, Which::Openssl, case, openssl) || differs_by(other, Which::Chrome, case, chrome)
}

/// Whether a judge does something else with a case than what is expected. One that panics does.
pub fn differs_by(other: &Judge, which: Which, case: &Case, expected: &Outcome) -> bool {
    let agrees = std::panic::catch_unwind(|| outcome(other, which, case) == *expected);
    !agrees.unwrap_or(false)
}
