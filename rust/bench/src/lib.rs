//! The proved judge beside the plain one, on the same bundles: whether they agree, times, instructions.
#![warn(missing_docs)]

pub mod chains;
pub mod instructions;
pub mod times;

use chains::Timed;
use compare::difference;
use compare::judge::{library, plain, Judge, Which};
use generate::Case;
use std::hint::black_box;

/// So many words hold any report.
pub const REPORT_WORDS: usize = 3 * 424;

/// The word of a chain's bundle that says when it is judged.
const NOW: usize = 15;

/// The two judges.
pub struct Sides {
    /// The proved library.
    pub proved: Judge,
    /// The independent judge in plain Rust.
    pub plain: Judge,
}

impl Sides {
    /// The library beside the plain judge.
    pub fn linked() -> Self {
        Sides { proved: library().expect("the feature `library` of `compare` is on"), plain: plain() }
    }

    /// The judge of this name, `proved` or `plain`.
    pub fn named(&self, name: &str) -> Option<&Judge> {
        match name {
            "proved" => Some(&self.proved),
            "plain" => Some(&self.plain),
            _ => None,
        }
    }

    /// Everything that is judged: each chain under each policy that both judges have.
    pub fn work<'a>(&self, chains: &'a [Timed]) -> Vec<(&'a Timed, Which)> {
        let policies = self.proved.policies(&self.plain);
        policies.iter().flat_map(|which| chains.iter().map(|timed| (timed, *which))).collect()
    }

    /// An error if an answer or a report differs, or if a chain isn't accepted: its rules would be left half asked.
    pub fn agree(&self, chains: &[Timed]) -> Result<(), String> {
        for (Timed { name, case }, which) in self.work(chains) {
            if self.plain.ask(which, case, &mut [])[0] != 0 {
                return Err(format!("{name}, {which:?}: the chain is not accepted"));
            }
            for case in [case, &out_of_date(case, case.report), &out_of_date(case, 5)] {
                if let Some(told) = difference(&self.proved, &self.plain, which, case) {
                    return Err(format!("{name}, {which:?}: the judges differ\n{told}"));
                }
            }
        }
        Ok(())
    }
}

/// The same chain judged when none of its certificates was valid yet, so that there is something to report.
fn out_of_date(case: &Case, report: usize) -> Case {
    let mut case = Case { report, ..case.clone() };
    case.words[NOW] = 0;
    case
}

/// Makes so many judgements and nothing else.
pub fn judgements(judge: &Judge, which: Which, case: &Case, calls: u32) {
    let mut report = [0; REPORT_WORDS];
    for _ in 0..calls {
        black_box(judge.ask(which, black_box(case), black_box(&mut report[..case.report])));
    }
}
