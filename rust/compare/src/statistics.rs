//! What the generated cases are like, as the plain judge sees them.

use crate::judge::{plain, Which};
use generate::{case, Case};

const RULES: usize = 20;

/// How often each thing happened under one policy.
#[derive(Default)]
pub struct Tally {
    pub accepted: u64,
    /// Sound cases that break at least one rule.
    pub rejected: u64,
    /// Cases in which a rule is broken, by rule.
    pub broken: [u64; RULES + 1],
    /// Refusals by bundle and number.
    pub refused: [[u64; 9]; 2],
    /// Cases by their number of certificates, where the chain is sound.
    pub lengths: [u64; 17],
    /// Reports with no entry's room, too short, one word short, exact, longer; where something is broken.
    pub reports: [u64; 5],
    pub entries: u64,
    pub most_entries: u64,
}

pub fn tally(which: Which, seed: u64, cases: u64) -> Tally {
    let mut tally = Tally::default();
    for index in 0..cases {
        tally.add(which, &case(seed, index));
    }
    tally
}

impl Tally {
    fn add(&mut self, which: Which, case: &Case) {
        let judge = plain();
        let answer = judge.ask(which, case, &mut []);
        match answer[0] {
            0 => self.accepted += 1,
            1 => self.rejected += 1,
            number => {
                self.refused[answer[1] as usize][number as usize] += 1;
                return;
            }
        }
        self.lengths[case.words[11] as usize] += 1;
        let mut rules: Vec<u32> =
            plain::entries(|report| judge.ask(which, case, report)).iter().map(|entry| entry[0]).collect();
        rules.dedup();
        rules.iter().for_each(|rule| self.broken[*rule as usize] += 1);
        self.entries += answer[6];
        self.most_entries = self.most_entries.max(answer[6]);
        if answer[0] == 1 {
            self.reports[room(case.report as u64, 3 * answer[6])] += 1;
        }
    }

    pub fn sound(&self) -> u64 {
        self.accepted + self.rejected
    }

    pub fn print(&self, which: Which) {
        let share = 100.0 * self.accepted as f64 / self.sound() as f64;
        println!("{which:?}: {} sound, {} accepted ({share:.1} %)", self.sound(), self.accepted);
        println!("  rule: broken / kept");
        for rule in (1..=RULES).filter(|rule| self.broken[*rule] > 0) {
            println!("  {rule:>4}: {:>5} / {:>5}", self.broken[rule], self.sound() - self.broken[rule]);
        }
        for (bundle, name) in ["chain", "policy"].iter().enumerate() {
            println!("  refused 2 to 8, {name}: {:?}", &self.refused[bundle][2..]);
        }
        println!("  cases by certificates, 0 to 16: {:?}", self.lengths);
        println!("  reports without room, short, one word short, exact, longer: {:?}", self.reports);
        println!("  entries in all: {}, most in a case: {}", self.entries, self.most_entries);
    }
}

fn room(lent: u64, wanted: u64) -> usize {
    match lent {
        0..3 => 0,
        lent if lent + 1 < wanted => 1,
        lent if lent + 1 == wanted => 2,
        lent if lent == wanted => 3,
        _ => 4,
    }
}
