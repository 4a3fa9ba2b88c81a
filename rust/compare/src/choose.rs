//! Chooses the generated cases of the list: some that notice every mutant, and then the smallest of those that show what
//! too few of the chosen ones do.

use crate::judge::{all_mutants, plain, Judge, Which};
use crate::list::{in_file, shown, sized, taken, Shows};
use crate::{differs_by, outcome, CASES, SEED};
use generate::{case, Case};
use std::collections::{BTreeMap, BTreeSet};

/// What the choice goes by.
struct Use {
    size: usize,
    shows: Vec<Shows>,
    /// The mutants that differ from the plain judge here.
    notices: BTreeSet<usize>,
}

#[derive(Default)]
struct Choice {
    indices: BTreeSet<u64>,
    counts: BTreeMap<Shows, usize>,
    noticed: BTreeSet<usize>,
}

impl Choice {
    fn take(&mut self, index: u64, of: &Use) {
        if self.indices.insert(index) {
            self.count(of);
        }
    }

    fn count(&mut self, of: &Use) {
        of.shows.iter().for_each(|shows| *self.counts.entry(*shows).or_default() += 1);
        self.noticed.extend(&of.notices);
    }

    fn has_too_few(&self, shows: &Shows) -> bool {
        let enough = match shows {
            Shows::Accepted => 5,
            Shows::Broken(_) | Shows::Refused(..) => 3,
            Shows::Lent(_) | Shows::Length(_) => 1,
        };
        self.counts.get(shows).is_none_or(|count| *count < enough)
    }

    /// How many mutants a case would notice that nothing notices yet, for its size.
    fn worth(&self, of: &Use) -> usize {
        1_000_000 * of.notices.difference(&self.noticed).count() / of.size
    }
}

/// The file `chosen.rs`. Without mutants there is nothing to go by.
pub fn file() -> Option<String> {
    let mutants = all_mutants();
    let list = |name, which| format!("\npub const {name}: &[u64] = &{:?};\n", chosen(which, &mutants));
    let head = "//! The generated cases of the list, by policy. `compare choose` writes this file.\n";
    (!mutants.is_empty()).then(|| [head, &list("OPENSSL", Which::Openssl), &list("CHROME", Which::Chrome)].concat())
}

fn chosen(which: Which, mutants: &[Judge]) -> Vec<u64> {
    let use_of = |case: &Case| use_of(which, case, mutants);
    let mut choice = Choice::default();
    sized().iter().filter(|(by, _)| *by == which).for_each(|(_, case)| choice.count(&use_of(case)));
    let mut candidates: Vec<(u64, Use)> =
        (0..CASES).map(|index| (index, use_of(&taken(which, case(SEED, index)).1))).collect();
    candidates.sort_by_key(|(index, of)| (of.size, *index));
    choose_noticing(&candidates, &mut choice);
    for (index, of) in &candidates {
        if of.shows.iter().any(|shows| choice.has_too_few(shows)) {
            choice.take(*index, of);
        }
    }
    choice.indices.into_iter().collect()
}

fn use_of(which: Which, case: &Case, mutants: &[Judge]) -> Use {
    let expected = outcome(&plain(), which, case);
    let is_noticed = |at: &usize| differs_by(&mutants[*at], which, case, &expected);
    Use {
        size: in_file(which, case).len(),
        shows: shown(which, case),
        notices: (0..mutants.len()).filter(is_noticed).collect(),
    }
}

/// Takes, again and again, the candidate that is worth most.
fn choose_noticing(candidates: &[(u64, Use)], choice: &mut Choice) {
    while let Some((index, of)) = candidates.iter().max_by_key(|(_, of)| choice.worth(of)) {
        if choice.worth(of) == 0 {
            return;
        }
        choice.take(*index, of);
    }
}
