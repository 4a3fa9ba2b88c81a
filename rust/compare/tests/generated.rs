//! What the generator promises, and what every answer of the plain judge keeps.

use compare::judge::{plain, Which};
use compare::statistics::{tally, Tally};
use compare::{outcome, CASES, SEED};
use generate::{case, Case};

#[test]
fn every_rule_is_broken_often_and_kept_oftener() {
    let rules = [(Which::Openssl, (1..=15).collect::<Vec<usize>>()), (Which::Chrome, (1..=20).collect())];
    for (which, rules) in rules {
        let tally = tally(which, SEED, CASES);
        // Rule 7 is OpenSSL's alone.
        for rule in rules.into_iter().filter(|rule| *rule != 7 || matches!(which, Which::Openssl)) {
            let broken = tally.broken[rule];
            assert!(broken >= 200 && broken < tally.sound() - broken, "{which:?} breaks rule {rule} {broken} times");
        }
        let share = tally.accepted * 100 / tally.sound();
        assert!((40..=60).contains(&share), "{which:?} accepts {share} %");
        every_refusal_comes(&tally, which);
    }
}

/// A policy has no codes and no purpose, so neither refusal 6 nor 8.
fn every_refusal_comes(tally: &Tally, which: Which) {
    assert!(tally.refused[0][2..].iter().all(|count| *count >= 100), "{:?}", tally.refused);
    if let Which::Chrome = which {
        assert!([2, 3, 4, 5, 7].iter().all(|number| tally.refused[1][*number] >= 50), "{:?}", tally.refused);
    }
    assert!(tally.lengths.iter().all(|count| *count > 0) && tally.reports.iter().all(|count| *count > 0));
}

#[test]
fn answers_agree_with_the_lists_of_faults_and_entries() {
    for index in 0..5000 {
        let case = case(SEED, index);
        for which in [Which::Openssl, Which::Chrome] {
            let outcome = outcome(&plain(), which, &case);
            assert!(outcome.rest_is_untouched());
            answer_is_whole(which, &case, outcome.answer);
        }
    }
}

fn answer_is_whole(which: Which, case: &Case, answer: [u64; 8]) {
    let chain_faults = plain::chain_faults(&case.words, &case.bytes);
    let policy_faults = match which {
        Which::Openssl => vec![],
        Which::Chrome => plain::policy_faults(&case.pwords, &case.pbytes),
    };
    let entries = plain::entries(|report| plain().ask(which, case, report));
    let refusal =
        chain_faults.iter().min().map(|fault| (0, fault)).or(policy_faults.iter().min().map(|fault| (1, fault)));
    match refusal {
        Some((bundle, (number, word))) => assert_eq!(answer, [*number, bundle, 1, *word as u64, 0, 0, 0, 0]),
        None => {
            assert_eq!(answer[0], u64::from(!entries.is_empty()));
            assert_eq!(answer[6], entries.len() as u64);
            assert_eq!(answer[7], answer[6].min(case.report as u64 / 3));
            assert!(entries.is_sorted() && entries.windows(2).all(|pair| pair[0] != pair[1]));
        }
    }
}
