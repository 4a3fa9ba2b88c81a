//! Every mutant is told from the plain judge: if one isn't, the generator is at fault.
#![cfg(feature = "mutants")]

use compare::judge::{all_mutants, plain, Judge};
use compare::{differing_cases, differs_by, list, outcome, CASES, SEED};

#[test]
fn every_mutant_is_noticed() {
    std::panic::set_hook(Box::new(|_| {}));
    let mutants = all_mutants();
    let counts = differing_cases(&plain(), &mutants, SEED, CASES);
    let _ = std::panic::take_hook();
    let mut missed = Vec::new();
    for (mutant, count) in mutants.iter().zip(counts) {
        println!("{count:>6} {}", mutant.name);
        if count == 0 {
            missed.push(&mutant.name);
        }
    }
    assert!(mutants.len() >= 60 && missed.is_empty(), "of {} not noticed: {missed:#?}", mutants.len());
}

#[test]
fn every_mutant_is_noticed_by_the_list() {
    std::panic::set_hook(Box::new(|_| {}));
    let cases = list::cases();
    let expected: Vec<_> = cases.iter().map(|(which, case)| outcome(&plain(), *which, case)).collect();
    let is_missed = |mutant: &&Judge| {
        cases.iter().zip(&expected).all(|((which, case), expected)| !differs_by(mutant, *which, case, expected))
    };
    let mutants = all_mutants();
    let missed: Vec<&String> = mutants.iter().filter(is_missed).map(|mutant| &mutant.name).collect();
    assert!(missed.is_empty(), "of {} not noticed: {missed:#?}", mutants.len());
}
