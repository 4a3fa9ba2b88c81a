//! compare <judge> <judge> [cases] [seed]: stops at the first difference.
//! compare statistics [cases] [seed]: what the generated cases are like.
//! compare mutants [cases] [seed]: in how many cases each mutant is noticed.
//! compare list: the list of cases that the program `replay` reads, as a file; compare listed: what it has to write.
//! compare choose: the choice of generated cases for that list, as the source file `chosen.rs`; with the mutants.
//!
//! A judge is `plain`, or `library` or a mutant's number where the features of these names are on.

use compare::judge::{all_mutants, named, plain, Judge, Which};
use compare::statistics::tally;
use compare::{choose, differing_cases, first_difference, list, CASES, SEED};
use std::io::Write;
use std::process::ExitCode;

fn main() -> ExitCode {
    let arguments: Vec<String> = std::env::args().skip(1).collect();
    let words: Vec<&str> = arguments.iter().map(String::as_str).collect();
    match words.as_slice() {
        ["statistics", rest @ ..] => statistics(numbers(rest)),
        ["mutants", rest @ ..] => mutants(numbers(rest)),
        ["list"] => written(&list::file()),
        ["listed"] => written(list::output().as_bytes()),
        ["choose"] => choose(),
        [one, other, rest @ ..] => match (named(one), named(other)) {
            (Some(one), Some(other)) => pair(&one, &other, numbers(rest)),
            _ => usage(),
        },
        _ => usage(),
    }
}

fn usage() -> ExitCode {
    eprintln!("compare statistics | mutants | <judge> <judge>, then [cases] [seed]; list | listed | choose");
    eprintln!("a judge is plain, library or a mutant's number");
    ExitCode::from(2)
}

/// Cases and seed, as far as they are given.
fn numbers(rest: &[&str]) -> (u64, u64) {
    let number = |at: usize, usual: u64| rest.get(at).map_or(usual, |word| word.parse().expect("a number"));
    (number(0, CASES), number(1, SEED))
}

fn statistics((cases, seed): (u64, u64)) -> ExitCode {
    println!("{cases} cases, seed {seed}");
    for which in [Which::Openssl, Which::Chrome] {
        tally(which, seed, cases).print(which);
    }
    ExitCode::SUCCESS
}

fn mutants((cases, seed): (u64, u64)) -> ExitCode {
    // A mutant may well panic; that is one way of being noticed, and needs no message.
    std::panic::set_hook(Box::new(|_| {}));
    let mutants = all_mutants();
    let counts = differing_cases(&plain(), &mutants, seed, cases);
    for (at, (mutant, count)) in mutants.iter().zip(&counts).enumerate() {
        println!("{:>3} {count:>6} {}", at + 1, mutant.name);
    }
    let missed = counts.iter().filter(|count| **count == 0).count();
    println!("{} mutants, {missed} not noticed in {cases} cases, seed {seed}", mutants.len());
    ExitCode::from(u8::from(missed > 0))
}

fn choose() -> ExitCode {
    std::panic::set_hook(Box::new(|_| {}));
    match choose::file() {
        Some(file) => written(file.as_bytes()),
        None => usage(),
    }
}

fn written(file: &[u8]) -> ExitCode {
    match std::io::stdout().write_all(file) {
        Ok(()) => ExitCode::SUCCESS,
        Err(error) => {
            eprintln!("the file can't be written: {error}");
            ExitCode::FAILURE
        }
    }
}

fn pair(one: &Judge, other: &Judge, (cases, seed): (u64, u64)) -> ExitCode {
    match first_difference(one, other, seed, cases) {
        None => {
            println!(
                "{} and {} agree on {cases} cases by {:?}, seed {seed}",
                one.name,
                other.name,
                one.policies(other)
            );
            ExitCode::SUCCESS
        }
        Some(difference) => {
            println!("{} and {} differ: {difference}", one.name, other.name);
            ExitCode::FAILURE
        }
    }
}
