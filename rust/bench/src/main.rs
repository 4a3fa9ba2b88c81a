//! bench [instructions]: the proved judge beside the plain one on the same chains, with the ratio of their times.
//!
//! With `instructions` also that of the instructions, which valgrind counts. First the two must agree on every answer
//! and report: the status is 1 if they don't.

use bench::chains::{all, Timed};
use bench::instructions::Asked;
use bench::times::{times, Pair};
use bench::{judgements, Sides};
use compare::judge::Which;
use std::process::ExitCode;

const SAMPLES: u32 = 400;

fn main() -> ExitCode {
    let arguments: Vec<String> = std::env::args().skip(1).collect();
    let words: Vec<&str> = arguments.iter().map(String::as_str).collect();
    let done = match words.as_slice() {
        [] => table(false),
        ["instructions"] => table(true),
        ["calls", calls, which, chain, side] => calls_alone(calls, which, chain, side),
        _ => Err("give no argument, or instructions".into()),
    };
    match done {
        Ok(()) => ExitCode::SUCCESS,
        Err(why) => {
            eprintln!("bench: {why}");
            ExitCode::FAILURE
        }
    }
}

/// A line for each chain and policy; then the worst ratio.
fn table(with_instructions: bool) -> Result<(), String> {
    let (sides, chains) = (Sides::linked(), all());
    sides.agree(&chains)?;
    println!("{:<8} {:<26} {:>6} {:>6}   microseconds: proved, plain, ratio", "", "", "words", "bytes");
    let mut worst: Option<(f64, String)> = None;
    for (number, (timed, which)) in sides.work(&chains).into_iter().enumerate() {
        let Timed { name, case } = timed;
        let spent = times(&sides, which, case, SAMPLES);
        print!("{:<8} {name:<26} {:>6} {:>6}", format!("{which:?}"), case.words.len(), case.bytes.len());
        print!(" {}", spent.shown(1000.0));
        if with_instructions {
            print!("   instructions: {}", counted(which, number % chains.len())?.shown(1.0));
        }
        println!();
        if worst.as_ref().is_none_or(|(ratio, _)| spent.ratio() > *ratio) {
            worst = Some((spent.ratio(), format!("{which:?}, {name}")));
        }
    }
    if let Some((ratio, what)) = worst {
        println!("all answers and reports are the same; the worst ratio is {ratio:.2}: {what}");
    }
    Ok(())
}

fn counted(which: Which, chain: usize) -> Result<Pair, String> {
    let count = |side| Asked { which, chain, side }.instructions();
    Ok(Pair { proved: count("proved")?, plain: count("plain")? })
}

/// So many judgements of one chain, for callgrind to count.
fn calls_alone(calls: &str, which: &str, chain: &str, side: &str) -> Result<(), String> {
    let (sides, chains) = (Sides::linked(), all());
    let (Ok(calls), Ok(chain)) = (calls.parse(), chain.parse()) else {
        return Err("numbers of calls and of the chain are due".into());
    };
    let mut work = sides.work(&chains).into_iter().filter(|(_, policy)| format!("{policy:?}") == which);
    let (Some((timed, which)), Some(judge)) = (work.nth(chain), sides.named(side)) else {
        return Err("there is no such chain, policy or judge".into());
    };
    judgements(judge, which, &timed.case, calls);
    Ok(())
}
