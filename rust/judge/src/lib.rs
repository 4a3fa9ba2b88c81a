//! The front door: bundle files in, sentences for a help desk out.
#![warn(missing_docs)]

pub mod damage;
pub mod file;
pub mod shown;

mod layout;
mod names;
mod telling;

use file::Content;
use std::ffi::{OsStr, OsString};
use telling::Case;
use udrasmil::{chrome, openssl, Answer, Policy, Report};

/// What the program prints, and its status.
pub struct Said {
    /// Whole lines for standard output.
    pub text: String,
    /// 0 accepted, 1 a rule is broken, 3 a bundle is refused.
    pub status: u8,
}

/// Judges by the program's arguments; else says in one line why it can't.
pub fn run(arguments: &[OsString]) -> Result<Said, String> {
    match arguments {
        [policy, chain] if policy == "openssl" => by_openssl(chain),
        [policy, chain, lists] if policy == "chrome" => by_chrome(chain, lists),
        _ => Err("give a policy and its bundle files: judge openssl CHAIN, or judge chrome CHAIN LISTS".into()),
    }
}

fn by_openssl(chain: &OsStr) -> Result<Said, String> {
    let (chain, mut report) = (file::read(chain)?, Report::new());
    let answer = openssl(&chain.words, &chain.bytes, &mut report);
    Ok(said(&Case { policy: Policy::OpenSsl, chain, lists: Content::default() }, &answer, &report))
}

fn by_chrome(chain: &OsStr, lists: &OsStr) -> Result<Said, String> {
    let (chain, lists, mut report) = (file::read(chain)?, file::read(lists)?, Report::new());
    let answer = chrome(&chain.words, &chain.bytes, &lists.words, &lists.bytes, &mut report);
    Ok(said(&Case { policy: Policy::Chrome, chain, lists }, &answer, &report))
}

fn said(case: &Case, answer: &Answer, report: &Report) -> Said {
    let status = match answer {
        Answer::Accepted => 0,
        Answer::Broken { .. } => 1,
        Answer::Refused { .. } => 3,
    };
    Said { text: case.told(answer, report), status }
}
