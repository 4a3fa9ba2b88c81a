//! An independent judge of certificate chains, written from document 01 alone.
//!
//! A judge answers with eight words: number, bundle (0 chain, 1 policy), kind of place (0 nothing, 1 word,
//! 2 certificate, 3 pair), the place's two values, rule, total, entries written.

mod bundle;
mod chrome;
mod common;
mod openssl;
mod report;
mod sound;
mod text;

use bundle::{Chain, Policy};
use report::{refused, Report};
use sound::Lowest;

const CHAIN: u64 = 0;
const POLICY: u64 = 1;

/// No report has more entries: 19n + n(n-1)/2 for 16 certificates.
pub const MOST_ENTRIES: usize = 424;

pub fn judge_openssl(words: &[u64], bytes: &[u8], report: &mut [u32]) -> [u64; 8] {
    let chain = match sound_chain(words, bytes) {
        Ok(chain) => chain,
        Err((number, word)) => return refused(CHAIN, number, word),
    };
    let mut report = Report::new(report);
    openssl::judge(&chain, &mut report);
    report.answer()
}

/// The chain's refusals all go before the policy's.
pub fn judge_chrome(words: &[u64], bytes: &[u8], pwords: &[u64], pbytes: &[u8], report: &mut [u32]) -> [u64; 8] {
    let chain = match sound_chain(words, bytes) {
        Ok(chain) => chain,
        Err((number, word)) => return refused(CHAIN, number, word),
    };
    let policy = match sound_policy(pwords, pbytes) {
        Ok(policy) => policy,
        Err((number, word)) => return refused(POLICY, number, word),
    };
    let mut report = Report::new(report);
    chrome::judge(&chain, &policy, &mut report);
    report.answer()
}

fn sound_chain<'a>(words: &'a [u64], bytes: &'a [u8]) -> Result<Chain<'a>, (u64, usize)> {
    let mut lowest = Lowest::default();
    let chain = sound::chain(words, bytes, &mut lowest);
    sound_or_refused(chain, lowest)
}

fn sound_policy<'a>(words: &'a [u64], bytes: &'a [u8]) -> Result<Policy<'a>, (u64, usize)> {
    let mut lowest = Lowest::default();
    let policy = sound::policy(words, bytes, &mut lowest);
    sound_or_refused(policy, lowest)
}

/// What couldn't be cut into sections has a fault that says why.
fn sound_or_refused<T>(cut: Option<T>, lowest: Lowest) -> Result<T, (u64, usize)> {
    match (lowest.0, cut) {
        (None, Some(sound)) => Ok(sound),
        (fault, _) => Err(fault.unwrap_or((2, 0))),
    }
}

/// Every fault of a chain bundle, as number and word. Rows are asked only where all sections stand.
pub fn chain_faults(words: &[u64], bytes: &[u8]) -> Vec<(u64, usize)> {
    let mut faults = Vec::new();
    sound::chain(words, bytes, &mut faults);
    faults
}

/// Every fault of a policy bundle, as number and word.
pub fn policy_faults(words: &[u64], bytes: &[u8]) -> Vec<(u64, usize)> {
    let mut faults = Vec::new();
    sound::policy(words, bytes, &mut faults);
    faults
}

/// All entries of a judge's report, whatever room its caller would have lent.
pub fn entries(judge: impl FnOnce(&mut [u32]) -> [u64; 8]) -> Vec<[u32; 3]> {
    let mut report = [0; 3 * MOST_ENTRIES];
    let written = judge(&mut report)[7] as usize;
    report.as_chunks().0[..written].to_vec()
}
