//! Udrasmil for Rust: judges a server's chain of certificates as an OpenSSL or a Chrome client would, and cites each
//! broken rule with the certificates by position.
//!
//! The judge is proved: for any words and bytes it answers, and only one answer and one report are right. This crate
//! turns its eight answer words and its report into types, and leaves no `unsafe` to its caller. Nothing is allocated.
//! `samples/README.md` has the form of a bundle, `docs/RULES.md` the rules and `docs/REFUSALS.md` the refusals.
//!
//! ```
//! use udrasmil::{openssl, Answer, Policy, Report};
//!
//! // The edition, six empty sections that begin behind the header, no host, a server's authentication, now.
//! let words = [1, 0, 16, 0, 16, 0, 16, 0, 16, 0, 16, 0, 16, 0, 0, 1_700_000_000];
//! let mut report = Report::new();
//! match openssl(&words, &[], &mut report) {
//!     Answer::Accepted => println!("accepted"),
//!     Answer::Broken { total, .. } => {
//!         println!("{total} broken");
//!         for entry in report.entries() {
//!             println!("rule {} at {:?}: {}", entry.rule, entry.place, entry.rule.sentence(Policy::OpenSsl));
//!         }
//!     }
//!     Answer::Refused { refusal, bundle, place } => println!("{bundle:?}, {place:?}: {}", refusal.sentence()),
//! }
//! let entry = report.entries().next().expect("a chain without certificates breaks rule 1");
//! assert_eq!(entry.rule.sentence(Policy::OpenSsl), "a chain must have at least two certificates");
//! ```

#![deny(unsafe_code)]
#![warn(missing_docs)]

mod answer;
mod numbers;
pub mod raw;
mod report;
mod sentences;

pub use answer::{Answer, Bundle, Place};
pub use numbers::{Policy, Position, Refusal, Rule, Word};
pub use report::{Entries, Entry, Report, REPORT_WORDS};

/// Judges a chain as an OpenSSL client would.
///
/// # Panics
///
/// Never with the proved library. Another one whose words the header doesn't allow is not read, but stopped.
pub fn openssl(words: &[u64], bytes: &[u8], report: &mut Report<'_>) -> Answer {
    report.judged(Policy::OpenSsl, |room| raw::openssl(words, bytes, room))
}

/// Judges a chain as a Chrome client would, whose lists are in the policy's bundle.
///
/// # Panics
///
/// Never with the proved library. Another one whose words the header doesn't allow is not read, but stopped.
pub fn chrome(
    words: &[u64],
    bytes: &[u8],
    policy_words: &[u64],
    policy_bytes: &[u8],
    report: &mut Report<'_>,
) -> Answer {
    report.judged(Policy::Chrome, |room| raw::chrome(words, bytes, policy_words, policy_bytes, room))
}
