//! The answer, read out of its eight words.

use crate::numbers::{Policy, Position, Refusal, Rule, Word};
use crate::report::{Entry, MOST_ENTRIES};

/// What a judge says of a chain.
#[derive(Clone, Copy, Debug, PartialEq, Eq)]
pub enum Answer {
    /// No rule is broken.
    Accepted,
    /// Some rule is broken.
    Broken {
        /// The rule of the report's first entry.
        rule: Rule,
        /// The place of the report's first entry.
        place: Place,
        /// How many entries the whole report has.
        total: usize,
        /// How many entries had room and were written.
        written: usize,
    },
    /// A bundle is damaged, and nothing was judged.
    Refused {
        /// Why.
        refusal: Refusal,
        /// Which bundle.
        bundle: Bundle,
        /// The damaged word.
        place: Place,
    },
}

/// Where something is wrong.
#[derive(Clone, Copy, Debug, PartialEq, Eq)]
pub enum Place {
    /// No place: the chain as a whole.
    Nothing,
    /// A word of a bundle.
    Word(Word),
    /// A certificate.
    Certificate(Position),
    /// Two certificates, in the order in which the rule speaks of them.
    Pair(Position, Position),
}

/// One of the bundles that a judge is given.
#[derive(Clone, Copy, Debug, PartialEq, Eq, Hash)]
pub enum Bundle {
    /// The chain and what is asked of it.
    Chain,
    /// The lists of Chrome's policy.
    Policy,
}

impl Answer {
    /// Reads an answer by a policy to which so many words of report were lent.
    ///
    /// None where the words are not an answer that the header allows. The proved library gives no such words.
    pub fn decode(policy: Policy, words: &[u64; 8], lent: usize) -> Option<Self> {
        match *words {
            [0, 0, 0, 0, 0, 0, 0, 0] => Some(Answer::Accepted),
            [1, 0, kind, i, j, rule, total, written] => {
                let Entry { rule, place } = first_entry(rule, kind, i, j)?;
                let (total, written) = (usize::try_from(total).ok()?, usize::try_from(written).ok()?);
                let counted = (1..=MOST_ENTRIES).contains(&total) && written == total.min(lent / 3);
                (counted && policy.asks(rule)).then_some(Answer::Broken { rule, place, total, written })
            }
            [number, bundle, 1, word, 0, 0, 0, 0] => {
                let refusal = Refusal::new(narrow(number)?)?;
                let place = Place::Word(Word::new(narrow(word)?)?);
                Some(Answer::Refused { refusal, bundle: bundle_of(policy, bundle)?, place })
            }
            _ => None,
        }
    }
}

/// The entry that words 2 to 5 of an answer speak of.
fn first_entry(rule: u64, kind: u64, i: u64, j: u64) -> Option<Entry> {
    let place = match (kind, i, j) {
        (0, 0, 0) => Place::Nothing,
        (2, i, 0) => Place::Certificate(Position::new(narrow(i)?)?),
        (3, i, j) => Place::Pair(Position::new(narrow(i)?)?, Position::new(narrow(j)?)?),
        _ => return None,
    };
    Entry::new(Rule::new(narrow(rule)?)?, place)
}

/// Only Chrome's judge takes a policy's bundle.
fn bundle_of(policy: Policy, number: u64) -> Option<Bundle> {
    match (policy, number) {
        (_, 0) => Some(Bundle::Chain),
        (Policy::Chrome, 1) => Some(Bundle::Policy),
        _ => None,
    }
}

fn narrow(word: u64) -> Option<u32> {
    u32::try_from(word).ok()
}
