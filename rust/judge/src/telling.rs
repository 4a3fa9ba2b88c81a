//! Answers in words.

use crate::damage::damage;
use crate::file::Content;
use crate::names::called;
use udrasmil::{Answer, Bundle, Entry, Place, Policy, Refusal, Report, Word};

/// What was judged, and by whose rules. OpenSSL has no lists.
pub struct Case {
    pub policy: Policy,
    pub chain: Content,
    pub lists: Content,
}

impl Case {
    /// The lines of an answer and its report.
    pub fn told(&self, answer: &Answer, report: &Report) -> String {
        match *answer {
            Answer::Accepted => format!("accepted: no rule of {} is broken\n", self.policy),
            Answer::Broken { total, .. } => {
                let faults = if total == 1 { "1 fault".into() } else { format!("{total} faults") };
                let entries: String = report.entries().map(|entry| self.entry(&entry)).collect();
                format!("broken: {faults} by the rules of {}\n{entries}", self.policy)
            }
            Answer::Refused { refusal, bundle, place: Place::Word(word) } => self.refused(refusal, bundle, word),
            Answer::Refused { refusal, .. } => format!("refused, number {refusal}: {}\n", refusal.sentence()),
        }
    }

    fn entry(&self, Entry { rule, place }: &Entry) -> String {
        let place = match *place {
            Place::Certificate(i) => format!("certificate {}", called(&self.chain, i)),
            Place::Pair(i, j) => format!("certificates {} and {}", called(&self.chain, i), called(&self.chain, j)),
            Place::Nothing | Place::Word(_) => "the chain as a whole".into(),
        };
        format!("rule {rule}, {place}: {}\n", rule.sentence(self.policy))
    }

    fn refused(&self, refusal: Refusal, bundle: Bundle, word: Word) -> String {
        let (content, whose) = match bundle {
            Bundle::Chain => (&self.chain, "the chain's bundle"),
            Bundle::Policy => (&self.lists, "the policy's bundle"),
        };
        let found = damage(refusal, bundle, word, content);
        [
            format!("refused, number {refusal}: {}\n", refusal.sentence()),
            format!("damaged: word {word} of {whose}, {}\n", found.what),
            format!("there stands: {}\n", found.stands),
            format!("there should stand: {}\n", found.due),
        ]
        .concat()
    }
}
