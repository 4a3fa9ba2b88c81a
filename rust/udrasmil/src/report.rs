//! The report: entries in a room of the report's own or in a lent one.

use crate::answer::{Answer, Place};
use crate::numbers::{Policy, Position, Rule};

/// No report has more entries.
pub(crate) const MOST_ENTRIES: usize = 424;

/// So many words hold any report.
pub const REPORT_WORDS: usize = 3 * MOST_ENTRIES;

/// Stands in a written entry where there is no position.
const NONE: u32 = 65_535;

/// A broken rule and where it is broken.
#[derive(Clone, Copy, Debug, PartialEq, Eq)]
pub struct Entry {
    /// The rule.
    pub rule: Rule,
    /// The certificate or the two certificates at which it is broken; nothing for rule 1.
    pub place: Place,
}

impl Entry {
    /// Rule 1 speaks of the chain, 13, 14 and 17 of two certificates, all others of one.
    pub(crate) fn new(rule: Rule, place: Place) -> Option<Self> {
        let fits = match rule.number() {
            1 => matches!(place, Place::Nothing),
            13 | 14 | 17 => matches!(place, Place::Pair(..)),
            _ => matches!(place, Place::Certificate(_)),
        };
        fits.then_some(Entry { rule, place })
    }

    /// An entry from its three words.
    fn decode([rule, i, j]: [u32; 3]) -> Option<Self> {
        let place = match (i, j) {
            (NONE, NONE) => Place::Nothing,
            (i, NONE) => Place::Certificate(Position::new(i)?),
            (i, j) => Place::Pair(Position::new(i)?, Position::new(j)?),
        };
        Entry::new(Rule::new(rule)?, place)
    }

    /// Whether an answer names this entry as its first.
    fn is_first_of(self, answer: &Answer) -> bool {
        matches!(*answer, Answer::Broken { rule, place, .. } if self == Entry { rule, place })
    }
}

/// Room for a report, and the entries that the last judgement wrote there.
pub struct Report<'a> {
    room: Room<'a>,
    written: usize,
}

// Nothing is allocated, so the room itself is the larger case.
#[allow(clippy::large_enum_variant)]
enum Room<'a> {
    Own([u32; REPORT_WORDS]),
    Lent(&'a mut [u32]),
}

impl Report<'static> {
    /// A report with room of its own for every entry.
    pub fn new() -> Self {
        Report { room: Room::Own([0; REPORT_WORDS]), written: 0 }
    }
}

impl Default for Report<'static> {
    fn default() -> Self {
        Report::new()
    }
}

impl<'a> Report<'a> {
    /// A report in lent words. Three words hold an entry, and [`REPORT_WORDS`] any report. Words that no entry needs stay
    /// as they are.
    pub fn lent(room: &'a mut [u32]) -> Self {
        Report { room: Room::Lent(room), written: 0 }
    }

    /// The entries that were written: in the order of rule, first position, second position, each once.
    ///
    /// There are none before a judgement, nor after an answer that breaks no rule.
    pub fn entries(&self) -> Entries<'_> {
        Entries { rows: self.rows() }
    }

    /// Lends the room to a judge and reads its answer.
    pub(crate) fn judged(&mut self, policy: Policy, judge: impl FnOnce(&mut [u32]) -> [u64; 8]) -> Answer {
        self.written = 0;
        let room = match &mut self.room {
            Room::Own(words) => words.as_mut_slice(),
            Room::Lent(words) => words,
        };
        let (words, lent) = (judge(room), room.len());
        let Some(answer) = Answer::decode(policy, &words, lent) else {
            panic!("the linked library is not the proved one: it answers {words:?}");
        };
        self.written = if let Answer::Broken { written, .. } = answer { written } else { 0 };
        assert!(self.stands_to(policy, &answer), "the linked library is not the proved one: {:?}", self.rows());
        answer
    }

    fn rows(&self) -> &[[u32; 3]] {
        let words = match &self.room {
            Room::Own(words) => words.as_slice(),
            Room::Lent(words) => words,
        };
        &words.as_chunks().0[..self.written]
    }

    /// The entries are entries of the policy, in their order, and the first is the answer's.
    fn stands_to(&self, policy: Policy, answer: &Answer) -> bool {
        let is_asked = |row: &[u32; 3]| Entry::decode(*row).is_some_and(|entry| policy.asks(entry.rule));
        self.rows().iter().all(is_asked)
            && self.rows().is_sorted_by(|one, next| one < next)
            && self.entries().next().is_none_or(|first| first.is_first_of(answer))
    }
}

/// The entries of a report, one after the other.
#[derive(Clone, Debug)]
pub struct Entries<'a> {
    rows: &'a [[u32; 3]],
}

impl Iterator for Entries<'_> {
    type Item = Entry;

    fn next(&mut self) -> Option<Entry> {
        let (row, rest) = self.rows.split_first()?;
        self.rows = rest;
        // Every row was read once when the report was written, so none is lost here.
        Entry::decode(*row)
    }

    fn size_hint(&self) -> (usize, Option<usize>) {
        (self.rows.len(), Some(self.rows.len()))
    }
}

impl ExactSizeIterator for Entries<'_> {}

#[cfg(test)]
mod tests {
    use super::*;

    /// Entries of rules 2 and 6, as a judge would write and answer them.
    fn two_entries(room: &mut [u32]) -> [u64; 8] {
        room[..6].copy_from_slice(&[2, 0, NONE, 6, 1, NONE]);
        [1, 0, 2, 0, 0, 2, 2, 2]
    }

    #[test]
    fn entries_are_read_as_they_were_written() {
        let mut report = Report::new();
        assert_eq!(report.entries().len(), 0);
        report.judged(Policy::OpenSsl, two_entries);
        let read: Vec<(u32, Place)> = report.entries().map(|entry| (entry.rule.number(), entry.place)).collect();
        let at = |position| Place::Certificate(Position::new(position).unwrap());
        assert_eq!(read, [(2, at(0)), (6, at(1))]);
        assert_eq!(report.judged(Policy::OpenSsl, |_| [0; 8]), Answer::Accepted);
        assert_eq!(report.entries().len(), 0);
    }

    /// Each changes one thing in the good report or its answer, and none is handed on.
    #[test]
    fn a_wrong_report_is_stopped() {
        type Wrong = fn(&mut [u32], &mut [u64; 8]);
        let wrongs: [Wrong; 8] = [
            |room, _| room[0] = 0,
            |room, _| room[0] = 16,
            |room, _| room[1] = 1,
            |room, _| room[1] = 16,
            |room, _| room[2] = 1,
            |room, _| room.copy_within(..3, 3),
            |room, _| room[4] = NONE,
            |_, answer| answer[7] = 1,
        ];
        for (number, wrong) in wrongs.into_iter().enumerate() {
            let judged = std::panic::catch_unwind(|| {
                Report::new().judged(Policy::OpenSsl, |room| {
                    let mut answer = two_entries(room);
                    wrong(room, &mut answer);
                    answer
                })
            });
            assert!(judged.is_err(), "wrong report {number}");
        }
    }
}
